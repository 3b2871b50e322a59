//! Trees that are loaded, changed and walked.

use super::Sort;
use crate::kind::COUNTED;
use crate::record::{call, calls, steps, Record, LOWER, UPPER};
use crate::scenario::{quiet, swept, Scenario, Step};

/// The pair of the last number leaves: by its key, by its key with the key that was stored, or from
/// the end, in turn.
pub fn last_leaves(number: u64) -> Record {
    match number % 3 {
        0 => calls::remove(number),
        1 => calls::pop_last(),
        _ => calls::remove_entry(number),
    }
}

// The last pairs leave, of which the removals from a turn on are swept.
fn from_the_end(many: u64, turns: u64, first: u64) -> Vec<Step> {
    let step = |turn: u64| {
        let record = last_leaves(many - turn - 1);
        if turn < first {
            quiet(record)
        } else {
            swept(record)
        }
    };
    (0..turns).map(step).collect()
}

// A tree of height 3 whose last pairs leave, the last three removals swept.
fn high(many: u64, first: u64) -> Vec<Step> {
    let mut steps = vec![quiet(calls::load(many, 0)).leaving_height(3)];
    steps.extend(from_the_end(many, first + 3, first));
    steps.push(quiet(calls::height()).leaving_height(3));
    steps
}

// 64 pairs are put into a leaf, which then is split, and its tree is used.
fn full_leaf() -> Vec<Step> {
    let mut steps = vec![swept(calls::new())];
    steps.extend((0..64).map(|turn| swept(calls::insert(turn, turn)).leaving_height(0)));
    steps.push(swept(calls::insert(64, 7)).leaving_height(1));
    steps.push(swept(calls::insert(5, 9)));
    steps.push(swept(calls::remove(99)));
    steps
}

// The last pair is removed, again and again, till the height falls.
fn downward(first: u64, bound: u64) -> Vec<Step> {
    let mut steps = vec![quiet(calls::load(3905, 0)).leaving_height(2)];
    let leave = |turn: u64| {
        let record = last_leaves(3904 - turn);
        let step = if turn < first {
            quiet(record)
        } else {
            swept(record)
        };
        step.at_height(2)
    };
    steps.extend((0..bound).map(leave));
    steps.push(quiet(calls::height()).leaving_height(1));
    steps
}

// A tree whose inner nodes and whose last leaf are full takes one pair more, and is a level higher.
fn full_root(many: u64, height: u64) -> Vec<Step> {
    vec![
        quiet(calls::load(many, 0)).leaving_height(height),
        swept(calls::insert(many, 0)).leaving_height(height + 1),
    ]
}

// More pairs are put behind the last, till the last leaf, which has 32 pairs at first, is split.
fn upward() -> Vec<Step> {
    let mut steps = vec![quiet(calls::load(4145, 0)).leaving_height(2)];
    steps.extend((0..35).map(|turn| {
        let record = calls::insert(turn + 4145, turn);
        if turn < 30 {
            quiet(record)
        } else {
            swept(record)
        }
    }));
    steps.push(quiet(calls::height()).leaving_height(2));
    steps
}

// A cursor goes over a tree from both ends.
fn walked() -> Vec<Step> {
    let mut steps = vec![quiet(calls::load(200, 0)), swept(call(4, 0, &[]))];
    let step = |member: u64| [swept(call(4, 14, &[])), swept(call(4, member, &[]))];
    steps.extend((0..200).flat_map(|_| step(5)));
    steps.push(swept(call(4, 1, &[])));
    steps.extend((0..200).flat_map(|_| step(6)));
    steps
}

// Reads, and changes that put no new key and remove no key.
fn read() -> Vec<Step> {
    let (last, gone) = (199, 200);
    let range = [last, gone, 0, LOWER | UPPER];
    let mut all = vec![quiet(calls::load(200, 0)), quiet(call(4, 1, &[]))];
    let reads = [
        call(1, 1, &[last]),
        call(1, 0, &[last]),
        call(1, 0, &[gone]),
        call(1, 2, &[last]),
        call(1, 3, &[gone]),
        call(1, 4, &[]),
        call(1, 5, &[]),
        call(2, 0, &[0, 0, 0x5555_5555_5555_5555, steps(64, 0)]),
        call(2, 1, &range),
        call(4, 5, &[]),
        call(4, 7, &[]),
        call(4, 8, &[]),
        calls::insert(last, 7),
        calls::remove(gone),
        calls::remove_entry(gone),
        call(0, 7, &[last, last]),
        calls::swap(),
        // The other tree is empty.
        call(4, 0, &[]),
        call(4, 12, &[]),
        call(4, 1, &[]),
        calls::pop_first(),
        calls::pop_last(),
        calls::swap(),
    ];
    all.extend(reads.iter().map(|record| swept(*record)));
    all
}

// 65 pairs are loaded, and leave from the end.
fn emptied() -> Vec<Step> {
    let mut steps = vec![swept(calls::load(65, 0))];
    steps.extend((0..65).map(|turn| swept(last_leaves(64 - turn))));
    steps.push(quiet(calls::height()).leaving_height(0));
    steps
}

fn cleared() -> Vec<Step> {
    vec![
        quiet(calls::load(300, 0)),
        swept(calls::clear()).leaving_height(0),
    ]
}

// A tree is cloned, and its store.
fn cloned() -> Vec<Step> {
    vec![
        quiet(calls::load(200, 0)),
        swept(call(3, 0, &[])),
        swept(call(5, 7, &[])),
    ]
}

fn loaded(many: u64, height: u64) -> Vec<Step> {
    vec![swept(calls::load(many, 0)).leaving_height(height)]
}

// The pairs of a tree leave from the end, each by its key.
fn removed() -> Vec<Step> {
    let mut steps = vec![swept(calls::load(65, 0))];
    steps.extend((0..65).map(|turn| swept(calls::remove(64 - turn))));
    steps.push(quiet(calls::height()).leaving_height(0));
    steps
}

// Of 65 pairs 20 are moved out from each end.
fn handed_over() -> Vec<Step> {
    vec![
        quiet(calls::load(65, 0)),
        swept(calls::swap()),
        swept(call(3, 3, &[20])),
    ]
}

/// Trees of keys and values that count, and that keep their counts until all of them are dropped;
/// and a map and a set into which equal keys are put.
pub fn counted() -> Vec<Scenario> {
    let rows = [
        ("full leaf", full_leaf(), 65),
        ("emptied", removed(), 0),
        ("loaded", loaded(4161, 2), 4161),
        ("cleared", cleared(), 0),
        ("clones", cloned(), 200),
        ("moved out", handed_over(), 0),
        ("a map of one key", vec![swept(call(12, 1, &[3]))], 0),
        ("a set of one key", vec![swept(call(12, 2, &[3]))], 0),
    ];
    let scenario = |(end, steps, len): (&str, Vec<Step>, usize)| {
        Scenario::new(&format!("counted, {end}"), COUNTED, steps).ending(len)
    };
    rows.into_iter().map(scenario).collect()
}

pub fn all(sort: &Sort) -> Vec<Scenario> {
    let (kind, name) = (sort.tree, sort.name);
    let scenario = |end: &str, steps| Scenario::new(&format!("{name}{end}"), kind, steps);
    // A key that takes memory makes each removal take some, so that few of them are swept.
    let (down, first) = if sort.takes_memory() {
        (", downward near the end", 1837)
    } else {
        (", downward, without memory", 1)
    };
    let clones = Scenario::new(&format!("{}, clones", sort.keys), sort.plain, cloned());
    let walked_end = format!(", walked{}", sort.quiet_summary());
    vec![
        scenario(", full root, high", full_root(253_504, 2)).ending(253_505),
        scenario(", a rotation, high", high(253_505, 971)).ending(252_531),
        scenario(", a merge, high", high(253_505, 1931)).ending(251_571),
        scenario(", full leaf", full_leaf()).ending(65),
        scenario(", full root", full_root(3904, 1)).ending(3905),
        scenario(", emptied", emptied()).ending(0),
        scenario(", upward", upward()).ending(4180),
        scenario(down, downward(first, 3905)).ending_within(65, 3903),
        scenario(", loaded", loaded(4161, 2)).ending(4161),
        scenario(", few loaded", loaded(400, 1)).ending(400),
        scenario(", cleared", cleared()).ending(0),
        scenario(&walked_end, walked()).ending(200),
        scenario(&format!(", read{}", sort.quiet()), read()).ending(200),
        clones.ending(200),
    ]
}
