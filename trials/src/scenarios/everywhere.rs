//! Each call of each kind of subject, at the heights 0, 1 and 2.

use super::maps::{first_to_leave, range};
use crate::kind::{marked, Kind};
use crate::record::{call, calls, steps, Record, LOWER, LOWER_OUT, UPPER, UPPER_IN};
use crate::scenario::{quiet, swept, Scenario, Step};
use crate::stopped::removals_can_fail;

/// So many pairs make trees of the heights 0, 1 and 2.
const MANY: [u64; 3] = [40, 400, 4161];

/// The keys of a subject with the even numbers: one that is there, and one that is not.
#[derive(Clone, Copy)]
struct Keys {
    many: u64,
    here: u64,
    gone: u64,
}

impl Keys {
    fn of(many: u64) -> Keys {
        let here = many / 2 * 2;
        Keys {
            many,
            here,
            gone: here + 1,
        }
    }

    /// The last key.
    fn last(&self) -> u64 {
        (self.many - 1) * 2
    }
}

// Walks that take from both ends.
fn walks(kind: Kind, keys: Keys) -> Vec<Record> {
    let word = steps(5, 0);
    let ends = [keys.here, keys.last(), 0b10110, word | LOWER | UPPER];
    let mut all = vec![call(2, 0, &[0, 0, 0b01010, word]), call(2, 1, &ends)];
    for bits in [0, LOWER_OUT, UPPER_IN, LOWER_OUT | UPPER_IN] {
        let ends = [keys.gone, keys.last(), 1, word | LOWER | UPPER | bits];
        all.push(call(2, 2, &ends));
    }
    if kind.has_queries() {
        all.push(call(2, 3, &[keys.here, 3, 2, 20 << 16 | word]));
        all.push(call(2, 5, &[0, 3, keys.last(), 2]));
    }
    if !kind.is_set() {
        all.push(call(2, 4, &range((Some(keys.here), None))));
        all.push(call(2, 4, &range((Some(3), Some(keys.gone)))));
    }
    if kind.is_map() {
        all.push(call(2, 6, &[0, 0, 2, word]));
        all.push(call(2, 7, &[0, 0, 2, word]));
    }
    all
}

// Reads of one pair.
fn reads(kind: Kind, keys: Keys) -> Vec<Record> {
    let members: &[u64] = if kind.is_set() {
        &[0, 1, 2]
    } else {
        &[0, 1, 2, 3]
    };
    let mut all = Vec::new();
    for member in members {
        all.push(call(1, *member, &[keys.here]));
        all.push(call(1, *member, &[keys.gone]));
    }
    all.push(call(1, 4, &[]));
    all.push(call(1, 5, &[]));
    if kind.has_queries() {
        all.push(call(1, 6, &[keys.here, 5]));
        all.push(call(1, 6, &[keys.here, u64::MAX]));
        all.push(call(1, 7, &[keys.here]));
        all.push(call(1, 7, &[keys.gone]));
        all.push(call(1, 8, &[]));
    }
    if kind.is_map() {
        all.push(calls::visit(0));
        all.push(call(7, 0, &[1, 0]));
    }
    all
}

// Changes of one pair.
fn changes(kind: Kind, keys: Keys) -> Vec<Record> {
    let mut all = vec![calls::insert(keys.gone, 70), calls::insert(keys.here, 71)];
    if !kind.is_set() {
        // The key in the tree has another mark.
        all.push(call(0, 9, &[keys.here]));
        all.push(call(0, 9, &[keys.last() + 1]));
    }
    all.extend([
        calls::remove(keys.gone),
        calls::remove(keys.gone),
        calls::remove(keys.here),
        calls::insert(keys.here, 72),
        calls::remove_entry(keys.here),
        calls::pop_first(),
        calls::pop_last(),
    ]);
    if !kind.is_set() {
        all.push(call(0, 7, &[2, 73]));
    } else {
        all.push(call(0, 6, &[keys.gone]));
        all.push(call(0, 6, &[keys.gone]));
    }
    if kind.has_queries() {
        all.push(call(0, 6, &[keys.last(), 2]));
        all.push(call(0, 6, &[keys.last(), u64::MAX]));
        all.push(call(0, 8, &[keys.last(), 74, 2]));
    }
    all
}

// All calls of cursors, one held and moved.
fn cursors(kind: Kind, keys: Keys) -> Vec<Record> {
    if kind.is_map() {
        let mut all = vec![call(4, 3, &[keys.gone]), call(4, 4, &[keys.last()])];
        all.push(call(4, 9, &[keys.here, 3]));
        return all;
    }
    let members = [0, 5, 10, 1, 6, 11, 12, 5, 7, 8];
    let mut all: Vec<Record> = members.iter().map(|member| call(4, *member, &[])).collect();
    for key in [keys.here, keys.gone, keys.last()] {
        for member in [2, 3, 4, 10, 11] {
            all.push(call(4, member, &[key]));
        }
    }
    if kind.has_queries() {
        all.push(call(4, 9, &[keys.here, 3]));
        all.push(call(4, 5, &[]));
    }
    all.push(call(4, 13, &[]));
    all
}

// Calls that make or exchange all, and calls of two.
fn wholes(kind: Kind, keys: Keys) -> Vec<Record> {
    let mut all = Vec::new();
    if kind.is_set() {
        all.extend([
            calls::swap(),
            calls::load(keys.many, 0),
            call(11, 0, &[]),
            call(11, 1, &[]),
            call(11, 2, &[]),
            call(11, 3, &[]),
            call(11, 4, &[]),
            call(3, 7, &[]),
            call(3, 8, &[]),
            calls::load(keys.many, 0),
        ]);
    } else {
        all.push(call(3, 0, &[]));
    }
    if kind.is_map() {
        all.push(call(3, 7, &[]));
        for member in [5, 6] {
            all.push(call(3, member, &[0, 0, 0b101, steps(3, 0)]));
            all.push(call(3, 0, &[]));
        }
    }
    all.push(call(3, 3, &[0, 0, 0b101, steps(3, 0)]));
    all.push(call(5, 7, &[]));
    all
}

// Each command, alone in a list but for a cursor that it needs.
fn commands(keys: Keys) -> Vec<Step> {
    let word = 0b0110 | 4 << 56;
    let rows: [[u64; 4]; 23] = [
        [0, keys.gone, 80, 0],
        [1, keys.gone, 0, 0],
        [2, keys.last(), 1, 0],
        [4, keys.here, 0, 0],
        [5, keys.here, 81, 0],
        [6, keys.here, 1, 82],
        [7, 0, 0, 0],
        [8, 0, 0, 0],
        [9, 0, 0, 0],
        [10, keys.here, 1, 0],
        [11, keys.here, 0, 0],
        [11, keys.gone, 0, 0],
        [12, keys.here, 0, 0],
        [13, 0, 0, 0],
        [14, 0, 0, 0],
        [15, 0, 0, 0],
        [16, 0, 0, 0],
        [17, 0, 0, 0],
        [18, 0, 0, 0],
        [19, 0, 0, word],
        [20, keys.here, keys.last(), word | 3 << 48],
        [21, keys.here, 2, word | 9 << 40],
        [3, 0, 0, 0],
    ];
    let mut all = Vec::new();
    for row in rows {
        let mut list = vec![call(6, 0, &row)];
        if (15..=18).contains(&row[0]) {
            list.insert(0, call(6, 0, &[12, keys.here, 0, 0]));
        }
        all.extend(list.iter().map(|record| swept(*record)));
        all.push(swept(call(6, 1, &[])).with_again(list));
    }
    all
}

// Calls that change many pairs. Those of groups at height 2 keep few, since too much is made anew
// after each failure.
fn moves(kind: Kind, keys: Keys) -> Vec<Record> {
    let (many, last) = (keys.many, keys.last());
    let few = [last - 16, last, 0, LOWER | UPPER];
    let first = first_to_leave(many) * 2;
    let mut all = vec![
        call(8, 2, &[first]),
        call(8, 1, &[]),
        call(8, 0, &[many * 2, many * 2 + 3, 0]),
        call(8, 4, &few),
        call(8, 4, &[keys.here, keys.here, 0, LOWER | UPPER]),
    ];
    if kind.is_map() {
        all.push(call(8, 5, &[1]));
        all.push(call(8, 6, &few));
        for key in [keys.gone, keys.gone] {
            all.push(call(8, 7, &[key, 90, 1]));
            all.push(call(8, 8, &[key + 2, 91, 92]));
        }
    }
    if kind.0 == 6 && many > 4000 {
        all.push(call(8, 3, &[1, 0]));
    } else {
        all.push(call(8, 3, &[3, 0]));
    }
    if kind.is_map() && !removals_can_fail(&kind) {
        all.push(call(8, 3, &[5, 2, 1]));
    }
    all
}

// The calls of maps by indexes, or by groups.
fn places(kind: Kind, keys: Keys) -> Vec<Record> {
    if kind.has_places() {
        return vec![
            call(9, 0, &range((Some(keys.here), Some(keys.last())))),
            call(9, 1, &[keys.here]),
            call(9, 1, &[keys.gone]),
            call(9, 2, &[5]),
            call(9, 3, &[5, 93]),
            call(9, 4, &[5]),
            call(9, 5, &[1, 7, 1, steps(3, 0)]),
            call(9, 6, &[7]),
            call(9, 7, &[keys.here, 7]),
            call(9, 8, &[5]),
            call(9, 8, &[keys.many]),
        ];
    }
    vec![
        call(10, 0, &[keys.here, 0, 1, steps(3, 0)]),
        call(10, 1, &[keys.here, 3, 1, 9 << 16 | steps(3, 0)]),
        call(10, 2, &[keys.here, 1, 1, 7 << 16 | steps(3, 0)]),
        call(10, 3, &[keys.here]),
        call(10, 3, &[u64::MAX]),
    ]
}

// All calls of a kind on so many pairs. What changes most comes last.
fn all_of(kind: u64, many: u64) -> Vec<Step> {
    let kind = Kind(kind);
    let mut keys = Keys::of(many);
    if kind.has_marks() {
        // The keys in the tree have other marks.
        keys.here = marked(keys.here, 1);
        keys.gone = marked(keys.gone, 2);
    }
    let load = swept(calls::load(many, 2)).with_hints(u64::from(kind.is_map()));
    let mut all = vec![load];
    let mut add = |records: Vec<Record>| all.extend(records.into_iter().map(swept));
    add(walks(kind, keys));
    add(reads(kind, keys));
    if !kind.is_set() {
        add(cursors(kind, keys));
    }
    add(changes(kind, keys));
    if kind.is_map() {
        add(places(kind, keys));
    }
    if !kind.is_tree() {
        add(moves(kind, keys));
    }
    add(wholes(kind, keys));
    if kind.has_queries() && kind.is_tree() {
        all.extend(commands(keys));
        all.push(quiet(calls::load(many, 2)));
        all.push(swept(calls::visit(0)));
        all.push(swept(call(7, 0, &[1, 0])));
    }
    all.push(swept(calls::clear()).leaving_height(0));
    all.push(swept(calls::new()));
    all.push(swept(calls::pop_first()));
    all
}

// All calls of maps over shards.
fn of_shards(many: u64) -> Vec<Step> {
    let keys = Keys::of(many);
    let mut all = vec![swept(call(3, 4, &[many / 2, many, many * 2, 3]))];
    all.extend((0..many).map(|turn| quiet(calls::insert(turn * 2, turn))));
    let (here, gone, last) = (keys.here, keys.gone, keys.last());
    let asks = [
        call(1, 0, &[here]),
        call(1, 4, &[]),
        call(1, 5, &[]),
        call(1, 6, &[5]),
        call(1, 7, &[gone]),
        call(1, 9, &[last]),
        call(1, 10, &[here]),
        call(2, 0, &[3, 30]),
        call(2, 1, &[here - 20, last, 30, LOWER | UPPER]),
        call(2, 2, &[gone, 30]),
        calls::insert(gone, 70),
        calls::insert(here, 71),
        calls::remove(gone),
        calls::remove(gone),
        call(8, 0, &[here + 6]),
        call(8, 0, &[here - 8]),
        call(8, 1, &[1]),
        call(8, 1, &[9]),
        call(8, 1, &[0]),
    ];
    all.extend(asks.map(swept));
    all
}

pub fn all() -> Vec<Scenario> {
    let mut all = Vec::new();
    for (height, many) in MANY.iter().enumerate() {
        for kind in [6, 5, 4, 2, 1, 0, 3, 10, 9, 8, 7, 20, 21] {
            let name = format!("all calls, {}, height {height}", Kind(kind).name());
            all.push(Scenario::new(&name, kind, all_of(kind, *many)));
        }
        for kind in [12, 11] {
            let name = format!("all calls, {}, height {height}", Kind(kind).name());
            all.push(Scenario::new(&name, kind, of_shards(*many)));
        }
    }
    all
}
