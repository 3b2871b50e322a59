//! Maps that are made, changed and moved, and their indexes, groups and summaries.

use super::Sort;
use crate::batch::Batch;
use crate::record::{call, calls, steps, Record, LOWER, UPPER};
use crate::scenario::{quiet, swept, Scenario, Step};

/// The number from which on keys leave: half of a few, and the last 20 of many.
pub fn first_to_leave(many: u64) -> u64 {
    many - (many / 2).min(20)
}

/// 65 pairs are put, and the half of them is removed.
pub fn halved() -> Vec<Step> {
    let mut steps = vec![swept(calls::new())];
    steps.extend((0..65).map(|turn| swept(calls::insert(turn, turn))));
    steps.extend((16..49).map(|number| swept(calls::remove(number))));
    steps
}

// In each round a map is read by indexes and ranks, and loses its first pair, and one from the
// middle.
fn by_places() -> Vec<Step> {
    let mut all = vec![quiet(calls::load(400, 0))];
    for round in 0..4 {
        let asks = [
            call(1, 6, &[0, 5]),
            call(1, 7, &[round + 5]),
            call(0, 8, &[0, round + 7, 7]),
            call(2, 3, &[0, 9, 0, 3 << 16 | steps(3, 0)]),
            call(0, 6, &[0, 100]),
            call(4, 9, &[0, 11]),
            calls::pop_first(),
        ];
        all.extend(asks.iter().map(|record| swept(*record)));
    }
    all
}

// Two pairs with keys that are there and one with a new key are added. The last leaf, which is full,
// takes the new key. So two values change before that leaf splits, which can fail.
fn few_added() -> Vec<Step> {
    vec![
        quiet(calls::new()),
        quiet(calls::insert(0, 90)),
        quiet(calls::insert(1, 91)),
        quiet(calls::insert(500, 92)),
        quiet(calls::swap()),
        quiet(calls::load(184, 0)),
        swept(call(8, 1, &[])),
    ]
}

// Many pairs leave and come back; others come, and values change. Where keys take no memory, few
// pairs come before, and three leave and come back: of 128 pairs or more they move one by one. And
// one pair is then removed by the `retain` that never fails.
fn moved(many: u64, takes_memory: bool) -> Vec<Step> {
    let first = first_to_leave(many);
    let between = [first, many, 1, LOWER | UPPER];
    let back = [first, many, u64::MAX, LOWER | UPPER];
    let mut all = Vec::new();
    if !takes_memory {
        all.extend(few_added());
    }
    all.push(quiet(calls::load(many, 0)));
    if !takes_memory {
        all.push(swept(call(8, 2, &[many - 3])));
        all.push(swept(call(8, 1, &[])));
    }
    let moves = [
        call(8, 2, &[first]),
        call(8, 1, &[]),
        call(8, 0, &[many, many + 3, 0]),
        call(8, 7, &[many + 3, many + 3, 1]),
        call(8, 7, &[many + 3, many + 3, 1]),
        call(8, 8, &[many + 4, many + 4, many + 5]),
        call(8, 8, &[many + 4, many + 4, many + 6]),
        call(8, 5, &[1]),
        call(8, 5, &[u64::MAX]),
        call(8, 3, &[0, 0]),
        call(8, 6, &between),
        call(8, 6, &back),
        call(8, 4, &between),
    ];
    all.extend(moves.iter().map(|record| swept(*record)));
    if !takes_memory {
        all.push(swept(call(8, 3, &[many + 1, many / 3, 1])));
    }
    all.extend((first..many).map(|number| swept(calls::insert(number, number))));
    all
}

// From a map of many pairs those between two keys are removed: in the middle, at both ends, all, few,
// no pair, those of one leaf, and all but one. Every other range is removed by the call that never
// fails, if the keys and summaries allow it.
fn ranges_removed(many: u64) -> Vec<Step> {
    let half = many / 2;
    let ranges = [
        (Some(many / 4), Some(many - many / 4)),
        (None, Some(half)),
        (Some(half), None),
        (None, None),
        (Some(20), Some(23)),
        (Some(half), Some(half)),
        (Some(10), Some(33)),
        (Some(1), Some(many)),
        (None, Some(many - 1)),
    ];
    let mut steps = Vec::new();
    for (number, ends) in (0..).zip(ranges) {
        let [lo, hi, _, bits] = range(ends);
        steps.push(quiet(calls::load(many, 0)));
        steps.push(swept(call(8, 4, &[lo, hi, number % 2, bits])));
    }
    steps
}

/// How many pairs a map is loaded with, the word for that, its height after all, and the pairs that
/// leave: from the back or the front, how many of them quietly, and how many of them behind these are
/// swept. The first leaf and then the last one get 16 pairs. The next pair that leaves makes two
/// leaves one if both fit in one, and else the leaf takes half of what the other has more.
type Pops = (u64, &'static str, u64, &'static [(bool, u64, u64)]);

const POPS: [Pops; 3] = [
    (65, "few ", 0, &[(false, 17, 2), (true, 0, 1)]),
    (135, "", 1, &[(false, 44, 2), (true, 21, 2)]),
    (
        4145,
        "many ",
        2,
        &[(false, 44, 2), (false, 20, 1), (true, 16, 1)],
    ),
];

// Pairs leave a map at its ends.
fn popped(many: u64, height: u64, ends: &[(bool, u64, u64)]) -> Vec<Step> {
    let mut all = vec![quiet(calls::load(many, 0))];
    for (is_back, before, then) in ends {
        let pop = if *is_back {
            calls::pop_last()
        } else {
            calls::pop_first()
        };
        all.extend((0..*before).map(|_| quiet(pop)));
        all.extend((0..*then).map(|_| swept(pop)));
    }
    all.push(quiet(calls::iter()).leaving_height(height));
    all
}

/// Pairs come all at once, from a vector and from a slice: none; half of what is there and some new
/// ones; five, of which three are new; and 120 in another order with 100 keys.
pub fn extended(many: u64) -> Vec<Step> {
    let lists = [
        [0, 0, 0],
        [many / 2, many + 10, 0],
        [many + 8, many + 13, 0],
        [0, 120, 1],
    ];
    let mut all = Vec::new();
    for member in [9, 10] {
        all.push(quiet(calls::load(many, 0)));
        all.extend(lists.map(|list| swept(call(8, member, &list))));
    }
    all
}

/// How many pairs there are after `extended`.
pub fn extended_len(many: u64) -> usize {
    (many as usize + 13).max(100)
}

/// Keys of a batch are looked for, and leave a map or a set: the last 30, three of them twice.
pub fn batch_removed(many: u64) -> Vec<Step> {
    let last = Batch {
        many: 33,
        first: many - 30,
        step: 7,
        span: 30,
        value: 0,
    };
    let asks = [1, 2].map(|member| swept(last.call(13, member)));
    [vec![quiet(calls::load(many, 0))], asks.to_vec()].concat()
}

/// How many pairs or keys there are after `batch_removed`.
pub fn batch_removed_len(many: u64) -> usize {
    many as usize - 30
}

// Pairs of batches come to a map, by both calls: 0; five, of which three are new; and the half
// of what is there with some new ones, in random order.
fn batches_put(many: u64) -> Vec<Step> {
    let batch = |(first, end): (u64, u64)| Batch {
        many: end - first,
        first,
        step: 7,
        span: end - first,
        value: 5_000,
    };
    let batches = [(0, 0), (many - 2, many + 3), (many / 2, many + 10)].map(batch);
    let mut all = Vec::new();
    for member in [3, 4] {
        all.push(quiet(calls::load(many, 0)));
        all.extend(batches.map(|batch| swept(batch.call(13, member))));
    }
    all
}

// Reads of 17 keys or indexes at once in a map with counts. Eight of them are past the last pair.
fn batches_read(many: u64) -> Vec<Step> {
    let batch = Batch {
        many: 17,
        first: many - 8,
        step: 5,
        span: 16,
        value: 0,
    };
    let mut all = vec![quiet(calls::load(many, 0))];
    let asks = [(13, 0), (13, 1), (9, 9), (9, 10)];
    all.extend(asks.map(|(family, member)| swept(batch.call(family, member))));
    all
}

// The bounds of three keys of a map with the even numbers: of the first key, of the 60th, which is
// the last one of the first leaf if there are many, and of the last key, each with the next number.
fn bounded(many: u64) -> Vec<Step> {
    let last = (many - 1) * 2;
    let mut all = vec![quiet(calls::load(many, 2))];
    for number in [0, 1, 118, 119, last, last + 1] {
        all.push(swept(call(4, 3, &[number])));
        all.push(swept(call(4, 4, &[number])));
    }
    all
}

// A map with counts whose first leaf has no more pairs than it must makes cursors on indexes,
// and loses its first pairs, one by its key, and the last one.
fn pointed(many: u64) -> Vec<Step> {
    let mut all = vec![quiet(calls::load(many, 0))];
    let gone = if many > 64 { 44 } else { 0 };
    all.extend((0..gone).map(|_| quiet(call(9, 4, &[0]))));
    for _ in 0..6 {
        all.push(swept(call(9, 8, &[5])));
        all.push(swept(call(9, 4, &[0])));
    }
    all.push(swept(calls::remove_entry(gone + 6)));
    all.push(swept(calls::pop_last()));
    all
}

/// The ranges of keys whose summaries and counts are read.
const RANGES: [(Option<u64>, Option<u64>); 8] = [
    (None, None),
    (Some(20), None),
    (None, Some(20)),
    (None, Some(399)),
    (Some(150), Some(200)),
    (Some(20), Some(4900)),
    (Some(200), Some(150)),
    (Some(4900), Some(20)),
];

/// The arguments of a range.
pub fn range((lo, hi): (Option<u64>, Option<u64>)) -> [u64; 4] {
    let bits = if lo.is_some() { LOWER } else { 0 } | if hi.is_some() { UPPER } else { 0 };
    [lo.unwrap_or(0), hi.unwrap_or(0), 0, bits]
}

// Summaries of parts of maps of three heights.
fn summed() -> Vec<Step> {
    let mut all = Vec::new();
    for (many, height) in [(40, 0), (400, 1), (5000, 2)] {
        all.push(quiet(calls::load(many, 0)).leaving_height(height));
        all.extend(RANGES.map(|ends| swept(call(2, 4, &range(ends)))));
        all.push(swept(call(2, 5, &[0, 10, 4800, 5])));
        all.push(swept(call(2, 5, &[0, 10, 20, 5])));
        all.push(swept(call(1, 8, &[])));
    }
    all
}

// Lengths of parts, and pages, of maps of three heights with counts.
fn counted() -> Vec<Step> {
    let mut all = Vec::new();
    for (many, height) in [(40, 0), (400, 1), (5000, 2)] {
        all.push(quiet(calls::load(many, 0)).leaving_height(height));
        all.extend(RANGES.map(|ends| swept(call(9, 0, &range(ends)))));
        let asks: [Record; 6] = [
            call(9, 5, &[3, 20, 0, steps(2, 0)]),
            call(9, 6, &[20]),
            call(9, 7, &[20, 20]),
            call(9, 1, &[20]),
            call(9, 2, &[20]),
            call(9, 3, &[20, 20]),
        ];
        all.extend(asks.map(swept));
    }
    all
}

// Reads of the second group of a map, and of pages of it.
fn asked() -> Vec<Step> {
    let asks = [
        call(10, 3, &[200]),
        call(10, 0, &[200, 0, 0, steps(1, 0)]),
        call(10, 1, &[200, 20, 0, 30 << 16 | steps(1, 0)]),
        call(10, 2, &[200, 8, 0, 20 << 16 | steps(1, 0)]),
    ];
    let mut all = vec![quiet(calls::load(400, 0))];
    all.extend(asks.map(swept));
    all
}

/// The sizes of trees of the heights 0, 1 and 2, with the word for each.
pub const SIZES: [(u64, &str); 3] = [(40, "few "), (150, ""), (4161, "many ")];

pub fn all(sort: &Sort) -> Vec<Scenario> {
    let name = sort.name;
    let memory = if sort.takes_memory() {
        ""
    } else {
        ", without memory"
    };
    let scenario = |end: &str, steps| Scenario::new(&format!("{name}{end}"), sort.map, steps);
    let items = vec![swept(calls::load(200, 1)).with_hints(1)];
    let mut all = vec![
        scenario(", map of items, with a hint", items).ending(100),
        scenario(", map", halved()).ending(32),
        scenario(&format!(", map by indexes{memory}"), by_places()).ending(392),
    ];
    for (many, word) in SIZES {
        // Too much is made anew after each failure of many groups.
        if !sort.takes_memory() || many < 4000 {
            let end = format!(", {word}moved between maps");
            let steps = moved(many, sort.takes_memory());
            let gone = usize::from(!sort.takes_memory());
            all.push(scenario(&end, steps).ending(many as usize + 5 - gone));
            let end = format!(", {word}ranges removed");
            all.push(scenario(&end, ranges_removed(many)).ending(1));
            let end = format!(", {word}extended at once");
            all.push(scenario(&end, extended(many)).ending(extended_len(many)));
            let end = format!(", {word}put in batches");
            all.push(scenario(&end, batches_put(many)).ending(many as usize + 10));
        }
        let end = format!(", {word}removed in a batch");
        all.push(scenario(&end, batch_removed(many)).ending(batch_removed_len(many)));
        let end = format!("{}, {word}read in batches", sort.counted_keys);
        all.push(Scenario::new(&end, sort.counted, batches_read(many)).ending(many as usize));
        let many = if many == 150 { 400 } else { many };
        let end = format!(", {word}bounded{memory}");
        all.push(scenario(&end, bounded(many)).ending(many as usize));
        let left = many as usize - 8 - if many > 64 { 44 } else { 0 };
        let end = format!("{}, {word}pointed at{memory}", sort.counted_keys);
        all.push(Scenario::new(&end, sort.counted, pointed(many)).ending(left));
    }
    for (many, word, height, ends) in POPS {
        if !sort.takes_memory() || many < 4000 {
            let end = format!(", {word}popped{memory}");
            let left = many
                - ends
                    .iter()
                    .map(|(_, before, then)| before + then)
                    .sum::<u64>();
            all.push(scenario(&end, popped(many, height, ends)).ending(left as usize));
        }
    }
    let counted_name = format!("{}, counted{}", sort.counted_keys, sort.quiet());
    all.push(Scenario::new(&counted_name, sort.counted, counted()).ending(5000));
    all.push(scenario(", summed", summed()).ending(5000));
    if sort.takes_memory() {
        all.push(scenario(", asked", asked()).ending(400));
    }
    all
}
