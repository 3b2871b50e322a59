//! Sets, and maps over shards.

use super::maps::{batch_removed, batch_removed_len};
use super::maps::{extended, extended_len, first_to_leave, halved, SIZES};
use super::Sort;
use crate::record::{call, calls, LOWER, UPPER};
use crate::scenario::{quiet, swept, Scenario, Step};

// 65 keys are put, the half of them is removed, and at last all.
fn emptied() -> Vec<Step> {
    let mut steps = halved();
    steps.push(swept(calls::pop_first()));
    steps.push(swept(calls::pop_last()));
    steps.push(swept(calls::clear()));
    steps
}

// Many keys leave and come back; others come and go.
fn moved(many: u64) -> Vec<Step> {
    let mut all = vec![quiet(calls::load(many, 0))];
    let moves = [
        call(8, 2, &[first_to_leave(many)]),
        call(8, 1, &[]),
        call(8, 0, &[0, many + 3, 0]),
        call(0, 2, &[7]),
        calls::insert(7, 0),
        call(0, 6, &[5]),
        call(8, 3, &[1, 1]),
        call(8, 4, &[0, 20, 1, LOWER | UPPER]),
    ];
    all.extend(moves.iter().map(|record| swept(*record)));
    all
}

// Two equal sets are read.
fn read() -> Vec<Step> {
    let (last, gone) = (99, 100);
    let mut all = vec![
        quiet(calls::load(100, 0)),
        quiet(calls::swap()),
        quiet(calls::load(100, 0)),
    ];
    let reads = [
        call(1, 0, &[last]),
        call(1, 1, &[last]),
        call(1, 2, &[last]),
        call(1, 0, &[gone]),
        call(1, 2, &[gone]),
        call(1, 4, &[]),
        call(1, 5, &[]),
        calls::iter(),
        calls::insert(last, 0),
        calls::remove(gone),
        call(0, 2, &[gone]),
        call(11, 0, &[]),
        call(11, 1, &[]),
        call(11, 2, &[]),
        call(11, 3, &[]),
        call(11, 4, &[]),
        call(3, 7, &[]),
    ];
    all.extend(reads.iter().map(|record| swept(*record)));
    all
}

// A map with the even numbers over four shards. The first two have a quarter of its pairs each, the
// third is empty, and the last has the others. The last leaf of each of these trees is full. Two
// pairs on each side of the first bound are read in three ways; the last 40 pairs get a shard of
// their own; one more pair comes; they come back, so that a leaf is split; and a pair comes and goes.
fn over_shards(many: u64) -> Vec<Step> {
    let bound = many / 2;
    let first = bound - 4;
    let mut all = vec![quiet(call(3, 4, &[bound, many, many, 3]))];
    all.extend((0..many).map(|place| quiet(calls::insert(place * 2, place * 2))));
    let calls = [
        call(2, 0, &[first / 2, 4]),
        call(2, 1, &[first, bound + 4, 9, LOWER | UPPER]),
        call(2, 2, &[bound + 3, 4]),
        call(8, 0, &[(many - 40) * 2]),
        calls::insert(many * 2, many * 2),
        call(8, 1, &[3]),
        calls::insert(many - 1, many - 1),
        calls::remove(many - 1),
    ];
    all.extend(calls.iter().map(|record| swept(*record)));
    all
}

pub fn all(sort: &Sort) -> Vec<Scenario> {
    let keys = sort.keys;
    let scenario = |name: String, steps| Scenario::new(&name, sort.set, steps);
    let items = vec![swept(calls::load(200, 1))];
    let mut all = vec![
        scenario(format!("set of {keys}, of items"), items).ending(100),
        scenario(format!("set of {keys}"), emptied()).ending(0),
        scenario(format!("sets of {keys}, read{}", sort.quiet()), read()).ending(100),
    ];
    for (many, word) in SIZES {
        if !sort.takes_memory() || many < 4000 {
            let name = format!("{keys}, {word}moved between sets");
            all.push(scenario(name, moved(many)).ending(many as usize - 17));
            let name = format!("{keys}, {word}keys extended at once");
            all.push(scenario(name, extended(many)).ending(extended_len(many)));
        }
        let name = format!("{keys}, {word}keys removed in a batch");
        all.push(scenario(name, batch_removed(many)).ending(batch_removed_len(many)));
    }
    for (many, word) in [(256, "few "), (384, ""), (8576, "many ")] {
        let name = format!("{keys}, {word}over shards");
        all.push(Scenario::new(&name, sort.shards, over_shards(many)).ending(many as usize + 1));
    }
    all
}
