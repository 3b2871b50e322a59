//! Trees and maps of numbers: their ends, indexes and ranks, parts, and visitors.

use super::{put, refill, value_of};
use crate::fixed::{Case, Outcome, Talk};
use crate::record::{call, calls, steps, Record, BACKWARD, IN_TURN, LOWER, UPPER};

type Rows = Vec<(Record, Vec<u64>)>;

pub fn all() -> Vec<Case> {
    vec![
        Case::new("an empty tree", 0, |talk| talk.has_all(&of_empty())),
        Case::new("pairs from both ends", 0, from_both_ends),
        Case::new("indexes and ranks", 0, places),
        Case::new("indexes and ranks of a map", 4, places_of_map),
        Case::new("maps that are collected", 4, collected),
        Case::new("parts of a map", 4, parts),
        Case::new("the last of each key", 4, last_of_each),
        Case::new("a clone of a map that is cleared", 4, cloned_and_cleared),
        Case::new("a default map", 4, default_map),
        Case::new("levels of a query and a rank", 15, levels),
    ]
}

/// What an empty tree replies. A look-up compares nothing, and a visitor meets no inner node.
pub fn of_empty() -> Rows {
    let (none, absent) = (vec![0], vec![0, 0]);
    vec![
        (calls::height(), vec![0, 1, 0]),
        (call(1, 8, &[]), none.clone()),
        (calls::visit(0), vec![0, 1, 0, 0]),
        (call(1, 1, &[1]), absent.clone()),
        (call(1, 0, &[1]), none.clone()),
        (call(1, 6, &[0, 0]), none.clone()),
        (calls::remove(1), none.clone()),
        (call(1, 7, &[5]), absent),
        (
            calls::iter_from(IN_TURN, 2),
            vec![0, 0, 0, 0, 0, 1, 0, 0, 0],
        ),
        (call(4, 0, &[]), none.clone()),
        (call(4, 12, &[]), none.clone()),
        (call(4, 1, &[]), none),
    ]
}

// Three pairs come from both ends, and a hundred from the back. The length of the iterator is
// compared after each number of steps. A step past the end returns nothing.
fn from_both_ends(talk: &mut Talk) -> Outcome {
    talk.ask(&refill(1..4))?;
    talk.has(
        calls::iter_from(IN_TURN, 4),
        &[
            3, 1, 1, 10_001, 1, 3, 10_003, 1, 2, 10_002, 0, 0, 0, 1, 0, 0, 0,
        ],
    )?;
    let all: Vec<Record> = (0..=4)
        .map(|many| calls::iter_from(IN_TURN, many))
        .collect();
    talk.ask(&all)?;
    talk.ask(&refill(0..100))?;
    let all: Vec<Record> = (0..=100)
        .map(|many| calls::iter_from(BACKWARD, many))
        .collect();
    talk.ask(&all)?;
    let mut words = vec![100];
    words.extend((0..100).rev().flat_map(|key| [1, key, value_of(key)]));
    words.extend([0, 0, 0, 1, 0, 0, 0]);
    talk.has(calls::iter_from(BACKWARD, 101), &words)
}

// The keys from 2 to 499 have their indexes and their ranks. Then the value at an index is written,
// and the pair there leaves, so that those behind it move up.
fn places(talk: &mut Talk) -> Outcome {
    talk.ask(&refill(2..500))?;
    let rows = [
        (calls::height(), vec![498, 0, 1]),
        (call(1, 8, &[]), vec![498]),
        // The first leaf has half of the pairs that a full one took.
        (calls::visit(0), vec![0, 1, 32, 1]),
        (call(1, 7, &[1]), vec![0, 0]),
        (call(1, 7, &[2]), vec![1, 0]),
        (call(1, 7, &[500]), vec![0, 498]),
        (call(1, 6, &[0, 497]), vec![1, 499, 10_499]),
        (call(1, 6, &[0, 499]), vec![0]),
        (call(0, 8, &[0, 7, 248]), vec![1, 10_250]),
        (call(1, 0, &[250]), vec![1, 7]),
        (call(0, 8, &[0, 7, 498]), vec![0]),
        (call(0, 6, &[0, 248]), vec![1, 250, 7]),
        (call(0, 6, &[0, 497]), vec![0]),
        (call(1, 6, &[0, 248]), vec![1, 251, 10_251]),
        (calls::height(), vec![497, 0, 1]),
        (call(1, 8, &[]), vec![497]),
        (calls::visit(0), vec![0, 1, 32, 1]),
    ];
    talk.has_all(&rows)
}

// The keys 1, 2 and 3 have the first indexes, and their ranks among others. A value is written at
// the first index, and no value past the last one. Then the pairs leave from the first index.
fn places_of_map(talk: &mut Talk) -> Outcome {
    let rank = |key: u64| call(1, 7, &[key]);
    let at = |place: u64| call(1, 6, &[0, place]);
    let taken = call(0, 6, &[0, 0]);
    let rows = [
        (calls::insert(1, 2), vec![0]),
        (calls::insert(2, 3), vec![0]),
        (calls::insert(3, 4), vec![0]),
        (rank(0), vec![0, 0]),
        (rank(1), vec![1, 0]),
        (rank(2), vec![1, 1]),
        (rank(3), vec![1, 2]),
        (rank(4), vec![0, 3]),
        (at(0), vec![1, 1, 2]),
        (at(1), vec![1, 2, 3]),
        (at(2), vec![1, 3, 4]),
        (at(3), vec![0]),
        (call(0, 8, &[0, 20, 3]), vec![0]),
        (call(0, 8, &[0, 20, 0]), vec![1, 2]),
        (at(0), vec![1, 1, 20]),
        (taken, vec![1, 1, 20]),
        (at(0), vec![1, 2, 3]),
        (taken, vec![1, 2, 3]),
        (at(0), vec![1, 3, 4]),
        (taken, vec![1, 3, 4]),
        (at(0), vec![0]),
        (taken, vec![0]),
    ];
    talk.has_all(&rows)
}

// Maps of one leaf, and of two levels above the leaves, as visitors find too. No inner node has 66
// children, and a visitor of a single leaf names no child.
fn collected(talk: &mut Talk) -> Outcome {
    let rows = [
        (calls::load(4161, 0), vec![]),
        (calls::height(), vec![4161, 0, 2]),
        (calls::visit(0), vec![0, 1, 60, 2]),
        (calls::remove(4160), vec![1, 4160]),
        (calls::height(), vec![4160, 0, 2]),
        (calls::load(10_000, 3), vec![]),
        (calls::height(), vec![10_000, 0, 2]),
        (calls::visit(0), vec![0, 1, 60, 2]),
        (calls::visit(65), vec![1]),
        (call(1, 0, &[39_996]), vec![1, 9_999]),
        (calls::load(1, 0), vec![]),
        (calls::visit(65), vec![0, 1, 1, 0]),
    ];
    talk.has_all(&rows)
}

// The reply of a walk to the end and one step further, over just these keys: from the front, or from
// both ends in turn. Each key has itself as its value.
fn walked(first: u64, len: u64, ends: u64) -> Vec<u64> {
    let (mut next, mut end) = (first, first + len);
    let mut words = vec![len];
    for step in 0..len {
        let key = if ends >> (step & 63) & 1 == 1 {
            end -= 1;
            end
        } else {
            next += 1;
            next - 1
        };
        words.extend([1, key, key]);
    }
    words.extend([0, 0, 0, 1, 0, 0, 0]);
    words
}

// Parts between keys, and from an index on.
fn parts(talk: &mut Talk) -> Outcome {
    talk.ask(&[calls::load(100, 0)])?;
    let between: [(Option<u64>, Option<u64>, u64, u64); 6] = [
        (None, None, 0, 100),
        (Some(10), Some(13), 10, 3),
        (None, Some(2), 0, 2),
        (Some(98), None, 98, 2),
        (Some(5), Some(5), 5, 0),
        (Some(7), Some(3), 7, 0),
    ];
    for (lo, hi, first, len) in between {
        let bits = lo.map_or(0, |_| LOWER) | hi.map_or(0, |_| UPPER);
        for ends in [0, IN_TURN] {
            let word = steps(len + 1, bits);
            let range = call(2, 1, &[lo.unwrap_or(0), hi.unwrap_or(0), ends, word]);
            talk.has(range, &walked(first, len, ends))?;
        }
    }
    for (place, many, len) in [(98, 5, 2), (100, 5, 0), (0, 0, 0)] {
        let word = many << 16 | steps(len + 1, 0);
        let part = call(2, 3, &[0, place, 0, word]);
        talk.has(part, &walked(place, len, 0))?;
    }
    Ok(())
}

// The keys of 101 pairs come in another order, and the first one again. In turn t the key is the
// remainder of 37 t by 100, so that the key k comes in the turn of the remainder of 73 k.
fn last_of_each(talk: &mut Talk) -> Outcome {
    let value = |key: u64| if key == 0 { 100 } else { 73 * key % 100 };
    let mut words = vec![100];
    words.extend((0..100).flat_map(|key| [1, key, value(key)]));
    words.extend([0, 0, 0, 1, 0, 0, 0]);
    let rows = [
        (calls::load(101, 1), vec![]),
        (call(1, 0, &[0]), vec![1, 100]),
        (call(1, 0, &[37]), vec![1, 1]),
        (calls::iter_from(0, 101), words),
    ];
    talk.has_all(&rows)
}

// What an empty map replies, and then one of a single pair.
fn takes_one() -> Rows {
    vec![
        (calls::height(), vec![0, 1, 0]),
        (calls::insert(5, 6), vec![0]),
        (call(1, 0, &[5]), vec![1, 6]),
        (call(1, 0, &[7]), vec![0]),
    ]
}

// A clone keeps the pairs of a map that is cleared and takes a pair again.
fn cloned_and_cleared(talk: &mut Talk) -> Outcome {
    let three = vec![3, 1, 0, 0, 1, 8, 2, 1, 4, 1, 0, 0, 0, 1, 0];
    let rows = [
        (calls::load(3, 3), vec![]),
        (call(3, 0, &[]), vec![]),
        (calls::clear(), vec![]),
        (call(3, 3, &[0, 0, IN_TURN, steps(4, 0)]), three),
    ];
    talk.has_all(&rows)?;
    talk.has_all(&takes_one())
}

// The other map of two is made by default.
fn default_map(talk: &mut Talk) -> Outcome {
    talk.ask(&[calls::swap()])?;
    talk.has_all(&takes_one())?;
    talk.ask(&put(10..12))?;
    talk.has(calls::height(), &[3, 0, 0])
}

// A query and a rank go through each inner node above a leaf once, and at last one leaf.
fn levels(talk: &mut Talk) -> Outcome {
    let ask = |many: u64, key: u64| call(4, 0, &[many, 0, key]);
    let rows = [
        (ask(10_000, 9_999), vec![1, 2, 2, 1, 2]),
        (ask(10_000, 10_000), vec![1, 2, 2, 0, 2]),
        (ask(400, 399), vec![1, 1, 1, 1, 1]),
        (ask(40, 39), vec![1, 0, 0, 1, 0]),
    ];
    talk.has_all(&rows)
}
