//! Trees and maps of known pairs, with replies, nodes and counts that were written by hand.

mod counted;
mod cursors;
mod leaves;
mod places;

use crate::fixed::Case;
use crate::record::{calls, Record};
use std::ops::Range;

/// All cases.
pub fn all() -> Vec<Case> {
    let mut all = places::all();
    all.extend(cursors::all());
    all.extend(leaves::all());
    all.extend(counted::all());
    all
}

/// The value at a key.
fn value_of(key: u64) -> u64 {
    key + 10_000
}

/// Puts keys.
fn put(keys: Range<u64>) -> Vec<Record> {
    keys.map(|key| calls::insert(key, value_of(key))).collect()
}

/// Removes them.
fn take(keys: Range<u64>) -> Vec<Record> {
    keys.map(calls::remove).collect()
}

/// Leaves a tree with these keys alone.
fn refill(keys: Range<u64>) -> Vec<Record> {
    let mut all = vec![calls::clear()];
    all.extend(put(keys));
    all
}
