//! The pairs of a tree, a map or a set: those of a `BTreeMap`, with the list of its keys.

use crate::kind::{couple, Kind};
use std::cmp::Ordering;
use std::collections::BTreeMap;

/// A key. Two that differ in their marks alone are equal.
#[derive(Clone, Copy, Debug)]
struct Key {
    number: u64,
    mark: u64,
}

impl Ord for Key {
    fn cmp(&self, other: &Key) -> Ordering {
        self.number.cmp(&other.number)
    }
}

impl PartialOrd for Key {
    fn partial_cmp(&self, other: &Key) -> Option<Ordering> {
        Some(self.cmp(other))
    }
}

impl PartialEq for Key {
    fn eq(&self, other: &Key) -> bool {
        self.cmp(other) == Ordering::Equal
    }
}

impl Eq for Key {}

impl Key {
    fn word(self) -> u64 {
        self.number | self.mark
    }
}

/// Pairs in the order of their keys.
#[derive(Clone, Debug, PartialEq, Eq)]
pub struct Pairs {
    map: BTreeMap<Key, u64>,
    keys: Vec<u64>,
    order_bits: u64,
}

impl Pairs {
    /// No pairs, with keys of a kind.
    pub fn new(kind: Kind) -> Pairs {
        Pairs {
            map: BTreeMap::new(),
            keys: Vec::new(),
            order_bits: kind.order_bits(),
        }
    }

    /// Of pairs in any order: of equal keys the first one, with the last value.
    pub fn gathered(kind: Kind, pairs: impl IntoIterator<Item = (u64, u64)>) -> Pairs {
        let mut all = Pairs::new(kind);
        for (key, value) in pairs {
            all.map.insert(all.key(key), value);
        }
        all.keys = all.map.keys().map(|key| key.word()).collect();
        all
    }

    fn key(&self, word: u64) -> Key {
        Key {
            number: word & self.order_bits,
            mark: word & !self.order_bits,
        }
    }

    pub fn len(&self) -> usize {
        self.keys.len()
    }

    pub fn is_empty(&self) -> bool {
        self.keys.is_empty()
    }

    pub fn get(&self, key: u64) -> Option<u64> {
        self.map.get(&self.key(key)).copied()
    }

    /// The pair at a key. Its key may have another mark.
    pub fn entry(&self, key: u64) -> Option<(u64, u64)> {
        let (key, value) = self.map.get_key_value(&self.key(key))?;
        Some((key.word(), *value))
    }

    /// The index of a key, or the index that it would have.
    pub fn find(&self, key: u64) -> Result<usize, usize> {
        let number = key & self.order_bits;
        self.keys
            .binary_search_by_key(&number, |key| key & self.order_bits)
    }

    /// The number of smaller keys.
    pub fn rank(&self, key: u64) -> usize {
        match self.find(key) {
            Ok(place) | Err(place) => place,
        }
    }

    /// The number of keys that are not greater.
    pub fn rank_above(&self, key: u64) -> usize {
        match self.find(key) {
            Ok(place) => place + 1,
            Err(place) => place,
        }
    }

    pub fn key_at(&self, place: usize) -> Option<u64> {
        self.keys.get(place).copied()
    }

    pub fn at(&self, place: usize) -> Option<(u64, u64)> {
        let key = self.key_at(place)?;
        Some((key, self.get(key)?))
    }

    pub fn first(&self) -> Option<(u64, u64)> {
        self.at(0)
    }

    pub fn last(&self) -> Option<(u64, u64)> {
        self.at(self.len().wrapping_sub(1))
    }

    /// Puts a value at a key, and returns the one that was there.
    pub fn put(&mut self, key: u64, value: u64) -> Option<u64> {
        let old = self.map.insert(self.key(key), value);
        if old.is_none() {
            let place = self.rank(key);
            self.keys.insert(place, key);
        }
        old
    }

    /// Puts a value at a key that is present.
    pub fn set(&mut self, key: u64, value: u64) -> Option<u64> {
        let at = self.map.get_mut(&self.key(key))?;
        Some(std::mem::replace(at, value))
    }

    /// Takes the pair at a key. Its key may have another mark.
    pub fn take_entry(&mut self, key: u64) -> Option<(u64, u64)> {
        let (key, value) = self.map.remove_entry(&self.key(key))?;
        if let Ok(place) = self.find(key.word()) {
            self.keys.remove(place);
        }
        Some((key.word(), value))
    }

    /// Replaces the key that equals a key by it, and returns the former.
    pub fn rekey(&mut self, key: u64) -> Option<u64> {
        let (old, value) = self.take_entry(key)?;
        self.put(key, value);
        Some(old)
    }

    pub fn take(&mut self, key: u64) -> Option<u64> {
        Some(self.take_entry(key)?.1)
    }

    pub fn take_at(&mut self, place: usize) -> Option<(u64, u64)> {
        self.take_entry(self.key_at(place)?)
    }

    pub fn clear(&mut self) {
        self.map.clear();
        self.keys.clear();
    }

    pub fn all(&self) -> Vec<(u64, u64)> {
        let pair = |(key, value): (&Key, &u64)| (key.word(), *value);
        self.map.iter().map(pair).collect()
    }

    pub fn keys(&self) -> &[u64] {
        &self.keys
    }

    /// The pairs from a key on leave.
    pub fn split_off(&mut self, key: u64) -> Pairs {
        let keys = self.keys.split_off(self.rank(key));
        let map = self.map.split_off(&self.key(key));
        Pairs { map, keys, ..*self }
    }

    /// Keeps the pairs that are wanted.
    pub fn retain(&mut self, is_wanted: impl Fn(u64, u64) -> bool) {
        self.map.retain(|key, value| is_wanted(key.word(), *value));
        self.keys = self.map.keys().map(|key| key.word()).collect();
    }

    /// Adds to each value from one index up to another.
    pub fn add(&mut self, from: usize, to: usize, more: u64) {
        let len = self.keys.len();
        for place in from.min(len)..to.min(len) {
            let key = self.key(self.keys[place]);
            if let Some(value) = self.map.get_mut(&key) {
                *value = value.wrapping_add(more);
            }
        }
    }
}

/// The number of a key and its value that come in a turn.
pub fn pair_in(turn: u64, order: u64) -> (u64, u64) {
    match order {
        0 => (turn, turn),
        1 => (turn.wrapping_mul(37) % 100, turn),
        2 => (turn.wrapping_mul(2), turn.wrapping_mul(2)),
        3 => (turn.wrapping_mul(4), turn),
        _ => (couple(turn / 500, turn % 500), turn % 500),
    }
}

/// The same of counted keys, which come in runs: so many equal ones follow each first one.
pub fn counted_pair_in(turn: u64, more: u64) -> (u64, u64) {
    let run = more + 1;
    let number = turn / run;
    (number, number * 10 + turn % run)
}
