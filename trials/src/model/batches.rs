//! Calls for many keys at once, as calls for one key after another.

use super::{Answer, Model};
use crate::batch::{Batch, UNTOUCHED};
use crate::record::Record;
use crate::words::number;

impl Model {
    /// Removes the first keys of a batch, so many of them, and returns what the call for all keys
    /// replies.
    pub fn remove_first(&mut self, keys: &[u64], many: usize) -> Vec<u64> {
        let mut words = vec![many as u64];
        for (place, key) in keys.iter().enumerate() {
            let gone = if place < many {
                self.here.take(*key)
            } else {
                Some(UNTOUCHED)
            };
            if self.kind.is_set() {
                words.push(u64::from(gone.is_some()));
            } else {
                words.extend(number(gone));
            }
        }
        words
    }

    /// The calls of maps and sets for the keys of a batch.
    pub(super) fn batch(&mut self, record: &Record) -> Option<Answer> {
        let batch = Batch::of(record);
        let keys = batch.keys();
        let value = |key: &u64| self.here.get(*key);
        let is_there = |key: &u64| u64::from(value(key).is_some());
        let words = match record.member() {
            0 => keys.iter().flat_map(|key| number(value(key))).collect(),
            1 => keys.iter().map(is_there).collect(),
            2 => self.remove_first(&keys, keys.len()),
            3 | 4 => {
                let mut words: Vec<u64> = keys.iter().map(is_there).collect();
                words.extend(keys.iter().map(|key| value(key).unwrap_or(UNTOUCHED)));
                if record.member() == 3 {
                    words.clear();
                }
                for (key, value) in batch.pairs() {
                    self.here.put(key, value);
                }
                words
            }
            _ => return None,
        };
        Some(Answer::of(words))
    }

    /// The calls of maps with counts for many keys or indexes.
    pub(super) fn batch_of_places(&self, record: &Record) -> Answer {
        let keys = Batch::of(record).keys();
        Answer::of(if record.member() == 9 {
            keys.iter().map(|key| self.here.rank(*key) as u64).collect()
        } else {
            let pair = |index: &u64| self.pair_if(self.here.at(*index as usize));
            keys.iter().flat_map(pair).collect()
        })
    }
}
