//! Calls that make, exchange or compare whole trees, maps or sets.

use super::pairs::{counted_pair_in, pair_in, Pairs};
use super::parts::{walk, Shows};
use super::{Answer, Model};
use crate::record::Record;
use std::cmp::Ordering;
use std::mem;

/// The number of an ordering.
pub(super) fn word_of(ordering: Ordering) -> u64 {
    match ordering {
        Ordering::Less => 0,
        Ordering::Equal => 1,
        Ordering::Greater => 2,
    }
}

impl Model {
    /// The pairs that come in the turns from one on up to another. The keys of sets have the value
    /// 0.
    pub fn turns(&self, from: u64, to: u64, order: u64) -> Vec<(u64, u64)> {
        let is_set = self.kind.is_set();
        if self.kind.is_counted() {
            return (from..to)
                .map(|turn| counted_pair_in(turn, order))
                .collect();
        }
        let pair = |turn| {
            let (key, value) = pair_in(turn, order);
            (key, if is_set { 0 } else { value })
        };
        (from..to).map(pair).collect()
    }

    // The others are moved out.
    fn drain(&mut self, record: &Record, shows: Shows) -> Option<Answer> {
        mem::swap(&mut self.here, &mut self.there);
        let tell = |place: usize, words: &mut Vec<u64>| self.tell_item(shows, place, words);
        let words = walk(record, (0, self.here.len()), true, &tell);
        self.here.clear();
        mem::swap(&mut self.here, &mut self.there);
        Some(Answer::of(words))
    }

    // So many pairs of the others are moved out from each end, and dropped. Before each two, and
    // behind all, comes how many are left; and at last how many values were dropped.
    fn hand_over(&mut self, many: u64) -> Answer {
        let none = Pairs::gathered(self.kind, []);
        let there = mem::replace(&mut self.there, none);
        let len = there.len();
        let mut words = Vec::new();
        for turn in 0..many as usize {
            words.push((len - 2 * turn) as u64);
            words.extend(self.pair_if(there.at(turn)));
            words.extend(self.pair_if(there.at(len - turn - 1)));
        }
        words.push(len as u64 - 2 * many);
        words.push(2 * many);
        Answer::of(words)
    }

    pub(super) fn whole(&mut self, record: &Record) -> Option<Answer> {
        match record.member() {
            3 if self.kind.is_counted() => return Some(self.hand_over(record.a)),
            0 => self.there = self.here.clone(),
            1 => mem::swap(&mut self.here, &mut self.there),
            2 => self.here = Pairs::gathered(self.kind, self.turns(0, record.a, record.b)),
            3 => return self.drain(record, Shows::Pairs),
            4 => self.here.clear(),
            8 if self.kind.is_set() => self.here.clear(),
            5 => return self.drain(record, Shows::Keys),
            6 => return self.drain(record, Shows::Values),
            7 => {
                let (here, there) = (self.here.all(), self.there.all());
                let is_equal = u64::from(here == there);
                return Some(Answer::of(vec![is_equal, word_of(here.cmp(&there))]));
            }
            _ => return None,
        }
        Some(Answer::of(Vec::new()))
    }
}
