//! Calls that change many pairs, or a pair that may not be there.

use super::pairs::Pairs;
use super::{Answer, Model};
use crate::record::Record;
use std::mem;

impl Model {
    /// Whether a pair stays where those are to go whose value, or key of a set, leaves a remainder.
    pub fn stays(&self, record: &Record, (key, value): (u64, u64)) -> bool {
        let number = match (self.kind.is_set(), self.kind.has_pairs()) {
            (true, true) => self.kind.group_of(key),
            (true, false) => key,
            _ => value,
        };
        record.a == 0 && !self.kind.is_set() || number % record.a.max(1) != record.b
    }

    pub(super) fn move_pairs(&mut self, record: &Record) -> Option<Answer> {
        let Record { a, b, c, .. } = *record;
        match record.member() {
            0 | 9 | 10 => {
                for (key, value) in self.turns(a, b, c) {
                    self.here.put(key, value);
                }
            }
            1 => {
                let there = mem::replace(&mut self.there, Pairs::new(self.kind));
                for (key, value) in there.all() {
                    self.here.put(key, value);
                }
            }
            2 => self.there = self.here.split_off(a),
            3 => {
                let model = self.clone_empty();
                self.here
                    .retain(|key, value| model.stays(record, (key, value)));
            }
            4 => {
                let (from, to) = self.between(record);
                for _ in from..to {
                    self.here.take_at(from);
                }
                return Some(Answer::of(vec![(to - from) as u64]));
            }
            5 => self.here.add(0, usize::MAX, a),
            6 => {
                let (from, to) = self.between(record);
                self.here.add(from, to, c);
            }
            7 | 8 => return self.entry(record),
            _ => return None,
        }
        Some(Answer::of(Vec::new()))
    }

    // One of the same kind with no pairs.
    fn clone_empty(&self) -> Model {
        Model::new(self.kind.0)
    }

    fn entry(&mut self, record: &Record) -> Option<Answer> {
        let Record { a, b, c, .. } = *record;
        let old = self.here.get(a);
        let word = if record.member() == 7 {
            let value = old.map_or(b, |old| old.wrapping_add(c));
            self.here.put(a, value);
            u64::from(old.is_none())
        } else {
            self.here.put(a, c);
            old.unwrap_or(b)
        };
        Some(Answer::of(vec![word]))
    }
}
