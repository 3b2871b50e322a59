//! Calls of cursors.

use super::{Answer, Model};
use crate::record::Record;
use crate::words::{number, option};

impl Model {
    // Moves the cursor to a pair, if there is one. Reports its key, and its value if asked for.
    fn stands(&mut self, pair: Option<(u64, u64)>, with_value: bool) -> Option<Answer> {
        let (key, value) = match pair {
            Some(pair) => pair,
            None => return Some(Answer::of(vec![0])),
        };
        self.held = Some(key);
        let mut words = self.key(key);
        if with_value {
            words.push(value);
        }
        Some(Answer::of(option(Some(words))))
    }

    // The pair beside the cursor.
    fn neighbour(&self, is_next: bool) -> Option<(u64, u64)> {
        let key = self.held?;
        if is_next {
            self.here.at(self.here.rank_above(key))
        } else {
            self.here.at(self.here.rank(key).wrapping_sub(1))
        }
    }

    pub(super) fn cursor(&mut self, record: &Record) -> Option<Answer> {
        let Record { a, b, .. } = *record;
        match record.member() {
            0 => self.stands(self.here.first(), false),
            1 => self.stands(self.here.last(), true),
            2 => {
                self.held = Some(a);
                let mut words = self.key(a);
                words.extend(number(self.here.get(a)));
                Some(Answer::of(option(Some(words))))
            }
            3 => self.stands(self.here.at(self.here.rank(a)), true),
            4 => self.stands(self.here.at(self.here.rank_above(a)), true),
            5 | 6 => self.stands(self.neighbour(record.member() == 5), false),
            7 => {
                let is_there = self.held.and_then(|key| self.here.get(key)).is_some();
                Some(Answer::of(vec![u64::from(is_there)]))
            }
            8 => {
                let value = self.held.and_then(|key| self.here.get(key));
                Some(Answer::of(number(value)))
            }
            9 if self.kind.has_queries() => {
                let place = self.found(a, b);
                self.stands(place.and_then(|place| self.here.at(place)), true)
            }
            10 | 11 => self.stands(self.neighbour(record.member() == 10), true),
            12 => self.stands(self.here.first(), true),
            13 => {
                self.held = None;
                Some(Answer::of(Vec::new()))
            }
            14 => {
                let mut words = Vec::new();
                match self.held {
                    Some(key) => {
                        words.push(1);
                        self.kind.tell_key(key, &mut words);
                    }
                    None => words.push(0),
                }
                Some(Answer::of(words))
            }
            _ => None,
        }
    }

    /// Those of maps, which hold no cursor.
    pub(super) fn bound(&mut self, record: &Record) -> Option<Answer> {
        let place = match record.member() {
            3 => Some(self.here.rank(record.a)),
            4 => Some(self.here.rank_above(record.a)),
            9 => self.found(record.a, record.b),
            _ => return None,
        };
        let pair = place.and_then(|place| self.here.at(place));
        Some(Answer::of(self.pair_if(pair)))
    }
}
