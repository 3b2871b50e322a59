//! Calls of one pair, of nodes, and of visitors.

use super::{heights_of, Answer, Model};
use crate::record::Record;
use crate::words::number;

impl Model {
    // The value at an index is replaced.
    fn set_at(&mut self, place: Option<usize>, value: u64) -> Option<u64> {
        let key = self.here.key_at(place?)?;
        self.here.set(key, value)
    }

    pub(super) fn change(&mut self, record: &Record) -> Option<Answer> {
        let Record { a, b, c, .. } = *record;
        let words = match record.member() {
            0 => number(self.here.put(a, b)),
            1 => number(self.here.take(a)),
            2 => {
                let gone = self.here.take_entry(a);
                self.pair_if(gone)
            }
            3 | 4 | 6 => {
                let place = match record.member() {
                    3 => Some(0),
                    4 => Some(self.here.len().wrapping_sub(1)),
                    _ => self.found(a, b),
                };
                let gone = place.and_then(|place| self.here.take_at(place));
                self.pair_if(gone)
            }
            5 => {
                self.here.clear();
                Vec::new()
            }
            7 => number(self.here.set(a, b)),
            9 => {
                let old = self.here.rekey(a);
                let mut words = vec![u64::from(old.is_some())];
                words.extend(self.key(old.unwrap_or(a)));
                words
            }
            8 => {
                let place = self.found(a, c);
                number(self.set_at(place, b))
            }
            _ => return None,
        };
        Some(Answer::of(words))
    }

    /// How many comparisons a look-up may make: 0 if there are no keys.
    pub(super) fn compared(&self, words: Vec<u64>) -> Answer {
        if self.here.is_empty() {
            return Answer::with_last(words, 0, 0);
        }
        let (_, height) = heights_of(self.here.len());
        Answer::with_last(words, 1, 7 * (height + 1) + self.kind.hint_compares())
    }

    pub(super) fn read(&mut self, record: &Record) -> Option<Answer> {
        let Record { a, b, .. } = *record;
        let here = &self.here;
        let words = match record.member() {
            0 => number(here.get(a)),
            1 => return Some(self.compared(number(here.get(a)))),
            2 => self.pair_if(here.entry(a)),
            3 => vec![u64::from(here.get(a).is_some())],
            4 => {
                let mut words = self.pair_if(here.first());
                words.extend(self.pair_if(here.last()));
                words
            }
            5 => {
                let (least, most) = heights_of(here.len());
                let words = vec![here.len() as u64, u64::from(here.is_empty())];
                return Some(Answer::with_last(words, least, most));
            }
            6 => self.pair_if(self.found(a, b).and_then(|place| here.at(place))),
            7 => {
                let mut words = vec![u64::from(here.get(a).is_some())];
                words.extend(self.rank(a));
                words
            }
            8 => self.summary(0, here.len()),
            _ => return None,
        };
        Some(Answer::of(words))
    }

    // What holds of nodes, whatever they are.
    pub(super) fn nodes(&mut self, record: &Record) -> Option<Answer> {
        match record.member() {
            2 | 7 => Some(Answer::of(vec![1])),
            3 => Some(Answer::of(Vec::new())),
            _ => None,
        }
    }

    // A visitor that says the same at each inner node, and at a leaf its length, and then how many
    // inner nodes it met. If the height is not known, its result is not.
    pub(super) fn visit(&mut self, record: &Record) -> Option<Answer> {
        let len = self.here.len() as u64;
        let words = match (heights_of(self.here.len()), record.a) {
            ((_, 0), _) => vec![0, 1, len, 0],
            ((0, _), _) | (_, 0) => return None,
            (_, 1) => vec![0, 0],
            _ => vec![0, 1, record.b, 1],
        };
        Some(Answer::of(words))
    }

    /// The calls of maps by indexes.
    pub(super) fn place(&mut self, record: &Record) -> Option<Answer> {
        let Record { a, b, .. } = *record;
        let (index, size) = (usize::try_from(a).ok()?, b.max(1));
        let words = match record.member() {
            0 => {
                let (from, to) = self.between(record);
                vec![(to - from) as u64]
            }
            1 => number(self.here.find(a).ok().map(|place| place as u64)),
            2 | 8 => self.pair_if(self.here.at(index)),
            3 => number(self.set_at(Some(index), b)),
            4 => {
                let gone = self.here.take_at(index);
                self.pair_if(gone)
            }
            5 => {
                let from = usize::try_from(a.saturating_mul(size)).ok()?;
                return self.walk_part(record, from, usize::try_from(size).ok()?);
            }
            6 => {
                let (len, size) = (self.here.len() as u64, a.max(1));
                vec![len / size + u64::from(len % size > 0)]
            }
            7 => {
                let place = self.here.rank(a) as u64 / size;
                vec![u64::from(self.here.get(a).is_some()), place]
            }
            9 | 10 => return Some(self.batch_of_places(record)),
            _ => return None,
        };
        Some(Answer::of(words))
    }
}
