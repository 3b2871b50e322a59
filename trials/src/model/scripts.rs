//! Lists of commands.

use super::{Answer, Model};
use crate::record::Record;
use crate::words::number;
use std::mem;

// Whether a word takes from the back in a step.
fn is_back(word: u64, step: u64) -> bool {
    step < 40 && word >> step & 1 == 1
}

impl Model {
    pub(super) fn command(&mut self, record: &Record) -> Option<Answer> {
        match record.member() {
            0 => {
                self.commands.push(*record);
                Some(Answer::of(Vec::new()))
            }
            1 => {
                let commands = mem::take(&mut self.commands);
                let mut held = Vec::new();
                let mut words = Vec::new();
                for command in commands {
                    words.extend(self.run(&command, &mut held)?);
                }
                Some(Answer::of(words))
            }
            _ => None,
        }
    }

    // A value, behind the word of its reply.
    fn value(word: u64, value: Option<u64>) -> Vec<u64> {
        let mut words = vec![word];
        words.extend(number(value));
        words
    }

    fn told_pair(&self, pair: Option<(u64, u64)>) -> Vec<u64> {
        let mut words = vec![2];
        words.extend(self.pair_if(pair));
        words
    }

    // A cursor is held at a key.
    fn hold(&self, key: u64, held: &mut Vec<u64>) -> Vec<u64> {
        let mut words = vec![7, held.len() as u64];
        held.push(key);
        words.extend(number(self.here.get(key)));
        words
    }

    // If there is a pair, a cursor is held at it.
    fn hold_at(&self, pair: Option<(u64, u64)>, held: &mut Vec<u64>) -> Vec<u64> {
        match pair {
            Some((key, _)) => self.hold(key, held),
            None => vec![2, 0],
        }
    }

    // A cursor moves if there is a pair beside it.
    fn step(&self, cursor: u64, is_next: bool, held: &mut [u64]) -> Vec<u64> {
        let key = match held.get_mut(cursor as usize) {
            Some(key) => key,
            None => return vec![9],
        };
        let place = if is_next {
            self.here.rank_above(*key)
        } else {
            self.here.rank(*key).wrapping_sub(1)
        };
        let found = self.here.at(place);
        if let Some((found, _)) = found {
            *key = found;
        }
        self.told_pair(found)
    }

    // What the ends of a word take of the pairs from one index up to another.
    fn taken(&self, (from, to): (usize, usize), word: u64) -> Vec<u64> {
        let (mut from, mut to) = (from, to.max(from));
        let mut words = vec![8, word >> 56];
        for step in 0..word >> 56 {
            let mut pair = None;
            if from < to && is_back(word, step) {
                to -= 1;
                pair = self.here.at(to);
            } else if from < to {
                pair = self.here.at(from);
                from += 1;
            }
            words.extend(self.pair_if(pair));
        }
        words
    }

    fn run(&mut self, command: &Record, held: &mut Vec<u64>) -> Option<Vec<u64>> {
        let Record { b, c, d, .. } = *command;
        Some(match command.a {
            0 => Model::value(1, self.here.put(b, c)),
            1 => Model::value(1, self.here.take(b)),
            2 => {
                let place = self.found(b, c);
                let gone = place.and_then(|place| self.here.take_at(place));
                self.told_pair(gone)
            }
            3 => {
                self.here.clear();
                vec![4, 1]
            }
            4 => Model::value(1, self.here.get(b)),
            5 => vec![4, u64::from(self.here.set(b, c).is_some())],
            6 => {
                let key = self.found(b, c).and_then(|place| self.here.key_at(place));
                let old = key.and_then(|key| self.here.set(key, d));
                vec![4, u64::from(old.is_some())]
            }
            7 => self.told_pair(self.here.first()),
            8 => self.told_pair(self.here.last()),
            9 => vec![3, self.here.len() as u64],
            10 => self.told_pair(self.found(b, c).and_then(|place| self.here.at(place))),
            11 => {
                let is_there = self.here.get(b).is_some();
                let mut words = vec![if is_there { 5 } else { 6 }];
                words.extend(self.rank(b));
                words
            }
            _ => return self.run_walk(command, held),
        })
    }

    // A command of a cursor or of an iterator.
    fn run_walk(&self, command: &Record, held: &mut Vec<u64>) -> Option<Vec<u64>> {
        let Record { b, c, d, .. } = *command;
        let len = self.here.len();
        Some(match command.a {
            12 => self.hold(b, held),
            13 => self.hold_at(self.here.first(), held),
            14 => self.hold_at(self.here.last(), held),
            15 => self.step(b, true, held),
            16 => self.step(b, false, held),
            17 => match held.get(b as usize) {
                Some(key) => vec![4, u64::from(self.here.get(*key).is_some())],
                None => vec![9],
            },
            18 => match held.get(b as usize) {
                Some(key) => Model::value(1, self.here.get(*key)),
                None => vec![9],
            },
            19 => self.taken((0, len), d),
            20 => {
                let has = |bit: u64| d >> bit & 1 == 1;
                let from = if has(48) { self.here.rank(b) } else { 0 };
                let to = if has(49) { self.here.rank(c) } else { len };
                self.taken((from, to), d)
            }
            21 => {
                let from = self.found(b, c).unwrap_or(len);
                let many = (d >> 40 & 255) as usize;
                self.taken((from, from.saturating_add(many).min(len)), d)
            }
            _ => return None,
        })
    }
}
