//! Calls of maps over shards.

use super::{Answer, Model};
use crate::record::{Record, LOWER, UPPER};
use crate::words::number;

/// The number of bounds before the first one that is above a key, or is it where `or_equals`.
pub fn bounds_before(bounds: &[u64], key: u64, or_equals: bool) -> usize {
    bounds
        .iter()
        .position(|bound| key < *bound || or_equals && key == *bound)
        .unwrap_or(bounds.len())
}

/// The shards that may have pairs between two keys.
pub fn shards_between(bounds: &[u64], lo: Option<u64>, hi: Option<u64>) -> (usize, usize) {
    let first = lo.map_or(0, |key| bounds_before(bounds, key, false));
    let last = hi.map_or(bounds.len(), |key| bounds_before(bounds, key, true));
    (first, last)
}

impl Model {
    /// The number of pairs of each shard.
    pub fn lengths(&self) -> Vec<u64> {
        let mut lengths = vec![0; self.bounds.len() + 1];
        for key in self.here.keys() {
            lengths[bounds_before(&self.bounds, *key, false)] += 1;
        }
        lengths
    }

    // The words of pairs from one index up to another.
    fn told(&self, from: usize, to: usize) -> Vec<u64> {
        let mut words = Vec::new();
        for place in from..to {
            words.extend(
                self.here
                    .at(place)
                    .map_or(Vec::new(), |pair| self.pair(pair)),
            );
        }
        words
    }

    pub(super) fn answer_shards(&mut self, record: &Record) -> Option<Answer> {
        let words = match record.family() {
            0 => match record.member() {
                0 => number(self.here.put(record.a, record.b)),
                1 => number(self.here.take(record.a)),
                _ => return None,
            },
            1 => self.read_shards(record)?,
            2 => self.part_of_shards(record)?,
            3 if record.member() == 4 => {
                let numbers = [record.a, record.b, record.c];
                let many = (record.d & 255).min(3) as usize;
                self.bounds = numbers[..many].to_vec();
                self.here.clear();
                Vec::new()
            }
            8 => {
                self.move_bound(record)?;
                Vec::new()
            }
            9 => return route(record),
            _ => return None,
        };
        Some(Answer::of(words))
    }

    fn read_shards(&self, record: &Record) -> Option<Vec<u64>> {
        let (here, key) = (&self.here, record.a);
        Some(match record.member() {
            0 => number(here.get(key)),
            4 => {
                let mut words = self.pair_if(here.first());
                words.extend(self.pair_if(here.last()));
                words
            }
            5 => {
                let mut words = vec![here.len() as u64, self.bounds.len() as u64 + 1];
                words.extend(self.lengths());
                words.push(self.bounds.len() as u64);
                for bound in &self.bounds {
                    words.extend(self.key(*bound));
                }
                words
            }
            6 => self.pair_if(usize::try_from(key).ok().and_then(|place| here.at(place))),
            7 => vec![here.rank(key) as u64],
            9 => self.pair_if(here.at(here.rank_above(key))),
            10 => self.pair_if(here.at(here.rank(key).wrapping_sub(1))),
            _ => return None,
        })
    }

    fn part_of_shards(&self, record: &Record) -> Option<Vec<u64>> {
        let Record { a, b, c, d, .. } = *record;
        let len = self.here.len();
        let size = |n: u64| usize::try_from(n).unwrap_or(usize::MAX);
        Some(match record.member() {
            0 => {
                let from = size(a).min(len);
                self.told(from, from.saturating_add(size(b)).min(len))
            }
            1 => {
                let from = if d & LOWER > 0 { self.here.rank(a) } else { 0 };
                let to = if d & UPPER > 0 {
                    self.here.rank(b)
                } else {
                    len
                };
                self.told(from, from.saturating_add(size(c)).min(to))
            }
            2 => {
                let mut words = Vec::new();
                let end = self.here.rank_above(a);
                for place in (end.saturating_sub(size(b))..end).rev() {
                    words.extend(self.told(place, place + 1));
                }
                words
            }
            _ => return None,
        })
    }

    // A shard is cut in two, or it and the next one become one.
    fn move_bound(&mut self, record: &Record) -> Option<()> {
        let at = record.a;
        match record.member() {
            0 => {
                let place = bounds_before(&self.bounds, at, false);
                self.bounds.insert(place, at);
            }
            1 => {
                let place = self.merged_bound(at);
                if let Some(place) = place {
                    self.bounds.remove(place);
                }
            }
            _ => return None,
        }
        Some(())
    }

    // The bound that goes: the one behind the shard, or the next one if that is the lesser.
    pub fn merged_bound(&self, shard: u64) -> Option<usize> {
        let shard = usize::try_from(shard).ok()?;
        let bound = self.bounds.get(shard)?;
        let next = self.bounds.get(shard + 1);
        Some(match next {
            Some(next) if bound > next => shard + 1,
            _ => shard,
        })
    }
}

// The functions of shards over plain numbers.
fn route(record: &Record) -> Option<Answer> {
    let numbers = [record.a, record.b, record.c];
    let used = &numbers[..((record.d & 255) as usize).min(3)];
    let (first, second) = (record.d >> 8 & 0xff_ffff, record.d >> 32);
    let words = match record.member() {
        0 => vec![bounds_before(used, first, false) as u64],
        1 => vec![bounds_before(used, first, true) as u64],
        2..=4 => {
            let lo = if record.member() == 3 {
                None
            } else {
                Some(first)
            };
            let hi = if record.member() == 2 {
                None
            } else {
                Some(second)
            };
            let (from, to) = shards_between(used, lo, hi);
            vec![from as u64, to as u64]
        }
        _ => return find_place(used, first, second, record.member()),
    };
    Some(Answer::of(words))
}

// The shard of an index of the whole, and the index in it.
fn located(lengths: &[u64], place: u64) -> Option<(u64, u64)> {
    let mut left = place;
    for (shard, length) in lengths.iter().enumerate() {
        if left < *length {
            return Some((shard as u64, left));
        }
        left -= length;
    }
    None
}

fn find_place(lengths: &[u64], first: u64, second: u64, member: u64) -> Option<Answer> {
    let full: Vec<u64> = (0..lengths.len() as u64)
        .filter(|shard| lengths[*shard as usize] > 0)
        .collect();
    let many = lengths.len() as u64;
    let words = match member {
        5 => match located(lengths, first) {
            Some((shard, own)) => vec![1, shard, own],
            None => vec![0],
        },
        6 => match located(lengths, first) {
            Some((shard, own)) if second > 0 => {
                let left = lengths[shard as usize] - own;
                vec![1, shard, own, left.min(second)]
            }
            _ => vec![0],
        },
        7 => number(full.first().copied()),
        8 => number(full.last().copied()),
        9 if first < many => number(full.iter().copied().find(|shard| *shard > first)),
        10 if first <= many => number(full.iter().copied().rev().find(|shard| *shard < first)),
        _ => return None,
    };
    Some(Answer::of(words))
}
