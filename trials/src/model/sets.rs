//! Calls of sets.

use super::{Answer, Model};
use crate::record::Record;
use std::collections::BTreeSet;

// The words of a size hint: how many keys come at least and at most of two sets of which so many
// are left.
fn hint(member: u64, here: usize, there: usize) -> Vec<u64> {
    let (least, most) = match member {
        0 => (here.max(there), here + there),
        1 => (here.saturating_sub(there), here),
        2 => (0, here.min(there)),
        _ => (here.abs_diff(there), here + there),
    };
    vec![least as u64, 1, most as u64]
}

impl Model {
    pub(super) fn answer_set(&mut self, record: &Record) -> Option<Answer> {
        if record.family() == 1 {
            return self.read_set(record);
        }
        let (kind, key) = (self.kind, record.a);
        let here = &mut self.here;
        let words = match record.member() {
            0 => vec![u64::from(here.put(key, 0).is_none())],
            1 => vec![u64::from(here.take(key).is_some())],
            2 => kind.key_if(here.take(key).map(|_| key)),
            3 => kind.key_if(here.take_at(0).map(|pair| pair.0)),
            4 => kind.key_if(here.take_at(here.len().wrapping_sub(1)).map(|pair| pair.0)),
            5 => {
                here.clear();
                Vec::new()
            }
            6 => kind.key_if(here.put(key, 0).map(|_| key)),
            _ => return None,
        };
        Some(Answer::of(words))
    }

    fn read_set(&self, record: &Record) -> Option<Answer> {
        let (here, key) = (&self.here, record.a);
        let is_there = here.get(key).is_some();
        let words = match record.member() {
            0 => vec![u64::from(is_there)],
            1 => return Some(self.compared(vec![u64::from(is_there)])),
            2 => self.kind.key_if(if is_there { Some(key) } else { None }),
            4 => {
                let mut words = self.kind.key_if(here.first().map(|pair| pair.0));
                words.extend(self.kind.key_if(here.last().map(|pair| pair.0)));
                words
            }
            5 => vec![here.len() as u64, u64::from(here.is_empty())],
            _ => return None,
        };
        Some(Answer::of(words))
    }

    /// The calls of two sets.
    pub(super) fn both(&self, record: &Record) -> Option<Answer> {
        let here: BTreeSet<u64> = self.here.keys().iter().copied().collect();
        let there: BTreeSet<u64> = self.there.keys().iter().copied().collect();
        let keys: Vec<u64> = match record.member() {
            0 => here.union(&there).copied().collect(),
            1 => here.difference(&there).copied().collect(),
            2 => here.intersection(&there).copied().collect(),
            3 => here.symmetric_difference(&there).copied().collect(),
            4 => {
                let answers = [
                    here.is_subset(&there),
                    here.is_superset(&there),
                    here.is_disjoint(&there),
                ];
                return Some(Answer::of(
                    answers.iter().map(|is| u64::from(*is)).collect(),
                ));
            }
            _ => return None,
        };
        let above =
            |set: &BTreeSet<u64>, key: u64| set.iter().filter(|other| **other > key).count();
        let mut words = hint(record.member(), here.len(), there.len());
        for key in &keys {
            self.kind.tell_key(*key, &mut words);
        }
        // A clone that was made behind the first key has so many more. Behind the last one it has
        // passed the keys of both sets up to that, and there is none to come.
        words.push(keys.len().saturating_sub(1) as u64);
        words.extend(match keys.last() {
            Some(last) => hint(record.member(), above(&here, *last), above(&there, *last)),
            None => vec![0, 1, 0],
        });
        words.push(0);
        Some(Answer::of(words))
    }
}
