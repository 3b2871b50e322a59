//! Walks over parts, and their summaries.

use super::{Answer, Model};
use crate::record::{Record, LOWER, LOWER_OUT, UPPER, UPPER_IN};

/// What a walk shows of each pair.
#[derive(Clone, Copy, PartialEq, Eq)]
pub(super) enum Shows {
    Pairs,
    Keys,
    Values,
}

/// The words of a walk over so many items. The items that are left at last follow, and then their
/// number again, if they are a clone's.
pub(super) fn walk(
    record: &Record,
    (from, to): (usize, usize),
    is_drained: bool,
    tell: &dyn Fn(usize, &mut Vec<u64>),
) -> Vec<u64> {
    let (mut from, mut to) = (from, to.max(from));
    let mut words = vec![(to - from) as u64];
    for step in 0..record.d >> 8 & 255 {
        if from == to {
            words.push(0);
            continue;
        }
        words.push(1);
        if record.c >> (step & 63) & 1 == 1 {
            to -= 1;
            tell(to, &mut words);
        } else {
            tell(from, &mut words);
            from += 1;
        }
    }
    let left = (to - from) as u64;
    words.extend([left, left, 1, left]);
    for place in from..to {
        tell(place, &mut words);
    }
    if !is_drained {
        // A clone gives nothing at the back then.
        words.extend([0, left]);
    }
    words
}

impl Model {
    /// The indexes between the keys of a record: those from the lower one on and below the upper
    /// one.
    pub fn between(&self, record: &Record) -> (usize, usize) {
        let bounds = record.d & (LOWER | UPPER);
        self.within(&Record {
            d: bounds,
            ..*record
        })
    }

    // The indexes if a bound may be out or in.
    fn within(&self, record: &Record) -> (usize, usize) {
        let bits = record.d;
        let from = match (bits & LOWER > 0, bits & LOWER_OUT > 0) {
            (false, _) => 0,
            (true, false) => self.here.rank(record.a),
            (true, true) => self.here.rank_above(record.a),
        };
        let to = match (bits & UPPER > 0, bits & UPPER_IN > 0) {
            (false, _) => self.here.len(),
            (true, false) => self.here.rank(record.b),
            (true, true) => self.here.rank_above(record.b),
        };
        (from, to.max(from))
    }

    pub(super) fn tell_item(&self, shows: Shows, place: usize, words: &mut Vec<u64>) {
        if let Some((key, value)) = self.here.at(place) {
            if shows != Shows::Values {
                self.kind.tell_key(key, words);
            }
            if shows != Shows::Keys && !self.kind.is_set() {
                words.push(value);
            }
        }
    }

    pub(super) fn walk_places(
        &self,
        record: &Record,
        places: (usize, usize),
        shows: Shows,
    ) -> Option<Answer> {
        let tell = |place: usize, words: &mut Vec<u64>| self.tell_item(shows, place, words);
        Some(Answer::of(walk(record, places, false, &tell)))
    }

    /// A walk over so many pairs from an index on.
    pub(super) fn walk_part(&self, record: &Record, from: usize, many: usize) -> Option<Answer> {
        let from = from.min(self.here.len());
        let to = from.saturating_add(many).min(self.here.len());
        self.walk_places(record, (from, to), Shows::Pairs)
    }

    pub(super) fn part(&mut self, record: &Record) -> Option<Answer> {
        let Record { a, b, c, d, .. } = *record;
        let len = self.here.len();
        match record.member() {
            0 => self.walk_places(record, (0, len), Shows::Pairs),
            1 => self.walk_places(record, self.between(record), Shows::Pairs),
            2 => self.walk_places(record, self.within(record), Shows::Pairs),
            3 => {
                let from = self.found(a, b).unwrap_or(len);
                self.walk_part(record, from, (d >> 16) as usize)
            }
            4 => {
                let (from, to) = self.between(record);
                Some(Answer::of(self.summary(from, to)))
            }
            5 => {
                let from = self.found(a, b).unwrap_or(len);
                let to = self.found(c, d).unwrap_or(len);
                Some(Answer::of(self.summary(from, to.max(from))))
            }
            6 => self.walk_places(record, (0, len), Shows::Keys),
            7 => self.walk_places(record, (0, len), Shows::Values),
            _ => None,
        }
    }

    /// The calls of maps with groups.
    pub(super) fn group(&mut self, record: &Record) -> Option<Answer> {
        let (from, to) = self.places_of(self.kind.group_of(record.a));
        let many = record.d >> 16;
        let place = |index: u64| {
            let index = usize::try_from(index).unwrap_or(usize::MAX);
            from.saturating_add(index).min(to)
        };
        let (start, size) = match record.member() {
            0 => (from, usize::MAX),
            1 => (place(record.b), many as usize),
            2 => {
                let size = many.max(1);
                (place(record.b.saturating_mul(size)), size as usize)
            }
            3 => return Some(Answer::of(vec![1, (to - from) as u64])),
            _ => return None,
        };
        let end = start.saturating_add(size).min(to);
        self.walk_places(record, (start, end), Shows::Pairs)
    }
}
