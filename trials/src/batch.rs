//! Batches of keys, as the program bptree_trials makes them, and calls for them beside single
//! calls.

use crate::fixed::{check, Outcome, Talk};
use crate::record::{call, calls, Record};
use std::ops::RangeInclusive;

/// What a slice of values has at an index that a call does not write.
pub const UNTOUCHED: u64 = u64::MAX - 8;

/// So many keys: from a first one on, in steps that stay within a span. A span of 0 is that of all
/// numbers. Their values come in a row, from one on.
#[derive(Clone, Copy, Debug)]
pub struct Batch {
    pub many: u64,
    pub first: u64,
    pub step: u64,
    pub span: u64,
    pub value: u64,
}

impl Batch {
    /// The batch of a record.
    pub fn of(record: &Record) -> Batch {
        Batch {
            many: record.a,
            first: record.b,
            step: record.c,
            span: record.d & 0xffff_ffff,
            value: record.d >> 32,
        }
    }

    /// A call for the batch.
    pub fn call(&self, family: u64, member: u64) -> Record {
        let word = self.value << 32 | self.span;
        call(family, member, &[self.many, self.first, self.step, word])
    }

    /// The numbers of its keys.
    pub fn keys(&self) -> Vec<u64> {
        let offset = |index: u64| match (index.wrapping_mul(self.step), self.span) {
            (offset, 0) => offset,
            (offset, span) => offset % span,
        };
        let key = |index| self.first.wrapping_add(offset(index));
        (0..self.many).map(key).collect()
    }

    /// Its keys with their values.
    pub fn pairs(&self) -> Vec<(u64, u64)> {
        self.keys().into_iter().zip(self.value..).collect()
    }

    // The words of a single call for each key, but for so many at the front of each reply.
    fn each(&self, talk: &mut Talk, one: (u64, u64), but: usize) -> Result<Vec<u64>, String> {
        let record = |(key, value)| call(one.0, one.1, &[key, value]);
        let records: Vec<Record> = self.pairs().into_iter().map(record).collect();
        let replies = talk.ask(&records)?;
        let words = replies.iter().flat_map(|reply| &reply.words[but..]);
        Ok(words.copied().collect())
    }

    // Whether each key is there, and then the value of each, as a call that puts them reports.
    fn before(&self, talk: &mut Talk) -> Result<Vec<u64>, String> {
        let mut words = self.each(talk, (1, 3), 0)?;
        let mut values = self.each(talk, (1, 0), 0)?.into_iter();
        for _ in 0..self.many {
            let value = match values.next() {
                Some(1) => values.next(),
                _ => Some(UNTOUCHED),
            };
            words.extend(value);
        }
        Ok(words)
    }
}

/// Calls that read, with the single calls whose replies they have to give in a row, but for so many
/// words at the front of each: values, whether keys are there, ranks, and pairs at indexes.
const READS: [((u64, u64), (u64, u64), usize); 4] = [
    ((13, 0), (1, 0), 0),
    ((13, 1), (1, 3), 0),
    ((9, 9), (1, 7), 1),
    ((9, 10), (9, 2), 0),
];

// Calls that change a map, each beside single calls on a clone: pairs come, leave and come again.
fn changes(talk: &mut Talk, batch: &Batch) -> Outcome {
    let before = batch.before(talk)?;
    talk.ask(&[call(3, 0, &[])])?;
    for (member, one) in [(4, (0, 0)), (2, (0, 1)), (3, (0, 0))] {
        talk.ask(&[calls::swap()])?;
        let replies = batch.each(talk, one, 0)?;
        talk.ask(&[calls::swap()])?;
        let words = match member {
            4 => before.clone(),
            2 => [vec![batch.many], replies].concat(),
            _ => Vec::new(),
        };
        talk.has(batch.call(13, member), &words)?;
        talk.has(call(3, 7, &[]), &[1, 1])?;
    }
    Ok(())
}

/// How many pairs maps of even numbers have, and their heights.
const MAPS: [(u64, RangeInclusive<u64>); 4] =
    [(0, 0..=0), (40, 0..=0), (2_000, 1..=1), (100_000, 2..=3)];

/// Batches of each size over maps of each height: in ascending, descending and other order, and
/// with keys that come twice. About half of the keys are there.
pub fn table(talk: &mut Talk) -> Outcome {
    for (pairs, heights) in MAPS {
        for many in [0, 1, 15, 16, 17, 1_000u64] {
            talk.ask(&[calls::load(pairs, 2)])?;
            let height = talk.height()?;
            check(heights.contains(&height), || format!("height {height}"))?;
            let part = 2 * pairs / many.max(1) | 1;
            let half = many.div_ceil(2);
            let orders = [(1, many), (many.max(1) - 1, many), (7, many), (7, half)];
            for (value, (step, different)) in orders.into_iter().enumerate() {
                let batch = Batch {
                    many,
                    first: value as u64,
                    step: step * part,
                    span: different * part,
                    value: 1_000 * value as u64,
                };
                for ((family, member), one, but) in READS {
                    let words = batch.each(talk, one, but)?;
                    talk.has(batch.call(family, member), &words)?;
                }
                changes(talk, &batch)?;
            }
        }
    }
    talk.nodes().map(|_| ())
}
