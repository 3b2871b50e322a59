//! Calls of stores, of nodes in no store, and of owned values.

use super::{heights_of, Answer, Model};
use crate::kind::Kind;
use crate::record::Record;

/// A key with a letter, as it prints.
#[derive(Debug)]
#[allow(dead_code)]
struct Marked {
    number: u64,
    letter: char,
}

/// The reply to a command, as it prints.
#[derive(Debug)]
#[allow(dead_code)]
enum Reply {
    Value(Option<u64>),
    Pair(Option<(Marked, u64)>),
    Number(u64),
    Done(bool),
    Rank(Result<u64, u64>),
    Held(u64, Option<u64>),
    Walked(Vec<Option<(Marked, u64)>>),
    NoCursor,
    Full,
    OutOfMemory,
}

// What the reply of a record prints.
fn printed(record: &Record) -> String {
    let Record { a, b, c, d, .. } = *record;
    let pair = || {
        let mut words = Vec::new();
        Kind(21).tell_key(c, &mut words);
        let letter = char::from_u32(words[1] as u32).unwrap_or('?');
        let key = Marked {
            number: words[0],
            letter,
        };
        Some((key, d)).filter(|_| b > 0)
    };
    let value = Some(d).filter(|_| b > 0);
    let reply = match a {
        1 => Reply::Value(value),
        2 => Reply::Pair(pair()),
        3 => Reply::Number(c),
        4 => Reply::Done(b == 1),
        5 => Reply::Rank(Ok(c)),
        6 => Reply::Rank(Err(c)),
        7 => Reply::Held(c, value),
        8 => Reply::Walked(vec![pair(), None]),
        9 => Reply::NoCursor,
        10 => Reply::Full,
        _ => Reply::OutOfMemory,
    };
    format!("{reply:?}")
}

impl Model {
    /// What calls of stores and nodes return, whatever the state of the store is.
    pub(super) fn answer_store(&self, record: &Record) -> Option<Answer> {
        let words = match (record.family(), record.member()) {
            (0, 4 | 6) => Vec::new(),
            (0, 0..=3 | 5) | (5, 7) => vec![1],
            (1, 0) => self.leaf_parts(),
            (1, 1) => {
                let mut words = self.inner_node();
                words.push(0);
                words
            }
            (1, 2) => self.inner_node(),
            _ => return None,
        };
        Some(Answer::of(words))
    }

    // A leaf with the keys 1 and 2, behind the leaf 3 and before the leaf 4, and its range.
    fn leaf_parts(&self) -> Vec<u64> {
        let mut words = vec![2];
        words.extend(self.key(1));
        words.extend(self.key(2));
        words.extend([10, 20, 1, 3, 1, 4]);
        for key in [1, 2] {
            words.push(1);
            words.extend(self.key(key));
        }
        words
    }

    // An inner node with the key 1, between two leaves of the number 3.
    fn inner_node(&self) -> Vec<u64> {
        let mut words = vec![1];
        words.extend(self.key(1));
        words.extend([7, 8, 2, 3, 2, 3]);
        words
    }

    /// How many pairs or keys there are of so many that come three times each, or of 100 keys; and
    /// what a query and a rank count on their way.
    /// How many pairs or keys there are of so many that come three times each, or of 100 keys; how
    /// keys compare; and what replies print.
    pub(super) fn answer_owned(&self, record: &Record) -> Option<Answer> {
        let many = record.a;
        let words = match (record.family(), record.member()) {
            // A smaller key and a greater one of each of 17 types, and a clone.
            (1, 0) => [0, 2, 1].repeat(17),
            (6, 0) => printed(record).bytes().map(u64::from).collect(),
            (3, 2) => vec![(many + 2) / 3],
            (3, 5) => vec![many.min(100)],
            // The first key comes again, and is not new.
            (3, 6) => vec![many.min(100), u64::from(many == 0)],
            (4, 0) => Model::levels(record),
            _ => return None,
        };
        Some(Answer::of(words))
    }

    // What a map of so many pairs finds in its first leaf for an index, to which each level above
    // adds one; and the rank of a key, to which each of these levels adds one. Nodes of a map that
    // is loaded are as full as they can be, so that its height is the least.
    fn levels(record: &Record) -> Vec<u64> {
        let Record { a, b, c, .. } = *record;
        let (height, _) = heights_of(a as usize);
        let index = b + height;
        let mut words = if index < a.min(64) {
            vec![1, index, index]
        } else {
            vec![0]
        };
        words.extend([u64::from(c < a), height]);
        words
    }
}
