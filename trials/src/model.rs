//! What calls are to return, by the pairs that they leave.

pub mod pairs;

mod batches;
mod cursors;
mod moving;
mod parts;
mod scripts;
mod sets;
pub mod shards;
mod single;
mod stores;
mod whole;

use crate::kind::Kind;
use crate::record::Record;
use crate::words::{digest_of, Reply};
use pairs::Pairs;

/// Two lists of pairs, a cursor that is held, commands that are to be run, and where shards are
/// cut.
#[derive(Clone, Debug)]
pub struct Model {
    pub kind: Kind,
    pub here: Pairs,
    pub there: Pairs,
    pub held: Option<u64>,
    pub commands: Vec<Record>,
    pub bounds: Vec<u64>,
}

/// The words of a reply. One of them may be any number of a range.
#[derive(Clone, Debug, Default, PartialEq, Eq)]
pub struct Answer {
    pub words: Vec<u64>,
    pub loose: Option<(usize, u64, u64)>,
}

impl Answer {
    pub fn of(words: Vec<u64>) -> Answer {
        Answer { words, loose: None }
    }

    /// With the last word from one number on up to another, and that in.
    pub fn with_last(mut words: Vec<u64>, least: u64, most: u64) -> Answer {
        let loose = Some((words.len(), least, most));
        words.push(least);
        Answer { words, loose }
    }

    /// Whether a reply has these words, and is that of a call that was made.
    pub fn is_met(&self, reply: &Reply) -> bool {
        let (len, digest) = (self.words.len() as u64, reply.digest);
        if reply.status != 0 || reply.len != len {
            return false;
        }
        let (place, least, most) = match self.loose {
            Some(loose) => loose,
            None => return digest_of(&self.words) == digest,
        };
        let word = reply.word(place);
        let mut words = self.words.clone();
        words[place] = word;
        least <= word && word <= most && digest_of(&words) == digest
    }
}

/// The least height and the greatest that a tree of so many pairs can have.
pub fn heights_of(len: usize) -> (u64, u64) {
    let (mut least, mut room) = (0, 64u128);
    while room < len as u128 {
        room *= 65;
        least += 1;
    }
    let (mut most, mut needed) = (0, 32u128);
    while needed <= len as u128 {
        needed *= 17;
        most += 1;
    }
    (least, most)
}

impl Model {
    pub fn new(kind: u64) -> Model {
        let kind = Kind(kind);
        Model {
            kind,
            here: Pairs::new(kind),
            there: Pairs::new(kind),
            held: None,
            commands: Vec::new(),
            bounds: Vec::new(),
        }
    }

    /// What a call is to return, once it was made here. `None` if that is not known.
    pub fn answer(&mut self, record: &Record) -> Option<Answer> {
        let kind = self.kind;
        if kind.is_shards() {
            return self.answer_shards(record);
        }
        if kind.is_store() {
            return self.answer_store(record);
        }
        if kind.0 == 15 {
            return self.answer_owned(record);
        }
        match record.family() {
            0 | 1 if kind.is_set() => self.answer_set(record),
            0 => self.change(record),
            1 => self.read(record),
            2 => self.part(record),
            3 => self.whole(record),
            4 if kind.is_tree() => self.cursor(record),
            4 => self.bound(record),
            5 => self.nodes(record),
            6 => self.command(record),
            7 => self.visit(record),
            8 => self.move_pairs(record),
            9 => self.place(record),
            10 => self.group(record),
            11 => self.both(record),
            13 => self.batch(record),
            _ => None,
        }
    }

    /// The words of a key.
    pub fn key(&self, number: u64) -> Vec<u64> {
        let mut words = Vec::with_capacity(3);
        self.kind.tell_key(number, &mut words);
        words
    }

    /// The words of a pair, or of a key if there are no values.
    pub fn pair(&self, (key, value): (u64, u64)) -> Vec<u64> {
        let mut words = self.key(key);
        if !self.kind.is_set() {
            words.push(value);
        }
        words
    }

    /// The words of a pair that may be absent.
    pub fn pair_if(&self, pair: Option<(u64, u64)>) -> Vec<u64> {
        crate::words::option(pair.map(|pair| self.pair(pair)))
    }

    /// The places of a group.
    pub fn places_of(&self, group: u64) -> (usize, usize) {
        let (first, end) = self.kind.keys_of(group);
        let from = self.here.rank(first);
        let to = end.map_or(self.here.len(), |end| self.here.rank(end));
        (from, to)
    }

    /// The index that a query is for: of an index, or of an index in the group of a number.
    pub fn found(&self, number: u64, index: u64) -> Option<usize> {
        let (from, to) = if self.kind.has_groups() {
            self.places_of(self.kind.group_of(number))
        } else {
            (0, self.here.len())
        };
        let index = usize::try_from(index).ok()?;
        if index < to - from {
            Some(from + index)
        } else {
            None
        }
    }

    /// The words of the rank of a key: the number of smaller keys, or its group with the number of
    /// these in it.
    pub fn rank(&self, key: u64) -> Vec<u64> {
        let rank = self.here.rank(key);
        if !self.kind.has_groups() {
            return vec![rank as u64];
        }
        let group = self.kind.group_of(key);
        let (from, _) = self.places_of(group);
        vec![1, group, (rank - from) as u64]
    }

    /// The summary of the keys from one index up to another.
    pub fn summary(&self, from: usize, to: usize) -> Vec<u64> {
        let keys = self.here.keys();
        let to = to.min(keys.len());
        summary_of(self.kind, &keys[from.min(to)..to])
    }
}

/// The summary of ascending keys: their number, or their groups with the sizes of the first and the
/// last.
pub fn summary_of(kind: Kind, keys: &[u64]) -> Vec<u64> {
    if !kind.has_queries() {
        return Vec::new();
    }
    if !kind.has_groups() {
        return vec![keys.len() as u64];
    }
    let mut groups: Vec<(u64, u64)> = Vec::new();
    for key in keys {
        let group = kind.group_of(*key);
        match groups.last_mut() {
            Some((last, size)) if *last == group => *size += 1,
            _ => groups.push((group, 1)),
        }
    }
    match (groups.first(), groups.last(), groups.len()) {
        (Some(one), _, 1) => vec![1, one.0, one.1],
        (Some(least), Some(greatest), many) => {
            vec![2, least.0, least.1, greatest.0, greatest.1, many as u64]
        }
        _ => vec![0],
    }
}
