//! A walk over the nodes of a tree: their depths, sizes, keys, links and summaries.

use crate::kind::Kind;
use crate::model::pairs::Pairs;
use crate::model::summary_of;
use crate::process::Process;
use crate::record::{call, calls, Record};
use crate::words::Reply;

/// The least keys of a node, but for the root's, and the most.
const LEAST: usize = 16;
const MOST: usize = 64;

/// The word for a leaf.
const LEAF: u64 = 2;

type Told<T> = Result<T, String>;

/// Words that are read from the front.
struct Words<'a> {
    words: &'a [u64],
    kind: Kind,
}

impl Words<'_> {
    fn word(&mut self) -> Told<u64> {
        let (first, rest) = self.words.split_first().ok_or("a word is missing")?;
        self.words = rest;
        Ok(*first)
    }

    fn number(&mut self) -> Told<usize> {
        usize::try_from(self.word()?).map_err(|error| error.to_string())
    }

    fn all(&mut self, many: usize) -> Told<Vec<u64>> {
        (0..many).map(|_| self.word()).collect()
    }

    fn key(&mut self) -> Told<u64> {
        let words = self.all(self.kind.key_words())?;
        Ok(self.kind.key_of(&words))
    }

    fn keys(&mut self, many: usize) -> Told<Vec<u64>> {
        (0..many).map(|_| self.key()).collect()
    }

    // A summary, as long as its kind makes it.
    fn summary(&mut self) -> Told<Vec<u64>> {
        if !self.kind.has_queries() {
            return Ok(Vec::new());
        }
        let mut words = vec![self.word()?];
        if self.kind.has_groups() {
            let more = match words[0] {
                0 => 0,
                1 => 2,
                _ => 5,
            };
            words.extend(self.all(more)?);
        }
        Ok(words)
    }

    fn number_if(&mut self) -> Told<Option<u64>> {
        match self.word()? {
            0 => Ok(None),
            _ => Ok(Some(self.word()?)),
        }
    }
}

/// A node's kind and number, and the bounds of its keys: the first is not above any, the second
/// above all.
#[derive(Clone, Copy, Debug)]
struct Place {
    kind: u64,
    number: u64,
    low: Option<u64>,
    high: Option<u64>,
}

impl Place {
    fn record(&self) -> Record {
        let member = if self.kind == LEAF { 4 } else { 5 };
        call(5, member, &[self.number])
    }

    // Whether it is the root, which alone has no bounds.
    fn is_root(&self) -> bool {
        self.low.is_none() && self.high.is_none()
    }

    fn check(&self, keys: &[u64], root_least: usize) -> Told<()> {
        let least = if self.is_root() { root_least } else { LEAST };
        let is_sized = least <= keys.len() && keys.len() <= MOST;
        let ascend = keys.windows(2).all(|two| two[0] < two[1]);
        let first = keys.first().copied();
        let is_above = self.low.is_none() || first.is_none() || self.low <= first;
        let is_below = self.high.is_none() || keys.last().copied() < self.high;
        if is_sized && ascend && is_above && is_below {
            Ok(())
        } else {
            Err(format!("{self:?} has the keys {keys:?}"))
        }
    }
}

// The keys without what takes no part in their order.
fn ordered(kind: Kind, keys: &[u64]) -> Vec<u64> {
    keys.iter().map(|key| key & kind.order_bits()).collect()
}

/// An inner node: its children, with their bounds, and the summary of each.
struct Inner {
    children: Vec<Place>,
    summaries: Vec<Vec<u64>>,
}

fn inner_of(kind: Kind, place: &Place, reply: &Reply) -> Told<Inner> {
    let mut words = Words {
        words: &reply.words,
        kind,
    };
    let is_there = words.word()? == 1 && place.kind != LEAF;
    let many = words.number()?;
    if !is_there || many == 0 {
        return Err(format!("{place:?} is no inner node with keys"));
    }
    let keys = ordered(kind, &words.keys(many)?);
    place.check(&keys, 1)?;
    let summaries = (0..=many).map(|_| words.summary()).collect::<Told<_>>()?;
    let mut children = Vec::new();
    for child in 0..=many {
        children.push(Place {
            kind: words.word()?,
            number: words.word()?,
            low: child.checked_sub(1).map(|at| keys[at]).or(place.low),
            high: keys.get(child).copied().or(place.high),
        });
    }
    Ok(Inner {
        children,
        summaries,
    })
}

/// A leaf: its pairs, and the numbers of the leaves beside it.
struct Leaf {
    pairs: Vec<(u64, u64)>,
    prev: Option<u64>,
    next: Option<u64>,
}

fn leaf_of(kind: Kind, place: &Place, reply: &Reply) -> Told<Leaf> {
    let mut words = Words {
        words: &reply.words,
        kind,
    };
    if words.word()? != 1 || place.kind != LEAF {
        return Err(format!("{place:?} is no leaf"));
    }
    let many = words.number()?;
    let keys = words.keys(many)?;
    place.check(&ordered(kind, &keys), 0)?;
    let values = if kind.is_set() {
        vec![0; many]
    } else {
        words.all(many)?
    };
    Ok(Leaf {
        pairs: keys.into_iter().zip(values).collect(),
        prev: words.number_if()?,
        next: words.number_if()?,
    })
}

fn ask(process: &mut Process, places: &[Place]) -> Told<Vec<Reply>> {
    let records: Vec<Record> = places.iter().map(Place::record).collect();
    let replies = process.ask(&records);
    replies.map_err(|error| format!("the program does not reply: {error}"))
}

// The leaves are linked in their order, in both directions.
fn are_linked(places: &[Place], leaves: &[Leaf]) -> Told<()> {
    let mut before = None;
    let mut behind = places.first().map(|place| place.number);
    for (place, leaf) in places.iter().zip(leaves) {
        let number = Some(place.number);
        if leaf.prev != before || behind != number {
            return Err(format!("the leaf {} has wrong links", place.number));
        }
        before = number;
        behind = leaf.next;
    }
    match behind {
        None => Ok(()),
        Some(number) => Err(format!("the leaf {number} is behind the last one")),
    }
}

/// The nodes of a tree that was walked over.
#[derive(Clone, Debug, Default)]
pub struct Nodes {
    /// The pairs of each leaf, in order.
    pub leaves: Vec<Vec<(u64, u64)>>,
    /// How many children each inner node of a level has, the root's level first.
    pub children: Vec<Vec<usize>>,
    /// The numbers of leaves, and of inner nodes.
    pub leaf_numbers: Vec<u64>,
    pub inner_numbers: Vec<u64>,
}

/// The nodes of a tree, if they have the right depths, sizes, bounds, links and summaries, and these
/// pairs.
pub fn check(process: &mut Process, kind: Kind, pairs: &Pairs) -> Told<Nodes> {
    let state = process.ask_one(calls::state());
    let state = state.map_err(|error| format!("the program does not reply: {error}"))?;
    let mut words = Words {
        words: &state.words,
        kind,
    };
    let (len, height) = (words.number()?, words.number()?);
    let root = Place {
        kind: words.word()?,
        number: words.word()?,
        low: None,
        high: None,
    };
    words.all(8)?;
    let summary = words.summary()?;
    let (mut places, mut levels) = (vec![root], Vec::new());
    let mut nodes = Nodes::default();
    for _ in 0..height {
        nodes
            .inner_numbers
            .extend(places.iter().map(|place| place.number));
        let replies = ask(process, &places)?;
        let both = places.iter().zip(&replies);
        let level = both.map(|(place, reply)| inner_of(kind, place, reply));
        let level = level.collect::<Told<Vec<Inner>>>()?;
        let children = level.iter().map(|node| node.children.len());
        nodes.children.push(children.collect());
        places = level
            .iter()
            .flat_map(|node| node.children.clone())
            .collect();
        levels.push(level);
    }
    let replies = ask(process, &places)?;
    let both = places.iter().zip(&replies);
    let leaves = both.map(|(place, reply)| leaf_of(kind, place, reply));
    let leaves = leaves.collect::<Told<Vec<Leaf>>>()?;
    are_linked(&places, &leaves)?;
    if len != pairs.len() || summary != summary_of(kind, pairs.keys()) {
        return Err(format!(
            "the length is {len}, the root's summary {summary:?}"
        ));
    }
    let all: Vec<(u64, u64)> = leaves.iter().flat_map(|leaf| leaf.pairs.clone()).collect();
    if all != pairs.all() {
        return Err("the leaves have other pairs".to_string());
    }
    let ends = leaves.iter().map(|leaf| leaf.pairs.len()).collect();
    are_summed(kind, pairs.keys(), ends, &levels)?;
    nodes.leaf_numbers = places.iter().map(|place| place.number).collect();
    nodes.leaves = leaves.into_iter().map(|leaf| leaf.pairs).collect();
    Ok(nodes)
}

// Each inner node has the summary of the keys below each of its children, by how many keys each of
// the leaves has.
fn are_summed(kind: Kind, keys: &[u64], leaves: Vec<usize>, levels: &[Vec<Inner>]) -> Told<()> {
    let mut below = leaves;
    for level in levels.iter().rev() {
        let (mut lengths, mut from) = (Vec::new(), 0);
        let mut rest = below.iter();
        for node in level {
            let start = from;
            for summary in &node.summaries {
                let to = from + rest.next().copied().unwrap_or(0);
                if *summary != summary_of(kind, &keys[from..to]) {
                    return Err(format!(
                        "the summary of the keys {from} to {to} is {summary:?}"
                    ));
                }
                from = to;
            }
            lengths.push(from - start);
        }
        below = lengths;
    }
    Ok(())
}
