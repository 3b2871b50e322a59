//! Lists of commands on trees: lists of one change each, and between them lists of five commands
//! that change nothing.

use super::Sort;
use crate::record::{call, calls, Record};
use crate::scenario::{quiet, swept, Scenario, Step};
use crate::words::mixed;

// A word that is drawn for a command: of its kind, of the number of a key, or of an index.
fn drawn(seed: u64, of: u64) -> u64 {
    mixed(mixed(0, seed), of)
}

/// How many pairs a loaded leaf has, and how many more it has room for.
const LOADED: u64 = 60;
const ROOM: u64 = 4;

/// How a tree is made, and what its lists do.
#[derive(Clone, Copy, PartialEq, Eq)]
enum Base {
    /// It has no pairs at first, and few later.
    Empty,
    /// It has two leaves, which are emptied and filled again.
    Low,
    /// Its height is 2 and all leaves but the last two are full, so that each takes no pair before it
    /// is split.
    Full,
    /// Its height is 2, its leaves are as short as they can be, and each node above them has one
    /// child more than it needs.
    Short,
}

/// A turn for which commands are drawn.
#[derive(Clone, Copy)]
struct Draw {
    base: Base,
    turn: u64,
}

fn push(kind: u64, b: u64, c: u64, d: u64) -> Record {
    call(6, 0, &[kind, b, c, d])
}

impl Base {
    fn many(self) -> u64 {
        match self {
            Base::Empty => 0,
            Base::Low => 100,
            Base::Full => 3905,
            Base::Short => 3960,
        }
    }

    fn lists(self) -> u64 {
        match self {
            Base::Empty => 400,
            Base::Low => 240,
            Base::Full => 70,
            Base::Short => 32,
        }
    }

    // Keys that are drawn are below it.
    fn bound(self) -> u64 {
        match self {
            Base::Empty | Base::Low => 400,
            Base::Full | Base::Short => 15_900,
        }
    }

    // Whether most changes of a turn put pairs.
    fn grows(self, turn: u64) -> bool {
        match self {
            Base::Empty => turn < 200,
            Base::Low => turn >= 120,
            Base::Full => true,
            Base::Short => false,
        }
    }

    // Whether the list of a turn has one change.
    fn is_change(self, turn: u64) -> bool {
        match self {
            Base::Empty => turn % 2 == 0,
            _ => turn % 8 < 7,
        }
    }

    // A key that most changes of a turn put or remove. If the leaves are many, it is of the leaf
    // whose turn it is.
    fn number_of(self, turn: u64) -> u64 {
        let word = drawn(turn, 1);
        let leaf = match self {
            Base::Empty | Base::Low => return word % 400,
            Base::Full => turn % 33,
            Base::Short => (turn * 6 + 1) % 30,
        };
        let place = leaf * LOADED + word % 16;
        let more = if self == Base::Full {
            1 + word / 16 % 3
        } else {
            0
        };
        place * 4 + more
    }

    // Each leaf of 60 pairs is filled: 3905 pairs have 64 such leaves, and the last two share 65 pairs.
    fn fill(self) -> Vec<Step> {
        if self != Base::Full {
            return Vec::new();
        }
        let place = |leaf: u64, more: u64| leaf * LOADED + 20 + more;
        let places = (0..self.many() / LOADED - 1)
            .flat_map(|leaf| (0..ROOM).map(move |more| place(leaf, more)));
        places
            .map(|place| quiet(calls::insert(place * 4 + 1, 0)))
            .collect()
    }

    // Of each leaf 16 pairs are kept; and then each second leaf is emptied, up to three of the 33
    // below each node.
    fn shorten(self) -> Vec<Step> {
        if self != Base::Short {
            return Vec::new();
        }
        let longer = (0..self.many()).filter(|place| place % LOADED >= 16);
        let second = (0..self.many()).filter(|place| {
            let leaf = place / LOADED % 33;
            place % LOADED < 16 && leaf < 30 && leaf % 2 == 0
        });
        let gone = longer.chain(second);
        gone.map(|place| quiet(calls::remove(place * 4))).collect()
    }
}

impl Draw {
    fn word(self) -> u64 {
        drawn(self.turn, 0)
    }

    fn key(self) -> u64 {
        drawn(self.turn, 1) % self.base.bound()
    }

    fn place(self) -> u64 {
        drawn(self.turn, 2) % 80
    }

    // A command that may change a tree: most put pairs while it grows, and most remove some later.
    fn change(self) -> Record {
        let word = self.word() % 64;
        if word < 42 || self.base == Base::Short && word < 56 {
            return self.near_change();
        }
        if word == 63 && self.base == Base::Empty {
            return push(3, 0, 0, 0);
        }
        match word % 16 {
            0..=4 => push(1, self.key(), 0, 0),
            5..=9 => push(2, self.key(), self.place(), 0),
            10 | 11 => push(5, self.key(), self.turn, 0),
            12 | 13 => push(6, self.key(), self.place(), self.turn),
            _ => push(0, self.key(), self.turn, 0),
        }
    }

    // One at a key that most changes of the turn put or remove.
    fn near_change(self) -> Record {
        let key = self.base.number_of(self.turn);
        if self.base.grows(self.turn) {
            push(0, key, self.turn, 0)
        } else if self.base != Base::Low {
            push(1, key, 0, 0)
        } else {
            push(2, self.key(), self.place(), 0)
        }
    }

    // A command that changes no tree.
    fn read(self) -> Record {
        let (key, place) = (self.key(), self.place());
        match self.word() % 9 {
            0 => push(4, key, 0, 0),
            1 => push(7, 0, 0, 0),
            2 => push(8, 0, 0, 0),
            3 => push(9, 0, 0, 0),
            4 => push(10, key, place, 0),
            5 => push(11, key, 0, 0),
            6 => push(20, key, 0, 1 << 48 | 1 << 56),
            7 => push(21, key, place, 3 << 40 | 1 << 56),
            _ => push(19, 0, 0, 2 | 2 << 56),
        }
    }

    // A command that holds a cursor.
    fn hold(self) -> Record {
        match self.word() % 4 {
            0 => push(13, 0, 0, 0),
            1 => push(14, 0, 0, 0),
            _ => push(12, self.key(), 0, 0),
        }
    }

    // A command on the cursor that is held.
    fn step(self) -> Record {
        match self.word() % 6 {
            0 => push(17, 0, 0, 0),
            1 => push(18, 0, 0, 0),
            2 | 3 => push(15, 0, 0, 0),
            _ => push(16, 0, 0, 0),
        }
    }

    // The commands of a turn: one change, or else commands that change no tree, with those on one
    // cursor.
    fn list(self) -> Vec<Record> {
        if self.base.is_change(self.turn) {
            return vec![self.change()];
        }
        let mut list = vec![self.hold()];
        for more in 1..3 {
            let other = Draw {
                turn: self.turn + more * 400,
                ..self
            };
            list.extend([other.read(), other.step()]);
        }
        list
    }
}

// Each command is pushed, and then all of its list are run.
fn commands(base: Base) -> Vec<Step> {
    let load = if base.many() > 0 {
        calls::load(base.many(), 3)
    } else {
        calls::new()
    };
    let mut steps = vec![quiet(load)];
    steps.extend(base.fill());
    steps.extend(base.shorten());
    for turn in 0..base.lists() {
        let list = Draw { base, turn }.list();
        steps.extend(list.iter().map(|record| swept(*record)));
        steps.push(swept(call(6, 1, &[])).with_again(list));
    }
    steps
}

pub fn all(sort: &Sort) -> Vec<Scenario> {
    let rows = [
        (", commands", Base::Empty, 1, 399),
        (", commands, low", Base::Low, 1, 399),
        (", commands upward", Base::Full, 4162, 4231),
        (", commands downward", Base::Short, 540, 580),
    ];
    let scenario = |(end, base, least, most): (&str, Base, usize, usize)| {
        let name = format!("{}{end}", sort.name);
        Scenario::new(&name, sort.tree, commands(base)).ending_within(least, most)
    };
    rows.into_iter().map(scenario).collect()
}
