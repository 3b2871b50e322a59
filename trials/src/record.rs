//! Calls as the program bptree_trials reads them.

/// The bytes of a record.
pub const RECORD: usize = 40;

/// The most bytes that are written at once.
pub const CHUNK: usize = 4_000;

/// A call and its arguments.
#[derive(Clone, Copy, Debug, PartialEq, Eq)]
pub struct Record {
    pub call: u64,
    pub a: u64,
    pub b: u64,
    pub c: u64,
    pub d: u64,
}

/// A call of a family, with its arguments. Those that are not given are 0.
pub fn call(family: u64, member: u64, arguments: &[u64]) -> Record {
    let at = |place: usize| arguments.get(place).copied().unwrap_or(0);
    Record {
        call: 16 * family + member,
        a: at(0),
        b: at(1),
        c: at(2),
        d: at(3),
    }
}

impl Record {
    pub fn family(&self) -> u64 {
        self.call / 16
    }

    /// Whether the reply depends on how the nodes are cut: a look at nodes, a visit, or what keys and
    /// values count. The models have results for all other calls.
    pub fn is_of_nodes(&self) -> bool {
        matches!(self.family(), 5 | 7 | 12)
    }

    pub fn member(&self) -> u64 {
        self.call % 16
    }

    /// The bytes that are sent.
    pub fn write(&self, to: &mut Vec<u8>) {
        for number in [self.call, self.a, self.b, self.c, self.d] {
            to.extend_from_slice(&number.to_le_bytes());
        }
    }
}

/// There is a lower key.
pub const LOWER: u64 = 1;
/// There is an upper key.
pub const UPPER: u64 = 2;
/// The lower key is not in.
pub const LOWER_OUT: u64 = 4;
/// The upper key is in.
pub const UPPER_IN: u64 = 8;

/// The word for a walk: its steps and the bits of its bounds.
pub fn steps(many: u64, bounds: u64) -> u64 {
    many << 8 | bounds
}

/// The steps of a walk that come from the back: all, and each second one.
pub const BACKWARD: u64 = u64::MAX;
pub const IN_TURN: u64 = 0xaaaa_aaaa_aaaa_aaaa;

/// Frequent calls.
pub mod calls {
    use super::{call, steps, Record};

    pub fn insert(key: u64, value: u64) -> Record {
        call(0, 0, &[key, value])
    }

    pub fn remove(key: u64) -> Record {
        call(0, 1, &[key])
    }

    pub fn remove_entry(key: u64) -> Record {
        call(0, 2, &[key])
    }

    pub fn pop_first() -> Record {
        call(0, 3, &[])
    }

    pub fn pop_last() -> Record {
        call(0, 4, &[])
    }

    pub fn clear() -> Record {
        call(0, 5, &[])
    }

    pub fn height() -> Record {
        call(1, 5, &[])
    }

    pub fn new() -> Record {
        call(3, 4, &[])
    }

    pub fn swap() -> Record {
        call(3, 1, &[])
    }

    /// Loads or gathers the pairs of the first turns, in an order.
    pub fn load(many: u64, order: u64) -> Record {
        call(3, 2, &[many, order])
    }

    pub fn state() -> Record {
        call(5, 0, &[])
    }

    pub fn shape() -> Record {
        call(5, 1, &[])
    }

    pub fn is_tidy() -> Record {
        call(5, 2, &[])
    }

    pub fn iter() -> Record {
        call(2, 0, &[])
    }

    /// All pairs, so many of them from an end, or from both ends in turn.
    pub fn iter_from(ends: u64, many: u64) -> Record {
        call(2, 0, &[0, 0, ends, steps(many, 0)])
    }

    /// A visitor that goes down to the child at an index of each node.
    pub fn visit(index: u64) -> Record {
        call(7, 0, &[0, index])
    }
}
