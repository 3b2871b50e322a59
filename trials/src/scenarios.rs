//! All scenarios.

mod commands;
mod everywhere;
mod maps;
mod parts;
mod sets;
mod trees;

use crate::answers;
use crate::scenario::Scenario;

/// The kinds of subjects of scenarios that are carried out on keys of two sorts.
#[derive(Clone, Copy)]
pub struct Sort {
    pub tree: u64,
    pub map: u64,
    /// Maps with counts.
    pub counted: u64,
    pub set: u64,
    pub shards: u64,
    /// Trees without summaries.
    pub plain: u64,
    pub store: u64,
    /// What keys with summaries are called, keys alone, and keys of maps with counts.
    pub name: &'static str,
    pub keys: &'static str,
    pub counted_keys: &'static str,
}

/// Keys that take no memory, with counts.
const NUMBERS: Sort = Sort {
    tree: 0,
    map: 4,
    counted: 4,
    set: 7,
    shards: 11,
    plain: 9,
    store: 13,
    name: "numbers",
    keys: "numbers",
    counted_keys: "numbers",
};

/// Keys that take memory, with groups.
const GROUPS: Sort = Sort {
    tree: 2,
    map: 6,
    counted: 5,
    set: 16,
    shards: 18,
    plain: 17,
    store: 14,
    name: "groups",
    keys: "pairs",
    counted_keys: "texts",
};

impl Sort {
    fn takes_memory(&self) -> bool {
        self.tree != NUMBERS.tree
    }

    /// The end of a name of calls that take no memory but for the keys that they are given.
    fn quiet(&self) -> &'static str {
        if self.takes_memory() {
            ", memory for keys alone"
        } else {
            ", without memory"
        }
    }
}

impl Sort {
    /// The same of summaries: those of groups take memory.
    fn quiet_summary(&self) -> &'static str {
        if self.takes_memory() {
            ""
        } else {
            ", without memory"
        }
    }
}

/// All scenarios, the longest first.
pub fn all() -> Vec<Scenario> {
    let mut all = Vec::new();
    for sort in [NUMBERS, GROUPS] {
        all.extend(trees::all(&sort));
        all.extend(commands::all(&sort));
        all.extend(maps::all(&sort));
        all.extend(sets::all(&sort));
        all.extend(parts::all(&sort));
    }
    all.extend(parts::owned());
    all.extend(trees::counted());
    all.extend(everywhere::all());
    all.extend(answers::scenarios());
    all
}
