//! The sizes of the nodes of a tree, and what a call does to them.

use crate::words::Reply;

/// The number of nodes of leaves, or of inner nodes, and how often they were rotated and merged.
#[derive(Clone, Copy, Debug, Default)]
struct Level {
    nodes: u64,
    rotated: u64,
    merged: u64,
}

/// The height of a tree, with the report of its leaves and of its inner nodes.
#[derive(Clone, Copy, Debug, Default)]
pub struct Shape {
    pub height: u64,
    leaves: Level,
    inners: Level,
}

impl Shape {
    /// What a reply says.
    pub fn of(reply: &Reply) -> Shape {
        let level = |nodes: usize, rotated: usize, merged: usize| Level {
            nodes: reply.word(nodes),
            rotated: reply.word(rotated) + reply.word(rotated + 1),
            merged: reply.word(merged) + reply.word(merged + 1),
        };
        Shape {
            height: reply.word(0),
            leaves: level(1, 7, 9),
            inners: level(2, 3, 5),
        }
    }
}

/// What must have been met.
pub const WANTED: [&str; 14] = [
    "height 0",
    "height 1",
    "height 2",
    "height 3",
    "leaf split",
    "leaf rotation",
    "leaf merge",
    "inner split",
    "inner rotation",
    "inner merge",
    "new root",
    "root away",
    "height 3, inner rotation",
    "height 3, inner merge",
];

// What a call does to the nodes of a level.
fn change_of(before: Level, after: Level, is_split: bool) -> Option<&'static str> {
    if after.merged > before.merged {
        Some("merge")
    } else if after.rotated > before.rotated {
        Some("rotation")
    } else if is_split {
        Some("split")
    } else {
        None
    }
}

/// Which of `WANTED` a call meets, by the shapes before and after it.
pub fn met(before: &Shape, after: &Shape) -> Vec<&'static str> {
    let height = format!("height {}", before.height);
    let mut words = vec![height.clone()];
    let is_leaf_split = after.leaves.nodes > before.leaves.nodes;
    if let Some(change) = change_of(before.leaves, after.leaves, is_leaf_split) {
        words.push(format!("leaf {change}"));
    }
    let more = after.inners.nodes > before.inners.nodes;
    let is_alone = more && after.height == before.height;
    let is_inner_split = after.inners.nodes > before.inners.nodes + 1 || is_alone;
    if let Some(change) = change_of(before.inners, after.inners, is_inner_split) {
        words.push(format!("inner {change}"));
        words.push(format!("{height}, inner {change}"));
    }
    if after.height < before.height {
        words.push("root away".to_string());
    } else if after.height > before.height {
        words.push("new root".to_string());
    }
    let is_met = |wanted: &&str| words.iter().any(|word| word == wanted);
    WANTED.iter().copied().filter(|word| is_met(word)).collect()
}
