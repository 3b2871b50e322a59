//! Shapes of trees that are loaded, grow and shrink, which follow from how many pairs a leaf takes;
//! what is counted of them; and the numbers of their nodes.

use super::places::of_empty;
use super::{put, refill, take};
use crate::fixed::{check, Case, Outcome, Talk};
use crate::kind::{Kind, COUNTED};
use crate::nodes::Nodes;
use crate::record::{call, calls, Record};

/// All kinds of trees, and then those of maps and sets.
const TREES: [u64; 8] = [0, 1, 2, 3, 9, 10, 17, COUNTED];
const OTHERS: [u64; 6] = [4, 5, 6, 7, 8, 16];

pub fn all() -> Vec<Case> {
    let mut all = Vec::new();
    for kind in TREES {
        let name = |what: &str| format!("{what}, {}", Kind(kind).name());
        all.push(Case::new(&name("leaves that grow and shrink"), kind, rows));
        all.push(Case::new(&name("what is rebalanced"), kind, rebalanced));
        all.push(Case::new(&name("cleared as new"), kind, as_new));
        // The program has no pops for trees of counted numbers.
        if kind != COUNTED {
            all.push(Case::new(&name("what pops rebalance"), kind, popped));
        }
    }
    for kind in TREES.into_iter().chain(OTHERS) {
        let name = format!("loaded nodes, {}", Kind(kind).name());
        all.push(Case::new(&name, kind, loaded));
    }
    all.push(Case::new("few numbers for many pairs", 0, few_numbers));
    all
}

/// The first key of a leaf, its last one, and how many it has.
type Ends = (u64, u64, usize);

/// Whether the keys from one on are put or leave, up to another, that one not included. Then how
/// many pairs, how many levels of inner nodes and which leaves there are. The tree is cleared before
/// keys are put from 0 on.
type Row = (bool, u64, u64, usize, u64, &'static [Ends]);

/// A full leaf keeps 32 of its pairs, and the new one has the others. A leaf in the middle that
/// underflows takes from the one behind it, or if that has fewer than the one before it, from
/// the latter. The first of two leaves loses pairs in place, then the other one gives, and with 16 in
/// each they merge.
const ROWS: [Row; 12] = [
    (true, 0, 64, 64, 0, &[(0, 63, 64)]),
    (true, 64, 65, 65, 1, &[(0, 31, 32), (32, 64, 33)]),
    (
        true,
        65,
        97,
        97,
        1,
        &[(0, 31, 32), (32, 63, 32), (64, 96, 33)],
    ),
    (
        false,
        32,
        48,
        81,
        1,
        &[(0, 31, 32), (48, 63, 16), (64, 96, 33)],
    ),
    (
        false,
        48,
        49,
        80,
        1,
        &[(0, 31, 32), (49, 64, 16), (65, 96, 32)],
    ),
    (
        false,
        49,
        50,
        79,
        1,
        &[(0, 31, 32), (50, 65, 16), (66, 96, 31)],
    ),
    (
        false,
        50,
        51,
        78,
        1,
        &[(0, 30, 31), (31, 65, 16), (66, 96, 31)],
    ),
    (true, 0, 65, 65, 1, &[(0, 31, 32), (32, 64, 33)]),
    (false, 0, 16, 49, 1, &[(16, 31, 16), (32, 64, 33)]),
    (false, 16, 17, 48, 1, &[(17, 32, 16), (33, 64, 32)]),
    (false, 17, 33, 32, 1, &[(33, 48, 16), (49, 64, 16)]),
    (false, 33, 34, 31, 0, &[(34, 64, 31)]),
];

fn change(is_put: bool, first: u64, end: u64) -> Vec<Record> {
    match (is_put, first) {
        (false, _) => take(first..end),
        (true, 0) => refill(first..end),
        (true, _) => put(first..end),
    }
}

fn ends_of(nodes: &Nodes) -> Vec<Ends> {
    let ends = |leaf: &Vec<(u64, u64)>| match (leaf.first(), leaf.last()) {
        (Some(first), Some(last)) => (first.0, last.0, leaf.len()),
        _ => (0, 0, 0),
    };
    nodes.leaves.iter().map(ends).collect()
}

// The tree has so many pairs and counts as many, and has so many levels of inner nodes, as a visitor
// finds too on its way to the first leaf.
fn measures(talk: &mut Talk, len: usize, height: u64, first_leaf: usize) -> Outcome {
    talk.has(calls::height(), &[len as u64, u64::from(len == 0), height])?;
    if talk.model.kind.has_queries() {
        talk.ask(&[call(1, 8, &[])])?;
        talk.has(calls::visit(0), &[0, 1, first_leaf as u64, height])?;
    }
    Ok(())
}

fn rows(talk: &mut Talk) -> Outcome {
    for (is_put, first, end, len, height, leaves) in ROWS {
        talk.ask(&change(is_put, first, end))?;
        measures(talk, len, height, leaves[0].2)?;
        let ends = ends_of(&talk.nodes()?);
        check(ends == leaves, || {
            format!("{first} to {end}: the leaves are {ends:?}")
        })?;
    }
    Ok(())
}

/// How many pairs there are and how many equal keys follow each first one. Then come the number of
/// leaves of 60 pairs, the sizes of the others, and how many children the nodes below the root have.
/// If these are not named, there are no inner nodes below the root.
type Load = (u64, u64, usize, &'static [usize], &'static [usize]);

const LOADS: [Load; 10] = [
    (0, 0, 0, &[0], &[]),
    (8, 1, 0, &[4], &[]),
    (64, 0, 0, &[64], &[]),
    (65, 0, 0, &[33, 32], &[]),
    (75, 0, 0, &[38, 37], &[]),
    (76, 0, 1, &[16], &[]),
    (10_000, 0, 166, &[40], &[65, 65, 37]),
    (3905, 0, 64, &[33, 32], &[33, 33]),
    (4860, 0, 81, &[], &[41, 40]),
    (4920, 0, 82, &[], &[65, 17]),
];

// Each leaf has 60 pairs, but for the last one or two, and inner nodes are as full as they can be. Of
// equal keys the last pair is kept.
fn loaded(talk: &mut Talk) -> Outcome {
    for (many, more, full, last, below) in LOADS {
        if more > 0 && !talk.model.kind.is_counted() {
            continue;
        }
        talk.ask(&[calls::load(many, more), calls::iter()])?;
        let nodes = talk.nodes()?;
        let mut lengths = vec![60; full];
        lengths.extend(last);
        let found: Vec<usize> = nodes.leaves.iter().map(Vec::len).collect();
        check(found == lengths, || {
            format!("{many} loaded: the leaves have {found:?}")
        })?;
        let inners = match nodes.children.len() {
            0 | 1 => Vec::new(),
            2 => nodes.children[1].clone(),
            height => return Err(format!("{many} loaded: height {height}")),
        };
        check(inners == below, || {
            format!("{many} loaded: the inner nodes have {inners:?}")
        })?;
    }
    Ok(())
}

// What was counted of inner nodes and then of leaves: rotations to the right and to the left, merges
// with the left and with the right.
fn statistic(talk: &mut Talk) -> Result<Vec<u64>, String> {
    Ok(talk.words(calls::shape())?[3..].to_vec())
}

// Of 65 pairs the first leaf has 32 and the other 33: from the front 17 are rotated before the two
// merge, and from the end 16. The numbers of 2,200 pairs, in 68 leaves below two inner nodes, are
// those of a model that keeps the sizes of nodes alone.
fn rebalanced(talk: &mut Talk) -> Outcome {
    let rows: [(u64, bool, [u64; 8]); 4] = [
        (65, true, [0, 0, 0, 0, 0, 17, 0, 1]),
        (65, false, [0, 0, 0, 0, 16, 0, 1, 0]),
        (2200, true, [0, 18, 0, 1, 0, 1096, 0, 67]),
        (2200, false, [16, 0, 1, 0, 1072, 0, 67, 0]),
    ];
    for (len, is_upward, wanted) in rows {
        talk.ask(&refill(0..len))?;
        let none = statistic(talk)?;
        check(none == [0; 8], || format!("{len} are put: {none:?}"))?;
        let mut gone = take(0..len);
        if !is_upward {
            gone.reverse();
        }
        talk.ask(&gone)?;
        let found = statistic(talk)?;
        check(found == wanted, || format!("{len} leave: {found:?}"))?;
    }
    Ok(())
}

// A load of 120 pairs makes two leaves of 60. The 45th pop makes the leaf at that end underflow. The
// other leaf has too many pairs to merge, and gives 22, so that they have 37 and 38. The 67th pop
// makes the two merge.
fn popped(talk: &mut Talk) -> Outcome {
    let rows = [
        (calls::pop_first(), [0, 0, 0, 0, 0, 1, 0, 1]),
        (calls::pop_last(), [0, 0, 0, 0, 1, 0, 1, 0]),
    ];
    for (pop, wanted) in rows {
        talk.ask(&[calls::load(120, 0)])?;
        let none = statistic(talk)?;
        check(none == [0; 8], || format!("120 are loaded: {none:?}"))?;
        talk.ask(&[pop; 66])?;
        let given = statistic(talk)?;
        check(given[6..] == [0, 0] && given[4..6] == wanted[4..6], || {
            format!("66 of 120 are popped: {given:?}")
        })?;
        talk.ask(&[pop; 54])?;
        let found = statistic(talk)?;
        check(found == wanted, || format!("120 are popped: {found:?}"))?;
    }
    Ok(())
}

// A tree that changed and is cleared is as a new one, with no node but a leaf, and no counts.
fn as_new(talk: &mut Talk) -> Outcome {
    talk.ask(&refill(0..200))?;
    talk.ask(&take(0..40))?;
    let found = statistic(talk)?;
    check(found != [0; 8], || "nothing was rebalanced".to_string())?;
    talk.ask(&[calls::clear()])?;
    talk.has(calls::shape(), &[0, 1, 0, 0, 0, 0, 0, 0, 0, 0, 0])?;
    talk.nodes()?;
    if talk.model.kind.has_queries() {
        let mut rows = of_empty();
        // If there are groups, a rank is of a group, and so is a summary.
        if talk.model.kind.has_groups() {
            rows.retain(|(record, _)| record.call != call(1, 7, &[]).call);
        }
        talk.has_all(&rows)?;
    }
    Ok(())
}

// 100,000 keys come in order, and each leaves once 1,000 others have come. Each node id is
// less than the most nodes of its kind that there were at a time.
fn few_numbers(talk: &mut Talk) -> Outcome {
    talk.ask(&refill(0..1000))?;
    let (mut most_leaves, mut most_inners) = (0, 0);
    for thousand in 1..100 {
        let mut records = Vec::new();
        for key in thousand * 1000..(thousand + 1) * 1000 {
            records.extend(put(key..key + 1));
            records.push(calls::shape());
            records.push(calls::remove(key - 1000));
        }
        for reply in talk.ask(&records)?.iter().skip(1).step_by(3) {
            most_leaves = most_leaves.max(reply.word(1));
            most_inners = most_inners.max(reply.word(2));
        }
    }
    talk.has(calls::height(), &[1000, 0, 1])?;
    let nodes = talk.nodes()?;
    for (numbers, most) in [
        (nodes.leaf_numbers, most_leaves),
        (nodes.inner_numbers, most_inners),
    ] {
        check(numbers.iter().all(|number| *number < most), || {
            format!("of at most {most} nodes there are the numbers {numbers:?}")
        })?;
    }
    Ok(())
}
