//! Cursors on trees that change, and on others than the one that they came from.

use super::{put, refill, take, value_of};
use crate::fixed::{check, Case, Outcome, Talk};
use crate::record::{call, calls, Record};
use crate::words::{number, option};

pub fn all() -> Vec<Case> {
    vec![
        Case::new("cursors between their neighbours", 0, neighbours),
        Case::new("the first and the last cursor", 0, ends),
        Case::new("two cursors", 0, two),
        Case::new("a node id that is used again", 0, reused_id),
    ]
}

/// A cursor: the calls that make it and change the tree, its key, whether that is there, and the
/// keys beside it.
struct Held {
    made: Vec<Record>,
    key: u64,
    is_there: bool,
    before: Option<u64>,
    after: Option<u64>,
}

fn hold(key: u64) -> Record {
    call(4, 2, &[key])
}

fn join(parts: &[Vec<Record>]) -> Vec<Record> {
    parts.concat()
}

// A tree of the keys below 30, and another one of 5 and 20.
fn two_trees() -> Vec<Record> {
    let other = vec![calls::swap(), calls::insert(5, value_of(5))];
    let more = vec![calls::insert(20, value_of(20)), calls::swap()];
    join(&[put(0..30), other, more])
}

impl Held {
    fn new(parts: &[Vec<Record>], key: u64, beside: (Option<u64>, bool, Option<u64>)) -> Held {
        let (before, is_there, after) = beside;
        Held {
            made: join(parts),
            key,
            is_there,
            before,
            after,
        }
    }

    // The calls that read the tree at the cursor, with their replies. A step moves the cursor, so all
    // calls that made it are made again before each of these.
    fn questions(&self) -> Vec<(Record, Vec<u64>)> {
        let here = self.is_there.then(|| value_of(self.key));
        let key = |key: Option<u64>| number(key);
        let pair = |key: Option<u64>| option(key.map(|key| vec![key, value_of(key)]));
        vec![
            (call(4, 7, &[]), vec![u64::from(self.is_there)]),
            (call(4, 8, &[]), number(here)),
            (call(4, 6, &[]), key(self.before)),
            (call(4, 5, &[]), key(self.after)),
            (call(4, 11, &[]), pair(self.before)),
            (call(4, 10, &[]), pair(self.after)),
        ]
    }
}

// Cursors at 10 and at a key past the end depend on these keys alone: once 10 is removed, and on
// another tree, which is cleared at last. So does a cursor at the first key once that is removed.
fn on_changed_trees() -> Vec<Held> {
    let (ten, gone) = (vec![hold(10)], vec![calls::remove(10)]);
    let (swap, clear) = (vec![calls::swap()], vec![calls::clear()]);
    let first = vec![call(4, 0, &[])];
    let both = two_trees();
    vec![
        Held::new(&[both.clone(), ten.clone()], 10, (Some(9), true, Some(11))),
        Held::new(
            &[both.clone(), ten.clone(), gone.clone()],
            10,
            (Some(9), false, Some(11)),
        ),
        Held::new(
            &[both.clone(), vec![hold(70)], gone.clone()],
            70,
            (Some(29), false, None),
        ),
        Held::new(
            &[both.clone(), ten.clone(), gone.clone(), swap.clone()],
            10,
            (Some(5), false, Some(20)),
        ),
        Held::new(&[both, ten, gone, swap, clear], 10, (None, false, None)),
        Held::new(&[put(0..100), first, take(0..1)], 0, (None, false, Some(1))),
    ]
}

// A cursor stays at its key while a merge moves that to the leaf before, while a split moves it, and
// once the key is removed. The last cursor is at a key that was rotated to the leaf before.
fn on_changed_leaves() -> Vec<Held> {
    let at_40 = join(&[put(0..65), vec![hold(40)]]);
    let merged = take(0..34);
    let split = put(65..99);
    vec![
        Held::new(
            &[at_40.clone(), merged.clone()],
            40,
            (Some(39), true, Some(41)),
        ),
        Held::new(
            &[at_40.clone(), merged.clone(), split.clone()],
            40,
            (Some(39), true, Some(41)),
        ),
        Held::new(
            &[at_40, merged, split, take(40..41)],
            40,
            (Some(39), false, Some(41)),
        ),
        Held::new(
            &[put(0..65), take(0..17), vec![hold(31)]],
            31,
            (Some(30), true, Some(32)),
        ),
    ]
}

fn neighbours(talk: &mut Talk) -> Outcome {
    let anew = [calls::new(), calls::swap(), calls::new(), call(4, 13, &[])];
    for held in on_changed_trees().into_iter().chain(on_changed_leaves()) {
        for (question, words) in held.questions() {
            talk.ask(&anew)?;
            talk.ask(&held.made)?;
            talk.has(question, &words)?;
        }
    }
    Ok(())
}

// Cursors on the first pair and on the last, and ranks of keys that go to another leaf.
fn ends(talk: &mut Talk) -> Outcome {
    talk.ask(&refill(0..100))?;
    let rows = [
        (call(4, 12, &[]), vec![1, 0, 10_000]),
        (call(4, 1, &[]), vec![1, 99, 10_099]),
        (hold(10), vec![1, 10, 1, 10_010]),
        (hold(170), vec![1, 170, 0]),
    ];
    talk.has_all(&rows)?;
    talk.ask(&refill(0..65))?;
    talk.has(call(1, 7, &[64]), &[1, 64])?;
    talk.ask(&take(0..17))?;
    talk.has(call(1, 7, &[32]), &[1, 15])
}

// Two cursors at the first key move independently, while that is removed and inserted again with
// another value: a cursor and its clone, and then two of a list of commands.
fn two(talk: &mut Talk) -> Outcome {
    talk.ask(&refill(0..100))?;
    let rows = [
        (call(4, 0, &[]), vec![1, 0]),
        (call(4, 14, &[]), vec![1, 0]),
        (calls::remove(0), vec![1, 10_000]),
        (call(4, 7, &[]), vec![0]),
        (calls::insert(0, 100), vec![0]),
        (call(4, 8, &[]), vec![1, 100]),
        (call(4, 7, &[]), vec![1]),
        (calls::insert(0, 10_000), vec![1, 100]),
    ];
    talk.has_all(&rows)?;
    let commands: [([u64; 4], &[u64]); 11] = [
        ([13, 0, 0, 0], &[7, 0, 1, 10_000]),
        ([13, 0, 0, 0], &[7, 1, 1, 10_000]),
        ([1, 0, 0, 0], &[1, 1, 10_000]),
        ([17, 0, 0, 0], &[4, 0]),
        ([16, 0, 0, 0], &[2, 0]),
        ([15, 0, 0, 0], &[2, 1, 1, 10_001]),
        ([0, 0, 100, 0], &[1, 0]),
        ([18, 1, 0, 0], &[1, 1, 100]),
        ([17, 1, 0, 0], &[4, 1]),
        ([16, 0, 0, 0], &[2, 1, 0, 100]),
        ([17, 0, 0, 0], &[4, 1]),
    ];
    let pushed = commands.map(|(row, _)| call(6, 0, &row));
    talk.ask(&pushed)?;
    talk.has(call(6, 1, &[]), &commands.map(|(_, words)| words).concat())
}

// The keys of the leaf with an id, if there is one.
fn keys_of_leaf(talk: &mut Talk, leaf: u64) -> Result<Option<Vec<u64>>, String> {
    let words = talk.words(call(5, 4, &[leaf]))?;
    if words[0] == 0 {
        return Ok(None);
    }
    Ok(Some(words[2..2 + words[1] as usize].to_vec()))
}

// Of 65 pairs the leaf with the id 1 has the key 40. Once the keys below 34 are removed, all pairs
// are in the leaf with the id 0. Another 34 pairs split that leaf, and the id 1 is used again for
// the leaf with the greater keys.
fn reused_id(talk: &mut Talk) -> Outcome {
    let rows: [(Vec<Record>, Option<Vec<u64>>); 3] = [
        (refill(0..65), Some((32..65).collect())),
        (take(0..34), None),
        (put(65..99), Some((66..99).collect())),
    ];
    for (records, wanted) in rows {
        talk.ask(&records)?;
        let keys = keys_of_leaf(talk, 1)?;
        check(keys == wanted, || {
            format!("leaf 1 has the keys {keys:?} in place of {wanted:?}")
        })?;
    }
    Ok(())
}
