//! Trees of keys and values that count: the comparisons of look-ups, and what is dropped.

use crate::fixed::{check, Case, Outcome, Talk};
use crate::kind::COUNTED;
use crate::record::{call, calls, Record};

pub fn all() -> Vec<Case> {
    vec![
        Case::new("comparisons of look-ups", COUNTED, comparisons),
        Case::new("each value is dropped once", COUNTED, dropped),
        Case::new("pairs that are moved out", COUNTED, handed_over),
        Case::new("equal keys are dropped", COUNTED, equal_keys),
    ]
}

/// Returns how many comparisons were made, how many values were dropped, and how many keys and
/// values are left, plus one. Resets the first two.
fn counts() -> Record {
    call(12, 0, &[])
}

// The value of a key in a tree that is loaded.
fn value_of(key: u64) -> u64 {
    key * 10
}

// Each key of a tree and the next after them is looked up, upward or downward. A look-up finds what
// is there, returns as many comparisons as the keys counted, and all three look-ups make no more
// than so many.
fn are_looked_up(talk: &mut Talk, (len, most): (u64, u64), is_upward: bool) -> Outcome {
    for turn in 0..=len {
        let key = if is_upward { turn } else { len - turn };
        let records = [
            counts(),
            call(1, 1, &[key]),
            counts(),
            call(1, 0, &[key]),
            counts(),
            call(0, 7, &[key, value_of(key)]),
            counts(),
        ];
        let replies = talk.ask(&records)?;
        let found = if key < len {
            vec![1, value_of(key)]
        } else {
            vec![0]
        };
        let counted = [2, 4, 6].map(|place: usize| replies[place].word(0));
        let mut returned = found.clone();
        returned.push(counted[0]);
        let is_well = replies[1].has(&returned) && replies[3].has(&found) && replies[5].has(&found);
        check(is_well && counted.iter().all(|many| *many <= most), || {
            format!("{counted:?} comparisons at {key}: {:?}", replies[1].words)
        })?;
    }
    Ok(())
}

// An empty tree compares nothing. One of 10,000 pairs has three levels, with 7 comparisons each, and
// 2 are made of the remembered leaf.
fn comparisons(talk: &mut Talk) -> Outcome {
    for (len, most) in [(0, 0), (10_000, 23)] {
        talk.ask(&[calls::load(len, 0)])?;
        are_looked_up(talk, (len, most), true)?;
        are_looked_up(talk, (len, most), false)?;
    }
    Ok(())
}

// So many values were dropped since they were counted before.
fn are_dropped(talk: &mut Talk, many: u64) -> Outcome {
    let words = talk.words(counts())?;
    check(words[1] == many, || {
        format!("{} values are dropped in place of {many}", words[1])
    })
}

// The same, and no key and no value is left.
fn are_gone(talk: &mut Talk, many: u64) -> Outcome {
    let words = talk.words(counts())?;
    check(words[1..] == [many, 1], || {
        format!("{:?} in place of {many} and 1", &words[1..])
    })
}

// Each pair has a key and a value, and each separator a key. There is one separator less than
// leaves. So many trees are alike.
fn are_left(talk: &mut Talk, trees: u64) -> Outcome {
    let (pairs, leaves) = (talk.model.here.len() as u64, talk.words(calls::shape())?[1]);
    let words = talk.words(counts())?;
    let left = 1 + trees * (2 * pairs + leaves - 1);
    check(words[2] == left, || {
        format!("{} are left in place of {left}", words[2])
    })
}

fn rebalanced(talk: &mut Talk) -> Result<bool, String> {
    Ok(talk.words(calls::shape())?[3..] != [0; 8])
}

// All pairs and all nodes are those of the model.
fn holds(talk: &mut Talk) -> Outcome {
    talk.ask(&[calls::iter()])?;
    talk.nodes()?;
    Ok(())
}

fn takes(talk: &mut Talk, end: u64) -> Outcome {
    let gone: Vec<Record> = (0..end).map(calls::remove).collect();
    let replies = talk.ask(&gone)?;
    let is_well = (0..end)
        .zip(&replies)
        .all(|(key, reply)| reply.has(&[1, value_of(key)]));
    check(is_well, || "a pair left with another value".to_string())
}

// Half of 16,000 pairs are loaded, and the others are put. A clone loses half of them alone. Then
// all pairs of the tree leave. A clone of the clone has counted no nodes that were rebalanced.
fn dropped(talk: &mut Talk) -> Outcome {
    let (len, half) = (16_000, 8_000);
    let clone = call(3, 0, &[]);
    talk.ask(&[calls::load(half, 0)])?;
    let more: Vec<Record> = (half..len)
        .map(|key| calls::insert(key, value_of(key)))
        .collect();
    talk.ask(&more)?;
    are_left(talk, 1)?;
    talk.ask(&[clone])?;
    are_dropped(talk, 0)?;
    are_left(talk, 2)?;
    talk.ask(&[calls::swap()])?;
    holds(talk)?;
    takes(talk, half)?;
    are_dropped(talk, half)?;
    talk.has(calls::swap(), &[])?;
    holds(talk)?;
    takes(talk, len)?;
    are_dropped(talk, len)?;
    talk.has(calls::height(), &[0, 1, 0])?;
    talk.ask(&[calls::swap()])?;
    let left = talk.words(calls::height())?[0];
    check(left == len - half, || format!("{left} are left of a clone"))?;
    holds(talk)?;
    talk.ask(&[clone])?;
    check(rebalanced(talk)?, || "nothing was rebalanced".to_string())?;
    talk.ask(&[calls::swap()])?;
    check(!rebalanced(talk)?, || "a clone was rebalanced".to_string())?;
    holds(talk)?;
    talk.ask(&[calls::swap()])?;
    holds(talk)?;
    are_dropped(talk, 0)?;
    talk.ask(&[calls::new(), calls::swap(), calls::new()])?;
    are_gone(talk, 2 * (len - half))
}

// So many pairs come from each end, and are dropped as they come. What is left is dropped at the
// end. The replies are the model's.
fn handed_over(talk: &mut Talk) -> Outcome {
    for (len, from_each_end) in [(10, 0), (300, 1), (300, 150)] {
        talk.ask(&[calls::load(len, 0), calls::swap(), counts()])?;
        talk.ask(&[call(3, 3, &[from_each_end])])?;
        are_gone(talk, len)?;
    }
    talk.ask(&[calls::load(10, 0), calls::swap(), counts()])?;
    talk.has(
        call(3, 3, &[2]),
        &[10, 1, 0, 0, 1, 9, 90, 8, 1, 1, 10, 1, 8, 80, 6, 4],
    )?;
    are_gone(talk, 10)
}

// Of pairs in runs of three equal keys each last one is kept. A cleared tree has no pair. Of
// pairs that are put at one key, a map keeps one key and the last value, and a set the key.
fn equal_keys(talk: &mut Talk) -> Outcome {
    talk.ask(&[calls::load(300, 2)])?;
    are_dropped(talk, 200)?;
    holds(talk)?;
    let words = talk.words(call(1, 0, &[99]))?;
    check(words == [1, 992], || format!("the last value is {words:?}"))?;
    talk.ask(&[calls::clear()])?;
    talk.has(calls::height(), &[0, 1, 0])?;
    are_gone(talk, 100)?;
    // After each: the value that was there, the length, values that were dropped, and a key, a value
    // and one more that are left.
    talk.has(
        call(12, 1, &[3]),
        &[0, 1, 0, 3, 1, 0, 1, 1, 3, 1, 1, 1, 2, 3],
    )?;
    are_gone(talk, 3)?;
    // After each: whether the key is new, the length, no values, and a key and one more.
    talk.has(call(12, 2, &[3]), &[1, 1, 0, 2, 0, 1, 0, 2, 0, 1, 0, 2])?;
    are_gone(talk, 0)
}
