//! Trees of known pairs: false hints, no hint, visitors out of range, many pairs in and out, and a
//! list of commands; shards and their functions; and calls with known results.

use crate::answers;
use crate::batch;
use crate::kind::Kind;
use crate::known;
use crate::model::Model;
use crate::nodes::{self, Nodes};
use crate::process::{Process, Program};
use crate::record::{call, calls, Record};
use crate::words::Reply;

/// So many pairs are loaded, (t, t) in turn t.
const LOADED: u64 = 10_000;

pub type Outcome = Result<(), String>;

/// A case: its name, the kind of subject, and what is done.
pub struct Case {
    pub name: String,
    pub kind: u64,
    pub run: fn(&mut Talk) -> Outcome,
}

impl Case {
    pub fn new(name: &str, kind: u64, run: fn(&mut Talk) -> Outcome) -> Case {
        Case {
            name: name.to_string(),
            kind,
            run,
        }
    }
}

/// A process and its model.
pub struct Talk {
    process: Process,
    pub model: Model,
}

fn fault(error: std::io::Error) -> String {
    format!("the program does not reply: {error}")
}

pub fn check(is_well: bool, error: impl Fn() -> String) -> Outcome {
    if is_well {
        Ok(())
    } else {
        Err(error())
    }
}

impl Talk {
    pub fn kind(&self) -> Kind {
        self.model.kind
    }

    /// Replies, each of which is the model's, if that has one.
    pub fn ask(&mut self, records: &[Record]) -> Result<Vec<Reply>, String> {
        let replies = self.process.ask(records).map_err(fault)?;
        for (record, reply) in records.iter().zip(&replies) {
            let is_well = match self.model.answer(record) {
                Some(answer) => answer.is_met(reply),
                None => record.is_of_nodes() && reply.is_done(),
            };
            let words = &reply.words[..reply.words.len().min(20)];
            check(is_well, || format!("{record:?}: {words:?}"))?;
        }
        Ok(replies)
    }

    // The words of one reply.
    pub fn words(&mut self, record: Record) -> Result<Vec<u64>, String> {
        Ok(self.ask(&[record])?.swap_remove(0).words)
    }

    pub fn has(&mut self, record: Record, words: &[u64]) -> Outcome {
        let reply = self.ask(&[record])?.swap_remove(0);
        check(reply.has(words), || {
            format!("{record:?}: wanted {words:?}, got {:?}", reply.words)
        })
    }

    /// The same of each of some replies.
    pub fn has_all(&mut self, rows: &[(Record, Vec<u64>)]) -> Outcome {
        rows.iter()
            .try_for_each(|(record, words)| self.has(*record, words))
    }

    pub fn height(&mut self) -> Result<u64, String> {
        Ok(self.words(calls::height())?[2])
    }

    /// The nodes of the tree, which are well and have the pairs of the model.
    pub fn nodes(&mut self) -> Result<Nodes, String> {
        nodes::check(&mut self.process, self.model.kind, &self.model.here)
    }
}

/// All cases.
pub fn all() -> Vec<Case> {
    let mut all = vec![
        Case::new("a hundred thousand pairs", 0, many_pairs),
        Case::new("false hints", 0, hints),
        Case::new("no hint", 3, no_hint),
        Case::new("no hint, two cursors", 3, cursors),
        Case::new("visitors out of range", 0, visitors),
        Case::new("batches beside single calls", 4, batch::table),
        Case::new("functions of shards", 11, crate::routes::routes),
        Case::new("shards beside a list", 11, shards),
        Case::new("known results of pages", 4, answers::parts),
        Case::new("known results of groups", 20, answers::parts),
        Case::new("known results of sets", 7, answers::parts),
        Case::new("known results of shards", 11, answers::parts),
        Case::new("known results of equal keys", 21, answers::parts),
        Case::new("known results of owned values", 15, answers::parts),
        Case::new("known replies to commands", 21, answers::lists),
        Case::new("ten thousand commands", 21, answers::many_commands),
    ];
    all.extend(known::all());
    all
}

/// Carries out a case.
pub fn carry_out(program: &Program, case: &Case) -> Outcome {
    let process = Process::start(program, case.kind).map_err(fault)?;
    let mut talk = Talk {
        process,
        model: Model::new(case.kind),
    };
    let told = |error| format!("{}: {error}", case.name);
    (case.run)(&mut talk).map_err(told)?;
    let is_well = talk.process.end().map_err(fault)?;
    check(is_well, || format!("{}: it did not end well", case.name))
}

impl Talk {
    /// A reply that is to have these words, or the one of no such call.
    pub fn expect(&mut self, record: Record, words: &[u64], line: &str) -> Outcome {
        self.has(record, words)
            .map_err(|error| format!("{line}: {error}"))
    }
}

// Keys at the ends, in the middle and behind all are looked up, once a number was given as the
// remembered leaf's: once, and then twice in turn.
fn finds_after(talk: &mut Talk, number: u64) -> Outcome {
    let hint = call(5, 3, &[number]);
    for key in [0, LOADED / 2 - 1, LOADED - 1, LOADED] {
        let get = call(1, 0, &[key]);
        talk.ask(&[hint, get, hint, hint, get])?;
    }
    Ok(())
}

// Each leaf's number, an absent one and the greatest are given as the remembered leaf's.
fn hints(talk: &mut Talk) -> Outcome {
    talk.ask(&[calls::load(LOADED, 0), call(1, 0, &[LOADED / 2 - 1])])?;
    let mut leaves = 0;
    for number in 0..1_000 {
        if talk.words(call(5, 4, &[number]))?.first() == Some(&1) {
            leaves += 1;
            finds_after(talk, number)?;
        }
    }
    check(leaves > 150, || format!("there are {leaves} leaves"))?;
    finds_after(talk, 999)?;
    finds_after(talk, u64::MAX)
}

// Look-ups over a store that remembers no leaf make few comparisons: at most 7 on each of three
// levels.
fn no_hint(talk: &mut Talk) -> Outcome {
    talk.ask(&[calls::load(LOADED, 0)])?;
    let height = talk.height()?;
    check(height == 2, || format!("height {height}"))?;
    for key in 0..=LOADED {
        let counted = talk.words(call(1, 1, &[key]))?;
        let compares = counted[counted.len() - 1];
        check(compares <= 21, || {
            format!("{compares} comparisons at {key}")
        })?;
        talk.ask(&[call(1, 0, &[key])])?;
    }
    Ok(())
}

// A cursor is held at a key that leaves, and moves on to the next one. The replies were written by
// hand.
fn cursors(talk: &mut Talk) -> Outcome {
    let push = |row: [u64; 4]| call(6, 0, &row);
    let list = [
        push([0, 1, 10, 0]),
        push([0, 2, 20, 0]),
        push([12, 1, 0, 0]),
        push([1, 1, 0, 0]),
        push([18, 0, 0, 0]),
        push([15, 0, 0, 0]),
        push([15, 0, 0, 0]),
        push([18, 0, 0, 0]),
        push([18, 1, 0, 0]),
        push([19, 0, 0, 1 | 2 << 56]),
    ];
    talk.ask(&list)?;
    let replies: [&[u64]; 10] = [
        &[1, 0],
        &[1, 0],
        &[7, 0, 1, 10],
        &[1, 1, 10],
        &[1, 0],
        &[2, 1, 2, 20],
        &[2, 0],
        &[1, 1, 20],
        &[9],
        &[8, 2, 1, 2, 20, 0],
    ];
    talk.has(call(6, 1, &[]), &replies.concat())
}

// Visitors that name a child which is there, and others which are not.
fn visitors(talk: &mut Talk) -> Outcome {
    talk.ask(&[calls::load(LOADED, 0)])?;
    let height = talk.height()?;
    check(height == 2, || format!("height {height}"))?;
    // Of a state the words behind the length and the height are the kind and number of the root.
    let state = talk.words(calls::state())?;
    let root = talk.words(call(5, 5, &[state[3]]))?;
    check(root[0] == 1, || "the root is not there".to_string())?;
    let last = root[1];
    let visit = |says: u64, number: u64| call(7, 0, &[says, number]);
    let down = talk.words(visit(0, last))?;
    let is_down = down.len() == 4 && down[..2] == [0, 1] && (1..=64).contains(&down[2]);
    let is_down = is_down && down[3] == height;
    check(is_down, || format!("a child that is there: {down:?}"))?;
    for place in [last + 1, 65, u64::MAX] {
        talk.has(visit(0, place), &[1])?;
    }
    talk.has(visit(1, 0), &[0, 0])?;
    talk.has(visit(2, 7), &[0, 1, 7, 1])
}

// A hundred thousand pairs come, and leave in another order. After each thousand all nodes are
// walked over.
fn many_pairs(talk: &mut Talk) -> Outcome {
    let all = 100_000;
    let look = [call(1, 8, &[]), calls::height()];
    for thousand in 0..100 {
        let turns = thousand * 1_000..(thousand + 1) * 1_000;
        let come = turns.map(|turn| calls::insert(turn * 7_919 % all, turn));
        let replies = talk.ask(&come.collect::<Vec<Record>>())?;
        check(replies.iter().all(|reply| reply.has(&[0])), || {
            "a key was there".to_string()
        })?;
        talk.ask(&look)?;
        talk.nodes()?;
    }
    let height = talk.height()?;
    check((2..=3).contains(&height), || format!("height {height}"))?;
    for thousand in 0..100 {
        let turns = thousand * 1_000..(thousand + 1) * 1_000;
        let leave = turns.map(|turn| calls::remove(turn * 6_007 % all));
        let replies = talk.ask(&leave.collect::<Vec<Record>>())?;
        check(replies.iter().all(|reply| reply.word(0) == 1), || {
            "a key was not there".to_string()
        })?;
        talk.ask(&look)?;
        talk.nodes()?;
    }
    talk.ask(&[calls::is_tidy()])?;
    let shape = talk.words(calls::shape())?;
    check(shape[..3] == [0, 1, 0], || {
        format!("what is left: {:?}", &shape[..3])
    })
}

// Keys below 64 come and leave, over four shards, one of which stays empty. After each change each
// key is looked for in each way.
fn shards(talk: &mut Talk) -> Outcome {
    talk.ask(&[call(3, 4, &[16, 40, 40, 3])])?;
    let mut drawn = 1u64;
    for step in 0..200 {
        drawn = drawn
            .wrapping_mul(6364136223846793005)
            .wrapping_add(1442695040888963407);
        let key = (drawn >> 33) % 64;
        let mut records = if (drawn >> 40) % 3 == 0 {
            vec![calls::remove(key)]
        } else {
            vec![calls::insert(key, step)]
        };
        for key in 0..64 {
            records.extend([0, 7, 9, 10].map(|member| call(1, member, &[key])));
            records.push(call(1, 6, &[key]));
        }
        records.extend([call(1, 4, &[]), calls::height(), call(1, 6, &[64])]);
        talk.ask(&records)?;
    }
    Ok(())
}
