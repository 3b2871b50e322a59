//! Rounds of calls in random order, each reply compared with the model's.

use crate::drawing::Drawing;
use crate::model::Answer;
use crate::nodes;
use crate::process::{Process, Program};
use crate::record::{call, calls, Record};
use crate::words::Reply;

/// The calls of a round.
pub const CALLS: u64 = 20_000;
/// The calls of a turn.
const TURN: u64 = 400;
/// The calls that are sent at once.
const SENT: u64 = 100;

/// A round: a kind of subject, a range of keys, and a seed.
#[derive(Clone, Copy, Debug, PartialEq, Eq)]
pub struct Round {
    pub kind: u64,
    pub is_wide: bool,
    pub seed: u64,
}

/// The kinds that calls in random order are made on.
const KINDS: [u64; 15] = [0, 1, 2, 3, 4, 5, 6, 7, 8, 9, 10, 11, 12, 20, 21];

/// All rounds: so many of each kind and each range of keys, with other seeds.
pub fn rounds(many: u64) -> Vec<Round> {
    let mut all = Vec::new();
    for number in 0..many {
        for kind in KINDS {
            for is_wide in [false, true] {
                let seed = number * 100 + kind * 2 + u64::from(is_wide);
                all.push(Round {
                    kind,
                    is_wide,
                    seed,
                });
            }
        }
    }
    all
}

fn fault(error: std::io::Error) -> String {
    format!("the program does not reply: {error}")
}

// Sends records, and compares each reply with what is wanted.
fn compare(
    process: &mut Process,
    records: &[Record],
    wanted: &[Option<Answer>],
) -> Result<(), String> {
    let replies = process.ask(records).map_err(fault)?;
    for ((record, answer), reply) in records.iter().zip(wanted).zip(&replies) {
        let is_well = match answer {
            Some(answer) => answer.is_met(reply),
            None => record.is_of_nodes() && reply.is_done(),
        };
        if !is_well {
            return Err(told(record, answer, reply));
        }
    }
    Ok(())
}

fn told(record: &Record, answer: &Option<Answer>, reply: &Reply) -> String {
    let few = |words: &[u64]| format!("{:?}", &words[..words.len().min(40)]);
    let wanted = answer
        .as_ref()
        .map_or(String::new(), |answer| few(&answer.words));
    let (family, member) = (record.family(), record.member());
    format!(
        "{record:?} (call {family}.{member}): wanted {wanted}, got {} of {}, status {}",
        few(&reply.words),
        reply.len,
        reply.status
    )
}

// Makes calls that were drawn, and compares their replies.
fn make(process: &mut Process, drawing: &mut Drawing, records: &[Record]) -> Result<(), String> {
    for chunk in records.chunks(SENT as usize) {
        let wanted: Vec<Option<Answer>> = chunk
            .iter()
            .map(|record| drawing.model.answer(record))
            .collect();
        compare(process, chunk, &wanted)?;
    }
    Ok(())
}

// A turn: more pairs are put than leave in six turns of ten, and fewer in the others. At its end
// the whole is walked over, its nodes too.
fn turn(process: &mut Process, drawing: &mut Drawing, number: u64) -> Result<(), String> {
    drawing.puts = if number % 10 < 6 { 7 } else { 3 };
    let is_shards = drawing.model.kind.is_shards();
    for _ in 0..TURN / SENT {
        let (mut records, mut wanted) = (Vec::new(), Vec::new());
        for _ in 0..SENT {
            let record = if is_shards {
                drawing.any_of_shards()
            } else {
                drawing.any()
            };
            wanted.push(drawing.model.answer(&record));
            records.push(record);
        }
        compare(process, &records, &wanted)?;
    }
    if is_shards {
        let all = [call(2, 0, &[0, u64::MAX]), call(1, 5, &[])];
        return make(process, drawing, &all);
    }
    for _ in 0..2 {
        make(process, drawing, &[calls::iter(), calls::is_tidy()])?;
        nodes::check(process, drawing.model.kind, &drawing.model.here)?;
        make(process, drawing, &[calls::swap()])?;
    }
    Ok(())
}

/// Carries out a round.
pub fn carry_out(program: &Program, round: &Round) -> Result<(), String> {
    let mut process = Process::start(program, round.kind).map_err(fault)?;
    let mut drawing = Drawing::new(round.kind, round.seed, round.is_wide);
    if drawing.model.kind.is_shards() {
        let records = drawing.begin_shards();
        make(&mut process, &mut drawing, &records)?;
    }
    for number in 0..CALLS / TURN {
        turn(&mut process, &mut drawing, number)
            .map_err(|error| format!("{round:?}, turn {number}: {error}"))?;
    }
    match process.end().map_err(fault)? {
        true => Ok(()),
        false => Err(format!("{round:?}: the program did not end well")),
    }
}
