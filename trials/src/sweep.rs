//! Makes each request of a call fail in turn, and looks at what the call leaves.

use crate::model::{Answer, Model};
use crate::nodes;
use crate::process::{Process, Program};
use crate::record::{calls, Record};
use crate::scenario::{Scenario, Step};
use crate::shapes::{met, Shape};
use crate::stopped::{after, can_stop, goes_on};
use crate::words::Reply;
use std::collections::BTreeMap;

/// No call makes as many requests.
const MOST: u64 = 100_000;

/// The nodes of a tree of so many pairs are walked over at the end alone.
const LARGE: usize = 10_000;

/// How a scenario went.
#[derive(Debug, Default)]
pub struct Outcome {
    pub requests: u64,
    pub passed: u64,
    pub errors: Vec<String>,
    /// How many requests failed at each height, and before each change of nodes.
    pub met: BTreeMap<&'static str, u64>,
}

type Told<T> = Result<T, String>;

fn fault(error: std::io::Error) -> String {
    format!("the program does not reply: {error}")
}

/// The report of all that a subject has: a reply to each question.
#[derive(Clone, Debug, PartialEq, Eq)]
struct State(Vec<(u64, u64, u64)>);

/// A subject in a process, with its model.
struct Trial {
    process: Process,
    model: Model,
}

// The calls that read a state, and whether the replies at these indexes are to be 1.
fn questions(model: &Model) -> Vec<Record> {
    let kind = model.kind;
    let mut records = Vec::new();
    if kind.is_shards() {
        records.push(crate::record::call(1, 5, &[]));
        records.push(crate::record::call(2, 0, &[0, u64::MAX]));
    } else if kind.is_store() {
        records.extend([calls::state(), calls::is_tidy()]);
    } else if kind.has_nodes() {
        for _ in 0..2 {
            records.extend([calls::state(), calls::is_tidy(), calls::swap()]);
        }
    }
    if kind.is_tree() {
        records.push(crate::record::call(4, 8, &[]));
    }
    records
}

impl Trial {
    fn begin(program: &Program, kind: u64) -> Told<Trial> {
        let process = Process::start(program, kind).map_err(fault)?;
        Ok(Trial {
            process,
            model: Model::new(kind),
        })
    }

    fn ask(&mut self, record: Record) -> Told<Reply> {
        self.process.ask_one(record).map_err(fault)
    }

    fn ask_all(&mut self, records: &[Record]) -> Told<Vec<Reply>> {
        self.process.ask(records).map_err(fault)
    }

    // The report of all, if it is tidy.
    fn state(&mut self) -> Told<State> {
        let records = questions(&self.model);
        let replies = self.ask_all(&records)?;
        let mut told = Vec::with_capacity(replies.len());
        for (record, reply) in records.iter().zip(&replies) {
            if !reply.is_done() {
                return Err(format!("{record:?} failed"));
            }
            let is_right = record.family() == 5 && record.member() > 0;
            if is_right && !self.model.kind.is_store() && !reply.has(&[1]) {
                return Err(format!("{record:?}: {:?}", reply.words));
            }
            told.push((reply.len, reply.digest, reply.status));
        }
        // Of owned values nothing is left but their blocks.
        if let (true, Some(counts)) = (told.is_empty(), &self.process.counts) {
            told.push((counts.blocks().map_err(fault)?, 0, 0));
        }
        Ok(State(told))
    }

    fn shape(&mut self) -> Told<Shape> {
        if !self.model.kind.has_nodes() {
            return Ok(Shape::default());
        }
        Ok(Shape::of(&self.ask(calls::shape())?))
    }

    // Makes a call of which no request fails, and compares its reply with the model's.
    fn make(&mut self, record: &Record) -> Told<Reply> {
        let reply = self.ask(*record)?;
        if !reply.is_done() {
            return Err(format!("{record:?} failed by itself"));
        }
        match self.model.answer(record) {
            Some(answer) => is_answered(record, &answer, &reply)?,
            None if record.is_of_nodes() => {}
            None => return Err(format!("no result of {record:?} is known")),
        }
        Ok(reply)
    }

    // Makes calls of which no request fails, many at once.
    fn make_all(&mut self, records: &[Record]) -> Told<()> {
        let replies = self.ask_all(records)?;
        for (record, reply) in records.iter().zip(&replies) {
            match self.model.answer(record) {
                Some(answer) => is_answered(record, &answer, reply)?,
                None if record.is_of_nodes() && reply.is_done() => {}
                None => return Err(format!("no result of {record:?} is known")),
            }
        }
        Ok(())
    }

    // Whether the call of a step is to be made at this height.
    fn is_made(&mut self, step: &Step) -> Told<bool> {
        match step.only_at {
            Some(height) => Ok(self.shape()?.height == height),
            None => Ok(true),
        }
    }

    // All is as at the beginning.
    fn reset(&mut self) -> Told<()> {
        let kind = self.model.kind;
        let mut records = Vec::new();
        if kind.is_shards() {
            records.push(calls::new());
        } else if kind.is_store() {
            records.push(crate::record::call(0, 6, &[]));
        } else if kind.has_nodes() {
            records.extend([calls::new(), calls::swap(), calls::new()]);
        }
        if kind.is_tree() {
            records.push(crate::record::call(4, 13, &[]));
        }
        if kind.is_tree() && kind.has_queries() {
            // The commands that are held are taken.
            records.push(crate::record::call(6, 1, &[]));
        }
        self.ask_all(&records)?;
        self.model = Model::new(kind.0);
        Ok(())
    }

    // The pairs of both are those of the model, by walks over all and over their nodes.
    fn has_pairs_of_model(&mut self) -> Told<()> {
        let kind = self.model.kind;
        if kind.is_shards() {
            return self.make_all(&questions(&self.model));
        }
        if !kind.has_nodes() {
            return Ok(());
        }
        for _ in 0..2 {
            self.make(&calls::iter())?;
            self.make(&calls::is_tidy())?;
            nodes::check(&mut self.process, kind, &self.model.here)?;
            self.make(&calls::swap())?;
        }
        Ok(())
    }
}

fn is_answered(record: &Record, answer: &Answer, reply: &Reply) -> Told<()> {
    if answer.is_met(reply) {
        return Ok(());
    }
    let many = answer.words.len().min(20);
    let (wanted, came) = (&answer.words[..many], &reply.words);
    let came = &came[..came.len().min(20)];
    let (len, status) = (reply.len, reply.status);
    Err(format!(
        "{record:?}: wanted {wanted:?}.., got {came:?}.. of {len}, status {status}"
    ))
}

/// A call that is swept, in a run without a failure: its reply, and the state behind it.
struct Whole {
    reply: Reply,
    state: State,
}

/// A scenario that is carried out, up to a step.
struct Sweep<'a> {
    scenario: &'a Scenario,
    trial: Trial,
    /// The calls that were made so far.
    made: Vec<Record>,
    outcome: Outcome,
}

// Carries out a scenario without a failure.
fn plain(program: &Program, scenario: &Scenario) -> Told<Vec<Option<Whole>>> {
    let mut trial = Trial::begin(program, scenario.kind)?;
    let mut wholes = Vec::new();
    for step in &scenario.steps {
        let mut whole = None;
        if trial.is_made(step)? {
            let reply = trial.make(&step.record)?;
            if step.is_swept {
                let state = trial.state()?;
                whole = Some(Whole { reply, state });
            }
        }
        wholes.push(whole);
    }
    trial.has_pairs_of_model()?;
    if !trial.process.end().map_err(fault)? {
        return Err("the program did not end well".to_string());
    }
    Ok(wholes)
}

/// Carries out a scenario: once without a failure, and once with each request of its swept calls
/// failing in turn.
pub fn carry_out(program: &Program, scenario: &Scenario) -> Outcome {
    let mut outcome = Outcome::default();
    let begun = plain(program, scenario).and_then(|wholes| {
        let trial = Trial::begin(program, scenario.kind)?;
        Ok((wholes, trial))
    });
    let (wholes, trial) = match begun {
        Ok(both) => both,
        Err(error) => {
            outcome.errors.push(error);
            return outcome;
        }
    };
    let mut sweep = Sweep {
        scenario,
        trial,
        made: Vec::new(),
        outcome,
    };
    match sweep.all(&wholes) {
        Ok(()) => sweep.outcome.passed += 1,
        Err(error) => sweep.outcome.errors.push(error),
    }
    let Sweep {
        trial, mut outcome, ..
    } = sweep;
    match trial.process.end() {
        Ok(true) => outcome.passed += 1,
        Ok(false) => outcome.errors.push("it did not end well".to_string()),
        Err(error) => outcome.errors.push(fault(error)),
    }
    outcome
}

impl Sweep<'_> {
    fn all(&mut self, wholes: &[Option<Whole>]) -> Told<()> {
        let scenario = self.scenario;
        for (step, whole) in scenario.steps.iter().zip(wholes) {
            if !self.trial.is_made(step)? {
                continue;
            }
            match whole {
                Some(whole) => self.step(step, whole)?,
                None => {
                    self.trial.make(&step.record)?;
                }
            }
            self.made.push(step.record);
            if let Some(height) = step.height {
                let found = self.trial.shape()?.height;
                if found != height {
                    return Err(format!("height {found} behind {:?}", step.record));
                }
            }
        }
        self.trial.has_pairs_of_model()?;
        let len = self.trial.model.here.len();
        match scenario.ends {
            Some((least, most)) if len < least || most < len => Err(format!("it ends with {len}")),
            _ => Ok(()),
        }
    }

    // Makes a call again and again, with a later one of its requests failing each time.
    fn step(&mut self, step: &Step, whole: &Whole) -> Told<()> {
        let before = self.trial.state()?;
        let shape = self.trial.shape()?;
        let start = self.trial.model.clone();
        let mut hints = 0;
        for number in 1..MOST {
            self.trial.model = start.clone();
            if number > 1 && !step.again.is_empty() {
                self.trial.model.commands.clear();
                self.trial.make_all(&step.again)?;
            }
            let asked = self.trial.model.clone();
            let (reply, is_refused) = self.refuse(number, &step.record)?;
            if !is_refused {
                self.outcome.requests += number - 1;
                return self.complete(step, whole, &reply, (shape, number - 1));
            }
            let is_hint = reply.is_done();
            hints += u64::from(is_hint);
            let looked = if is_hint && goes_on(&start, &step.record) {
                self.is_made(step, whole, &reply, &asked)
            } else if is_hint && hints <= step.hints {
                self.is_whole(step, whole, &reply, &asked)
            } else {
                self.look(step, whole, &reply, &before)
            };
            match looked {
                Ok(()) => self.outcome.passed += 1,
                Err(error) => {
                    let text = format!("{:?}, request {number}: {error}", step.record);
                    self.outcome.errors.push(text);
                }
            }
            if is_hint || can_stop(&start, &step.record) {
                self.rebuild(&before)?;
            }
        }
        Err(format!("{:?} has no end", step.record))
    }

    // Makes a call with a failing request. Returns its reply, and whether it came to that request.
    // If requests are not counted, it came to no request.
    fn refuse(&mut self, number: u64, record: &Record) -> Told<(Reply, bool)> {
        let process = &mut self.trial.process;
        if let Some(counts) = &process.counts {
            counts.refuse(number).map_err(fault)?;
        }
        let reply = process.ask_one(*record).map_err(fault)?;
        let mut is_refused = false;
        if let Some(counts) = &process.counts {
            is_refused = counts.was_refused().map_err(fault)?;
            counts.refuse(0).map_err(fault)?;
        }
        Ok((reply, is_refused))
    }

    // The call was made without a failure: all is as in the run without a failure.
    fn complete(
        &mut self,
        step: &Step,
        whole: &Whole,
        reply: &Reply,
        (shape, requests): (Shape, u64),
    ) -> Told<()> {
        let asked = self.trial.model.clone();
        self.is_whole(step, whole, reply, &asked)?;
        if requests > 0 && self.trial.model.kind.has_nodes() {
            let now = self.trial.shape()?;
            for word in met(&shape, &now) {
                *self.outcome.met.entry(word).or_default() += requests;
            }
            let Trial { process, model } = &mut self.trial;
            if model.here.len() < LARGE {
                nodes::check(process, model.kind, &model.here)?;
            }
        }
        Ok(())
    }

    // A call that was made has the reply of one without a failure.
    fn is_replied(&mut self, step: &Step, whole: &Whole, reply: &Reply, asked: &Model) -> Told<()> {
        self.trial.model = asked.clone();
        if let Some(answer) = self.trial.model.answer(&step.record) {
            is_answered(&step.record, &answer, reply)?;
        }
        if *reply == whole.reply {
            Ok(())
        } else {
            Err("the reply is not that of a call that succeeds".to_string())
        }
    }

    // It has that reply, and the pairs are those of such a call.
    fn is_made(&mut self, step: &Step, whole: &Whole, reply: &Reply, asked: &Model) -> Told<()> {
        self.is_replied(step, whole, reply, asked)?;
        self.trial.has_pairs_of_model()
    }

    // It has that reply, and the state is that of such a call.
    fn is_whole(&mut self, step: &Step, whole: &Whole, reply: &Reply, asked: &Model) -> Told<()> {
        self.is_replied(step, whole, reply, asked)?;
        if self.trial.state()? != whole.state {
            return Err("the state is not that after a call that succeeds".to_string());
        }
        Ok(())
    }

    // All calls so far are made anew.
    fn rebuild(&mut self, before: &State) -> Told<()> {
        self.trial.reset()?;
        let made = self.made.clone();
        self.trial.make_all(&made)?;
        if self.trial.state()? == *before {
            Ok(())
        } else {
            Err("the same calls leave another state".to_string())
        }
    }

    // Looks at a call that failed.
    fn look(&mut self, step: &Step, whole: &Whole, reply: &Reply, before: &State) -> Told<()> {
        let record = step.record;
        if reply.status != 1 {
            return Err(format!("status {}", reply.status));
        }
        if can_stop(&self.trial.model, &record) {
            self.trial.model = after(&self.trial.model, &record, reply)?;
            return self.trial.has_pairs_of_model();
        }
        self.is_handed_back(&record, whole, reply)?;
        self.trial.model.commands.clear();
        if self.trial.state()? == *before {
            Ok(())
        } else {
            Err("it left another state".to_string())
        }
    }

    // The reply has what comes back: of an insertion its key and value, of a key that replaces one
    // that key, and of the others nothing, or a part of the whole reply.
    fn is_handed_back(&self, record: &Record, whole: &Whole, reply: &Reply) -> Told<()> {
        let model = &self.trial.model;
        let is_set = model.kind.is_set();
        let is_put = match (record.family(), record.member()) {
            (0, 0) => !model.kind.is_store(),
            (0, 6) => is_set,
            (8, 7 | 8) => true,
            _ => false,
        };
        let is_replaced = (record.family(), record.member()) == (0, 9);
        let is_well = if is_put && reply.len > 0 {
            reply.has(&model.pair((record.a, record.b)))
        } else if is_replaced && reply.len > 0 {
            reply.has(&model.key(record.a))
        } else if is_put || is_replaced {
            model.kind.has_large_keys()
        } else if record.family() == 13 && reply.len > 0 {
            (reply.len, reply.digest) == (whole.reply.len, whole.reply.digest)
        } else if record.family() == 6 && record.member() == 1 {
            is_part_of(&reply.words, &whole.reply.words, &[11])
        } else {
            is_part_of(&reply.words, &whole.reply.words, &[0])
        };
        if is_well {
            Ok(())
        } else {
            Err(format!("{:?} comes back", reply.words))
        }
    }
}

// Whether words begin as others do, and then end, or have one of some further words.
fn is_part_of(words: &[u64], whole: &[u64], further: &[u64]) -> bool {
    let same = words
        .iter()
        .zip(whole)
        .take_while(|(one, other)| one == other);
    match words.get(same.count()) {
        None => true,
        Some(word) => further.contains(word),
    }
}
