//! All scenarios, with each request failing in turn.

use crate::jobs::{each, TOLD};
use crate::process::Program;
use crate::scenario::Scenario;
use crate::scenarios;
use crate::serving;
use crate::shapes::WANTED;
use crate::sweep::{self, Outcome};
use std::collections::BTreeMap;
use std::path::Path;

/// How many requests each scenario makes: lines 'NAME: N'.
const REQUESTS: &str = include_str!("../requests");

/// So many requests fail at least.
const LEAST: u64 = 24_635;

fn pinned() -> BTreeMap<&'static str, u64> {
    let line = |line: &'static str| {
        let (name, many) = line.rsplit_once(": ")?;
        Some((name, many.parse().ok()?))
    };
    REQUESTS.lines().filter_map(line).collect()
}

/// What all of them came to.
#[derive(Default)]
struct Sum {
    requests: u64,
    passed: u64,
    errors: Vec<String>,
    met: BTreeMap<&'static str, u64>,
}

impl Sum {
    // Adds what came of a scenario, and prints its line.
    fn add(&mut self, name: &str, outcome: Outcome, wanted: Option<&u64>) {
        println!("{name}: {} requests", outcome.requests);
        self.requests += outcome.requests;
        self.passed += outcome.passed;
        for error in outcome.errors {
            self.errors.push(format!("{name}: {error}"));
        }
        for (word, many) in outcome.met {
            *self.met.entry(word).or_default() += many;
        }
        let zero = name.ends_with("without memory") && outcome.requests > 0;
        if wanted != Some(&outcome.requests) || zero {
            let wanted = wanted.map_or("an unwritten number".to_string(), u64::to_string);
            let many = outcome.requests;
            self.errors
                .push(format!("{name} makes {many} requests in place of {wanted}"));
        }
    }

    fn end(mut self, is_whole: bool) -> (u64, u64) {
        for word in WANTED {
            let many = self.met.get(word).copied().unwrap_or(0);
            println!("failed, {word}: {many}");
            if many == 0 && is_whole {
                self.errors.push(format!("no request failed, {word}"));
            }
        }
        println!("{} requests", self.requests);
        if self.requests < LEAST && is_whole {
            self.errors.push(format!("fewer than {LEAST} failed"));
        }
        for error in self.errors.iter().take(TOLD) {
            eprintln!("refuse-allocations: {error}");
        }
        (self.passed, self.errors.len() as u64)
    }
}

// The line server on an input.
fn served(server: &str, program: &Program, lines: &serving::Lines) -> Outcome {
    let mut outcome = Outcome::default();
    match serving::carry_out(Path::new(server), program, lines) {
        Ok((requests, errors)) => {
            outcome.requests = requests;
            outcome.passed = requests + 1 - errors.len() as u64;
            outcome.errors = errors;
        }
        Err(error) => outcome.errors.push(error),
    }
    outcome
}

/// Carries out all scenarios whose names have a word.
pub fn all(program: &Program, server: &str, word: &str) -> (u64, u64) {
    let pinned = pinned();
    let mut scenarios = scenarios::all();
    scenarios.retain(|scenario: &Scenario| scenario.name.contains(word));
    let mut lines = serving::all();
    lines.retain(|lines| lines.name.contains(word));
    let outcomes = each(&scenarios, |scenario| sweep::carry_out(program, scenario));
    let mut sum = Sum::default();
    for (scenario, outcome) in scenarios.iter().zip(outcomes) {
        let name = scenario.name.as_str();
        sum.add(name, outcome, pinned.get(name));
    }
    for (lines, outcome) in lines
        .iter()
        .zip(each(&lines, |one| served(server, program, one)))
    {
        sum.add(lines.name, outcome, pinned.get(lines.name));
    }
    sum.end(word.is_empty())
}
