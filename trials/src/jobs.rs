//! Trials side by side, on the processors that there are.

use crate::fixed;
use crate::process::Program;
use crate::random::{self, CALLS};
use crate::streams;
use std::sync::atomic::{AtomicUsize, Ordering};
use std::sync::Mutex;
use std::thread;

/// No more errors are printed.
pub const TOLD: usize = 20;

/// Does something with each of some items, several at a time, and returns the result of each.
pub fn each<T: Sync, R: Send>(items: &[T], work: impl Fn(&T) -> R + Sync) -> Vec<R> {
    let next = AtomicUsize::new(0);
    let results: Vec<Mutex<Option<R>>> = items.iter().map(|_| Mutex::new(None)).collect();
    let processors = thread::available_parallelism().map_or(1, |many| many.get());
    thread::scope(|scope| {
        for _ in 0..processors.min(items.len()) {
            scope.spawn(|| {
                let take = || items.get(next.load(Ordering::Relaxed));
                while take().is_some() {
                    let place = next.fetch_add(1, Ordering::Relaxed);
                    let result = items.get(place).map(&work);
                    if let Some(Ok(mut at)) = results.get(place).map(Mutex::lock) {
                        *at = result;
                    }
                }
            });
        }
    });
    let taken = results.into_iter().map(Mutex::into_inner);
    taken.filter_map(|result| result.ok().flatten()).collect()
}

// Counts what went well, and prints what did not.
fn count(results: &[Result<(), String>]) -> (u64, u64) {
    let failed: Vec<&String> = results
        .iter()
        .filter_map(|one| one.as_ref().err())
        .collect();
    for error in failed.iter().take(TOLD) {
        eprintln!("random-calls: {error}");
    }
    let failed = failed.len();
    ((results.len() - failed) as u64, failed as u64)
}

/// The known cases, and so many rounds of each kind and range of keys; or of a kind alone.
pub fn random(program: &Program, many: u64, kind: Option<u64>) -> (u64, u64) {
    let is_wanted = |one: u64| kind.is_none() || kind == Some(one);
    let mut cases = fixed::all();
    cases.retain(|case| is_wanted(case.kind));
    let mut known = each(&cases, |case| fixed::carry_out(program, case));
    let mut names: Vec<String> = cases.iter().map(|case| case.name.clone()).collect();
    if is_wanted(streams::KIND) {
        let cases = streams::all();
        known.extend(each(&cases, |case| streams::carry_out(program, case)));
        names.extend(cases.iter().map(|case| case.name.to_string()));
    }
    for (name, result) in names.iter().zip(&known) {
        let word = if result.is_ok() { "ok" } else { "failed" };
        println!("{name}: {word}");
    }
    let mut rounds = random::rounds(many);
    rounds.retain(|round| is_wanted(round.kind));
    let results = each(&rounds, |round| random::carry_out(program, round));
    println!("{} calls in random order", rounds.len() as u64 * CALLS);
    let (one, other) = (count(&known), count(&results));
    (one.0 + other.0, one.1 + other.1)
}
