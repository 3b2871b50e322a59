//! The functions of shards over plain numbers, with results that were written by hand.

use crate::fixed::Talk;
use crate::record::call;

/// A line has the name of a function, the numbers of the shards with commas between, further
/// arguments, and behind an equals sign what it returns.
const LINES: &str = include_str!("../routes");

// The numbers of a list; of "-" there are none.
fn numbers(text: &str) -> Option<Vec<u64>> {
    if text == "-" {
        return Some(Vec::new());
    }
    text.split(',').map(|number| number.parse().ok()).collect()
}

// The words of a result: of an optional one a 1 first, or a 0 alone.
fn wanted(name: &str, answer: &str) -> Option<Vec<u64>> {
    if name.starts_with("route") {
        return numbers(answer);
    }
    if answer == "none" {
        return Some(vec![0]);
    }
    let mut words = vec![1];
    words.extend(numbers(answer)?);
    Some(words)
}

// The member of a function, and its two arguments.
fn asked(name: &str, rest: &[&str]) -> Option<(u64, u64, u64)> {
    let at = |place: usize| rest.get(place).and_then(|word| word.parse::<u64>().ok());
    Some(match (name, rest.len()) {
        ("route", 1) => (0, at(0)?, 0),
        ("route_below", 1) => (1, at(0)?, 0),
        ("route_range", 2) if rest[1] == "none" => (2, at(0)?, 0),
        ("route_range", 2) => (3, 0, at(1)?),
        ("locate", 1) => (5, at(0)?, 0),
        ("next_part", 2) => (6, at(0)?, at(1)?),
        ("first_full", 0) => (7, 0, 0),
        ("last_full", 0) => (8, 0, 0),
        ("next_full", 1) => (9, at(0)?, 0),
        ("prev_full", 1) => (10, at(0)?, 0),
        _ => return None,
    })
}

/// All lines.
pub fn routes(talk: &mut Talk) -> Result<(), String> {
    for line in LINES.lines() {
        let (question, answer) = line.split_once(" = ").ok_or(line)?;
        let words: Vec<&str> = question.split(' ').collect();
        let (name, shards) = (words[0], numbers(words[1]).ok_or(line)?);
        let (member, first, second) = asked(name, &words[2..]).ok_or(line)?;
        let mut arguments = shards.clone();
        arguments.resize(3, 0);
        arguments.push(shards.len() as u64 | first << 8 | second << 32);
        let record = call(9, member, &arguments);
        talk.expect(record, &wanted(name, answer).ok_or(line)?, line)?;
    }
    Ok(())
}
