//! Calls with results that are known from outside, and lists of commands with their replies.

use crate::fixed::Talk;
use crate::kind::{couple, marked, Kind};
use crate::record::{call, calls, steps, Record};
use crate::scenario::{quiet, swept, Scenario, Step};
use crate::words::{number, option};

/// Parts, each of which begins with a line '# kind KIND: NAME' and with nothing made. A line has a
/// call, its arguments, and behind an equals sign what it returns.
const ANSWERS: &str = include_str!("../answers");

/// Lists, each of which begins with a line '# NAME'. A line has a command, its arguments, and
/// behind an equals sign its reply.
const COMMANDS: &str = include_str!("../commands");

/// The kind of subject that the lists are run on: trees of keys with marks.
const MARKED: Kind = Kind(21);

/// A call, and the words of its reply.
type Known = (Record, Vec<u64>);

/// A part: what it is about, and its lines with their calls.
struct Part {
    name: &'static str,
    kind: Kind,
    lines: Vec<(&'static str, Vec<Known>)>,
}

fn numbers(words: &[&str]) -> Option<Vec<u64>> {
    words.iter().map(|word| word.parse().ok()).collect()
}

fn split(text: &str) -> Vec<&str> {
    text.split_whitespace().collect()
}

// A key: a number, and a letter where keys have marks.
fn key_of(word: &str) -> Option<u64> {
    match word.chars().last()? {
        letter @ 'a'..='z' => {
            let number = word[..word.len() - 1].parse().ok()?;
            Some(marked(number, u64::from(letter)))
        }
        _ => word.parse().ok(),
    }
}

// The words of a number, or of `None`.
fn number_if(answer: &str) -> Option<Vec<u64>> {
    match answer {
        "none" => Some(number(None)),
        _ => Some(number(Some(answer.parse().ok()?))),
    }
}

// The words of a pair: a key and its value.
fn pair_of(kind: Kind, answer: &str) -> Option<Vec<u64>> {
    let (key, value) = answer.trim().split_once(' ')?;
    let mut words = Vec::new();
    kind.tell_key(key_of(key)?, &mut words);
    words.push(value.parse().ok()?);
    Some(words)
}

fn pair_if(kind: Kind, answer: &str) -> Option<Vec<u64>> {
    match answer.trim() {
        "none" => Some(option(None)),
        pair => Some(option(Some(pair_of(kind, pair)?))),
    }
}

// The steps of a walk over these pairs, and what it shows. Few are taken one by one. Then nothing
// comes at the front, and nothing at the back.
fn walk(pairs: &[Vec<u64>]) -> ([u64; 2], Vec<u64>) {
    let len = pairs.len() as u64;
    if len > 60 {
        let mut words = vec![len, len, len, 1, len];
        words.extend(pairs.concat());
        words.extend([0, len]);
        return ([0, 0], words);
    }
    let mut words = vec![len];
    for pair in pairs {
        words.extend(option(Some(pair.clone())));
    }
    words.extend([0, 0, 0, 0, 1, 0, 0, 0]);
    ([2 << len, steps(len + 2, 0)], words)
}

// A walk over so many pairs, whose keys and values count from a number on: 'FIRST LEN'. A key of
// a group has it before its number.
fn counted(group: Option<u64>, answer: &str) -> Option<([u64; 2], Vec<u64>)> {
    let numbers = numbers(&split(answer))?;
    let [first, len] = *numbers.as_slice() else {
        return None;
    };
    let pair = |turn: u64| {
        let mut words: Vec<u64> = group.into_iter().collect();
        words.extend([first + turn, first + turn]);
        words
    };
    Some(walk(&(0..len).map(pair).collect::<Vec<Vec<u64>>>()))
}

// The summary of groups: `none`, '1 of GROUP:SIZE', or 'MANY of GROUP:SIZE to GROUP:SIZE'.
fn summary(answer: &str) -> Option<Vec<u64>> {
    if answer == "none" {
        return Some(vec![0]);
    }
    let (many, groups) = answer.split_once(" of ")?;
    let groups = groups.replace(" to ", ":");
    let mut words = numbers(&groups.split(':').collect::<Vec<&str>>())?;
    if words.len() == 2 {
        words.insert(0, 1);
    } else {
        words.insert(0, 2);
        words.push(many.parse().ok()?);
    }
    Some(words)
}

// Whether a key is there, and a number: 'in NUMBER' or 'out NUMBER'.
fn ranked(answer: &str) -> Option<(u64, u64)> {
    let (word, number) = answer.split_once(' ')?;
    Some((u64::from(word == "in"), number.parse().ok()?))
}

// The length and the height of a tree or a map.
fn size(answer: &str) -> Option<Known> {
    let [len, height] = *numbers(&split(answer))? else {
        return None;
    };
    Some((call(1, 5, &[]), vec![len, u64::from(len == 0), height]))
}

// Calls of maps with groups.
fn of_groups(name: &str, arguments: &[u64], answer: &str) -> Option<Known> {
    let group = arguments.first().copied().unwrap_or(0);
    let key = couple(group, arguments.get(1).copied().unwrap_or(0));
    let all = couple(group, 0);
    Some(match (name, arguments) {
        ("groups", []) => (call(1, 8, &[]), summary(answer)?),
        ("size", []) => size(answer)?,
        ("size", [_]) => (call(10, 3, &[all]), number_if(answer)?),
        ("put", [_, _, value]) => (calls::insert(key, *value), number_if(answer)?),
        ("take", [_, _]) => (calls::remove(key), number_if(answer)?),
        ("rank", [_, _]) => {
            let (is_there, rank) = ranked(answer)?;
            (call(1, 7, &[key]), vec![is_there, 1, group, rank])
        }
        ("place", [_, index]) => {
            let mut words = pair_if(Kind(4), answer)?;
            if words.len() > 1 {
                words.insert(1, group);
            }
            (call(1, 6, &[all, *index]), words)
        }
        ("group", [_]) => {
            let ([ends, steps], words) = counted(Some(group), answer)?;
            (call(10, 0, &[all, 0, ends, steps]), words)
        }
        ("group_page", [_, page, size]) => {
            let ([ends, steps], words) = counted(Some(group), answer)?;
            (call(10, 2, &[all, *page, ends, size << 16 | steps]), words)
        }
        _ => return None,
    })
}

// Calls of maps with counts.
fn of_pages(name: &str, arguments: &[u64], answer: &str) -> Option<Known> {
    Some(match (name, arguments) {
        ("pages", [size]) => (call(9, 6, &[*size]), numbers(&[answer])?),
        ("page", [page, size]) => {
            let ([ends, steps], words) = counted(None, answer)?;
            (call(9, 5, &[*page, *size, ends, steps]), words)
        }
        ("page_of", [key, size]) => {
            let (is_there, page) = ranked(answer)?;
            (call(9, 7, &[*key, *size]), vec![is_there, page])
        }
        _ => return None,
    })
}

// Calls of sets. What two sets give together is 'LEAST MOST | KEYS': so many at least and at most,
// by the hint.
fn of_sets(name: &str, arguments: &[u64], answer: &str) -> Option<Known> {
    let member = match (name, arguments) {
        ("insert", [key]) => {
            return Some((calls::insert(*key, 0), vec![u64::from(answer == "new")]));
        }
        ("contains", [key]) => {
            return Some((call(1, 0, &[*key]), vec![u64::from(answer == "true")]));
        }
        ("size", []) => {
            let len = answer.parse().ok()?;
            return Some((call(1, 5, &[]), vec![len, u64::from(len == 0)]));
        }
        ("union", []) => 0,
        ("difference", []) => 1,
        ("intersection", []) => 2,
        ("symmetric_difference", []) => 3,
        _ => return None,
    };
    let (hint, keys) = answer.split_once('|')?;
    let (hint, keys) = (numbers(&split(hint))?, numbers(&split(keys))?);
    let mut words = vec![*hint.first()?, 1, *hint.get(1)?];
    words.extend(&keys);
    words.extend([keys.len().saturating_sub(1) as u64, 0, 1, 0, 0]);
    Some((call(11, member, &[]), words))
}

// Calls of maps over shards. A cut is 'LENGTHS | BOUNDS'.
fn of_shards(name: &str, arguments: &[u64], answer: &str) -> Option<Known> {
    Some(match (name, arguments) {
        ("begin", [a, b, c]) => (call(3, 4, &[*a, *b, *c, 3]), Vec::new()),
        ("split", [key]) => (call(8, 0, &[*key]), Vec::new()),
        ("merge", [shard]) => (call(8, 1, &[*shard]), Vec::new()),
        ("cut", []) => {
            let (lengths, bounds) = answer.split_once('|')?;
            let (lengths, bounds) = (numbers(&split(lengths))?, numbers(&split(bounds))?);
            let mut words = vec![lengths.iter().sum(), lengths.len() as u64];
            words.extend(&lengths);
            words.push(bounds.len() as u64);
            words.extend(&bounds);
            (call(1, 5, &[]), words)
        }
        _ => return None,
    })
}

// Calls of trees of keys with marks.
fn of_marked(name: &str, arguments: &[&str], answer: &str) -> Option<Known> {
    Some(match (name, arguments) {
        ("size", []) => size(answer)?,
        ("put", [key, value]) => {
            let record = calls::insert(key_of(key)?, value.parse().ok()?);
            (record, number_if(answer)?)
        }
        ("get", [key]) => (call(1, 0, &[key_of(key)?]), number_if(answer)?),
        ("entry", [key]) => (call(1, 2, &[key_of(key)?]), pair_if(MARKED, answer)?),
        ("all", []) => {
            let pairs = answer.split(", ").filter(|pair| !pair.is_empty());
            let pairs = pairs.map(|pair| pair_of(MARKED, pair));
            let ([ends, steps], words) = walk(&pairs.collect::<Option<Vec<Vec<u64>>>>()?);
            (call(2, 0, &[0, 0, ends, steps]), words)
        }
        _ => return None,
    })
}

// The order of keys, and what replies to commands print.
fn of_owned(name: &str, arguments: &[&str], answer: &str) -> Option<Known> {
    Some(match (name, arguments) {
        // Each type has a smaller key, a greater one, and a clone that is equal to it.
        ("orders", []) => (call(1, 0, &[]), [0, 2, 1].repeat(answer.parse().ok()?)),
        ("print", [reply, has, third, value]) => {
            let reply = numbers(&[reply, has])?;
            let third = key_of(third)?;
            let text = answer.bytes().map(u64::from).collect();
            let value = value.parse().ok()?;
            (call(6, 0, &[reply[0], reply[1], third, value]), text)
        }
        _ => return None,
    })
}

// The calls of a line.
fn calls_of(kind: Kind, line: &str) -> Option<Vec<Known>> {
    let (question, answer) = line.split_once(" =").unwrap_or((line, ""));
    let (words, answer) = (split(question), answer.trim());
    let (name, arguments) = (*words.first()?, &words[1..]);
    let of_numbers = |of: fn(&str, &[u64], &str) -> Option<Known>| {
        numbers(arguments).and_then(|arguments| of(name, &arguments, answer))
    };
    let known = match (name, arguments, kind.0) {
        ("load", [many, order], _) => {
            let order = order.parse().ok()?;
            (calls::load(many.parse().ok()?, order), Vec::new())
        }
        ("clone", [], _) => (call(3, 0, &[]), Vec::new()),
        ("swap", [], _) => (calls::swap(), Vec::new()),
        ("default", [], _) => (call(3, 8, &[]), Vec::new()),
        ("fill", [many], _) => {
            let put = |turn| (calls::insert(turn, turn), vec![0]);
            return Some((0..many.parse().ok()?).map(put).collect());
        }
        (_, _, 4) => of_numbers(of_pages)?,
        (_, _, 7) => of_numbers(of_sets)?,
        (_, _, 11) => of_numbers(of_shards)?,
        (_, _, 20) => of_numbers(of_groups)?,
        (_, _, 21) => of_marked(name, arguments, answer)?,
        _ => of_owned(name, arguments, answer)?,
    };
    Some(vec![known])
}

// All parts of a text, the head of each of which is a line with a number sign. An error is a line
// that is not understood.
fn parts_of(
    text: &'static str,
    head: impl Fn(&'static str) -> Option<(Kind, &'static str)>,
    calls: impl Fn(Kind, &str) -> Option<Vec<Known>>,
) -> Result<Vec<Part>, &'static str> {
    let mut parts: Vec<Part> = Vec::new();
    for line in text.lines().filter(|line| !line.is_empty()) {
        match (line.strip_prefix("# "), parts.last_mut()) {
            (Some(rest), _) => {
                let (kind, name) = head(rest).ok_or(line)?;
                let lines = Vec::new();
                parts.push(Part { name, kind, lines });
            }
            (None, Some(part)) => {
                part.lines.push((line, calls(part.kind, line).ok_or(line)?));
            }
            (None, None) => return Err(line),
        }
    }
    Ok(parts)
}

fn all_parts() -> Result<Vec<Part>, &'static str> {
    let head = |line: &'static str| {
        let (kind, name) = line.strip_prefix("kind ")?.split_once(": ")?;
        Some((Kind(kind.parse().ok()?), name))
    };
    parts_of(ANSWERS, head, calls_of)
}

// The ends of a walk: 'f' for the front and 'b' for the back, or '-' for none.
fn ends_of(word: &str) -> u64 {
    let ends = word.trim_matches('-');
    let bit = |(step, end)| if end == 'b' { 1u64 << step } else { 0 };
    let bits: u64 = ends.chars().enumerate().map(bit).sum();
    bits | (ends.len() as u64) << 56
}

// The call that adds a command to a list.
fn command_of(words: &[&str]) -> Option<Record> {
    let push = |row: [u64; 4]| Some(call(6, 0, &row));
    let place = |word: &str| word.parse::<u64>().ok();
    match *words {
        ["insert", key, value] => push([0, key_of(key)?, place(value)?, 0]),
        ["remove", key] => push([1, key_of(key)?, 0, 0]),
        ["remove_at", at] => push([2, 0, place(at)?, 0]),
        ["clear"] => push([3, 0, 0, 0]),
        ["get", key] => push([4, key_of(key)?, 0, 0]),
        ["set", key, value] => push([5, key_of(key)?, place(value)?, 0]),
        ["set_at", at, value] => push([6, 0, place(at)?, place(value)?]),
        ["first"] => push([7, 0, 0, 0]),
        ["last"] => push([8, 0, 0, 0]),
        ["len"] => push([9, 0, 0, 0]),
        ["at", at] => push([10, 0, place(at)?, 0]),
        ["rank", key] => push([11, key_of(key)?, 0, 0]),
        ["cursor", key] => push([12, key_of(key)?, 0, 0]),
        ["cursor_first"] => push([13, 0, 0, 0]),
        ["cursor_last"] => push([14, 0, 0, 0]),
        ["next", cursor] => push([15, place(cursor)?, 0, 0]),
        ["prev", cursor] => push([16, place(cursor)?, 0, 0]),
        ["exists", cursor] => push([17, place(cursor)?, 0, 0]),
        ["value", cursor] => push([18, place(cursor)?, 0, 0]),
        ["walk", ends] => push([19, 0, 0, ends_of(ends)]),
        ["range", lo, "-", ends] => push([20, key_of(lo)?, 0, 1 << 48 | ends_of(ends)]),
        ["range", lo, hi, ends] => push([20, key_of(lo)?, key_of(hi)?, 3 << 48 | ends_of(ends)]),
        ["range_at", at, many, ends] => {
            push([21, 0, place(at)?, place(many)? << 40 | ends_of(ends)])
        }
        _ => None,
    }
}

// The words of a reply to a command.
fn reply_of(reply: &str) -> Option<Vec<u64>> {
    let (name, rest) = reply.split_once(' ').unwrap_or((reply, ""));
    let place = |word: &str| word.parse::<u64>().ok();
    Some(match name {
        "value" => [vec![1], number_if(rest)?].concat(),
        "pair" => [vec![2], pair_if(MARKED, rest)?].concat(),
        "number" => vec![3, place(rest)?],
        "done" => vec![4, u64::from(rest == "true")],
        "rank" => match ranked(rest)? {
            (1, rank) => vec![5, rank],
            (_, rank) => vec![6, rank],
        },
        "held" => {
            let (number, value) = rest.split_once(' ')?;
            [vec![7, place(number)?], number_if(value)?].concat()
        }
        "walked" => {
            let pairs = rest.split(", ").filter(|pair| !pair.is_empty());
            let pairs = pairs.map(|pair| pair_if(MARKED, pair));
            let pairs = pairs.collect::<Option<Vec<Vec<u64>>>>()?;
            [vec![8, pairs.len() as u64], pairs.concat()].concat()
        }
        "no" => vec![9],
        _ => return None,
    })
}

// The lists of commands, with the reply to each.
fn all_lists() -> Result<Vec<Part>, &'static str> {
    parts_of(
        COMMANDS,
        |name| Some((MARKED, name)),
        |_, line| {
            let (command, reply) = line.split_once(" = ")?;
            Some(vec![(command_of(&split(command))?, reply_of(reply)?)])
        },
    )
}

/// All parts of a kind.
pub fn parts(talk: &mut Talk) -> Result<(), String> {
    let kind = talk.kind();
    for part in all_parts()?.iter().filter(|part| part.kind == kind) {
        if kind.has_nodes() {
            talk.ask(&[calls::new(), calls::swap(), calls::new()])?;
        }
        for (line, known) in &part.lines {
            for (record, words) in known {
                talk.expect(*record, words, line)?;
            }
        }
    }
    Ok(())
}

/// All lists of commands, each on a new tree.
pub fn lists(talk: &mut Talk) -> Result<(), String> {
    for list in all_lists()? {
        talk.ask(&[calls::new()])?;
        let mut replies = Vec::new();
        for (record, reply) in list.lines.iter().flat_map(|line| &line.1) {
            talk.ask(&[*record])?;
            replies.extend(reply);
        }
        talk.expect(call(6, 1, &[]), &replies, list.name)?;
    }
    Ok(())
}

/// Of a list of so many commands each second one asks for the number of the keys that the others
/// put.
const MANY: u64 = 10_000;

/// A list of many commands, whose replies are known.
pub fn many_commands(talk: &mut Talk) -> Result<(), String> {
    let (mut list, mut replies) = (Vec::new(), Vec::new());
    for turn in 0..MANY / 2 {
        let key = marked(turn * 7 % (MANY / 2), u64::from('a'));
        list.extend([call(6, 0, &[0, key, 1, 0]), call(6, 0, &[9, 0, 0, 0])]);
        replies.extend([1, 0, 3, turn + 1]);
    }
    talk.ask(&list)?;
    talk.expect(call(6, 1, &[]), &replies, "many commands")
}

// A call of which each allocation fails in turn. What makes a map of items first allocates room
// for all of them, which it can do without.
fn step(kind: Kind, record: Record) -> Step {
    let is_load = record.call == calls::load(0, 0).call;
    swept(record).with_hints(u64::from(is_load && kind.is_map()))
}

// The scenario of a part.
fn scenario(part: &Part) -> Scenario {
    let records = part.lines.iter().flat_map(|line| &line.1);
    let steps = records.map(|known| step(part.kind, known.0)).collect();
    Scenario::new(&format!("known, {}", part.name), part.kind.0, steps)
}

// Each command of a list is run alone, and all of them at last, with no failed allocation.
fn one_by_one(list: &Part) -> Scenario {
    let run = call(6, 1, &[]);
    let records = list.lines.iter().flat_map(|line| &line.1);
    let records: Vec<Record> = records.map(|known| known.0).collect();
    let mut steps = Vec::new();
    for record in &records {
        steps.extend([swept(*record), swept(run).with_again(vec![*record])]);
    }
    steps.push(quiet(calls::new()));
    steps.extend(records.iter().chain([&run]).map(|record| quiet(*record)));
    Scenario::new(&format!("commands, {}", list.name), list.kind.0, steps)
}

/// A scenario of each part and of each list.
pub fn scenarios() -> Vec<Scenario> {
    let both = all_parts().and_then(|parts| Ok((parts, all_lists()?)));
    let (parts, lists) = both.unwrap_or_else(|line| panic!("the line '{line}'"));
    let parts = parts.iter().map(scenario);
    parts.chain(lists.iter().map(one_by_one)).collect()
}
