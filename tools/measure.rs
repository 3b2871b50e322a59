// The same calls as `bptree_examples` times, over the `BTreeMap` of Rust's standard library.
use std::collections::{BTreeMap, BTreeSet};
use std::io::stdin;
use std::time::Instant;

fn next_number(state: u64) -> u64 {
    let mut next = state;
    next ^= next << 13;
    next ^= next >> 7;
    next ^= next << 17;
    next
}

pub fn odd_numbers(many: usize) -> Vec<u64> {
    let mut state = 0x9e37_79b9_7f4a_7c15;
    (0..many)
        .map(|_| {
            state = next_number(state);
            state | 1
        })
        .collect()
}

pub fn shuffled(numbers: &[u64]) -> Vec<u64> {
    let mut others = numbers.to_vec();
    let mut state = 0x2545_f491_4f6c_dd1d;
    for i in 1..others.len() {
        state = next_number(state);
        others.swap(i, (state % (i as u64 + 1)) as usize);
    }
    others
}

pub fn tell(kind: &str, call: &str, start: Instant, calls: usize, sum: u64) {
    let each = start.elapsed().as_nanos() * 100 / (calls as u128 + 1);
    println!("{calls} {kind} {call} {each} {sum}");
}

fn get_all(map: &BTreeMap<u64, u64>, keys: &[u64], mask: u64) -> u64 {
    let mut sum = 0u64;
    for key in keys {
        if let Some(value) = map.get(&(*key & mask)) {
            sum = sum.wrapping_add(*value);
        }
    }
    sum
}

pub fn text_of(number: u64) -> String {
    format!("{number:016x}")
}

// Strings whose first bytes differ, or, behind the same front, do not.
fn texts(keys: &[u64], others: &[u64], front: &str, names: [&str; 2]) {
    let text = |key: &u64| front.to_owned() + &text_of(*key);
    let wanted: Vec<String> = others.iter().map(text).collect();
    let given: Vec<String> = keys.iter().map(text).collect();
    let mut map = BTreeMap::new();
    let start = Instant::now();
    for text in given {
        map.insert(text, 1u64);
    }
    tell("map", names[0], start, keys.len(), map.len() as u64);
    let start = Instant::now();
    let mut sum = 0u64;
    for text in &wanted {
        if let Some(value) = map.get(text) {
            sum = sum.wrapping_add(*value);
        }
    }
    tell("map", names[1], start, keys.len(), sum);
}

// Every second key, from an index on, and every fourth.
pub fn every_second(sorted: &[u64], first: usize) -> Vec<u64> {
    let chosen = |place: &usize| place % 2 == first || place % 4 == 0;
    let places = (0..sorted.len()).filter(chosen);
    places.map(|place| sorted[place]).collect()
}

fn both(sorted: &[u64]) {
    let first: BTreeSet<u64> = every_second(sorted, 0).into_iter().collect();
    let second: BTreeSet<u64> = every_second(sorted, 1).into_iter().collect();
    let start = Instant::now();
    let mut sum = 0u64;
    let mut many = 0;
    for key in first.union(&second) {
        sum = sum.wrapping_add(*key);
        many += 1;
    }
    tell("map", "union", start, many, sum);
    let start = Instant::now();
    let mut sum = 0u64;
    for key in first.intersection(&second) {
        sum = sum.wrapping_add(*key);
    }
    tell("map", "intersection", start, many, sum);
}

// The upper half of the pairs leaves and comes back, for each pair that moves; then every second pair leaves, for each pair;
// and of the others the half in the middle is removed, for each pair removed.
fn halves(mut map: BTreeMap<u64, u64>, keys: &[u64]) {
    let mut sorted = keys.to_vec();
    sorted.sort_unstable();
    let many = map.len();
    let (middle, lo, hi) = (sorted[many / 2], sorted[many / 4], sorted[many - many / 4]);
    let start = Instant::now();
    let mut half = map.split_off(&middle);
    let moved = half.len();
    tell("map", "splitoff", start, moved, map.len() as u64);
    let start = Instant::now();
    map.append(&mut half);
    tell("map", "append", start, moved, map.len() as u64);
    let start = Instant::now();
    map.retain(|key, _| *key % 4 == 1);
    tell("map", "retain", start, many, map.len() as u64);
    let start = Instant::now();
    let gone = map.extract_if(lo..hi, |_, _| true).count();
    tell("map", "removerange", start, gone, map.len() as u64);
}

// Whether keys are there; keys and values alone; and all pairs from the front, and from the back.
fn ends(keys: &[u64], others: &[u64]) {
    let mut map: BTreeMap<u64, u64> = keys.iter().map(|key| (*key, *key)).collect();
    let start = Instant::now();
    let mut sum = 0u64;
    for key in others {
        sum = sum.wrapping_add(map.contains_key(key) as u64);
    }
    tell("map", "contains", start, others.len(), sum);
    let start = Instant::now();
    let mut sum = 0u64;
    for key in map.keys() {
        sum = sum.wrapping_add(*key);
    }
    tell("map", "keys", start, keys.len(), sum);
    let start = Instant::now();
    let mut sum = 0u64;
    for value in map.values() {
        sum = sum.wrapping_add(*value);
    }
    tell("map", "values", start, keys.len(), sum);
    let mut other = map.clone();
    halves(map.clone(), keys);
    let start = Instant::now();
    let mut sum = 0u64;
    while let Some((key, _)) = map.pop_first() {
        sum = sum.wrapping_add(key);
    }
    tell("map", "popfirst", start, keys.len(), sum);
    let start = Instant::now();
    let mut sum = 0u64;
    while let Some((key, _)) = other.pop_last() {
        sum = sum.wrapping_add(key);
    }
    tell("map", "poplast", start, keys.len(), sum);
}

// Pairs that come one by one and at once, one for a hundred that are there, in random order and
// sorted; and two maps of every second key that become one.
fn come(sorted: &[u64], others: &[u64]) {
    let half = half_of(sorted, 0);
    let few = || {
        others
            .iter()
            .take(sorted.len() / 200)
            .map(|key| (*key & (u64::MAX - 1), *key))
    };
    for (call, at_once, in_order) in [
        ("insertfew", false, false),
        ("extendfew", true, false),
        ("insertsorted", false, true),
        ("extendsorted", true, true),
    ] {
        let mut map = half.clone();
        let mut pairs: Vec<(u64, u64)> = few().collect();
        let many = pairs.len();
        if in_order {
            pairs.sort_unstable();
        }
        let start = Instant::now();
        if at_once {
            map.extend(pairs);
        } else {
            for (key, value) in pairs {
                map.insert(key, value);
            }
        }
        tell("map", call, start, many, map.len() as u64);
    }
    let (mut first, mut second) = (half, half_of(sorted, 1));
    let start = Instant::now();
    first.append(&mut second);
    tell("map", "weave", start, sorted.len(), first.len() as u64);
}

fn half_of(sorted: &[u64], first: usize) -> BTreeMap<u64, u64> {
    sorted
        .iter()
        .skip(first)
        .step_by(2)
        .map(|key| (*key, *key))
        .collect()
}

// What calls for many keys at once are compared with: each key by itself.
fn batches(keys: &[u64], others: &[u64]) {
    let mut map: BTreeMap<u64, u64> = keys.iter().map(|key| (*key, *key)).collect();
    let start = Instant::now();
    let sum = get_all(&map, others, u64::MAX);
    tell("map", "getmany", start, others.len(), sum);
    let start = Instant::now();
    let mut sum = 0u64;
    for key in others {
        sum = sum.wrapping_add(map.contains_key(key) as u64);
    }
    tell("map", "containsmany", start, others.len(), sum);
    let mut new: Vec<u64> = others
        .iter()
        .take(keys.len() / 100)
        .map(|key| *key & (u64::MAX - 1))
        .collect();
    insert_all(&mut map, &new, ["insertmany", "removemany"]);
    new.sort();
    insert_all(&mut map, &new, ["insertsorted", "removesorted"]);
}

// Inserts new keys one by one, and removes them. The names are those of the two calls.
fn insert_all(map: &mut BTreeMap<u64, u64>, new: &[u64], names: [&str; 2]) {
    let start = Instant::now();
    for key in new {
        map.insert(*key, *key);
    }
    tell("map", names[0], start, new.len(), map.len() as u64);
    let start = Instant::now();
    let mut sum = 0u64;
    for key in new {
        sum += map.remove(key).is_some() as u64;
    }
    tell("map", names[1], start, new.len(), sum);
}

// Look-ups of keys of two parts, in groups of 500.
fn look_up_pairs(places: &[u64]) {
    let key = |number: u64| (number / 500, number % 500);
    let map: BTreeMap<(u64, u64), u64> = places
        .iter()
        .map(|number| (key(*number), *number))
        .collect();
    let again = shuffled(places);
    let start = Instant::now();
    let mut sum = 0u64;
    for number in &again {
        if let Some(value) = map.get(&key(*number)) {
            sum = sum.wrapping_add(*value);
        }
    }
    tell("map", "pairget", start, again.len(), sum);
}

// A map of so many pairs in random order, and nothing else.
fn fill(pairs: usize) {
    let mut map = BTreeMap::new();
    let mut state = 0x9e37_79b9_7f4a_7c15;
    for _ in 0..pairs {
        state = next_number(state);
        map.insert(state | 1, state | 1);
    }
    println!("{pairs} map fill 0 {}", map.len());
}

fn main() {
    for line in stdin().lines() {
        let line = line.unwrap();
        let Some((pairs, rounds)) = line.split_once(' ') else {
            fill(line.parse().unwrap());
            continue;
        };
        let keys = odd_numbers(pairs.parse().unwrap());
        let others = shuffled(&keys);
        let mut sorted = keys.clone();
        sorted.sort_unstable();
        let places = shuffled(&(0..keys.len() as u64).collect::<Vec<u64>>());
        for _ in 0..rounds.parse().unwrap() {
            let mut map = BTreeMap::new();
            let start = Instant::now();
            let mut sum = 0u64;
            for key in &keys {
                if map.insert(*key, *key).is_some() {
                    sum += 1;
                }
            }
            tell("map", "insert", start, keys.len(), sum);
            for (call, wanted, mask) in [
                ("get", &others, u64::MAX),
                ("absent", &others, u64::MAX - 1),
                ("inorder", &sorted, u64::MAX),
            ] {
                let start = Instant::now();
                let sum = get_all(&map, wanted, mask);
                tell("map", call, start, wanted.len(), sum);
            }
            let start = Instant::now();
            let mut sum = 0u64;
            for (key, _) in &map {
                sum = sum.wrapping_add(*key);
            }
            tell("map", "step", start, keys.len(), sum);
            let start = Instant::now();
            let mut sum = 0u64;
            for key in &others {
                if let Some((next, _)) = map.range((*key & (u64::MAX - 1))..).next() {
                    sum = sum.wrapping_add(*next);
                }
            }
            tell("map", "lower", start, keys.len(), sum);
            let start = Instant::now();
            let mut sum = 0u64;
            for place in &places {
                let place = *place as usize;
                if let (Some(lo), Some(hi)) = (sorted.get(place), sorted.get(place + 10)) {
                    for (key, _) in map.range(*lo..*hi) {
                        sum = sum.wrapping_add(*key);
                    }
                }
            }
            tell("map", "range", start, places.len(), sum);
            let start = Instant::now();
            let mut sum = 0u64;
            for key in &others {
                if let Some(value) = map.remove(key) {
                    sum = sum.wrapping_add(value);
                }
            }
            tell("map", "remove", start, keys.len(), sum);
            let mut map = BTreeMap::new();
            let start = Instant::now();
            let mut sum = 0u64;
            for key in &sorted {
                if map.insert(*key, *key).is_some() {
                    sum += 1;
                }
            }
            tell("map", "upward", start, keys.len(), sum);
            let pairs: Vec<(u64, u64)> = sorted.iter().map(|key| (*key, *key)).collect();
            let start = Instant::now();
            let map: BTreeMap<u64, u64> = pairs.into_iter().collect();
            tell("map", "load", start, keys.len(), map.len() as u64);
            let start = Instant::now();
            let other = map.clone();
            tell("map", "clone", start, keys.len(), other.len() as u64);
            drop(other);
            let start = Instant::now();
            let mut sum = 0u64;
            for (key, _) in map {
                sum = sum.wrapping_add(key);
            }
            tell("map", "drain", start, keys.len(), sum);
            texts(&keys, &others, "", ["text-insert", "text-get"]);
            texts(&keys, &others, "alikealike", ["alike-insert", "alike-get"]);
            both(&sorted);
            ends(&keys, &others);
            come(&sorted, &others);
            batches(&keys, &others);
            look_up_pairs(&places);
        }
    }
}
