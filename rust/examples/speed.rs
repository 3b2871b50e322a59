//! Times of the calls beside `BTreeMap`'s: for each number of pairs in the arguments a line for
//! each call, the least time of some turns in nanoseconds a call.
use std::collections::BTreeMap;
use std::time::Instant;
use sweep_bptree_proved::{Map, NumberMap, OutOfMemory};

fn shuffle(keys: &mut [u64], state: &mut u64) {
    for i in (1..keys.len()).rev() {
        keys.swap(i, (roll(state) % (i as u64 + 1)) as usize);
    }
}

fn roll(state: &mut u64) -> u64 {
    *state ^= *state << 13;
    *state ^= *state >> 7;
    *state ^= *state << 17;
    *state
}

fn took(least: &mut BTreeMap<String, f64>, call: &str, start: Instant, n: usize) {
    let each = start.elapsed().as_nanos() as f64 / n as f64;
    let known = least.entry(call.to_string()).or_insert(each);
    *known = known.min(each);
}

// Texts of 16 letters, with numbers as their values.
fn texts(least: &mut BTreeMap<String, f64>, keys: &[u64]) -> Result<u64, OutOfMemory> {
    let n = keys.len();
    let texts: Vec<String> = keys.iter().map(|key| format!("{key:016x}")).collect();
    let (given, mut map) = (texts.clone(), Map::new()?);
    let start = Instant::now();
    for text in given {
        map.insert(text, 7u64)?;
    }
    took(least, "rust text insert", start, n);
    let (given, mut plain) = (texts.clone(), BTreeMap::new());
    let start = Instant::now();
    for text in given {
        plain.insert(text, 7u64);
    }
    took(least, "BTreeMap text insert", start, n);
    let wanted: Vec<&str> = texts.iter().rev().map(String::as_str).collect();
    let start = Instant::now();
    let sum = wanted.iter().filter_map(|text| map.get(*text)).sum::<u64>();
    took(least, "rust text get", start, n);
    let start = Instant::now();
    let other = wanted.iter().filter_map(|text| plain.get(*text)).sum::<u64>();
    took(least, "BTreeMap text get", start, n);
    Ok(sum - other)
}

fn main() -> Result<(), OutOfMemory> {
    for n in std::env::args().skip(1).filter_map(|it| it.parse::<usize>().ok()) {
        let mut state = 0x9e37_79b9_7f4a_7c15;
        let mut keys: Vec<u64> = (0..n).map(|_| roll(&mut state)).collect();
        let (mut least, mut sum) = (BTreeMap::new(), 0u64);
        for _ in 0..5 {
            shuffle(&mut keys, &mut state);
            let (mut map, mut plain) = (NumberMap::new()?, BTreeMap::new());
            let start = Instant::now();
            for key in &keys {
                map.insert(*key, 7)?;
            }
            took(&mut least, "rust insert", start, n);
            let start = Instant::now();
            for key in &keys {
                plain.insert(*key, 7u64);
            }
            took(&mut least, "BTreeMap insert", start, n);
            shuffle(&mut keys, &mut state);
            let start = Instant::now();
            for key in &keys {
                sum = sum.wrapping_add(map.get(*key).unwrap_or(0));
            }
            took(&mut least, "rust get", start, n);
            let start = Instant::now();
            for key in &keys {
                sum = sum.wrapping_add(*plain.get(key).unwrap_or(&0));
            }
            took(&mut least, "BTreeMap get", start, n);
            let start = Instant::now();
            sum = map.iter().fold(sum, |sum, (key, _)| sum.wrapping_add(key));
            took(&mut least, "rust iteration", start, n);
            let start = Instant::now();
            sum = plain.iter().fold(sum, |sum, (key, _)| sum.wrapping_add(*key));
            took(&mut least, "BTreeMap iteration", start, n);
            shuffle(&mut keys, &mut state);
            let start = Instant::now();
            for key in &keys {
                map.remove(*key)?;
            }
            took(&mut least, "rust remove", start, n);
            let start = Instant::now();
            for key in &keys {
                plain.remove(key);
            }
            took(&mut least, "BTreeMap remove", start, n);
            sum = sum.wrapping_add(texts(&mut least, &keys)?);
        }
        for (call, each) in least {
            println!("{n} {call} {each:.1}");
        }
        eprintln!("{sum}");
    }
    Ok(())
}
