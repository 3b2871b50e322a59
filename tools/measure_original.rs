// The same calls as `bptree_examples` times, of the crate sweep-bptree itself.
#![allow(dead_code)]

#[path = "measure.rs"]
mod measure;

use measure::{every_second, odd_numbers, shuffled, tell, text_of};
use std::io::stdin;
use std::time::Instant;
use sweep_bptree::{BPlusTree, BPlusTreeMap, BPlusTreeSet, NodeStoreVec};

type Tree = BPlusTree<NodeStoreVec<u64, u64>>;

const KIND: &str = "original";

fn inserted(call: &str, keys: &[u64]) -> Tree {
    let mut tree = Tree::new(NodeStoreVec::default());
    let start = Instant::now();
    let mut sum = 0u64;
    for key in keys {
        if tree.insert(*key, *key).is_some() {
            sum += 1;
        }
    }
    tell(KIND, call, start, keys.len(), sum);
    tree
}

fn get_all(call: &str, tree: &Tree, keys: &[u64], mask: u64) {
    let start = Instant::now();
    let mut sum = 0u64;
    for key in keys {
        if let Some(value) = tree.get(&(*key & mask)) {
            sum = sum.wrapping_add(*value);
        }
    }
    tell(KIND, call, start, keys.len(), sum);
}

fn step_through(call: &str, tree: &Tree) {
    let start = Instant::now();
    let mut sum = 0u64;
    for (key, _) in tree.iter() {
        sum = sum.wrapping_add(*key);
    }
    tell(KIND, call, start, tree.len(), sum);
}

fn remove_all(tree: &mut Tree, keys: &[u64]) {
    let start = Instant::now();
    let mut sum = 0u64;
    for key in keys {
        if let Some(value) = tree.remove(key) {
            sum = sum.wrapping_add(value);
        }
    }
    tell(KIND, "remove", start, keys.len(), sum);
}

fn load_all(sorted: &[u64]) {
    let pairs: Vec<(u64, u64)> = sorted.iter().map(|key| (*key, *key)).collect();
    let start = Instant::now();
    let tree = Tree::bulk_load(pairs);
    tell(KIND, "load", start, sorted.len(), tree.len() as u64);
    step_through("full", &tree);
    let start = Instant::now();
    let mut sum = 0u64;
    for (key, _) in tree.into_iter() {
        sum = sum.wrapping_add(key);
    }
    tell(KIND, "drain", start, sorted.len(), sum);
}

fn texts(keys: &[u64], others: &[u64]) {
    let wanted: Vec<String> = others.iter().map(|key| text_of(*key)).collect();
    let given: Vec<String> = keys.iter().map(|key| text_of(*key)).collect();
    let mut map: BPlusTreeMap<String, u64> = BPlusTreeMap::new();
    let start = Instant::now();
    for text in given {
        map.insert(text, 1);
    }
    tell(KIND, "text-insert", start, keys.len(), map.len() as u64);
    let start = Instant::now();
    let mut sum = 0u64;
    for text in &wanted {
        if let Some(value) = map.get(text) {
            sum = sum.wrapping_add(*value);
        }
    }
    tell(KIND, "text-get", start, keys.len(), sum);
}

fn union(sorted: &[u64]) {
    let first: BPlusTreeSet<u64> = every_second(sorted, 0).into_iter().collect();
    let second: BPlusTreeSet<u64> = every_second(sorted, 1).into_iter().collect();
    let start = Instant::now();
    let mut sum = 0u64;
    let mut many = 0;
    for key in first.union(&second) {
        sum = sum.wrapping_add(*key);
        many += 1;
    }
    tell(KIND, "union", start, many, sum);
}

fn main() {
    for line in stdin().lines() {
        let line = line.unwrap();
        let Some((pairs, rounds)) = line.split_once(' ') else {
            continue;
        };
        let keys = odd_numbers(pairs.parse().unwrap());
        let others = shuffled(&keys);
        let mut sorted = keys.clone();
        sorted.sort_unstable();
        for _ in 0..rounds.parse().unwrap() {
            let mut tree = inserted("insert", &keys);
            get_all("get", &tree, &others, u64::MAX);
            get_all("absent", &tree, &others, u64::MAX - 1);
            get_all("inorder", &tree, &sorted, u64::MAX);
            step_through("step", &tree);
            remove_all(&mut tree, &others);
            inserted("upward", &sorted);
            load_all(&sorted);
            texts(&keys, &others);
            union(&sorted);
        }
    }
}
