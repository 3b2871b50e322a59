//! Maps and sets of any keys beside a `BTreeMap` and a `BTreeSet`, in random order.
use std::collections::{BTreeMap, BTreeSet};
use std::fmt::Debug;
use std::ops::Bound;
use std::rc::Rc;
use sweep_bptree_proved::{Map, NumberMap, OrderedKey, Set};

struct Dice(u64);

impl Dice {
    fn roll(&mut self, below: u64) -> u64 {
        self.0 ^= self.0 << 13;
        self.0 ^= self.0 >> 7;
        self.0 ^= self.0 << 17;
        (self.0 >> 11) % below
    }

    // A short text of few letters, of which one is the byte 0.
    fn text(&mut self) -> String {
        let length = self.roll(6);
        (0..length)
            .map(|_| ['\0', '\u{1}', 'a', 'b', 'ä', '\u{10ffff}'][self.roll(6) as usize])
            .collect()
    }

    fn bound<K>(&mut self, key: impl Fn(&mut Dice) -> K) -> Bound<K> {
        match self.roll(4) {
            0 => Bound::Unbounded,
            1 => Bound::Included(key(self)),
            _ => Bound::Excluded(key(self)),
        }
    }
}

// A range in the order of its ends, as `BTreeMap` wants it; not both ends excluded at one key.
fn ordered<K: Ord + Clone>(from: Bound<K>, to: Bound<K>) -> (Bound<K>, Bound<K>) {
    fn key<K>(bound: &Bound<K>) -> Option<&K> {
        match bound {
            Bound::Included(key) | Bound::Excluded(key) => Some(key),
            Bound::Unbounded => None,
        }
    }
    match (key(&from), key(&to)) {
        (Some(first), Some(last)) if first > last => (to, from),
        (Some(first), Some(last)) if first == last => (Bound::Included(first.clone()), to),
        _ => (from, to),
    }
}

fn alike<K, V>(map: &Map<K, V>, plain: &BTreeMap<K, V>)
where
    K: Debug + PartialEq,
    V: Debug + PartialEq,
{
    assert!(map.iter().eq(plain));
    assert!(map.iter().rev().eq(plain.iter().rev()));
    assert!(map.keys().eq(plain.keys()));
    assert!(map.values().rev().eq(plain.values().rev()));
    assert_eq!(map.iter().len(), plain.len());
    assert_eq!(format!("{map:?}"), format!("{plain:?}"));
}

// Calls in random order with keys of one type.
fn calls<K>(turns: u64, key: impl Fn(&mut Dice) -> K + Copy)
where
    K: OrderedKey + Ord + Clone + Debug,
{
    let mut dice = Dice(0x9e37_79b9_7f4a_7c15);
    let mut map = Map::new().unwrap();
    let mut plain = BTreeMap::new();
    for turn in 0..turns {
        let it = key(&mut dice);
        match dice.roll(12) {
            0..=4 => assert_eq!(map.insert(it.clone(), turn), Ok(plain.insert(it, turn))),
            5 | 6 => assert_eq!(map.remove(&it), Ok(plain.remove(&it))),
            7 => {
                assert_eq!(map.get_key_value(&it), plain.get_key_value(&it));
                assert_eq!(map.contains_key(&it), plain.contains_key(&it));
                let smaller = plain.range(..&it).count();
                let rank = if plain.contains_key(&it) { Ok(smaller) } else { Err(smaller) };
                assert_eq!(map.rank(&it), rank);
                assert_eq!(map.get_index(smaller), plain.range(&it..).next());
            }
            8 => {
                let (from, to) = ordered(dice.bound(key), dice.bound(key));
                let range = (from.clone(), to.clone());
                assert!(map.range(range.clone()).eq(plain.range(range.clone())));
                assert!(map.range(range.clone()).rev().eq(plain.range(range.clone()).rev()));
                assert_eq!(map.range_len(range.clone()), plain.range(range).count());
            }
            9 => {
                if let Some(value) = map.get_mut(&it) {
                    *value += 1;
                }
                if let Some(value) = plain.get_mut(&it) {
                    *value += 1;
                }
            }
            10 => {
                let value = *map.get_or_insert_with(it.clone(), || turn).unwrap();
                assert_eq!(value, *plain.entry(it).or_insert(turn));
            }
            _ if dice.roll(4) > 0 => {
                let index = dice.roll(plain.len() as u64 + 1) as usize;
                let gone =
                    plain.keys().nth(index).cloned().and_then(|key| plain.remove_entry(&key));
                assert_eq!(map.remove_index(index), Ok(gone));
            }
            _ => {
                let (first, last) =
                    (plain.keys().next().cloned(), plain.keys().next_back().cloned());
                assert_eq!(map.first_key_value().map(|pair| pair.0), first.as_ref());
                assert_eq!(map.last_key_value().map(|pair| pair.0), last.as_ref());
                assert_eq!(map.pop_first(), Ok(first.and_then(|key| plain.remove_entry(&key))));
                let last = plain.keys().next_back().cloned();
                assert_eq!(map.pop_last(), Ok(last.and_then(|key| plain.remove_entry(&key))));
            }
        }
        assert_eq!(map.len(), plain.len());
        if turn % 997 == 0 {
            alike(&map, &plain);
        }
    }
    for (_, value) in &mut map {
        *value *= 2;
    }
    plain.values_mut().for_each(|value| *value *= 2);
    alike(&map, &plain);
    assert_eq!(map, map.clone());
    let copy: Map<K, u64> = plain.clone().into_iter().collect();
    assert_eq!(map, copy);
    let mut both = map.into_iter();
    let mut plain = plain.into_iter();
    while plain.len() > 20 {
        assert_eq!(both.next(), plain.next());
        assert_eq!(both.next_back(), plain.next_back());
        assert_eq!(both.len(), plain.len());
    }
}

#[test]
fn numbers() {
    calls(60_000, |dice| dice.roll(3000) as i32 - 1500);
    calls(20_000, |dice| (dice.roll(2) << 63) + dice.roll(300));
    calls(20_000, |dice| {
        i128::MIN.wrapping_add(i128::from(dice.roll(9)).wrapping_mul(i128::MAX / 4))
    });
    calls(5_000, |dice| dice.roll(200) as i8);
}

#[test]
fn texts() {
    calls(60_000, Dice::text);
    calls(20_000, |dice| dice.text().into_bytes());
    calls(20_000, |dice| char::from_u32(dice.roll(0xd800) as u32).unwrap());
}

#[test]
fn tuples() {
    calls(40_000, |dice| (dice.text(), dice.roll(3) as i64 - 1));
    calls(40_000, |dice| (dice.text(), dice.text(), dice.roll(2) == 0));
    calls(20_000, |dice| (dice.text().repeat(9), dice.text().repeat(5), dice.roll(9) as u16, 'a'));
}

#[test]
fn sets() {
    let mut dice = Dice(77);
    let mut set = Set::new().unwrap();
    let mut plain = BTreeSet::new();
    for turn in 0..40_000 {
        let key = dice.text();
        match dice.roll(5) {
            0 | 1 => assert_eq!(set.insert(key.clone()), Ok(plain.insert(key))),
            2 => assert_eq!(set.take(key.as_str()), Ok(plain.take(&key))),
            3 => assert_eq!(set.remove(key.as_str()), Ok(plain.remove(&key))),
            _ => {
                assert_eq!(set.get(key.as_str()), plain.get(&key));
                assert_eq!(set.contains(key.as_str()), plain.contains(&key));
                assert!(set.range(key.clone()..).eq(plain.range(key.clone()..)));
                assert_eq!(set.range_len(..key.clone()), plain.range(..key).count());
            }
        }
        assert_eq!(set.len(), plain.len());
        if turn % 997 == 0 {
            assert!(set.iter().eq(&plain));
            assert_eq!(set.first(), plain.iter().next());
            assert_eq!(set.last(), plain.iter().next_back());
            assert_eq!(format!("{set:?}"), format!("{plain:?}"));
        }
    }
    assert_eq!(set, plain.iter().cloned().collect());
    assert!(set.clone().into_iter().rev().eq(plain.into_iter().rev()));
    set.clear().unwrap();
    assert!(set.is_empty() && set.first().is_none());
    assert_eq!(set.pop_last(), Ok(None));
}

// Each value is dropped once: when it is replaced, removed, cleared or left over.
#[test]
fn values_are_dropped_once() {
    let value = Rc::new(());
    let left = || Rc::strong_count(&value) - 1;
    let mut map = Map::new().unwrap();
    for key in 0..1000 {
        map.insert(key, Rc::clone(&value)).unwrap();
    }
    assert_eq!(left(), 1000);
    assert!(map.insert(7, Rc::clone(&value)).unwrap().is_some());
    assert!(map.remove(&8).unwrap().is_some());
    assert_eq!(left(), 999);
    let mut rest = map.clone().into_iter();
    assert_eq!(left(), 1998);
    assert!(rest.nth(99).is_some() && rest.next_back().is_some());
    assert_eq!(left(), 999 + 898);
    drop(rest);
    assert_eq!(left(), 999);
    map.clear().unwrap();
    assert_eq!((left(), map.len()), (0, 0));
    map.extend([(1, Rc::clone(&value)), (1, Rc::clone(&value))]);
    assert_eq!(left(), 1);
    drop(map);
    assert_eq!(left(), 0);
}

// Of a type without a size the entries take no memory of the global allocator.
#[test]
fn keys_and_values_without_a_size() {
    #[derive(Debug, PartialEq)]
    struct Only;
    impl OrderedKey for Only {
        fn write_part(&self, _: &mut sweep_bptree_proved::KeyBytes) {}
    }
    let mut map = Map::new().unwrap();
    assert_eq!(map.insert(Only, ()), Ok(None));
    assert_eq!(map.insert(Only, ()), Ok(Some(())));
    assert_eq!(map.pop_first(), Ok(Some((Only, ()))));
    assert_eq!(map.pop_first(), Ok(None));
}

// The key that was there stays, and the look-up takes what the key borrows as.
#[test]
fn the_first_of_equal_keys_stays() {
    #[derive(Debug, Clone, PartialEq)]
    struct Name(&'static str, u32);
    impl OrderedKey for Name {
        fn write_part(&self, bytes: &mut sweep_bptree_proved::KeyBytes) {
            self.0.write_part(bytes);
        }
    }
    let mut map = Map::new().unwrap();
    map.insert(Name("a", 1), 'x').unwrap();
    assert_eq!(map.insert(Name("a", 2), 'y'), Ok(Some('x')));
    assert_eq!(map.get_key_value(&Name("a", 3)), Some((&Name("a", 1), &'y')));
}

#[test]
fn maps_go_to_other_threads() {
    let map: Map<String, Vec<u32>> = (0..100).map(|n| (n.to_string(), vec![n])).collect();
    let sum = std::thread::spawn(move || map.values().map(|list| list[0]).sum::<u32>());
    assert_eq!(sum.join().unwrap(), 4950);
}

// Threads share maps and sets that they read, and what they find is what one thread finds.
#[test]
fn threads_share_what_they_read() {
    fn is_shared<T: Send + Sync>(_: &T) {}
    const PAIRS: u64 = 20_000;
    let texts: Map<String, u64> = (0..PAIRS).map(|i| (format!("{i:06}"), i)).collect();
    let keys: Set<(u64, u32)> = (0..PAIRS).map(|i| (i / 2, (i % 2) as u32)).collect();
    let numbers =
        NumberMap::from_pairs(&(0..PAIRS).map(|i| (3 * i, i)).collect::<Vec<_>>()).unwrap();
    is_shared(&texts);
    is_shared(&keys);
    is_shared(&numbers);
    std::thread::scope(|scope| {
        for first in 0..4 {
            let (texts, keys, numbers) = (&texts, &keys, &numbers);
            scope.spawn(move || {
                for i in (first..PAIRS).step_by(3) {
                    let index = i as usize;
                    assert_eq!(texts.get(format!("{i:06}").as_str()), Some(&i));
                    assert_eq!(texts.rank(format!("{i:06}x").as_str()), Err(index + 1));
                    assert_eq!(keys.get_index(index), Some(&(i / 2, (i % 2) as u32)));
                    assert_eq!((numbers.get(3 * i), numbers.get(3 * i + 1)), (Some(i), None));
                    assert_eq!(numbers.get_index(index), Some((3 * i, i)));
                }
                assert_eq!(texts.values().copied().sum::<u64>(), PAIRS * (PAIRS - 1) / 2);
                assert_eq!(
                    numbers.iter().rev().map(|(_, i)| i).sum::<u64>(),
                    PAIRS * (PAIRS - 1) / 2
                );
            });
        }
    });
}
