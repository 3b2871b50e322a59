//! Calls in random order beside a `BTreeMap`.
use std::collections::BTreeMap;
use std::ops::Bound;
use sweep_bptree_proved::{NumberMap, OutOfMemory};

struct Dice(u64);

impl Dice {
    fn roll(&mut self, below: u64) -> u64 {
        self.0 ^= self.0 << 13;
        self.0 ^= self.0 >> 7;
        self.0 ^= self.0 << 17;
        (self.0 >> 11) % below
    }

    fn key(&mut self) -> u64 {
        match self.roll(6000) {
            0 => 0,
            1 => u64::MAX,
            key => key,
        }
    }

    fn bound(&mut self) -> Bound<u64> {
        match self.roll(5) {
            0 => Bound::Unbounded,
            1 | 2 => Bound::Included(self.key()),
            _ => Bound::Excluded(self.key()),
        }
    }
}

fn is_range(from: Bound<u64>, to: Bound<u64>) -> bool {
    match (from, to) {
        (Bound::Included(from), Bound::Included(to)) => from <= to,
        (Bound::Unbounded, _) | (_, Bound::Unbounded) => true,
        (
            Bound::Included(from) | Bound::Excluded(from),
            Bound::Included(to) | Bound::Excluded(to),
        ) => from < to,
    }
}

// (rustc 1.63, which Debian 12 has, has no `pop_first` and `first_key_value` of a `BTreeMap`)
fn first(plain: &BTreeMap<u64, u64>) -> Option<(u64, u64)> {
    plain.iter().next().map(|(key, value)| (*key, *value))
}

fn last(plain: &BTreeMap<u64, u64>) -> Option<(u64, u64)> {
    plain.iter().next_back().map(|(key, value)| (*key, *value))
}

#[test]
fn answers_alike() -> Result<(), OutOfMemory> {
    let mut dice = Dice(0x9e37_79b9_7f4a_7c15);
    let mut map = NumberMap::new()?;
    let mut plain = BTreeMap::new();
    for turn in 0..200_000 {
        let key = dice.key();
        match dice.roll(9) {
            0..=3 => assert_eq!(map.insert(key, turn)?, plain.insert(key, turn)),
            4..=5 => assert_eq!(map.remove(key)?, plain.remove(&key)),
            6 => assert_eq!(
                map.pop_first()?,
                first(&plain).and_then(|(key, _)| plain.remove_entry(&key))
            ),
            7 => assert_eq!(
                map.pop_last()?,
                last(&plain).and_then(|(key, _)| plain.remove_entry(&key))
            ),
            _ => {
                let place = dice.roll(plain.len() as u64 + 2) as usize;
                let at = match turn % 16 {
                    0 => plain.iter().nth(place).map(|(k, v)| (*k, *v)),
                    _ => map.get_index(place),
                };
                assert_eq!(map.get_index(place), at);
                assert_eq!(map.remove_index(place)?, at);
                if let Some((key, value)) = at {
                    assert_eq!(plain.remove(&key), Some(value));
                }
            }
        }
        assert_eq!(map.get(key), plain.get(&key).copied());
        assert_eq!(map.contains_key(key), plain.contains_key(&key));
        assert_eq!(map.len(), plain.len());
        assert_eq!(map.first_key_value(), first(&plain));
        assert_eq!(map.last_key_value(), last(&plain));
        if turn % 64 == 0 {
            let (from, to) = (dice.bound(), dice.bound());
            let smaller = plain.range(..key).count();
            let rank = if plain.contains_key(&key) { Ok(smaller) } else { Err(smaller) };
            assert_eq!(map.rank(key), rank);
            let above = (Bound::Excluded(key), Bound::Unbounded);
            assert_eq!(map.next(key), plain.range(above).next().map(|(k, v)| (*k, *v)));
            assert_eq!(map.prev(key), plain.range(..key).next_back().map(|(k, v)| (*k, *v)));
            if is_range(from, to) {
                let wanted: Vec<_> = plain.range((from, to)).map(|(k, v)| (*k, *v)).collect();
                assert_eq!(map.range((from, to)).collect::<Vec<_>>(), wanted);
                let back: Vec<_> = map.range((from, to)).rev().collect();
                assert!(back.iter().rev().eq(&wanted));
                let mut ends = map.range((from, to));
                let (mut front, mut last) = (Vec::new(), Vec::new());
                while let Some(pair) = ends.next() {
                    front.push(pair);
                    last.extend(ends.next_back());
                }
                front.extend(last.iter().rev());
                assert_eq!(front, wanted);
            } else {
                assert_eq!(map.range((from, to)).next(), None);
            }
            let all: Vec<_> = plain.iter().map(|(k, v)| (*k, *v)).collect();
            let size = 1 + dice.roll(80) as usize;
            let number = dice.roll((all.len() / size + 2) as u64) as usize;
            assert_eq!(map.page(number, size)?, all.chunks(size).nth(number).unwrap_or(&[]));
            assert_eq!(map.page(0, usize::MAX)?, all);
            assert_eq!((map.page(1, usize::MAX)?, map.page(number, 0)?), (vec![], vec![]));
        }
        if turn % 50_000 == 49_999 {
            let given: Vec<_> = (0..3000).map(|_| (dice.key(), dice.roll(1000))).collect();
            map.load(&given)?;
            plain = given.into_iter().collect();
            assert!(map.iter().eq(plain.iter().map(|(k, v)| (*k, *v))));
        }
    }
    map.clear()?;
    assert!(map.is_empty());
    Ok(())
}

#[test]
fn loads_nothing() -> Result<(), OutOfMemory> {
    let mut map = NumberMap::from_pairs(&[(1, 10)])?;
    map.load(&[])?;
    assert!(map.is_empty());
    assert_eq!((map.page(0, 8)?, map.page(0, 0)?), (vec![], vec![]));
    Ok(())
}

#[test]
fn goes_to_another_thread() -> Result<(), OutOfMemory> {
    let map = NumberMap::from_pairs(&[(2, 20), (1, 10), (2, 21)])?;
    let pairs = std::thread::spawn(move || map.iter().collect::<Vec<_>>()).join().unwrap();
    assert_eq!(pairs, [(1, 10), (2, 21)]);
    Ok(())
}

// A copy does not change with the map that it was made of.
#[test]
fn copies_are_apart() -> Result<(), OutOfMemory> {
    let pairs: Vec<_> = (0..5000).map(|key| (key, key + 1)).collect();
    let mut map = NumberMap::from_pairs(&pairs)?;
    let mut copy = map.try_clone()?;
    while map.pop_last()?.is_some() {}
    assert_eq!(copy.iter().collect::<Vec<_>>(), pairs);
    copy.insert(9000, 1)?;
    assert_eq!((map.len(), copy.len()), (0, 5001));
    assert_eq!(NumberMap::new()?.try_clone()?.len(), 0);
    Ok(())
}
