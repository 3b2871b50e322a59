//! Calls in random order on a map over shards. At first two shards have few pairs, one has
//! hundreds, one has thousands, or others are empty; to one of these perhaps no key comes. Then
//! shards are cut in two and put together while the calls go on.

use crate::drawing::Drawing;
use crate::record::{call, calls, Record};

/// So many pairs are put at first.
const FILLED: u64 = 5_000;

impl Drawing {
    /// A number of all, or of those up to two for each pair.
    fn any_key(&mut self) -> u64 {
        if self.is_wide {
            self.dice.number()
        } else {
            self.dice.below(2 * FILLED)
        }
    }

    // The number at so many thousandths of the range.
    fn at_part(&self, thousandths: u64) -> u64 {
        let range = if self.is_wide { u64::MAX } else { 2 * FILLED };
        (u128::from(range) * u128::from(thousandths) / 1_000) as u64
    }

    /// Shards are begun, and filled.
    pub fn begin_shards(&mut self) -> Vec<Record> {
        let parts = match self.dice.below(4) {
            // Few pairs, hundreds, 0, and thousands.
            0 => [4, 80, 80],
            // Hundreds, few, hundreds more, and thousands.
            1 => [60, 64, 140],
            // Thousands, 0, few, and few.
            2 => [990, 990, 995],
            // To the second one no key comes.
            _ => [900, 700, 960],
        };
        let [a, b, c] = parts.map(|part| self.at_part(part));
        let mut records = vec![call(3, 4, &[a, b, c, 3])];
        for _ in 0..FILLED {
            records.push(calls::insert(self.any_key(), self.dice.number()));
        }
        records
    }

    // A key: one that is there, a bound or the number before it, or any.
    fn shard_key(&mut self) -> u64 {
        let bound = self.bound();
        let number = self.any_key();
        match self.dice.below(4) {
            0 => {
                let place = self.place() as usize;
                self.model.here.key_at(place).unwrap_or(bound)
            }
            1 => bound.saturating_sub(self.dice.below(2)),
            _ => number,
        }
    }

    fn bound(&mut self) -> u64 {
        let bounds = &self.model.bounds;
        let place = self.dice.below(bounds.len() as u64) as usize;
        bounds.get(place).copied().unwrap_or(0)
    }

    // How many pairs are asked for: none, all, or a few.
    fn many(&mut self) -> u64 {
        match self.dice.below(40) {
            0..=4 => 0,
            5 => u64::MAX,
            _ => self.dice.below(100),
        }
    }

    // A shard is cut in two, or it and the next one become one. There may be no such shards.
    fn moves_of_shards(&mut self) -> Record {
        if self.dice.is_in(50) {
            call(8, 0, &[self.shard_key()])
        } else {
            call(8, 1, &[self.dice.below(12)])
        }
    }

    // A look at some pairs at once.
    fn part_of_shards(&mut self) -> Record {
        let (lo, hi, many) = (self.shard_key(), self.shard_key(), self.many());
        match self.dice.below(3) {
            0 => call(2, 0, &[self.place(), many]),
            1 => call(2, 1, &[lo, hi, many, self.dice.below(4)]),
            _ => call(2, 2, &[lo, many]),
        }
    }

    // A function of shards over plain numbers: bounds that ascend, or lengths.
    fn route(&mut self) -> Record {
        let mut numbers = [0; 3].map(|_: u64| self.dice.below(12));
        let member = self.dice.below(11);
        let (first, second) = (self.dice.below(14), self.dice.below(5));
        if member < 5 {
            numbers.sort_unstable();
        } else if self.dice.is_in(50) {
            numbers = numbers.map(|number| number % 3);
        }
        let used = self.dice.below(4);
        // There is no shard beside one that is not there.
        let first = match member {
            9 if used == 0 => return call(9, 7, &[0, 0, 0, 0]),
            9 => first % used,
            10 => first % (used + 1),
            _ => first,
        };
        let [a, b, c] = numbers;
        call(9, member, &[a, b, c, used | first << 8 | second << 32])
    }

    /// Any call of a map over shards.
    pub fn any_of_shards(&mut self) -> Record {
        let (key, value) = (self.shard_key(), self.dice.number());
        match self.dice.below(1_000) {
            0..=9 => self.moves_of_shards(),
            10..=489 if self.dice.below(10) < self.puts => calls::insert(key, value),
            10..=489 => calls::remove(key),
            490..=789 => {
                let member = self.dice.one_of(&[0, 0, 4, 5, 6, 7, 9, 10]);
                let place = self.place();
                call(1, member, &[if member == 6 { place } else { key }])
            }
            790..=889 => self.part_of_shards(),
            890..=929 => self.route(),
            _ => {
                let member = self.dice.one_of(&[9, 10]);
                call(1, member, &[key])
            }
        }
    }
}
