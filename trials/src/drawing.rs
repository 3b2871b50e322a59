//! Calls in random order, each of which depends on the pairs that the calls before it left.

use crate::batch::Batch;
use crate::dice::Dice;
use crate::kind::{couple, marked};
use crate::model::Model;
use crate::record::{call, calls, steps, Record};

/// What calls are drawn from.
#[derive(Clone, Debug)]
pub struct Drawing {
    pub dice: Dice,
    pub model: Model,
    /// Whether keys are of all numbers, or of 300.
    pub is_wide: bool,
    /// Of ten changes, how many put a pair.
    pub puts: u64,
}

impl Drawing {
    pub fn new(kind: u64, seed: u64, is_wide: bool) -> Drawing {
        Drawing {
            dice: Dice::new(seed),
            model: Model::new(kind),
            is_wide,
            puts: 7,
        }
    }

    /// A number of the range of keys. Half of those in groups are of the first groups.
    pub fn number(&mut self) -> u64 {
        let kind = self.model.kind;
        if kind.has_couples() && self.dice.is_in(70) {
            let (groups, numbers) = if self.is_wide { (6, 1_000) } else { (3, 100) };
            return couple(self.dice.below(groups), self.dice.below(numbers));
        }
        if kind.has_marks() && !self.is_wide {
            return marked(self.dice.below(300), self.dice.below(256));
        }
        if !self.is_wide {
            return self.dice.below(300);
        }
        let has_groups = self.model.kind.has_groups();
        if has_groups && self.dice.is_in(50) {
            self.dice.below(5_000)
        } else {
            self.dice.number()
        }
    }

    /// An index, at most three behind the last one.
    pub fn place(&mut self) -> u64 {
        self.dice.below(self.model.here.len() as u64 + 3)
    }

    /// A key: every other time one that is there, if any is.
    pub fn key(&mut self) -> u64 {
        let place = self.place() as usize;
        let number = self.number();
        if self.dice.is_in(50) {
            self.model.here.key_at(place).unwrap_or(number)
        } else {
            number
        }
    }

    /// The arguments of a query: an index, or an index in the group of a key.
    fn query(&mut self) -> (u64, u64) {
        let key = self.key();
        let place = if self.model.kind.has_groups() {
            self.dice.below(200)
        } else {
            self.place()
        };
        // Few are far out of range.
        if self.dice.is_in(2) {
            (key, u64::MAX - self.dice.below(2))
        } else {
            (key, place)
        }
    }

    /// The steps of a walk, and the end that each is taken from.
    fn walk(&mut self) -> (u64, u64) {
        let many = if self.dice.is_in(10) {
            self.dice.below(65)
        } else {
            self.dice.below(6)
        };
        (self.dice.number(), steps(many, 0))
    }

    /// Two keys: any, or two that are close to each other.
    pub fn two_keys(&mut self) -> (u64, u64) {
        let first = self.key();
        if self.dice.is_in(40) {
            return (first, self.key());
        }
        let place = self.model.here.rank(first) + self.dice.below(12) as usize;
        let second = self.model.here.key_at(place);
        (first, second.unwrap_or(first))
    }

    /// A change of the pairs.
    pub fn change(&mut self) -> Record {
        let (key, value) = (self.key(), self.dice.number());
        if self.dice.below(10) < self.puts {
            let is_set = self.model.kind.is_set();
            let number = self.number();
            return match self.dice.below(12) {
                0 if is_set => call(0, 6, &[key]),
                0 if self.model.kind.is_map() => call(8, 7, &[key, value, 3]),
                1 if self.model.kind.is_map() => call(8, 8, &[key, value, value ^ 5]),
                2..=6 => calls::insert(number, value),
                _ => calls::insert(key, value),
            };
        }
        let (group, index) = self.query();
        match self.dice.below(12) {
            0 => calls::pop_first(),
            1 => calls::pop_last(),
            2 | 3 if self.model.kind.has_queries() => call(0, 6, &[group, index]),
            4 if self.model.kind.has_places() => call(9, 4, &[index]),
            5 | 6 => calls::remove_entry(key),
            7 | 8 if !self.model.kind.is_set() => call(0, 9, &[key]),
            _ => calls::remove(key),
        }
    }

    /// A value of a pair is written.
    fn write(&mut self) -> Record {
        let value = self.dice.number();
        let (group, index) = self.query();
        match self.dice.below(3) {
            0 if self.model.kind.has_queries() => call(0, 8, &[group, value, index]),
            1 if self.model.kind.has_places() => call(9, 3, &[index, value]),
            _ => {
                let key = self.key();
                call(0, 7, &[key, value])
            }
        }
    }

    /// A look at a pair, or at the ends.
    fn read(&mut self) -> Record {
        let key = self.key();
        let (group, index) = self.query();
        let kind = self.model.kind;
        let most = if kind.has_queries() { 9 } else { 6 };
        let member = self.dice.below(most);
        match member {
            3 if kind.is_set() => call(1, 2, &[key]),
            0..=5 | 7 | 8 => call(1, member, &[key]),
            _ => call(1, 6, &[group, index]),
        }
    }

    /// A walk over a part, or its summary.
    fn part(&mut self) -> Record {
        let ((lo, hi), (from, word)) = (self.two_keys(), self.walk());
        let bits = self.dice.below(16);
        let (group, index) = self.query();
        let kind = self.model.kind;
        let many = self.dice.below(80);
        match self.dice.below(8) {
            0 if kind.is_map() => call(2, 6, &[0, 0, from, word]),
            1 if kind.is_map() => call(2, 7, &[0, 0, from, word]),
            2 if kind.has_queries() => call(2, 3, &[group, index, from, word | many << 16]),
            3 if kind.has_queries() => {
                let (other, end) = self.query();
                call(2, 5, &[group, index, other, end])
            }
            4 if !kind.is_set() => call(2, 4, &[lo, hi, 0, bits & 3]),
            5 => call(2, 0, &[0, 0, from, word]),
            6 => call(2, 1, &[lo, hi, from, word | bits & 3]),
            _ => call(2, 2, &[lo, hi, from, word | bits]),
        }
    }

    /// A call of a cursor: one is held, moved, or asked.
    fn cursor(&mut self) -> Record {
        let key = self.key();
        let (group, index) = self.query();
        let kind = self.model.kind;
        if kind.is_map() {
            return match self.dice.below(3) {
                0 => call(4, 9, &[group, index]),
                1 => call(4, 3, &[key]),
                _ => call(4, 4, &[key]),
            };
        }
        let member = self
            .dice
            .one_of(&[0, 1, 2, 3, 4, 5, 5, 5, 6, 6, 6, 7, 8, 9, 10, 11, 12, 13]);
        match member {
            9 if !kind.has_queries() => call(4, 7, &[]),
            9 => call(4, 9, &[group, index]),
            13 if self.dice.is_in(80) => call(4, 8, &[]),
            _ => call(4, member, &[key]),
        }
    }

    /// A command joins a list, or the list is run.
    fn command(&mut self) -> Record {
        let many = self.model.commands.len() as u64;
        if self.dice.below(20) < many {
            return call(6, 1, &[]);
        }
        let ((key, other), value) = (self.two_keys(), self.dice.number());
        let (group, index) = self.query();
        let cursor = self.dice.below(many / 2 + 1);
        let word = self.dice.below(1 << 9) | self.dice.below(8) << 56;
        let row = match self.dice.below(24) {
            0 if self.puts > 3 => [0, key, value, 0],
            2 => [2, group, index, 0],
            3 if self.dice.is_in(3) => [3, 0, 0, 0],
            6 => [6, group, index, value],
            10 => [10, group, index, 0],
            kind @ 15..=18 => [kind, cursor, 0, 0],
            19 => [19, 0, 0, word],
            20 => [20, key, other, word | self.dice.below(4) << 48],
            21 => [21, group, index, word | self.dice.below(80) << 40],
            22 | 23 => [0, key, value, 0],
            kind @ (1 | 4 | 5 | 7 | 8 | 9 | 11..=14) => [kind, key, value, 0],
            _ => [4, key, 0, 0],
        };
        call(6, 0, &row)
    }

    /// A look at nodes, or a number that is given as the remembered leaf's.
    fn node(&mut self) -> Record {
        match self.dice.below(12) {
            0 => calls::is_tidy(),
            1 | 2 => call(5, 7, &[]),
            3 => call(5, 3, &[u64::MAX - self.dice.below(2)]),
            4 => call(5, 3, &[self.dice.below(2_000)]),
            _ => call(5, 3, &[self.dice.below(70)]),
        }
    }

    /// Whole maps are made, exchanged, copied, compared or moved.
    fn whole(&mut self) -> Record {
        let kind = self.model.kind;
        let (from, word) = self.walk();
        match self.dice.below(24) {
            0 => call(3, 3, &[0, 0, from, word]),
            1 if kind.is_map() => call(3, 5, &[0, 0, from, word]),
            2 if kind.is_map() => call(3, 6, &[0, 0, from, word]),
            3 => {
                // A tree is loaded of pairs in order.
                let orders: &[u64] = if kind.is_tree() {
                    &[0, 2, 3]
                } else if kind.has_couples() {
                    &[0, 1, 2, 3, 4]
                } else {
                    &[0, 1, 2, 3]
                };
                calls::load(self.dice.below(400), self.dice.one_of(orders))
            }
            4 if self.dice.is_in(10) => calls::new(),
            5 if self.dice.is_in(10) => calls::clear(),
            6..=13 if !kind.is_set() => call(3, 0, &[]),
            14..=18 if !kind.is_tree() => call(3, 7, &[]),
            19 | 20 if kind.is_set() => call(11, 4, &[]),
            _ => calls::swap(),
        }
    }

    /// Many pairs come, leave, move or change.
    fn moves(&mut self) -> Record {
        let is_map = self.model.kind.is_map();
        let ((lo, hi), bits) = (self.two_keys(), self.dice.below(4));
        let key = self.key();
        match self.dice.below(40) {
            0..=5 => {
                let from = self.dice.below(300);
                let end = from + self.dice.below(30);
                let member = self.dice.one_of(&[0, 9, 10]);
                call(8, member, &[from, end, self.dice.below(4)])
            }
            6..=12 => call(8, 2, &[key]),
            13..=23 => call(8, 1, &[]),
            24 => {
                let modulus = 2 + self.dice.below(9);
                let residue = self.dice.below(modulus);
                call(8, 3, &[modulus, residue, residue & 1])
            }
            25 => call(8, 3, &[1, 1]),
            26..=30 => {
                // Few parts with an open end leave.
                let bits = if self.dice.is_in(5) { bits } else { 3 };
                let (lo, hi) = if self.dice.is_in(5) {
                    (lo, hi)
                } else {
                    self.near(lo)
                };
                call(8, 4, &[lo, hi, self.dice.below(2), bits])
            }
            31..=33 if is_map => call(8, 5, &[self.dice.number()]),
            _ if is_map => call(8, 6, &[lo, hi, self.dice.number(), bits]),
            _ => call(11, self.dice.below(5), &[]),
        }
    }

    // A key, and one a few indexes behind it.
    fn near(&mut self, key: u64) -> (u64, u64) {
        let place = self.model.here.rank(key) + self.dice.below(12) as usize;
        (key, self.model.here.key_at(place).unwrap_or(key))
    }

    /// A call by indexes, or of a group.
    fn places(&mut self) -> Record {
        let ((lo, hi), (from, word)) = (self.two_keys(), self.walk());
        let (key, index) = self.query();
        let size = self.dice.below(30);
        if self.model.kind.has_places() {
            return match self.dice.below(8) {
                0 => call(9, 0, &[lo, hi, 0, self.dice.below(4)]),
                1 => call(9, 1, &[key]),
                2 => call(9, 2, &[index]),
                3 => call(9, 5, &[self.dice.below(20), size, from, word]),
                4 => call(9, 6, &[size]),
                5 => call(9, 7, &[key, size]),
                _ => call(9, 8, &[index]),
            };
        }
        let (part, word) = (self.dice.below(200), word | size << 16);
        match self.dice.below(5) {
            0 => call(10, 0, &[key, 0, from, word]),
            1 => call(10, 1, &[key, part, from, word]),
            2 => call(10, 2, &[key, self.dice.below(12), from, word]),
            3 => call(10, 1, &[key, index, from, word]),
            _ => call(10, 3, &[key]),
        }
    }

    /// A call for many keys, or indexes, in some order. Some come twice.
    fn batch(&mut self) -> Record {
        let kind = self.model.kind;
        // Of each call the family, and in the lower four bits the member.
        let calls: &[u64] = if kind.is_set() {
            &[0xd1, 0xd2]
        } else if kind.has_places() {
            &[0xd0, 0xd1, 0xd2, 0xd3, 0xd4, 0x99, 0x9a]
        } else {
            &[0xd0, 0xd1, 0xd2, 0xd3, 0xd4]
        };
        let call = self.dice.one_of(calls);
        let (few, some) = (self.dice.below(64), self.dice.below(400));
        let any = self.dice.number();
        // Half of the wide ranges begin where others do.
        let first = match call {
            0x9a => self.place(),
            _ if self.is_wide && self.dice.is_in(50) => self.dice.below(4) << 61,
            _ => self.key(),
        };
        let span = self.dice.below(300) + 1;
        Batch {
            many: self.dice.one_of(&[0, 1, 15, 16, 17, few, some]),
            first,
            step: self.dice.one_of(&[0, 1, 37, u64::MAX, any]),
            span: self.dice.one_of(&[span, span, span, 0]),
            value: any >> 32,
        }
        .call(call >> 4, call & 15)
    }

    /// Any call.
    pub fn any(&mut self) -> Record {
        let kind = self.model.kind;
        match self.dice.below(1_000) {
            0..=399 => self.change(),
            400..=469 if !kind.is_set() => self.write(),
            470..=599 => self.read(),
            600..=699 => self.part(),
            700..=839 if !kind.is_set() => self.cursor(),
            840..=899 if kind.is_tree() && kind.has_queries() => self.command(),
            840..=889 if kind.is_map() => self.places(),
            890..=899 if !kind.is_tree() => self.batch(),
            900..=929 => self.node(),
            930..=941 => self.whole(),
            942..=971 if !kind.is_tree() => self.moves(),
            972..=981 if kind.has_queries() => {
                let says = self.dice.below(3);
                call(7, 0, &[says, self.dice.below(80)])
            }
            _ => self.change(),
        }
    }
}
