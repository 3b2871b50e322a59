//! The kinds of subjects.

/// The number of a kind.
#[derive(Clone, Copy, Debug, PartialEq, Eq)]
pub struct Kind(pub u64);

/// Trees whose keys and values count.
pub const COUNTED: u64 = 19;

/// The numbers of a group, but for the last one, which has all others.
const GROUP: u64 = 170;
/// The last group.
const LAST: u64 = 25;

/// The bits of the second number of a couple, and of the number of a marked key.
const SECOND: u32 = 32;
const NUMBER: u32 = 56;

/// The key of two numbers.
pub fn couple(group: u64, number: u64) -> u64 {
    group << SECOND | number
}

/// The key of a number and its mark.
pub fn marked(number: u64, mark: u64) -> u64 {
    mark << NUMBER | number
}

impl Kind {
    /// The group of a key.
    pub fn group_of(self, key: u64) -> u64 {
        if self.has_couples() {
            key >> SECOND
        } else {
            (key / GROUP).min(LAST)
        }
    }

    /// The first key of a group, and the first one behind it, if there is one.
    pub fn keys_of(self, group: u64) -> (u64, Option<u64>) {
        if self.has_couples() {
            let end = (group + 1) << SECOND;
            (group << SECOND, Some(end).filter(|end| *end > 0))
        } else if group < LAST {
            (group * GROUP, Some((group + 1) * GROUP))
        } else {
            (group * GROUP, None)
        }
    }

    pub fn is_tree(self) -> bool {
        matches!(self.0, 0..=3 | 9 | 10 | 17 | 21)
    }

    /// Whether it is trees whose keys count their comparisons, and whose values count their drops.
    pub fn is_counted(self) -> bool {
        self.0 == COUNTED
    }

    pub fn is_map(self) -> bool {
        matches!(self.0, 4..=6 | 20)
    }

    pub fn is_set(self) -> bool {
        matches!(self.0, 7 | 8 | 16)
    }

    pub fn is_shards(self) -> bool {
        matches!(self.0, 11 | 12 | 18)
    }

    pub fn is_store(self) -> bool {
        matches!(self.0, 13 | 14)
    }

    /// Whether it has summaries, which find and rank keys.
    pub fn has_queries(self) -> bool {
        matches!(self.0, 0..=6 | 20 | 21)
    }

    /// Whether its summaries are of groups.
    pub fn has_groups(self) -> bool {
        matches!(self.0, 2 | 6 | 14 | 20)
    }

    /// Whether its keys are pairs of a group, which is a text, and a number.
    pub fn has_pairs(self) -> bool {
        matches!(self.0, 2 | 6 | 14 | 16..=18)
    }

    /// Whether its keys are couples of numbers, the first of which is a group.
    pub fn has_couples(self) -> bool {
        self.0 == 20
    }

    /// Whether its keys have marks, which take no part in their order.
    pub fn has_marks(self) -> bool {
        self.0 == 21
    }

    /// The bits of a key that its order depends on.
    pub fn order_bits(self) -> u64 {
        if self.has_marks() {
            (1 << NUMBER) - 1
        } else {
            u64::MAX
        }
    }

    /// Whether its calls are by indexes alone.
    pub fn has_places(self) -> bool {
        matches!(self.0, 4 | 5)
    }

    /// Whether nodes can be looked at.
    pub fn has_nodes(self) -> bool {
        matches!(self.0, 0..=10 | 16 | 17 | COUNTED..=21)
    }

    /// Whether each key takes memory.
    pub fn has_large_keys(self) -> bool {
        matches!(self.0, 1 | 2 | 5 | 6 | 8 | 10 | 12 | 14 | 16..=18)
    }

    /// The most comparisons of a look-up in a remembered leaf.
    pub fn hint_compares(self) -> u64 {
        if self.0 == 3 {
            0
        } else {
            2
        }
    }

    /// Adds the words of a key.
    pub fn tell_key(self, key: u64, words: &mut Vec<u64>) {
        if self.has_couples() {
            words.extend([key >> SECOND, key & ((1 << SECOND) - 1)]);
        } else if self.has_marks() {
            words.extend([key & self.order_bits(), key >> NUMBER]);
        } else if self.has_pairs() {
            words.extend([self.group_of(key), key]);
        } else {
            words.push(key);
        }
    }

    /// How many words a key has.
    pub fn key_words(self) -> usize {
        if self.has_pairs() || self.has_couples() || self.has_marks() {
            2
        } else {
            1
        }
    }

    /// The key that has these words.
    pub fn key_of(self, words: &[u64]) -> u64 {
        match *words {
            [group, number] if self.has_couples() => couple(group, number),
            [number, mark] if self.has_marks() => marked(number, mark),
            [.., key] => key,
            [] => 0,
        }
    }

    /// The words of a key behind a 1, or a 0 if there is none.
    pub fn key_if(self, number: Option<u64>) -> Vec<u64> {
        let mut words = vec![u64::from(number.is_some())];
        if let Some(number) = number {
            self.tell_key(number, &mut words);
        }
        words
    }

    /// What it is called.
    pub fn name(self) -> &'static str {
        match self.0 {
            0 => "trees of numbers",
            1 => "trees of texts",
            2 => "trees of groups",
            3 => "trees that remember no leaf",
            4 => "maps of numbers",
            5 => "maps of texts",
            6 => "maps of groups",
            7 => "sets of numbers",
            8 => "sets of texts",
            9 => "trees of numbers without summaries",
            10 => "trees of texts without summaries",
            11 => "shards of numbers",
            12 => "shards of texts",
            13 => "stores of numbers",
            14 => "stores of groups",
            16 => "sets of pairs",
            17 => "trees of pairs without summaries",
            18 => "shards of pairs",
            COUNTED => "trees of counted numbers",
            20 => "maps of couples",
            21 => "trees of marked keys",
            _ => "owned values",
        }
    }
}
