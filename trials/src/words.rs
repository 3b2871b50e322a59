//! Replies as the program bptree_trials writes them.

/// The most words of a reply that are sent.
pub const SENT: usize = 1024;

/// A digest with one more word.
pub fn mixed(digest: u64, word: u64) -> u64 {
    let sum = (digest ^ word).wrapping_add(1);
    let product = sum.wrapping_mul(0x9e37_79b9_7f4a_7c15);
    product ^ (product >> 29)
}

/// The digest of words.
pub fn digest_of(words: &[u64]) -> u64 {
    words.iter().fold(0, |digest, word| mixed(digest, *word))
}

/// A reply: of many words only the first ones are there.
#[derive(Clone, Debug, Default, PartialEq, Eq)]
pub struct Reply {
    pub status: u64,
    pub len: u64,
    pub digest: u64,
    pub words: Vec<u64>,
}

impl Reply {
    pub fn is_done(&self) -> bool {
        self.status == 0
    }

    /// Whether it has just these words.
    pub fn has(&self, words: &[u64]) -> bool {
        self.len == words.len() as u64 && self.digest == digest_of(words)
    }

    /// The word at an index, or 0.
    pub fn word(&self, place: usize) -> u64 {
        self.words.get(place).copied().unwrap_or(0)
    }
}

/// An optional value: a 1 and its words, or a 0.
pub fn option(value: Option<Vec<u64>>) -> Vec<u64> {
    match value {
        Some(mut words) => {
            words.insert(0, 1);
            words
        }
        None => vec![0],
    }
}

/// The same of a number.
pub fn number(value: Option<u64>) -> Vec<u64> {
    match value {
        Some(word) => vec![1, word],
        None => vec![0],
    }
}
