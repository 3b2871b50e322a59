//! Ordered maps and sets with the index of each key, kept in a proved B+ tree.
//!
//! ```
//! use sweep_bptree_proved::{Map, Set};
//!
//! let mut ages = Map::new()?;
//! ages.insert("Nora".to_string(), 31).unwrap();
//! ages.insert("Ada".to_string(), 36).unwrap();
//! assert_eq!(ages.get("Ada"), Some(&36));
//! assert_eq!(ages.rank("Nora"), Ok(1));
//! assert_eq!(ages.iter().next(), Some((&"Ada".to_string(), &36)));
//!
//! let scores: Set<(u64, u32)> = [(90, 7), (310, 5), (90, 2)].into_iter().collect();
//! assert_eq!(scores.first(), Some(&(90, 2)));
//! # Ok::<(), sweep_bptree_proved::OutOfMemory>(())
//! ```
//!
//! [`Map`] has keys of any type that implements [`OrderedKey`] and values of any type, [`Set`] has
//! such keys alone, and [`NumberMap`] has keys and values of type `u64`, which it stores in its
//! leaves. The order of keys is that of their bytes.
//!
//! What is proved is the C library below: each of its calls changes a list of pairs of bytes and
//! numbers as its contract says. The code of this crate is tested, not proved: it writes keys as
//! bytes, and owns a block of the heap for each pair of a `Map`.

#![deny(unsafe_op_in_unsafe_fn)]

mod key;
mod map;
mod number_map;
mod raw;
mod set;

pub use key::{KeyBytes, OrderedKey};
pub use map::{InsertError, IntoIter, Iter, IterMut, Keys, Map, Values};
pub use number_map::{NumberIter, NumberMap};
pub use set::{Set, SetIntoIter};

use std::fmt;

/// The version of this crate.
pub const VERSION: &str = env!("CARGO_PKG_VERSION");

/// An allocation failed, and nothing has changed.
#[derive(Debug, Clone, Copy, PartialEq, Eq)]
pub struct OutOfMemory;

impl fmt::Display for OutOfMemory {
    fn fmt(&self, f: &mut fmt::Formatter<'_>) -> fmt::Result {
        f.write_str("an allocation failed")
    }
}

impl std::error::Error for OutOfMemory {}
