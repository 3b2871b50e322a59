//! An ordered map from numbers to numbers.

use crate::raw::{self, Handle, Pair, ABSENT, ADDED, REMOVED, REPLACED};
use crate::OutOfMemory;
use std::fmt;
use std::ops::{Bound, RangeBounds};

/// An ordered map from `u64` to `u64`, which are passed by value and stored in the leaves.
///
/// The calls have the names of `BTreeMap`'s, of which `entry`, `keys`, `values`, `retain`, `extend`
/// and others are missing. If an allocation fails, a call returns `OutOfMemory` and changes nothing.
/// It can be sent to another thread, and threads can share it.
///
/// ```
/// use sweep_bptree_proved::NumberMap;
///
/// let mut scores = NumberMap::new()?;
/// for (score, player) in [(30, 3), (10, 1), (20, 2)] {
///     scores.insert(score, player)?;
/// }
/// assert_eq!(scores.get_index(0), Some((10, 1)));
/// assert_eq!(scores.rank(25), Err(2));
/// assert_eq!(scores.range(15..).collect::<Vec<_>>(), [(20, 2), (30, 3)]);
/// # Ok::<(), sweep_bptree_proved::OutOfMemory>(())
/// ```
pub struct NumberMap {
    // It holds a map from `NumberMap::new` until `drop`, and is copied nowhere. The safety of the calls
    // below rests on this, and on `&mut self` of those that change the map: no other call uses the
    // handle meanwhile.
    handle: Handle,
}

// SAFETY: the map is a block of the C library's heap, which any thread may free, and holds nothing
// that belongs to a thread.
unsafe impl Send for NumberMap {}

// SAFETY: with `&self` a map is only read, and a read of the C library writes neither to the map nor
// to its handle.
unsafe impl Sync for NumberMap {}

impl NumberMap {
    /// A map with no pairs.
    pub fn new() -> Result<NumberMap, OutOfMemory> {
        let mut handle = Handle { at: std::ptr::null_mut() };
        // SAFETY: the handle holds no map.
        match unsafe { raw::bptree_new(&mut handle) } {
            true => Ok(NumberMap { handle }),
            false => Err(OutOfMemory),
        }
    }

    /// A copy of the map. O(n).
    pub fn try_clone(&self) -> Result<NumberMap, OutOfMemory> {
        let mut handle = Handle { at: std::ptr::null_mut() };
        // SAFETY: the map's handle holds a map, and the other handle is empty.
        match unsafe { raw::bptree_clone(&self.handle, &mut handle) } {
            true => Ok(NumberMap { handle }),
            false => Err(OutOfMemory),
        }
    }

    /// A map of these pairs, in any order: of equal keys the last one stays.
    pub fn from_pairs(pairs: &[(u64, u64)]) -> Result<NumberMap, OutOfMemory> {
        let mut map = NumberMap::new()?;
        map.load(pairs)?;
        Ok(map)
    }

    /// Replaces what the map holds by these pairs, in any order: of equal keys the last one stays.
    /// It copies them, and returns `OutOfMemory` too if there is no memory for the copy.
    pub fn load(&mut self, pairs: &[(u64, u64)]) -> Result<(), OutOfMemory> {
        let mut given = Vec::new();
        given.try_reserve_exact(pairs.len()).map_err(|_| OutOfMemory)?;
        given.extend(pairs.iter().map(|&(key, value)| Pair { key, value }));
        // SAFETY: the handle holds a map, and `given` has that many pairs, which are only read.
        match unsafe { raw::bptree_load(&mut self.handle, given.as_ptr(), given.len()) } {
            true => Ok(()),
            false => Err(OutOfMemory),
        }
    }

    /// Removes all pairs.
    pub fn clear(&mut self) -> Result<(), OutOfMemory> {
        // SAFETY: the handle holds a map.
        match unsafe { raw::bptree_clear(&mut self.handle) } {
            true => Ok(()),
            false => Err(OutOfMemory),
        }
    }

    /// The number of pairs.
    pub fn len(&self) -> usize {
        // SAFETY: the handle holds a map.
        unsafe { raw::bptree_len(&self.handle) }
    }

    /// Whether there are no pairs.
    pub fn is_empty(&self) -> bool {
        self.len() == 0
    }

    /// Whether a key is there.
    pub fn contains_key(&self, key: u64) -> bool {
        // SAFETY: the handle holds a map.
        unsafe { raw::bptree_contains(&self.handle, key) }
    }

    /// The value at a key.
    pub fn get(&self, key: u64) -> Option<u64> {
        let mut value = 0;
        // SAFETY: the handle holds a map, and `value` is a local value.
        unsafe { raw::bptree_get(&self.handle, key, &mut value) }.then_some(value)
    }

    /// Stores a value at a key, and returns the value that was there. It never fails for a key that
    /// is there.
    pub fn insert(&mut self, key: u64, value: u64) -> Result<Option<u64>, OutOfMemory> {
        let mut old = 0;
        // SAFETY: the handle holds a map, and `old` is a local value.
        match unsafe { raw::bptree_put(&mut self.handle, key, value, &mut old) } {
            ADDED => Ok(None),
            REPLACED => Ok(Some(old)),
            _ => Err(OutOfMemory),
        }
    }

    /// Removes the pair at a key, and returns its value. It never fails for a key that is absent.
    pub fn remove(&mut self, key: u64) -> Result<Option<u64>, OutOfMemory> {
        let mut old = 0;
        // SAFETY: the handle holds a map, and `old` is a local value.
        match unsafe { raw::bptree_del(&mut self.handle, key, &mut old) } {
            REMOVED => Ok(Some(old)),
            ABSENT => Ok(None),
            _ => Err(OutOfMemory),
        }
    }

    // The pair that a call writes. The handle that the call gets holds a map.
    fn pair_of(&self, call: impl FnOnce(&Handle, &mut Pair) -> bool) -> Option<(u64, u64)> {
        let mut pair = Pair::default();
        call(&self.handle, &mut pair).then_some((pair.key, pair.value))
    }

    // The same of a call that removes the pair.
    fn removed(
        &mut self,
        call: impl FnOnce(&mut Handle, &mut Pair) -> u32,
    ) -> Result<Option<(u64, u64)>, OutOfMemory> {
        let mut pair = Pair::default();
        match call(&mut self.handle, &mut pair) {
            REMOVED => Ok(Some((pair.key, pair.value))),
            ABSENT => Ok(None),
            _ => Err(OutOfMemory),
        }
    }

    /// The pair with the least key.
    pub fn first_key_value(&self) -> Option<(u64, u64)> {
        // SAFETY: `pair_of` gives a handle that holds a map, and a pair of its own.
        self.pair_of(|map, pair| unsafe { raw::bptree_first(map, pair) })
    }

    /// The pair with the greatest key.
    pub fn last_key_value(&self) -> Option<(u64, u64)> {
        // SAFETY: `pair_of` gives a handle that holds a map, and a pair of its own.
        self.pair_of(|map, pair| unsafe { raw::bptree_last(map, pair) })
    }

    /// The pair with the least greater key.
    pub fn next(&self, key: u64) -> Option<(u64, u64)> {
        // SAFETY: `pair_of` gives a handle that holds a map, and a pair of its own.
        self.pair_of(|map, pair| unsafe { raw::bptree_next(map, key, pair) })
    }

    /// The pair with the greatest smaller key.
    pub fn prev(&self, key: u64) -> Option<(u64, u64)> {
        // SAFETY: `pair_of` gives a handle that holds a map, and a pair of its own.
        self.pair_of(|map, pair| unsafe { raw::bptree_prev(map, key, pair) })
    }

    /// The pair at an index in the order of the keys, from 0 on.
    pub fn get_index(&self, index: usize) -> Option<(u64, u64)> {
        // SAFETY: `pair_of` gives a handle that holds a map, and a pair of its own.
        self.pair_of(|map, pair| unsafe { raw::bptree_at(map, index, pair) })
    }

    /// The number of smaller keys: `Ok` if the key itself is there.
    pub fn rank(&self, key: u64) -> Result<usize, usize> {
        let mut rank = 0;
        // SAFETY: the handle holds a map, and `rank` is a local value.
        match unsafe { raw::bptree_rank(&self.handle, key, &mut rank) } {
            true => Ok(rank),
            false => Err(rank),
        }
    }

    /// The number of keys that are at least `from` and less than `to`.
    pub fn range_len(&self, from: u64, to: u64) -> usize {
        // SAFETY: the handle holds a map.
        unsafe { raw::bptree_range_len(&self.handle, from, to) }
    }

    /// Removes and returns the pair at an index.
    pub fn remove_index(&mut self, index: usize) -> Result<Option<(u64, u64)>, OutOfMemory> {
        // SAFETY: `removed` gives a handle that holds a map, and a pair of its own.
        self.removed(|map, pair| unsafe { raw::bptree_del_at(map, index, pair) })
    }

    /// Removes and returns the pair with the least key.
    pub fn pop_first(&mut self) -> Result<Option<(u64, u64)>, OutOfMemory> {
        // SAFETY: `removed` gives a handle that holds a map, and a pair of its own.
        self.removed(|map, pair| unsafe { raw::bptree_pop_first(map, pair) })
    }

    /// Removes and returns the pair with the greatest key.
    pub fn pop_last(&mut self) -> Result<Option<(u64, u64)>, OutOfMemory> {
        // SAFETY: `removed` gives a handle that holds a map, and a pair of its own.
        self.removed(|map, pair| unsafe { raw::bptree_pop_last(map, pair) })
    }

    /// The pairs of a page of `size`, of which the first is 0.
    pub fn page(&self, number: usize, size: usize) -> Result<Vec<(u64, u64)>, OutOfMemory> {
        let (mut out, mut pairs) = (Vec::new(), Vec::new());
        let room = size.min(self.len());
        out.try_reserve_exact(room).map_err(|_| OutOfMemory)?;
        out.resize(room, Pair::default());
        // (a page that takes all pairs is the first one)
        let number = if room < size && number > 0 { usize::MAX } else { number };
        // SAFETY: the handle holds a map, and `out` has `room` pairs.
        let count = unsafe { raw::bptree_page(&self.handle, number, out.as_mut_ptr(), room) };
        pairs.try_reserve_exact(count).map_err(|_| OutOfMemory)?;
        pairs.extend(out[..count].iter().map(|pair| (pair.key, pair.value)));
        Ok(pairs)
    }

    /// All pairs in the order of their keys.
    pub fn iter(&self) -> NumberIter<'_> {
        self.range(..)
    }

    /// The pairs whose keys are in a range, in the order of their keys, from both ends. They are
    /// copied in blocks.
    pub fn range(&self, range: impl RangeBounds<u64>) -> NumberIter<'_> {
        let from = match range.start_bound() {
            Bound::Included(&key) => Some(key),
            Bound::Excluded(&key) => key.checked_add(1),
            Bound::Unbounded => Some(0),
        };
        let to = match range.end_bound() {
            Bound::Included(&key) => Some(key),
            Bound::Excluded(&key) => key.checked_sub(1),
            Bound::Unbounded => Some(u64::MAX),
        };
        let left = from.zip(to).filter(|(from, to)| from <= to);
        NumberIter { map: self, left, ahead: Block::new(), behind: Block::new() }
    }
}

impl Drop for NumberMap {
    fn drop(&mut self) {
        // SAFETY: the handle holds a map, and nothing uses it behind this.
        unsafe { raw::bptree_free(&mut self.handle) }
    }
}

impl fmt::Debug for NumberMap {
    fn fmt(&self, f: &mut fmt::Formatter<'_>) -> fmt::Result {
        f.debug_struct("NumberMap").finish_non_exhaustive()
    }
}

const BLOCK: usize = 64;

// Pairs that were copied and not returned yet.
struct Block {
    pairs: [Pair; BLOCK],
    at: usize,
    count: usize,
}

impl Block {
    fn new() -> Block {
        Block { pairs: [Pair::default(); BLOCK], at: 0, count: 0 }
    }
}

/// The pairs of a range that are left, in the order of their keys.
pub struct NumberIter<'a> {
    map: &'a NumberMap,
    // The least and the greatest key that may still be returned.
    left: Option<(u64, u64)>,
    ahead: Block,
    behind: Block,
}

impl Iterator for NumberIter<'_> {
    type Item = (u64, u64);

    fn next(&mut self) -> Option<(u64, u64)> {
        let (from, to) = self.left?;
        if self.ahead.at == self.ahead.count {
            let out = self.ahead.pairs.as_mut_ptr();
            // SAFETY: the handle holds a map, and `out` has `BLOCK` pairs.
            self.ahead.count = unsafe { raw::bptree_range(&self.map.handle, from, out, BLOCK) };
            self.ahead.at = 0;
        }
        let copied = &self.ahead.pairs[..self.ahead.count];
        let pair = copied.get(self.ahead.at).filter(|pair| pair.key <= to);
        self.ahead.at += 1;
        let above = pair.and_then(|pair| pair.key.checked_add(1));
        self.left = above.map(|from| (from, to)).filter(|(from, to)| from <= to);
        pair.map(|pair| (pair.key, pair.value))
    }
}

impl DoubleEndedIterator for NumberIter<'_> {
    fn next_back(&mut self) -> Option<(u64, u64)> {
        let (from, to) = self.left?;
        if self.behind.at == self.behind.count {
            let out = self.behind.pairs.as_mut_ptr();
            // SAFETY: the handle holds a map, and `out` has `BLOCK` pairs.
            self.behind.count = unsafe { raw::bptree_range_back(&self.map.handle, to, out, BLOCK) };
            self.behind.at = 0;
        }
        let copied = &self.behind.pairs[..self.behind.count];
        let pair = copied.get(self.behind.at).filter(|pair| pair.key >= from);
        self.behind.at += 1;
        let below = pair.and_then(|pair| pair.key.checked_sub(1));
        self.left = below.map(|to| (from, to)).filter(|(from, to)| from <= to);
        pair.map(|pair| (pair.key, pair.value))
    }
}

impl std::iter::FusedIterator for NumberIter<'_> {}

impl<'a> IntoIterator for &'a NumberMap {
    type Item = (u64, u64);
    type IntoIter = NumberIter<'a>;

    fn into_iter(self) -> NumberIter<'a> {
        self.iter()
    }
}
