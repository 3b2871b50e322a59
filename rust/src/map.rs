//! A map of any ordered keys and any values.

use crate::key::OrderedKey;
use crate::raw::{self, Handle, ABSENT, ADDED, REMOVED, REPLACED};
use crate::OutOfMemory;
use std::alloc::Layout;
use std::borrow::Borrow;
use std::fmt;
use std::iter::FusedIterator;
use std::marker::PhantomData;
use std::mem::{self, ManuallyDrop};
use std::ops::{Bound, Range, RangeBounds};
use std::ptr::{self, NonNull};

/// An allocation failed. The map is unchanged, and here are the key and the value that were to be
/// inserted.
#[derive(Debug, Clone, Copy, PartialEq, Eq)]
pub struct InsertError<K, V> {
    pub key: K,
    pub value: V,
}

impl<K, V> fmt::Display for InsertError<K, V> {
    fn fmt(&self, f: &mut fmt::Formatter<'_>) -> fmt::Result {
        fmt::Display::fmt(&OutOfMemory, f)
    }
}

impl<K: fmt::Debug, V: fmt::Debug> std::error::Error for InsertError<K, V> {}

impl<K, V> From<InsertError<K, V>> for OutOfMemory {
    fn from(_: InsertError<K, V>) -> OutOfMemory {
        OutOfMemory
    }
}

// A pair in a block of its own, whose address is the value in the C library's map.
type Entry<K, V> = NonNull<(K, V)>;

// Moves a pair to a block of the heap, or returns it if that can't be allocated.
fn allocate<K, V>(pair: (K, V)) -> Result<Entry<K, V>, (K, V)> {
    let layout = Layout::new::<(K, V)>();
    if layout.size() == 0 {
        return Ok(NonNull::from(Box::leak(Box::new(pair))));
    }
    // SAFETY: the layout has a size above 0.
    match NonNull::new(unsafe { std::alloc::alloc(layout) }.cast::<(K, V)>()) {
        Some(entry) => {
            // SAFETY: the block is new and has the layout of a pair.
            unsafe { entry.as_ptr().write(pair) };
            Ok(entry)
        }
        None => Err(pair),
    }
}

// Takes a pair out of its block, and frees that.
//
// SAFETY: the entry is of `allocate`, and nothing uses it behind this.
unsafe fn free<K, V>(entry: Entry<K, V>) -> (K, V) {
    // SAFETY: the block is that of a `Box`: of the global allocator, with the layout of a pair.
    *unsafe { Box::from_raw(entry.as_ptr()) }
}

fn address<K, V>(entry: Entry<K, V>) -> u64 {
    entry.as_ptr() as usize as u64
}

// SAFETY: the address is one of `address`.
unsafe fn entry_at<K, V>(address: u64) -> Entry<K, V> {
    // SAFETY: it was the address of an entry, which is never null.
    unsafe { NonNull::new_unchecked(address as usize as *mut (K, V)) }
}

/// An ordered map: keys of any type that implements [`OrderedKey`], and values of any type.
///
/// The calls have the names of `BTreeMap`'s. Beside them [`get_index`](Map::get_index), [`rank`](Map::rank)
/// and [`remove_index`](Map::remove_index) go from indexes to pairs and back in O(log n). A look-up
/// compares the bytes of its key in place. It takes O(log n) steps, allocates nothing and never
/// fails, but for keys that are tuples of more than 64 bytes.
///
/// If an allocation fails, a call returns an error and changes nothing. The traits `Clone`,
/// `Default`, `Extend` and `FromIterator` can't return an error: they panic.
///
/// A map can be sent to another thread if its keys and values can, and threads can share it if they
/// can share its keys and values.
pub struct Map<K, V> {
    // It holds a map from `Map::new` until `drop`, and is copied nowhere. Calls of the C library that
    // read write nothing, so that several may run at once. Each value in the map is the address of an
    // entry that the map owns.
    handle: Handle,
    owned: PhantomData<Box<(K, V)>>,
}

// SAFETY: the map is blocks of the C library's heap and of the global allocator, which any thread may
// free, and it owns the keys and values in them.
unsafe impl<K: Send, V: Send> Send for Map<K, V> {}

// SAFETY: with `&self` a map is only read. A read of the C library writes neither to the map nor to
// its handle, and else gives out references to keys and values.
unsafe impl<K: Sync, V: Sync> Sync for Map<K, V> {}

fn new_handle() -> Result<Handle, OutOfMemory> {
    let mut handle = Handle { at: ptr::null_mut() };
    // SAFETY: the handle holds no map.
    match unsafe { raw::bptree_dict_new(&mut handle) } {
        true => Ok(handle),
        false => Err(OutOfMemory),
    }
}

impl<K, V> Map<K, V> {
    /// A map with no pairs. It allocates one leaf.
    pub fn new() -> Result<Map<K, V>, OutOfMemory> {
        Ok(Map { handle: new_handle()?, owned: PhantomData })
    }

    /// The number of pairs. O(1).
    pub fn len(&self) -> usize {
        // SAFETY: the handle holds a map.
        unsafe { raw::bptree_dict_len(&self.handle) }
    }

    /// Whether there are no pairs. O(1).
    pub fn is_empty(&self) -> bool {
        self.len() == 0
    }

    /// Removes all pairs. O(n). It allocates one leaf, and changes nothing if that fails.
    pub fn clear(&mut self) -> Result<(), OutOfMemory> {
        let empty = Map::new()?;
        drop(mem::replace(self, empty));
        Ok(())
    }

    // The entries of the indexes from one on, as many as the block has room for.
    fn copy_entries(&self, from: usize, block: &mut [u64]) -> usize {
        // SAFETY: the handle holds a map, and the block has as many numbers as it says.
        unsafe { raw::bptree_dict_values(&self.handle, from, block.as_mut_ptr(), block.len()) }
    }

    fn entry_of_index(&self, index: usize) -> Option<Entry<K, V>> {
        let mut found = [0];
        // SAFETY: a value in the map is the address of an entry.
        (self.copy_entries(index, &mut found) == 1).then(|| unsafe { entry_at(found[0]) })
    }

    /// The pair at an index in the order of the keys, from 0 on. O(log n).
    pub fn get_index(&self, index: usize) -> Option<(&K, &V)> {
        // SAFETY: the map owns the entry, and `&self` keeps it from changes.
        let (key, value) = unsafe { &*self.entry_of_index(index)?.as_ptr() };
        Some((key, value))
    }

    /// The value at an index, for writing. O(log n).
    pub fn get_at_mut(&mut self, index: usize) -> Option<(&K, &mut V)> {
        // SAFETY: the map owns the entry, and `&mut self` keeps it from other uses.
        let (key, value) = unsafe { &mut *self.entry_of_index(index)?.as_ptr() };
        Some((key, value))
    }

    /// The pair with the least key. O(log n).
    pub fn first_key_value(&self) -> Option<(&K, &V)> {
        self.get_index(0)
    }

    /// The pair with the greatest key. O(log n).
    pub fn last_key_value(&self) -> Option<(&K, &V)> {
        self.get_index(self.len().checked_sub(1)?)
    }

    /// Removes and returns the pair at an index. O(log n). If an allocation fails, the map is
    /// unchanged.
    pub fn remove_index(&mut self, index: usize) -> Result<Option<(K, V)>, OutOfMemory> {
        let mut old = 0;
        // SAFETY: the handle holds a map.
        let done = unsafe { raw::bptree_dict_del_at(&mut self.handle, index, &mut old) };
        self.take_out(done, old)
    }

    /// Removes and returns the pair with the least key. O(log n). If an allocation fails, the map is
    /// unchanged.
    pub fn pop_first(&mut self) -> Result<Option<(K, V)>, OutOfMemory> {
        self.remove_index(0)
    }

    /// Removes and returns the pair with the greatest key. O(log n). If an allocation fails, the map
    /// is unchanged.
    pub fn pop_last(&mut self) -> Result<Option<(K, V)>, OutOfMemory> {
        self.remove_index(self.len().wrapping_sub(1))
    }

    // The pair whose entry a call has removed.
    fn take_out(&mut self, done: u32, old: u64) -> Result<Option<(K, V)>, OutOfMemory> {
        match done {
            // SAFETY: the entry was in the map, which has it no longer.
            REMOVED => Ok(Some(unsafe { free(entry_at(old)) })),
            ABSENT => Ok(None),
            _ => Err(OutOfMemory),
        }
    }

    fn entries(&self, indexes: Range<usize>) -> Entries<'_, K, V> {
        Entries { map: self, left: indexes, ahead: Block::new(), behind: Block::new() }
    }

    /// All pairs in the order of their keys, from both ends. A step takes O(log n / 64), allocates
    /// nothing and never fails.
    pub fn iter(&self) -> Iter<'_, K, V> {
        Iter(self.entries(0..self.len()))
    }

    /// All pairs in the order of their keys, with the values for writing.
    pub fn iter_mut(&mut self) -> IterMut<'_, K, V> {
        IterMut(self.entries(0..self.len()), PhantomData)
    }

    /// All keys in their order.
    pub fn keys(&self) -> Keys<'_, K, V> {
        Keys(self.iter())
    }

    /// All values in the order of their keys.
    pub fn values(&self) -> Values<'_, K, V> {
        Values(self.iter())
    }
}

impl<K: OrderedKey, V> Map<K, V> {
    fn entry_of<Q: OrderedKey + ?Sized>(&self, key: &Q) -> Option<Entry<K, V>> {
        let mut found = 0;
        let is_there = key.with_bytes(|bytes| {
            // SAFETY: the handle holds a map, and `bytes` has as many bytes as it says.
            unsafe {
                let (at, len) = (bytes.as_ptr(), bytes.len());
                raw::bptree_dict_get(&self.handle, at, len, &mut found)
            }
        });
        // SAFETY: a value in the map is the address of an entry.
        is_there.then(|| unsafe { entry_at(found) })
    }

    /// Whether a key is there. O(log n).
    pub fn contains_key<Q: OrderedKey + ?Sized>(&self, key: &Q) -> bool
    where
        K: Borrow<Q>,
    {
        self.entry_of(key).is_some()
    }

    /// The value at a key. O(log n).
    pub fn get<Q: OrderedKey + ?Sized>(&self, key: &Q) -> Option<&V>
    where
        K: Borrow<Q>,
    {
        self.get_key_value(key).map(|(_, value)| value)
    }

    /// The key that is stored, and its value. O(log n).
    pub fn get_key_value<Q: OrderedKey + ?Sized>(&self, key: &Q) -> Option<(&K, &V)>
    where
        K: Borrow<Q>,
    {
        // SAFETY: the map owns the entry, and `&self` keeps it from changes.
        let (key, value) = unsafe { &*self.entry_of(key)?.as_ptr() };
        Some((key, value))
    }

    /// The value at a key, for writing. O(log n).
    pub fn get_mut<Q: OrderedKey + ?Sized>(&mut self, key: &Q) -> Option<&mut V>
    where
        K: Borrow<Q>,
    {
        // SAFETY: the map owns the entry, and `&mut self` keeps it from other uses.
        Some(unsafe { &mut (*self.entry_of(key)?.as_ptr()).1 })
    }

    /// The number of smaller keys: `Ok` if the key itself is there. O(log n).
    pub fn rank<Q: OrderedKey + ?Sized>(&self, key: &Q) -> Result<usize, usize>
    where
        K: Borrow<Q>,
    {
        let mut rank = 0;
        let is_there = key.with_bytes(|bytes| {
            // SAFETY: the handle holds a map, and `bytes` has as many bytes as it says.
            unsafe {
                let (at, len) = (bytes.as_ptr(), bytes.len());
                raw::bptree_dict_rank(&self.handle, at, len, &mut rank)
            }
        });
        match is_there {
            true => Ok(rank),
            false => Err(rank),
        }
    }

    /// Stores a value at a key, and returns the value that was there. A key that was there stays.
    /// O(log n).
    ///
    /// It allocates a block for the pair, and for a new key a copy of its bytes and the nodes that
    /// are split. If one of these fails, the error has the key and the value.
    pub fn insert(&mut self, key: K, value: V) -> Result<Option<V>, InsertError<K, V>> {
        let new = match allocate((key, value)) {
            Ok(entry) => entry,
            Err((key, value)) => return Err(InsertError { key, value }),
        };
        let (handle, mut old) = (&mut self.handle, 0);
        // SAFETY: the entry is new, and no one else has it yet.
        let done = unsafe { new.as_ref() }.0.with_bytes(|bytes| {
            // SAFETY: the handle holds a map, and `bytes` has as many bytes as it says.
            unsafe {
                let (at, len) = (bytes.as_ptr(), bytes.len());
                raw::bptree_dict_put(handle, at, len, address(new), &mut old)
            }
        });
        match done {
            ADDED => Ok(None),
            REPLACED => {
                // SAFETY: the map has the new entry in place of the old one, and both are apart.
                let (_, value) = unsafe {
                    let old = entry_at::<K, V>(old);
                    ptr::swap(&mut (*old.as_ptr()).0, &mut (*new.as_ptr()).0);
                    free(old)
                };
                Ok(Some(value))
            }
            _ => {
                // SAFETY: the map does not have the entry.
                let (key, value) = unsafe { free(new) };
                Err(InsertError { key, value })
            }
        }
    }

    /// The value at a key, for writing. If the key is absent, inserts what `make` returns first.
    /// O(log n). `make` is not called if the key is there.
    pub fn get_or_insert_with(
        &mut self,
        key: K,
        make: impl FnOnce() -> V,
    ) -> Result<&mut V, InsertError<K, V>> {
        let index = match self.rank(&key) {
            Ok(index) => index,
            Err(index) => {
                self.insert(key, make())?;
                index
            }
        };
        match self.get_at_mut(index) {
            Some((_, value)) => Ok(value),
            None => unreachable!("the key is there"),
        }
    }

    /// Removes a key, and returns its value. O(log n). If an allocation fails, the map is unchanged.
    /// It never fails for a key that is absent.
    pub fn remove<Q: OrderedKey + ?Sized>(&mut self, key: &Q) -> Result<Option<V>, OutOfMemory>
    where
        K: Borrow<Q>,
    {
        Ok(self.remove_entry(key)?.map(|(_, value)| value))
    }

    /// Removes a key, and returns it as it was stored, with its value. Else it is as `remove`.
    pub fn remove_entry<Q: OrderedKey + ?Sized>(
        &mut self,
        key: &Q,
    ) -> Result<Option<(K, V)>, OutOfMemory>
    where
        K: Borrow<Q>,
    {
        let (handle, mut old) = (&mut self.handle, 0);
        let done = key.with_bytes(|bytes| {
            // SAFETY: the handle holds a map, and `bytes` has as many bytes as it says.
            unsafe {
                let (at, len) = (bytes.as_ptr(), bytes.len());
                raw::bptree_dict_del(handle, at, len, &mut old)
            }
        });
        self.take_out(done, old)
    }

    // The indexes of the keys in a range. If its end is before its start, there are none.
    fn indexes<Q: OrderedKey + ?Sized>(&self, range: &impl RangeBounds<Q>) -> Range<usize>
    where
        K: Borrow<Q>,
    {
        let upto = |key: &Q| self.rank(key).unwrap_or_else(|rank| rank);
        let past = |key: &Q| self.rank(key).map_or_else(|rank| rank, |rank| rank + 1);
        let start = match range.start_bound() {
            Bound::Included(key) => upto(key),
            Bound::Excluded(key) => past(key),
            Bound::Unbounded => 0,
        };
        let end = match range.end_bound() {
            Bound::Included(key) => past(key),
            Bound::Excluded(key) => upto(key),
            Bound::Unbounded => self.len(),
        };
        start..end.max(start)
    }

    /// The pairs whose keys are in a range, in the order of their keys, from both ends. If the end of
    /// the range is before its start, there are none. O(log n), and then as `iter`.
    pub fn range<Q: OrderedKey + ?Sized>(&self, range: impl RangeBounds<Q>) -> Iter<'_, K, V>
    where
        K: Borrow<Q>,
    {
        Iter(self.entries(self.indexes(&range)))
    }

    /// The number of keys in a range. O(log n).
    pub fn range_len<Q: OrderedKey + ?Sized>(&self, range: impl RangeBounds<Q>) -> usize
    where
        K: Borrow<Q>,
    {
        self.indexes(&range).len()
    }
}

impl<K: OrderedKey + Clone, V: Clone> Map<K, V> {
    /// A map of clones of all pairs. O(n log n).
    pub fn try_clone(&self) -> Result<Map<K, V>, OutOfMemory> {
        let mut copy = Map::new()?;
        for (key, value) in self {
            copy.insert(key.clone(), value.clone())?;
        }
        Ok(copy)
    }
}

const BLOCK: usize = 64;

// Addresses of entries that were copied and not returned yet: those at the indexes `left`.
struct Block {
    addresses: [u64; BLOCK],
    left: Range<usize>,
}

impl Block {
    fn new() -> Block {
        Block { addresses: [0; BLOCK], left: 0..0 }
    }
}

// The entries of some indexes, from both ends.
struct Entries<'a, K, V> {
    map: &'a Map<K, V>,
    left: Range<usize>,
    ahead: Block,
    behind: Block,
}

impl<K, V> Entries<'_, K, V> {
    fn next(&mut self) -> Option<Entry<K, V>> {
        if self.left.is_empty() {
            return None;
        }
        if self.ahead.left.is_empty() {
            let count = self.left.len().min(BLOCK);
            let room = &mut self.ahead.addresses[..count];
            self.ahead.left = 0..self.map.copy_entries(self.left.start, room);
        }
        let place = self.ahead.left.next()?;
        self.left.start += 1;
        // SAFETY: a value in the map is the address of an entry.
        Some(unsafe { entry_at(self.ahead.addresses[place]) })
    }

    fn next_back(&mut self) -> Option<Entry<K, V>> {
        if self.left.is_empty() {
            return None;
        }
        if self.behind.left.is_empty() {
            let count = self.left.len().min(BLOCK);
            let room = &mut self.behind.addresses[..count];
            self.behind.left = 0..self.map.copy_entries(self.left.end - count, room);
        }
        let place = self.behind.left.next_back()?;
        self.left.end -= 1;
        // SAFETY: a value in the map is the address of an entry.
        Some(unsafe { entry_at(self.behind.addresses[place]) })
    }
}

/// Pairs of a map in the order of their keys, from both ends.
pub struct Iter<'a, K, V>(Entries<'a, K, V>);

/// Pairs of a map in the order of their keys, from both ends, with the values for writing.
pub struct IterMut<'a, K, V>(Entries<'a, K, V>, PhantomData<&'a mut V>);

/// The keys of a map in their order, from both ends.
pub struct Keys<'a, K, V>(Iter<'a, K, V>);

/// The values of a map in the order of their keys, from both ends.
pub struct Values<'a, K, V>(Iter<'a, K, V>);

/// The pairs of a map, which it owned, in the order of their keys, from both ends.
pub struct IntoIter<K, V> {
    // It has the entries at the indexes that are left. The others are freed.
    map: ManuallyDrop<Map<K, V>>,
    left: Range<usize>,
}

impl<'a, K, V> Iter<'a, K, V> {
    /// The keys of these pairs.
    pub fn into_keys(self) -> Keys<'a, K, V> {
        Keys(self)
    }

    /// The values of these pairs.
    pub fn into_values(self) -> Values<'a, K, V> {
        Values(self)
    }
}

// What an entry shows while the map is borrowed for reading.
//
// SAFETY: the map owns the entry and is not changed for the time `'a`.
unsafe fn shown<'a, K, V>(entry: Entry<K, V>) -> (&'a K, &'a V) {
    // SAFETY: the caller says so.
    let (key, value) = unsafe { &*entry.as_ptr() };
    (key, value)
}

// SAFETY: as for `shown`, and nothing else uses the entry for the time `'a`.
unsafe fn shown_mut<'a, K, V>(entry: Entry<K, V>) -> (&'a K, &'a mut V) {
    // SAFETY: the caller says so.
    let (key, value) = unsafe { &mut *entry.as_ptr() };
    (key, value)
}

impl<'a, K, V> Iterator for Iter<'a, K, V> {
    type Item = (&'a K, &'a V);

    fn next(&mut self) -> Option<(&'a K, &'a V)> {
        // SAFETY: the map is borrowed for the time `'a`.
        self.0.next().map(|entry| unsafe { shown(entry) })
    }

    fn size_hint(&self) -> (usize, Option<usize>) {
        (self.0.left.len(), Some(self.0.left.len()))
    }
}

impl<'a, K, V> DoubleEndedIterator for Iter<'a, K, V> {
    fn next_back(&mut self) -> Option<(&'a K, &'a V)> {
        // SAFETY: the map is borrowed for the time `'a`.
        self.0.next_back().map(|entry| unsafe { shown(entry) })
    }
}

impl<K, V> ExactSizeIterator for Iter<'_, K, V> {}
impl<K, V> FusedIterator for Iter<'_, K, V> {}

impl<'a, K, V> Iterator for IterMut<'a, K, V> {
    type Item = (&'a K, &'a mut V);

    fn next(&mut self) -> Option<(&'a K, &'a mut V)> {
        // SAFETY: the map is borrowed for writing for the time `'a`, and each entry comes once.
        self.0.next().map(|entry| unsafe { shown_mut(entry) })
    }

    fn size_hint(&self) -> (usize, Option<usize>) {
        (self.0.left.len(), Some(self.0.left.len()))
    }
}

impl<'a, K, V> DoubleEndedIterator for IterMut<'a, K, V> {
    fn next_back(&mut self) -> Option<(&'a K, &'a mut V)> {
        // SAFETY: the map is borrowed for writing for the time `'a`, and each entry comes once.
        self.0.next_back().map(|entry| unsafe { shown_mut(entry) })
    }
}

impl<K, V> ExactSizeIterator for IterMut<'_, K, V> {}
impl<K, V> FusedIterator for IterMut<'_, K, V> {}

macro_rules! side {
    ($side:ident, $item:ident, $at:tt) => {
        impl<'a, K, V> Iterator for $side<'a, K, V> {
            type Item = &'a $item;

            fn next(&mut self) -> Option<&'a $item> {
                self.0.next().map(|pair| pair.$at)
            }

            fn size_hint(&self) -> (usize, Option<usize>) {
                self.0.size_hint()
            }
        }

        impl<'a, K, V> DoubleEndedIterator for $side<'a, K, V> {
            fn next_back(&mut self) -> Option<&'a $item> {
                self.0.next_back().map(|pair| pair.$at)
            }
        }

        impl<K, V> ExactSizeIterator for $side<'_, K, V> {}
        impl<K, V> FusedIterator for $side<'_, K, V> {}
    };
}

side!(Keys, K, 0);
side!(Values, V, 1);

impl<K, V> Iterator for IntoIter<K, V> {
    type Item = (K, V);

    fn next(&mut self) -> Option<(K, V)> {
        let entry = self.map.entry_of_index(self.left.next()?)?;
        // SAFETY: the map owns the entry, and neither this nor `drop` comes to its index again.
        Some(unsafe { free(entry) })
    }

    fn size_hint(&self) -> (usize, Option<usize>) {
        (self.left.len(), Some(self.left.len()))
    }
}

impl<K, V> DoubleEndedIterator for IntoIter<K, V> {
    fn next_back(&mut self) -> Option<(K, V)> {
        let entry = self.map.entry_of_index(self.left.next_back()?)?;
        // SAFETY: the map owns the entry, and neither this nor `drop` comes to its index again.
        Some(unsafe { free(entry) })
    }
}

impl<K, V> ExactSizeIterator for IntoIter<K, V> {}
impl<K, V> FusedIterator for IntoIter<K, V> {}

impl<K, V> Drop for IntoIter<K, V> {
    fn drop(&mut self) {
        self.map.free_entries(mem::replace(&mut self.left, 0..0));
        // SAFETY: the handle holds a map, and nothing uses it behind this.
        unsafe { raw::bptree_dict_free(&mut self.map.handle) }
    }
}

impl<K, V> Map<K, V> {
    // Frees the entries of some indexes. They stay in the map, which is used no more.
    fn free_entries(&mut self, indexes: Range<usize>) {
        let (mut left, mut block) = (indexes, [0; BLOCK]);
        while !left.is_empty() {
            let room = left.len().min(BLOCK);
            let count = self.copy_entries(left.start, &mut block[..room]);
            if count == 0 {
                return;
            }
            left.start += count;
            for address in &block[..count] {
                // SAFETY: the map owns the entry, and it comes once.
                drop(unsafe { free::<K, V>(entry_at(*address)) });
            }
        }
    }
}

impl<K, V> Drop for Map<K, V> {
    fn drop(&mut self) {
        self.free_entries(0..self.len());
        // SAFETY: the handle holds a map, and nothing uses it behind this.
        unsafe { raw::bptree_dict_free(&mut self.handle) }
    }
}

impl<K, V> IntoIterator for Map<K, V> {
    type Item = (K, V);
    type IntoIter = IntoIter<K, V>;

    fn into_iter(self) -> IntoIter<K, V> {
        let left = 0..self.len();
        IntoIter { map: ManuallyDrop::new(self), left }
    }
}

impl<'a, K, V> IntoIterator for &'a Map<K, V> {
    type Item = (&'a K, &'a V);
    type IntoIter = Iter<'a, K, V>;

    fn into_iter(self) -> Iter<'a, K, V> {
        self.iter()
    }
}

impl<'a, K, V> IntoIterator for &'a mut Map<K, V> {
    type Item = (&'a K, &'a mut V);
    type IntoIter = IterMut<'a, K, V>;

    fn into_iter(self) -> IterMut<'a, K, V> {
        self.iter_mut()
    }
}

impl<K, V> Default for Map<K, V> {
    fn default() -> Map<K, V> {
        match Map::new() {
            Ok(map) => map,
            Err(OutOfMemory) => panic!("an allocation failed"),
        }
    }
}

impl<K: OrderedKey, V> Extend<(K, V)> for Map<K, V> {
    /// Inserts the pairs one after another. It panics if an allocation fails; then the pairs before
    /// that are inserted.
    fn extend<I: IntoIterator<Item = (K, V)>>(&mut self, pairs: I) {
        for (key, value) in pairs {
            if self.insert(key, value).is_err() {
                panic!("an allocation failed");
            }
        }
    }
}

impl<K: OrderedKey, V> FromIterator<(K, V)> for Map<K, V> {
    fn from_iter<I: IntoIterator<Item = (K, V)>>(pairs: I) -> Map<K, V> {
        let mut map = Map::default();
        map.extend(pairs);
        map
    }
}

impl<K: OrderedKey + Clone, V: Clone> Clone for Map<K, V> {
    /// It panics if an allocation fails. [`try_clone`](Map::try_clone) returns an error.
    fn clone(&self) -> Map<K, V> {
        match self.try_clone() {
            Ok(map) => map,
            Err(OutOfMemory) => panic!("an allocation failed"),
        }
    }
}

impl<K: PartialEq, V: PartialEq> PartialEq for Map<K, V> {
    fn eq(&self, other: &Map<K, V>) -> bool {
        self.len() == other.len() && self.iter().eq(other.iter())
    }
}

impl<K: Eq, V: Eq> Eq for Map<K, V> {}

impl<K: fmt::Debug, V: fmt::Debug> fmt::Debug for Map<K, V> {
    fn fmt(&self, f: &mut fmt::Formatter<'_>) -> fmt::Result {
        f.debug_map().entries(self).finish()
    }
}
