//! A set of any ordered keys.

use crate::key::OrderedKey;
use crate::map::{InsertError, IntoIter, Keys, Map};
use crate::OutOfMemory;
use std::borrow::Borrow;
use std::fmt;
use std::iter::FusedIterator;
use std::ops::RangeBounds;

/// An ordered set of keys of any type that implements [`OrderedKey`].
///
/// The calls have the names of `BTreeSet`'s, and cost and fail as those of a [`Map`].
#[derive(PartialEq, Eq)]
pub struct Set<K> {
    map: Map<K, ()>,
}

impl<K> Set<K> {
    /// A set with no keys. It allocates one leaf.
    pub fn new() -> Result<Set<K>, OutOfMemory> {
        Ok(Set { map: Map::new()? })
    }

    /// The number of keys. O(1).
    pub fn len(&self) -> usize {
        self.map.len()
    }

    /// Whether there are no keys. O(1).
    pub fn is_empty(&self) -> bool {
        self.map.is_empty()
    }

    /// Removes all keys. O(n). It allocates one leaf, and changes nothing if that fails.
    pub fn clear(&mut self) -> Result<(), OutOfMemory> {
        self.map.clear()
    }

    /// The key at an index, from 0 on. O(log n).
    pub fn get_index(&self, index: usize) -> Option<&K> {
        self.map.get_index(index).map(|(key, ())| key)
    }

    /// The least key. O(log n).
    pub fn first(&self) -> Option<&K> {
        self.get_index(0)
    }

    /// The greatest key. O(log n).
    pub fn last(&self) -> Option<&K> {
        self.map.last_key_value().map(|(key, ())| key)
    }

    /// Removes and returns the key at an index. O(log n). If an allocation fails, the set is
    /// unchanged.
    pub fn remove_index(&mut self, index: usize) -> Result<Option<K>, OutOfMemory> {
        Ok(self.map.remove_index(index)?.map(|(key, ())| key))
    }

    /// Removes and returns the least key. O(log n). If an allocation fails, the set is unchanged.
    pub fn pop_first(&mut self) -> Result<Option<K>, OutOfMemory> {
        Ok(self.map.pop_first()?.map(|(key, ())| key))
    }

    /// Removes and returns the greatest key. O(log n). If an allocation fails, the set is unchanged.
    pub fn pop_last(&mut self) -> Result<Option<K>, OutOfMemory> {
        Ok(self.map.pop_last()?.map(|(key, ())| key))
    }

    /// All keys in their order, from both ends.
    pub fn iter(&self) -> Keys<'_, K, ()> {
        self.map.keys()
    }
}

impl<K: OrderedKey> Set<K> {
    /// Whether a key is there. O(log n).
    pub fn contains<Q: OrderedKey + ?Sized>(&self, key: &Q) -> bool
    where
        K: Borrow<Q>,
    {
        self.map.contains_key(key)
    }

    /// The key that is stored. O(log n).
    pub fn get<Q: OrderedKey + ?Sized>(&self, key: &Q) -> Option<&K>
    where
        K: Borrow<Q>,
    {
        self.map.get_key_value(key).map(|(key, ())| key)
    }

    /// The number of smaller keys: `Ok` if the key itself is there. O(log n).
    pub fn rank<Q: OrderedKey + ?Sized>(&self, key: &Q) -> Result<usize, usize>
    where
        K: Borrow<Q>,
    {
        self.map.rank(key)
    }

    /// Inserts a key, and returns whether it is new. A key that was there stays. O(log n). If an
    /// allocation fails, the error has the key.
    pub fn insert(&mut self, key: K) -> Result<bool, InsertError<K, ()>> {
        Ok(self.map.insert(key, ())?.is_none())
    }

    /// Removes a key, and returns whether it was there. O(log n). If an allocation fails, the set is
    /// unchanged.
    pub fn remove<Q: OrderedKey + ?Sized>(&mut self, key: &Q) -> Result<bool, OutOfMemory>
    where
        K: Borrow<Q>,
    {
        Ok(self.map.remove(key)?.is_some())
    }

    /// Removes a key, and returns it as it was stored. Else it is as `remove`.
    pub fn take<Q: OrderedKey + ?Sized>(&mut self, key: &Q) -> Result<Option<K>, OutOfMemory>
    where
        K: Borrow<Q>,
    {
        Ok(self.map.remove_entry(key)?.map(|(key, ())| key))
    }

    /// The keys in a range, in their order, from both ends. If the end of the range is before its
    /// start, there are none. O(log n), and then as `iter`.
    pub fn range<Q: OrderedKey + ?Sized>(&self, range: impl RangeBounds<Q>) -> Keys<'_, K, ()>
    where
        K: Borrow<Q>,
    {
        self.map.range(range).into_keys()
    }

    /// The number of keys in a range. O(log n).
    pub fn range_len<Q: OrderedKey + ?Sized>(&self, range: impl RangeBounds<Q>) -> usize
    where
        K: Borrow<Q>,
    {
        self.map.range_len(range)
    }
}

impl<K: OrderedKey + Clone> Set<K> {
    /// A set of clones of all keys. O(n log n).
    pub fn try_clone(&self) -> Result<Set<K>, OutOfMemory> {
        Ok(Set { map: self.map.try_clone()? })
    }
}

impl<K: OrderedKey + Clone> Clone for Set<K> {
    /// It panics if an allocation fails. [`try_clone`](Set::try_clone) returns an error.
    fn clone(&self) -> Set<K> {
        Set { map: self.map.clone() }
    }
}

/// The keys of a set, which it owned, in their order, from both ends.
pub struct SetIntoIter<K>(IntoIter<K, ()>);

impl<K> Iterator for SetIntoIter<K> {
    type Item = K;

    fn next(&mut self) -> Option<K> {
        self.0.next().map(|(key, ())| key)
    }

    fn size_hint(&self) -> (usize, Option<usize>) {
        self.0.size_hint()
    }
}

impl<K> DoubleEndedIterator for SetIntoIter<K> {
    fn next_back(&mut self) -> Option<K> {
        self.0.next_back().map(|(key, ())| key)
    }
}

impl<K> ExactSizeIterator for SetIntoIter<K> {}
impl<K> FusedIterator for SetIntoIter<K> {}

impl<K> IntoIterator for Set<K> {
    type Item = K;
    type IntoIter = SetIntoIter<K>;

    fn into_iter(self) -> SetIntoIter<K> {
        SetIntoIter(self.map.into_iter())
    }
}

impl<'a, K> IntoIterator for &'a Set<K> {
    type Item = &'a K;
    type IntoIter = Keys<'a, K, ()>;

    fn into_iter(self) -> Keys<'a, K, ()> {
        self.iter()
    }
}

impl<K> Default for Set<K> {
    /// It panics if an allocation fails.
    fn default() -> Set<K> {
        Set { map: Map::default() }
    }
}

impl<K: OrderedKey> Extend<K> for Set<K> {
    /// Inserts the keys one after another. It panics if an allocation fails; then the keys before
    /// that are inserted.
    fn extend<I: IntoIterator<Item = K>>(&mut self, keys: I) {
        self.map.extend(keys.into_iter().map(|key| (key, ())));
    }
}

impl<K: OrderedKey> FromIterator<K> for Set<K> {
    /// It panics if an allocation fails.
    fn from_iter<I: IntoIterator<Item = K>>(keys: I) -> Set<K> {
        let mut set = Set::default();
        set.extend(keys);
        set
    }
}

impl<K: fmt::Debug> fmt::Debug for Set<K> {
    fn fmt(&self, f: &mut fmt::Formatter<'_>) -> fmt::Result {
        f.debug_set().entries(self).finish()
    }
}
