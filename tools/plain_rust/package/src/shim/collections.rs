//! Maps and sets whose growth may fail.

use super::alloc::{AllocFailed, Global};
pub use std::collections::{LinkedList, btree_map};
use std::hash::Hash;
use std::ops::RangeBounds;

/// `std`'s map; a call that allocates returns an error if there is no memory.
pub struct HashMap<K, V>(std::collections::HashMap<K, V>);

impl<K: Eq + Hash, V> HashMap<K, V> {
    pub fn new(_: Global) -> HashMap<K, V> {
        HashMap(std::collections::HashMap::new())
    }

    pub fn insert(&mut self, key: K, value: V) -> Result<Option<V>, AllocFailed<(K, V)>> {
        if self.0.try_reserve(1).is_err() {
            return Err(AllocFailed { value: (key, value) });
        }
        Ok(self.0.insert(key, value))
    }

    pub fn get(&self, key: K) -> Option<&V> {
        self.0.get(&key)
    }
}

/// `std`'s map in the order of its keys. Its growth cannot be asked for first: if there is no memory, the process ends.
pub struct BTreeMap<K, V>(std::collections::BTreeMap<K, V>);

impl<K: Ord, V> BTreeMap<K, V> {
    pub fn new(_: Global) -> BTreeMap<K, V> {
        BTreeMap(std::collections::BTreeMap::new())
    }

    pub fn insert(&mut self, key: K, value: V) -> Result<Option<V>, AllocFailed<(K, V)>> {
        Ok(self.0.insert(key, value))
    }

    pub fn remove(&mut self, key: &K) -> Option<V> {
        self.0.remove(key)
    }

    pub fn get(&self, key: &K) -> Option<&V> {
        self.0.get(key)
    }

    pub fn range(&self, range: impl RangeBounds<K>) -> btree_map::Range<'_, K, V> {
        self.0.range(range)
    }
}

/// `std`'s set; a call that allocates returns an error if there is no memory.
pub struct HashSet<T>(std::collections::HashSet<T>);

impl<T: Eq + Hash> HashSet<T> {
    pub fn new(_: Global) -> HashSet<T> {
        HashSet(std::collections::HashSet::new())
    }

    pub fn insert(&mut self, entry: T) -> Result<bool, AllocFailed<T>> {
        if self.0.try_reserve(1).is_err() {
            return Err(AllocFailed { value: entry });
        }
        Ok(self.0.insert(entry))
    }

    pub fn contains(&self, entry: &T) -> bool {
        self.0.contains(entry)
    }
}
