//! Stands in for dashmap: one map behind one lock, with the calls that the source makes.

use std::collections::HashMap;
use std::hash::Hash;
use std::ops::Deref;
use std::sync::{Mutex, MutexGuard};

/// A map that is lent by shared reference.
pub struct DashMap<K, V> {
    entries: Mutex<HashMap<K, V>>,
}

impl<K: Eq + Hash + Clone, V: Clone> DashMap<K, V> {
    /// An empty map.
    pub fn new() -> Self {
        DashMap {
            entries: Mutex::new(HashMap::new()),
        }
    }

    /// The place of a key.
    pub fn entry(&self, key: K) -> Entry<'_, K, V> {
        Entry {
            entries: self.lock(),
            key,
        }
    }

    /// The number of keys.
    pub fn len(&self) -> usize {
        self.lock().len()
    }

    /// Whether there is no key.
    pub fn is_empty(&self) -> bool {
        self.len() == 0
    }

    /// The values as they are now.
    pub fn iter(&self) -> impl Iterator<Item = Item<V>> {
        let values: Vec<V> = self.lock().values().cloned().collect();
        values.into_iter().map(Item)
    }

    fn lock(&self) -> MutexGuard<'_, HashMap<K, V>> {
        self.entries.lock().expect("no holder of the lock panicked")
    }
}

impl<K: Eq + Hash + Clone, V: Clone> Default for DashMap<K, V> {
    fn default() -> Self {
        Self::new()
    }
}

/// The place of a key, with the map held.
pub struct Entry<'a, K, V> {
    entries: MutexGuard<'a, HashMap<K, V>>,
    key: K,
}

impl<K: Eq + Hash + Clone, V: Clone> Entry<'_, K, V> {
    /// The value of the key, made where there is none.
    pub fn or_insert_with(mut self, make: impl FnOnce() -> V) -> Item<V> {
        Item(self.entries.entry(self.key).or_insert_with(make).clone())
    }
}

/// One value.
pub struct Item<V>(V);

impl<V> Item<V> {
    /// The value itself.
    pub fn value(&self) -> &V {
        &self.0
    }
}

impl<V> Deref for Item<V> {
    type Target = V;

    fn deref(&self) -> &V {
        &self.0
    }
}
