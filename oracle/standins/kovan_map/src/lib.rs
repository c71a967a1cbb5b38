//! Stand-in for `kovan_map`: a map behind a shared reference, with the calls that pool.rs makes.
//!
//! As std's map it keeps the old key when an equal key is inserted. The order of a walk is std's for a fixed
//! hash, so that a run can be repeated; nothing that is compared may depend on it.

use std::borrow::Borrow;
use std::cell::RefCell;
use std::collections::hash_map::DefaultHasher;
use std::hash::{BuildHasherDefault, Hash};

type Inner<K, V> = std::collections::HashMap<K, V, BuildHasherDefault<DefaultHasher>>;

/// A map whose calls all take `&self`.
pub struct HashMap<K, V>(RefCell<Inner<K, V>>);

impl<K: Eq + Hash + Clone, V: Clone> HashMap<K, V> {
    /// An empty map with room for `capacity` entries.
    pub fn with_capacity(capacity: usize) -> Self {
        Self(RefCell::new(Inner::with_capacity_and_hasher(
            capacity,
            BuildHasherDefault::default(),
        )))
    }

    /// How many entries the map holds.
    pub fn len(&self) -> usize {
        self.0.borrow().len()
    }

    /// Whether the map holds no entry.
    pub fn is_empty(&self) -> bool {
        self.0.borrow().is_empty()
    }

    /// The value under an equal key.
    pub fn get<Q: Eq + Hash + ?Sized>(&self, key: &Q) -> Option<V>
    where
        K: Borrow<Q>,
    {
        self.0.borrow().get(key).cloned()
    }

    /// Whether an equal key is held.
    pub fn contains_key<Q: Eq + Hash + ?Sized>(&self, key: &Q) -> bool
    where
        K: Borrow<Q>,
    {
        self.0.borrow().contains_key(key)
    }

    /// Sets the value under `key` and gives the one that was there.
    pub fn insert(&self, key: K, value: V) -> Option<V> {
        self.0.borrow_mut().insert(key, value)
    }

    /// Sets the value only if no equal key is held; gives the one that is in the way.
    pub fn insert_if_absent(&self, key: K, value: V) -> Option<V> {
        let mut map = self.0.borrow_mut();
        if let Some(held) = map.get(&key) {
            return Some(held.clone());
        }
        map.insert(key, value)
    }

    /// Takes the entry of an equal key out.
    pub fn remove<Q: Eq + Hash + ?Sized>(&self, key: &Q) -> Option<V>
    where
        K: Borrow<Q>,
    {
        self.0.borrow_mut().remove(key)
    }

    /// Takes the entry out if `wanted` says so of its value.
    pub fn remove_if<Q: Eq + Hash + ?Sized>(
        &self,
        key: &Q,
        wanted: impl FnOnce(&V) -> bool,
    ) -> Option<V>
    where
        K: Borrow<Q>,
    {
        let mut map = self.0.borrow_mut();
        if map.get(key).is_some_and(wanted) {
            map.remove(key)
        } else {
            None
        }
    }

    /// The keys as they are now.
    pub fn keys(&self) -> impl Iterator<Item = K> + use<K, V> {
        let keys: Vec<K> = self.0.borrow().keys().cloned().collect();
        keys.into_iter()
    }

    /// The entries as they are now.
    pub fn iter(&self) -> impl Iterator<Item = (K, V)> + use<K, V> {
        let entries: Vec<(K, V)> = self
            .0
            .borrow()
            .iter()
            .map(|(key, value)| (key.clone(), value.clone()))
            .collect();
        entries.into_iter()
    }
}
