//! The ghost list by RULES 4: the published file is not at hand. Newest first, at most as many pages as the capacity. Recording puts a page
//! at the front; if the list was full, its oldest is dropped; with capacity 0 nothing is kept. Removing an absent page and dropping the oldest of an
//! empty list do nothing.
//!
//! Every operation takes constant time, as the published list promises: nodes in a vector, linked by their numbers, and a map from key to node.
use rustc_hash::FxHashMap;
use std::hash::Hash;

/// No node.
const NONE: usize = usize::MAX;

#[derive(Clone)]
struct Node<K> {
    key: K,
    newer: usize,
    older: usize,
}

#[derive(Clone)]
pub struct GhostList<K> {
    index: FxHashMap<K, usize>,
    nodes: Vec<Node<K>>,
    /// Numbers of nodes that hold no page.
    spare: Vec<usize>,
    newest: usize,
    oldest: usize,
    capacity: usize,
}

impl<K: Clone + Eq + Hash> GhostList<K> {
    pub fn new(capacity: usize) -> Self {
        GhostList {
            index: FxHashMap::with_capacity_and_hasher(capacity, Default::default()),
            nodes: Vec::with_capacity(capacity),
            spare: Vec::with_capacity(capacity),
            newest: NONE,
            oldest: NONE,
            capacity,
        }
    }

    pub fn len(&self) -> usize {
        self.index.len()
    }

    pub fn is_empty(&self) -> bool {
        self.index.is_empty()
    }

    pub fn contains(&self, key: &K) -> bool {
        self.index.contains_key(key)
    }

    /// Puts a key at the front. A key that is there already moves; the policies never record one.
    pub fn record(&mut self, key: K) {
        if self.capacity == 0 {
            return;
        }
        self.remove(&key);
        if self.len() == self.capacity {
            self.evict_lru();
        }
        let node = Node { key: key.clone(), newer: NONE, older: self.newest };
        let at = match self.spare.pop() {
            Some(at) => {
                self.nodes[at] = node;
                at
            }
            None => {
                self.nodes.push(node);
                self.nodes.len() - 1
            }
        };
        match self.newest {
            NONE => self.oldest = at,
            newest => self.nodes[newest].newer = at,
        }
        self.newest = at;
        self.index.insert(key, at);
    }

    /// Takes a key out, and tells whether it was there.
    pub fn remove(&mut self, key: &K) -> bool {
        let Some(at) = self.index.remove(key) else {
            return false;
        };
        let (newer, older) = (self.nodes[at].newer, self.nodes[at].older);
        match newer {
            NONE => self.newest = older,
            newer => self.nodes[newer].older = older,
        }
        match older {
            NONE => self.oldest = newer,
            older => self.nodes[older].newer = newer,
        }
        self.spare.push(at);
        true
    }

    /// Drops the oldest key, if there is one, and returns it.
    pub fn evict_lru(&mut self) -> Option<K> {
        if self.oldest == NONE {
            return None;
        }
        let key = self.nodes[self.oldest].key.clone();
        self.remove(&key);
        Some(key)
    }

    pub fn clear(&mut self) {
        self.index.clear();
        self.nodes.clear();
        self.spare.clear();
        self.newest = NONE;
        self.oldest = NONE;
    }

    /// The keys, newest first: for snapshots.
    pub fn newest_first(&self) -> Vec<K> {
        let mut keys = Vec::with_capacity(self.len());
        let mut at = self.newest;
        while at != NONE {
            keys.push(self.nodes[at].key.clone());
            at = self.nodes[at].older;
        }
        assert_eq!(keys.len(), self.len());
        keys
    }
}
