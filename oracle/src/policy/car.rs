//! Clock with Adaptive Replacement (CAR) replacement policy.
//!
//! Implements the CAR algorithm, which combines ARC-like adaptivity with Clock
//! mechanics to reduce list manipulation overhead. Hits only set a reference bit
//! (no list moves), improving concurrency and reducing pointer chasing.
//!
//! ## Architecture
//!
//! ```text
//! ┌─────────────────────────────────────────────────────────────────────────────┐
//! │                           CarCore<K, V> Layout                              │
//! │                                                                             │
//! │   Slot array with per-ring intrusive circular linked lists:                 │
//! │                                                                             │
//! │   ┌─────────────────────────────────────────────────────────────────────┐   │
//! │   │  index: HashMap<K, usize>    slots: Vec<Option<SlotPayload>>        │   │
//! │   │                                                                     │   │
//! │   │  Parallel hot-path arrays (cache-friendly sweeps):                  │   │
//! │   │    referenced: Vec<bool>       ring_kind: Vec<Ring>                 │   │
//! │   │    ring_next:  Vec<usize>      ring_prev: Vec<usize>                │   │
//! │   │                                                                     │   │
//! │   │  Recent ring (recency)         Frequent ring (frequency)            │   │
//! │   │  ┌───────────────────────┐        ┌───────────────────────┐         │   │
//! │   │  │ hand_recent ──► A ──► │        │ hand_frequent──► X ──►│         │   │
//! │   │  │  ◄── C ◄── B ◄───     │        │  ◄── Z ◄── Y ◄───     │         │   │
//! │   │  └───────────────────────┘        └───────────────────────┘         │   │
//! │   │  Ref=0 → evict to ghost_recent Ref=0 → evict to ghost_frequent      │   │
//! │   │  Ref=1 → demote to Frequent   Ref=1 → clear ref, advance            │   │
//! │   │                                                                     │   │
//! │   │  free: Vec<usize> (O(1) slot allocation/deallocation)               │   │
//! │   │  ghost_recent, ghost_frequent: GhostList<K> (ARC-style adaptation)  │   │
//! │   │  target_recent_size: adaptation parameter (target |Recent|)         │   │
//! │   └─────────────────────────────────────────────────────────────────────┘   │
//! └─────────────────────────────────────────────────────────────────────────────┘
//! ```
//!
//! ## Key Components
//!
//! - [`CarCore`]: Main CAR cache implementation
//! - Two intrusive circular rings: Recent (seen once), Frequent (repeated access)
//! - Ghost lists (ghost_recent / ghost_frequent) for evicted keys (ARC-style adaptation)
//! - `target_recent_size`: target size for the Recent ring, adjusted by ghost hits
//! - Reference bits in parallel array for cache-friendly sweeps
//!
//! ## Operations
//!
//! | Operation   | Time   | Notes                                        |
//! |-------------|--------|-----------------------------------------------|
//! | `get`       | O(1)   | Sets reference bit only (no list move)       |
//! | `insert`    | O(1)*  | *Amortized; eviction may sweep                |
//! | `contains`  | O(1)   | Index lookup only                             |
//! | `remove`    | O(1)   | Unlink from ring + free slot                  |
//! | `len`       | O(1)   | Returns Recent + Frequent entries              |
//!
//! ## Performance Trade-offs
//!
//! - **When to Use**: Mixed workloads; need ARC-like adaptivity with lower
//!   overhead than ARC's list moves; concurrency-friendly (hits are cheap).
//! - **vs ARC**: Same adaptivity, but hits are O(1) bit set vs O(1) list move.
//!   Contiguous slot array is more cache-friendly than heap-allocated nodes.
//! - **vs Clock**: Adds ghost-based adaptation and scan resistance.
//! - **Memory Overhead**: Slot array + ghost keys (up to 2× capacity in keys).
//!
//! ## Example Usage
//!
//! ```
//! use cachekit::policy::car::CarCore;
//! use cachekit::traits::Cache;
//!
//! let mut cache = CarCore::new(100);
//! cache.insert("key1", "value1");
//! cache.insert("key2", "value2");
//!
//! assert_eq!(cache.get(&"key1"), Some(&"value1"));
//! assert_eq!(cache.recent_len() + cache.frequent_len(), cache.len());
//! println!("target = {}", cache.target_recent_size());
//! ```
//!
//! ## Thread Safety
//!
//! - [`CarCore`]: Not thread-safe, designed for single-threaded use
//! - For concurrent access, wrap in external synchronization
//!
//! ## Implementation Notes
//!
//! - Two per-ring intrusive circular linked lists through a shared slot array
//! - Hands follow ring chains directly: O(1) advancement (no scanning)
//! - Free-slot stack: O(1) allocation and deallocation
//! - `referenced` and `ring_kind` in separate parallel arrays for sweep locality
//! - Ghost lists bounded to `capacity` each
//! - `target_recent_size` starts at `capacity / 2`
//!
//! ## References
//!
//! - Bansal & Modha, "CAR: Clock with Adaptive Replacement", FAST 2004
//! - Wikipedia: Cache replacement policies

use crate::ds::GhostList;
#[cfg(feature = "metrics")]
use crate::metrics::metrics_impl::CarMetrics;
#[cfg(feature = "metrics")]
use crate::metrics::snapshot::CarMetricsSnapshot;
#[cfg(feature = "metrics")]
use crate::metrics::traits::{CarMetricsRecorder, CoreMetricsRecorder, MetricsSnapshotProvider};
use crate::traits::Cache;
use rustc_hash::FxHashMap;
use std::hash::Hash;
use std::iter::FusedIterator;

/// Which logical ring an entry resides in.
#[derive(Copy, Clone, Debug, Eq, PartialEq)]
enum Ring {
    /// Recent-once ring: entries seen only once since entering the cache.
    Recent,
    /// Frequent ring: entries accessed more than once (promoted from Recent).
    Frequent,
}

/// Slot payload: key and value only.
///
/// Hot metadata (`referenced`, `ring_kind`) and ring linkage (`ring_next`,
/// `ring_prev`) are stored in separate parallel arrays for cache-friendly
/// sweeps during eviction.
struct SlotPayload<K, V> {
    key: K,
    value: V,
}

impl<K: Clone, V: Clone> Clone for SlotPayload<K, V> {
    fn clone(&self) -> Self {
        Self {
            key: self.key.clone(),
            value: self.value.clone(),
        }
    }
}

/// Core Clock with Adaptive Replacement (CAR) implementation.
///
/// Combines ARC's adaptivity (ghost lists + adaptation target) with Clock mechanics:
/// hits only set a reference bit instead of moving entries in linked lists.
/// Two per-ring intrusive circular linked lists share a single slot array,
/// giving O(1) hand advancement and O(1) slot allocation.
///
/// # Type Parameters
///
/// - `K`: Key type, must be `Clone + Eq + Hash`
/// - `V`: Value type
///
/// # Example
///
/// ```
/// use cachekit::policy::car::CarCore;
/// use cachekit::traits::Cache;
///
/// let mut cache = CarCore::new(100);
/// cache.insert("key1", "value1");
/// assert_eq!(cache.get(&"key1"), Some(&"value1"));
/// assert_eq!(cache.recent_len() + cache.frequent_len(), cache.len());
/// ```
///
/// # Eviction Behavior
///
/// The replacement algorithm selects victims based on `target_recent_size`:
/// - If `|Recent| > target` (or equal and ghost hit was from ghost_frequent): sweep Recent
///   - Ref=0: evict to ghost_recent
///   - Ref=1: demote to Frequent (clear ref), continue
/// - Otherwise: sweep Frequent
///   - Ref=0: evict to ghost_frequent
///   - Ref=1: clear ref, advance, continue
#[must_use]
pub struct CarCore<K, V> {
    /// Key -> slot index.
    index: FxHashMap<K, usize>,

    /// Slot storage (key + value only; metadata in parallel arrays).
    slots: Vec<Option<SlotPayload<K, V>>>,

    /// Reference bits — hot path: checked/cleared every sweep step.
    referenced: Vec<bool>,

    /// Ring membership — hot path: checked every sweep step.
    ring_kind: Vec<Ring>,

    /// Intrusive ring: next index in the same ring (circular).
    ring_next: Vec<usize>,

    /// Intrusive ring: previous index in the same ring (circular).
    ring_prev: Vec<usize>,

    /// Clock hand for the recent ring. `None` when the ring is empty.
    hand_recent: Option<usize>,

    /// Clock hand for the frequent ring. `None` when the ring is empty.
    hand_frequent: Option<usize>,

    /// Stack of free slot indices. O(1) push/pop.
    free: Vec<usize>,

    /// Ghost list for keys evicted from the recent ring.
    ghost_recent: GhostList<K>,

    /// Ghost list for keys evicted from the frequent ring.
    ghost_frequent: GhostList<K>,

    /// Adaptation parameter: target size for the recent ring.
    target_recent_size: usize,

    /// Number of entries in the recent ring.
    recent_len: usize,

    /// Number of entries in the frequent ring.
    frequent_len: usize,

    /// Maximum total cache capacity.
    capacity: usize,

    #[cfg(feature = "metrics")]
    metrics: CarMetrics,
}

impl<K, V> CarCore<K, V>
where
    K: Clone + Eq + Hash,
{
    /// Creates a new CAR cache with the specified capacity.
    ///
    /// Ghost lists can each hold up to `capacity` keys.
    /// Initial `target_recent_size` is set to `capacity / 2`.
    /// A capacity of 0 creates a no-op cache that drops all inserts.
    ///
    /// # Example
    ///
    /// ```
    /// use cachekit::policy::car::CarCore;
    /// use cachekit::traits::Cache;
    ///
    /// let cache: CarCore<String, i32> = CarCore::new(100);
    /// assert_eq!(cache.capacity(), 100);
    /// assert!(cache.is_empty());
    /// assert_eq!(cache.target_recent_size(), 50);
    /// ```
    #[inline]
    pub fn new(capacity: usize) -> Self {
        let mut slots = Vec::with_capacity(capacity);
        slots.resize_with(capacity, || None);
        let mut free = Vec::with_capacity(capacity);
        for i in (0..capacity).rev() {
            free.push(i);
        }
        Self {
            index: FxHashMap::with_capacity_and_hasher(capacity, Default::default()),
            slots,
            referenced: vec![false; capacity],
            ring_kind: vec![Ring::Recent; capacity],
            ring_next: vec![0; capacity],
            ring_prev: vec![0; capacity],
            hand_recent: None,
            hand_frequent: None,
            free,
            ghost_recent: GhostList::new(capacity),
            ghost_frequent: GhostList::new(capacity),
            target_recent_size: capacity / 2,
            recent_len: 0,
            frequent_len: 0,
            capacity,
            #[cfg(feature = "metrics")]
            metrics: CarMetrics::default(),
        }
    }

    // =========================================================================
    // Ring operations: O(1) intrusive circular doubly-linked list management
    // =========================================================================

    /// Pop a free slot index. O(1).
    #[inline(always)]
    fn alloc_slot(&mut self) -> Option<usize> {
        self.free.pop()
    }

    /// Return a slot to the free list. O(1).
    #[inline(always)]
    fn free_slot(&mut self, idx: usize) {
        self.slots[idx] = None;
        self.referenced[idx] = false;
        self.free.push(idx);
    }

    /// Link slot `idx` into the given ring, just before the hand.
    ///
    /// The slot is placed at the "tail" of the ring (last to be examined
    /// before the hand wraps). If the ring is empty, the slot becomes the
    /// sole entry and the hand points to it.
    #[inline(always)]
    fn link_before_hand(&mut self, idx: usize, list: Ring) {
        self.ring_kind[idx] = list;
        let hand_ref = match list {
            Ring::Recent => &mut self.hand_recent,
            Ring::Frequent => &mut self.hand_frequent,
        };
        match *hand_ref {
            None => {
                // Empty ring: self-loop.
                self.ring_next[idx] = idx;
                self.ring_prev[idx] = idx;
                *hand_ref = Some(idx);
            },
            Some(h) => {
                // Insert between hand's predecessor and hand.
                let h_prev = self.ring_prev[h];
                self.ring_next[idx] = h;
                self.ring_prev[idx] = h_prev;
                self.ring_next[h_prev] = idx;
                self.ring_prev[h] = idx;
            },
        }
    }

    /// Unlink slot `idx` from its current ring. Updates hand if needed.
    #[inline(always)]
    fn unlink(&mut self, idx: usize) {
        let list = self.ring_kind[idx];
        let hand_ref = match list {
            Ring::Recent => &mut self.hand_recent,
            Ring::Frequent => &mut self.hand_frequent,
        };

        let next = self.ring_next[idx];
        let prev = self.ring_prev[idx];

        if next == idx {
            // Sole entry in ring.
            *hand_ref = None;
        } else {
            self.ring_next[prev] = next;
            self.ring_prev[next] = prev;
            if *hand_ref == Some(idx) {
                *hand_ref = Some(next);
            }
        }
    }

    // =========================================================================
    // Replacement and adaptation
    // =========================================================================

    /// Evict one entry to make room. Returns `true` if space was freed.
    ///
    /// Sweep budget: `2 * capacity` steps — enough to clear all ref bits
    /// in the first pass and find a victim in the second.
    fn replace(&mut self, ghost_frequent_hit: bool) -> bool {
        #[cfg(feature = "metrics")]
        self.metrics.record_evict_call();

        for _ in 0..(2 * self.capacity + 1) {
            #[cfg(feature = "metrics")]
            self.metrics.record_hand_sweep();
            let evict_from_recent = if self.recent_len > 0
                && (self.recent_len > self.target_recent_size
                    || (self.recent_len == self.target_recent_size && ghost_frequent_hit))
            {
                true
            } else if self.frequent_len > 0 {
                false
            } else {
                self.recent_len > 0
            };

            if evict_from_recent {
                let h = match self.hand_recent {
                    Some(h) => h,
                    None => continue,
                };
                if self.referenced[h] {
                    // Demote to frequent ring: unlink from recent, link into frequent, clear ref.
                    self.referenced[h] = false;
                    self.unlink(h);
                    self.recent_len -= 1;
                    self.link_before_hand(h, Ring::Frequent);
                    self.frequent_len += 1;
                    #[cfg(feature = "metrics")]
                    self.metrics.record_recent_to_frequent_promotion();
                } else {
                    // Evict from recent ring to ghost_recent.
                    let key = self.slots[h].as_ref().unwrap().key.clone();
                    self.unlink(h);
                    self.index.remove(&key);
                    self.recent_len -= 1;
                    self.free_slot(h);
                    self.ghost_recent.record(key);
                    #[cfg(feature = "metrics")]
                    self.metrics.record_evicted_entry();
                    return true;
                }
            } else {
                let h = match self.hand_frequent {
                    Some(h) => h,
                    None => continue,
                };
                if self.referenced[h] {
                    // Second chance: clear ref, advance hand.
                    self.referenced[h] = false;
                    self.hand_frequent = Some(self.ring_next[h]);
                } else {
                    // Evict from frequent ring to ghost_frequent.
                    let key = self.slots[h].as_ref().unwrap().key.clone();
                    self.unlink(h);
                    self.index.remove(&key);
                    self.frequent_len -= 1;
                    self.free_slot(h);
                    self.ghost_frequent.record(key);
                    #[cfg(feature = "metrics")]
                    self.metrics.record_evicted_entry();
                    return true;
                }
            }
        }
        false
    }

    /// Adapt parameter `p` based on ghost hit location.
    ///
    /// - ghost_recent hit: increase target by `max(|ghost_frequent|/|ghost_recent|, 1)` (favor recency)
    /// - ghost_frequent hit: decrease target by `max(|ghost_recent|/|ghost_frequent|, 1)` (favor frequency)
    ///
    /// Uses integer division. The `max(1)` ensures progress even when one
    /// ghost list is much smaller than the other.
    fn adapt(&mut self, ghost_recent_hit: bool, ghost_frequent_hit: bool) {
        if ghost_recent_hit {
            let delta = if !self.ghost_recent.is_empty() {
                (self.ghost_frequent.len() / self.ghost_recent.len()).max(1)
            } else {
                1
            };
            self.target_recent_size = (self.target_recent_size + delta).min(self.capacity);
            #[cfg(feature = "metrics")]
            self.metrics.record_target_increase();
        } else if ghost_frequent_hit {
            let delta = if !self.ghost_frequent.is_empty() {
                (self.ghost_recent.len() / self.ghost_frequent.len()).max(1)
            } else {
                1
            };
            self.target_recent_size = self.target_recent_size.saturating_sub(delta);
            #[cfg(feature = "metrics")]
            self.metrics.record_target_decrease();
        }
    }

    /// Insert a key-value pair into the specified ring.
    ///
    /// Allocates a free slot, stores the payload, and links into the ring.
    /// Returns `false` if no free slot is available (caller should have
    /// called `replace` first).
    fn insert_into_ring(&mut self, key: K, value: V, list: Ring) -> bool {
        let idx = match self.alloc_slot() {
            Some(idx) => idx,
            None => return false,
        };
        self.slots[idx] = Some(SlotPayload {
            key: key.clone(),
            value,
        });
        self.referenced[idx] = false;
        self.link_before_hand(idx, list);
        self.index.insert(key, idx);
        match list {
            Ring::Recent => self.recent_len += 1,
            Ring::Frequent => self.frequent_len += 1,
        }
        true
    }

    // =========================================================================
    // Public accessors
    // =========================================================================

    /// Returns the current adaptation target for the recent ring.
    ///
    /// Higher values favor recency (larger recent ring),
    /// lower values favor frequency (larger frequent ring).
    ///
    /// # Example
    ///
    /// ```
    /// use cachekit::policy::car::CarCore;
    ///
    /// let cache: CarCore<String, i32> = CarCore::new(100);
    /// assert_eq!(cache.target_recent_size(), 50);
    /// ```
    pub fn target_recent_size(&self) -> usize {
        self.target_recent_size
    }

    /// Returns the number of entries in the recent ring (seen once).
    ///
    /// # Example
    ///
    /// ```
    /// use cachekit::policy::car::CarCore;
    /// use cachekit::traits::Cache;
    ///
    /// let mut cache = CarCore::new(100);
    /// cache.insert("key", "value");
    /// assert_eq!(cache.recent_len(), 1);
    /// ```
    pub fn recent_len(&self) -> usize {
        self.recent_len
    }

    /// Returns the number of entries in the frequent ring (repeated access).
    ///
    /// # Example
    ///
    /// ```
    /// use cachekit::policy::car::CarCore;
    /// use cachekit::traits::Cache;
    ///
    /// let mut cache = CarCore::new(3);
    /// cache.insert("a", 1);
    /// cache.insert("b", 2);
    /// cache.insert("c", 3);
    /// cache.get(&"a");
    /// cache.get(&"b");
    /// // Inserting "d" evicts an unreferenced entry and demotes referenced
    /// // entries from Recent to Frequent.
    /// cache.insert("d", 4);
    /// assert!(cache.frequent_len() > 0);
    /// ```
    pub fn frequent_len(&self) -> usize {
        self.frequent_len
    }

    /// Returns the number of keys in the ghost_recent list (evicted from recent ring).
    ///
    /// # Example
    ///
    /// ```
    /// use cachekit::policy::car::CarCore;
    /// use cachekit::traits::Cache;
    ///
    /// let mut cache = CarCore::new(2);
    /// cache.insert("a", 1);
    /// cache.insert("b", 2);
    /// cache.insert("c", 3); // evicts one entry to ghost_recent
    /// assert!(cache.ghost_recent_len() >= 1);
    /// ```
    pub fn ghost_recent_len(&self) -> usize {
        self.ghost_recent.len()
    }

    /// Returns the number of keys in the ghost_frequent list (evicted from frequent ring).
    ///
    /// # Example
    ///
    /// ```
    /// use cachekit::policy::car::CarCore;
    /// use cachekit::traits::Cache;
    ///
    /// let cache: CarCore<String, i32> = CarCore::new(10);
    /// assert_eq!(cache.ghost_frequent_len(), 0);
    /// ```
    pub fn ghost_frequent_len(&self) -> usize {
        self.ghost_frequent.len()
    }

    /// Returns an iterator over shared references to all cached key-value pairs.
    ///
    /// Iteration order is unspecified and not guaranteed to follow ring order.
    ///
    /// # Example
    ///
    /// ```
    /// use cachekit::policy::car::CarCore;
    /// use cachekit::traits::Cache;
    ///
    /// let mut cache = CarCore::new(10);
    /// cache.insert("a", 1);
    /// cache.insert("b", 2);
    ///
    /// let entries: Vec<_> = cache.iter().collect();
    /// assert_eq!(entries.len(), 2);
    /// ```
    pub fn iter(&self) -> Iter<'_, K, V> {
        Iter {
            slots: self.slots.iter(),
            remaining: self.recent_len + self.frequent_len,
        }
    }

    /// Returns an iterator over cached keys (shared) and values (mutable).
    ///
    /// Iteration order is unspecified.
    ///
    /// # Example
    ///
    /// ```
    /// use cachekit::policy::car::CarCore;
    /// use cachekit::traits::Cache;
    ///
    /// let mut cache = CarCore::new(10);
    /// cache.insert("a", 1);
    /// cache.insert("b", 2);
    ///
    /// for (_key, value) in cache.iter_mut() {
    ///     *value += 10;
    /// }
    /// assert_eq!(cache.get(&"a"), Some(&11));
    /// ```
    pub fn iter_mut(&mut self) -> IterMut<'_, K, V> {
        IterMut {
            slots: self.slots.iter_mut(),
            remaining: self.recent_len + self.frequent_len,
        }
    }

    /// Validates internal invariants. Available in debug/test builds.
    ///
    /// Panics if any invariant is violated.
    #[cfg(any(test, debug_assertions))]
    pub fn debug_validate_invariants(&self)
    where
        K: std::fmt::Debug,
    {
        // 1. Counts match index.
        assert_eq!(
            self.recent_len + self.frequent_len,
            self.index.len(),
            "recent_len({}) + frequent_len({}) != index.len({})",
            self.recent_len,
            self.frequent_len,
            self.index.len()
        );

        // 2. Doesn't exceed capacity.
        assert!(
            self.recent_len + self.frequent_len <= self.capacity,
            "total({}) > capacity({})",
            self.recent_len + self.frequent_len,
            self.capacity
        );

        // 3. target_recent_size within range.
        assert!(
            self.target_recent_size <= self.capacity,
            "p({}) > capacity({})",
            self.target_recent_size,
            self.capacity
        );

        // 4. Ghost lists within bounds.
        assert!(self.ghost_recent.len() <= self.capacity);
        assert!(self.ghost_frequent.len() <= self.capacity);

        // 5. Free list size matches.
        assert_eq!(
            self.free.len(),
            self.capacity - (self.recent_len + self.frequent_len),
            "free.len({}) != capacity({}) - total({})",
            self.free.len(),
            self.capacity,
            self.recent_len + self.frequent_len
        );

        // 6. Walk recent ring and count.
        let mut recent_count = 0;
        if let Some(start) = self.hand_recent {
            let mut cur = start;
            loop {
                assert!(
                    self.slots[cur].is_some(),
                    "recent ring slot {} is empty",
                    cur
                );
                assert_eq!(
                    self.ring_kind[cur],
                    Ring::Recent,
                    "recent ring slot {} has ring_kind {:?}",
                    cur,
                    self.ring_kind[cur]
                );
                let slot = self.slots[cur].as_ref().unwrap();
                assert!(
                    self.index.contains_key(&slot.key),
                    "recent ring slot {} key not in index",
                    cur
                );
                // Verify prev/next consistency.
                assert_eq!(
                    self.ring_next[self.ring_prev[cur]], cur,
                    "recent ring broken at slot {}",
                    cur
                );
                assert_eq!(
                    self.ring_prev[self.ring_next[cur]], cur,
                    "recent ring broken at slot {}",
                    cur
                );
                recent_count += 1;
                cur = self.ring_next[cur];
                if cur == start {
                    break;
                }
                assert!(recent_count <= self.capacity, "recent ring cycle detected");
            }
        }
        assert_eq!(
            recent_count, self.recent_len,
            "recent ring walk count mismatch"
        );

        // 7. Walk frequent ring and count.
        let mut frequent_count = 0;
        if let Some(start) = self.hand_frequent {
            let mut cur = start;
            loop {
                assert!(self.slots[cur].is_some());
                assert_eq!(self.ring_kind[cur], Ring::Frequent);
                let slot = self.slots[cur].as_ref().unwrap();
                assert!(self.index.contains_key(&slot.key));
                assert_eq!(self.ring_next[self.ring_prev[cur]], cur);
                assert_eq!(self.ring_prev[self.ring_next[cur]], cur);
                frequent_count += 1;
                cur = self.ring_next[cur];
                if cur == start {
                    break;
                }
                assert!(frequent_count <= self.capacity);
            }
        }
        assert_eq!(
            frequent_count, self.frequent_len,
            "frequent ring walk count mismatch"
        );

        // 8. Ghost lists don't overlap with live keys.
        for key in self.index.keys() {
            assert!(
                !self.ghost_recent.contains(key),
                "Key {:?} in both cache and ghost_recent",
                key
            );
            assert!(
                !self.ghost_frequent.contains(key),
                "Key {:?} in both cache and ghost_frequent",
                key
            );
        }

        // 9. All index entries point to valid slots with correct keys.
        for (key, &idx) in &self.index {
            assert!(idx < self.capacity);
            let slot = self.slots[idx]
                .as_ref()
                .expect("index points to empty slot");
            assert_eq!(&slot.key, key);
        }

        // 10. Free slots are actually empty.
        for &idx in &self.free {
            assert!(idx < self.capacity);
            assert!(self.slots[idx].is_none(), "Free slot {} is occupied", idx);
        }
    }
}

impl<K, V> std::fmt::Debug for CarCore<K, V>
where
    K: Clone + Eq + Hash + std::fmt::Debug,
    V: std::fmt::Debug,
{
    fn fmt(&self, f: &mut std::fmt::Formatter<'_>) -> std::fmt::Result {
        f.debug_struct("CarCore")
            .field("capacity", &self.capacity)
            .field("recent_len", &self.recent_len)
            .field("frequent_len", &self.frequent_len)
            .field("ghost_recent_len", &self.ghost_recent.len())
            .field("ghost_frequent_len", &self.ghost_frequent.len())
            .field("target_recent_size", &self.target_recent_size)
            .field("total_len", &(self.recent_len + self.frequent_len))
            .finish()
    }
}

impl<K, V> Clone for CarCore<K, V>
where
    K: Clone + Eq + Hash,
    V: Clone,
{
    fn clone(&self) -> Self {
        Self {
            index: self.index.clone(),
            slots: self.slots.clone(),
            referenced: self.referenced.clone(),
            ring_kind: self.ring_kind.clone(),
            ring_next: self.ring_next.clone(),
            ring_prev: self.ring_prev.clone(),
            hand_recent: self.hand_recent,
            hand_frequent: self.hand_frequent,
            free: self.free.clone(),
            ghost_recent: self.ghost_recent.clone(),
            ghost_frequent: self.ghost_frequent.clone(),
            target_recent_size: self.target_recent_size,
            recent_len: self.recent_len,
            frequent_len: self.frequent_len,
            capacity: self.capacity,
            #[cfg(feature = "metrics")]
            metrics: self.metrics,
        }
    }
}

impl<K, V> Cache<K, V> for CarCore<K, V>
where
    K: Clone + Eq + Hash,
{
    fn contains(&self, key: &K) -> bool {
        self.index.contains_key(key)
    }

    fn len(&self) -> usize {
        self.recent_len + self.frequent_len
    }

    fn capacity(&self) -> usize {
        self.capacity
    }

    fn peek(&self, key: &K) -> Option<&V> {
        let &idx = self.index.get(key)?;
        self.slots[idx].as_ref().map(|s| &s.value)
    }

    fn get(&mut self, key: &K) -> Option<&V> {
        let &idx = match self.index.get(key) {
            Some(idx) => {
                #[cfg(feature = "metrics")]
                self.metrics.record_get_hit();
                idx
            },
            None => {
                #[cfg(feature = "metrics")]
                self.metrics.record_get_miss();
                return None;
            },
        };
        self.referenced[idx] = true;
        self.slots[idx].as_ref().map(|s| &s.value)
    }

    fn insert(&mut self, key: K, value: V) -> Option<V> {
        #[cfg(feature = "metrics")]
        self.metrics.record_insert_call();

        if self.capacity == 0 {
            return None;
        }

        // Case 1: Key already in cache — update value, set ref.
        if let Some(&idx) = self.index.get(&key) {
            if let Some(slot) = self.slots[idx].as_mut() {
                let old = std::mem::replace(&mut slot.value, value);
                self.referenced[idx] = true;
                #[cfg(feature = "metrics")]
                self.metrics.record_insert_update();
                return Some(old);
            }
        }

        let ghost_recent_hit = self.ghost_recent.contains(&key);
        let ghost_frequent_hit = self.ghost_frequent.contains(&key);

        // Case 2: Ghost hit in ghost_recent (key was recently evicted from recent ring).
        if ghost_recent_hit {
            #[cfg(feature = "metrics")]
            self.metrics.record_ghost_recent_hit();
            self.adapt(true, false);
            self.ghost_recent.remove(&key);
            if self.recent_len + self.frequent_len >= self.capacity {
                self.replace(false);
            }
            self.insert_into_ring(key, value, Ring::Frequent);
            #[cfg(feature = "metrics")]
            self.metrics.record_insert_new();
            return None;
        }

        // Case 3: Ghost hit in ghost_frequent (key was evicted from frequent ring).
        if ghost_frequent_hit {
            #[cfg(feature = "metrics")]
            self.metrics.record_ghost_frequent_hit();
            self.adapt(false, true);
            self.ghost_frequent.remove(&key);
            if self.recent_len + self.frequent_len >= self.capacity {
                self.replace(true);
            }
            self.insert_into_ring(key, value, Ring::Frequent);
            #[cfg(feature = "metrics")]
            self.metrics.record_insert_new();
            return None;
        }

        // Case 4: Complete miss.
        if self.recent_len + self.frequent_len >= self.capacity && !self.replace(false) {
            return None;
        }
        self.insert_into_ring(key, value, Ring::Recent);
        #[cfg(feature = "metrics")]
        self.metrics.record_insert_new();
        None
    }

    fn remove(&mut self, key: &K) -> Option<V> {
        let idx = self.index.remove(key)?;
        let list = self.ring_kind[idx];
        self.unlink(idx);
        match list {
            Ring::Recent => self.recent_len -= 1,
            Ring::Frequent => self.frequent_len -= 1,
        }
        let slot = self.slots[idx].take()?;
        self.referenced[idx] = false;
        self.free.push(idx);
        Some(slot.value)
    }

    fn clear(&mut self) {
        #[cfg(feature = "metrics")]
        self.metrics.record_clear();

        self.index.clear();
        for slot in &mut self.slots {
            *slot = None;
        }
        self.referenced.fill(false);
        self.free.clear();
        for i in (0..self.capacity).rev() {
            self.free.push(i);
        }
        self.hand_recent = None;
        self.hand_frequent = None;
        self.ghost_recent.clear();
        self.ghost_frequent.clear();
        self.target_recent_size = self.capacity / 2;
        self.recent_len = 0;
        self.frequent_len = 0;
    }
}

#[cfg(feature = "metrics")]
impl<K, V> CarCore<K, V>
where
    K: Clone + Eq + Hash,
{
    /// Returns a snapshot of cache metrics.
    pub fn metrics_snapshot(&self) -> CarMetricsSnapshot {
        CarMetricsSnapshot {
            get_calls: self.metrics.get_calls,
            get_hits: self.metrics.get_hits,
            get_misses: self.metrics.get_misses,
            insert_calls: self.metrics.insert_calls,
            insert_updates: self.metrics.insert_updates,
            insert_new: self.metrics.insert_new,
            evict_calls: self.metrics.evict_calls,
            evicted_entries: self.metrics.evicted_entries,
            recent_to_frequent_promotions: self.metrics.recent_to_frequent_promotions,
            ghost_recent_hits: self.metrics.ghost_recent_hits,
            ghost_frequent_hits: self.metrics.ghost_frequent_hits,
            target_increases: self.metrics.target_increases,
            target_decreases: self.metrics.target_decreases,
            hand_sweeps: self.metrics.hand_sweeps,
            cache_len: self.len(),
            capacity: self.capacity,
        }
    }
}

#[cfg(feature = "metrics")]
impl<K, V> MetricsSnapshotProvider<CarMetricsSnapshot> for CarCore<K, V>
where
    K: Clone + Eq + Hash,
{
    fn snapshot(&self) -> CarMetricsSnapshot {
        self.metrics_snapshot()
    }
}

// =============================================================================
// Iterators
// =============================================================================

/// Iterator over shared references to cached key-value pairs.
///
/// Created by [`CarCore::iter`].
pub struct Iter<'a, K, V> {
    slots: std::slice::Iter<'a, Option<SlotPayload<K, V>>>,
    remaining: usize,
}

impl<'a, K, V> Iterator for Iter<'a, K, V> {
    type Item = (&'a K, &'a V);

    fn next(&mut self) -> Option<Self::Item> {
        if let Some(payload) = self.slots.by_ref().flatten().next() {
            self.remaining -= 1;
            return Some((&payload.key, &payload.value));
        }
        None
    }

    fn size_hint(&self) -> (usize, Option<usize>) {
        (self.remaining, Some(self.remaining))
    }
}

impl<K, V> ExactSizeIterator for Iter<'_, K, V> {}
impl<K, V> FusedIterator for Iter<'_, K, V> {}

/// Iterator over cached keys (shared) and values (mutable).
///
/// Created by [`CarCore::iter_mut`].
pub struct IterMut<'a, K, V> {
    slots: std::slice::IterMut<'a, Option<SlotPayload<K, V>>>,
    remaining: usize,
}

impl<'a, K, V> Iterator for IterMut<'a, K, V> {
    type Item = (&'a K, &'a mut V);

    fn next(&mut self) -> Option<Self::Item> {
        if let Some(payload) = self.slots.by_ref().flatten().next() {
            self.remaining -= 1;
            return Some((&payload.key, &mut payload.value));
        }
        None
    }

    fn size_hint(&self) -> (usize, Option<usize>) {
        (self.remaining, Some(self.remaining))
    }
}

impl<K, V> ExactSizeIterator for IterMut<'_, K, V> {}
impl<K, V> FusedIterator for IterMut<'_, K, V> {}

/// Owning iterator over cached key-value pairs.
///
/// Created by calling [`IntoIterator`] on a [`CarCore`].
pub struct IntoIter<K, V> {
    slots: std::vec::IntoIter<Option<SlotPayload<K, V>>>,
    remaining: usize,
}

impl<K, V> Iterator for IntoIter<K, V> {
    type Item = (K, V);

    fn next(&mut self) -> Option<Self::Item> {
        if let Some(payload) = self.slots.by_ref().flatten().next() {
            self.remaining -= 1;
            return Some((payload.key, payload.value));
        }
        None
    }

    fn size_hint(&self) -> (usize, Option<usize>) {
        (self.remaining, Some(self.remaining))
    }
}

impl<K, V> ExactSizeIterator for IntoIter<K, V> {}
impl<K, V> FusedIterator for IntoIter<K, V> {}

impl<K, V> IntoIterator for CarCore<K, V> {
    type Item = (K, V);
    type IntoIter = IntoIter<K, V>;

    fn into_iter(self) -> Self::IntoIter {
        IntoIter {
            remaining: self.recent_len + self.frequent_len,
            slots: self.slots.into_iter(),
        }
    }
}

impl<'a, K, V> IntoIterator for &'a CarCore<K, V>
where
    K: Clone + Eq + Hash,
{
    type Item = (&'a K, &'a V);
    type IntoIter = Iter<'a, K, V>;

    fn into_iter(self) -> Self::IntoIter {
        self.iter()
    }
}

impl<'a, K, V> IntoIterator for &'a mut CarCore<K, V>
where
    K: Clone + Eq + Hash,
{
    type Item = (&'a K, &'a mut V);
    type IntoIter = IterMut<'a, K, V>;

    fn into_iter(self) -> Self::IntoIter {
        self.iter_mut()
    }
}

// =============================================================================
// Tests
// =============================================================================


// =============================================================================
// Appended to the excerpt: a snapshot of the whole state, for comparisons. All above is as published.
// =============================================================================

/// A resident of a `CarCore`.
pub struct CarResident<K, V> {
    pub key: K,
    pub value: V,
    pub slot: usize,
    pub referenced: bool,
}

/// The state of a `CarCore`: the target, both clocks from the hand on, the ghost lists newest first, the free slots in the order they will be taken.
pub struct CarState<K, V> {
    pub target: usize,
    pub recent: Vec<CarResident<K, V>>,
    pub frequent: Vec<CarResident<K, V>>,
    pub ghost_recent: Vec<K>,
    pub ghost_frequent: Vec<K>,
    pub free: Vec<usize>,
}

impl<K: Clone + Eq + Hash, V: Clone> CarCore<K, V> {
    pub fn state(&self) -> CarState<K, V> {
        let state = CarState {
            target: self.target_recent_size,
            recent: self.clock(self.hand_recent, self.recent_len),
            frequent: self.clock(self.hand_frequent, self.frequent_len),
            ghost_recent: self.ghost_recent.newest_first(),
            ghost_frequent: self.ghost_frequent.newest_first(),
            free: self.free.iter().rev().copied().collect(),
        };
        assert_eq!(state.recent.is_empty(), self.hand_recent.is_none());
        assert_eq!(state.frequent.is_empty(), self.hand_frequent.is_none());
        state
    }

    /// The residents of a clock of `len` slots, from its hand on.
    fn clock(&self, hand: Option<usize>, len: usize) -> Vec<CarResident<K, V>> {
        let mut residents = Vec::with_capacity(len);
        let Some(start) = hand else {
            return residents;
        };
        let mut slot = start;
        loop {
            let payload = self.slots[slot].as_ref().unwrap();
            residents.push(CarResident {
                key: payload.key.clone(),
                value: payload.value.clone(),
                slot,
                referenced: self.referenced[slot],
            });
            slot = self.ring_next[slot];
            if slot == start {
                break;
            }
        }
        assert_eq!(residents.len(), len);
        residents
    }
}
