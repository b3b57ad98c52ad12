//! The excerpts behind the calls of docs/RULES.md. What the Rust does not answer is taken from it otherwise: an insert's victim is the page that is resident
//! before and not after; its steps are the Rust's own metrics, replacements for ARC and hand sweeps for CAR.
use crate::calls::{Answer, Cache, Called, Counts, Victim, ARC, CAR};
use crate::state::{Resident, State};
use crate::trace::Operation;
use counted::policy::{arc, car, car_step_1};
use counted::traits::Cache as _;
use std::collections::HashSet;

/// What the adapters need of a cache of the excerpts.
trait Excerpt {
    fn cache(&self) -> &dyn counted::traits::Cache<u64, u32>;
    fn cache_mut(&mut self) -> &mut dyn counted::traits::Cache<u64, u32>;
    fn whole(&self) -> State;
    fn listed(&self) -> Vec<(u64, u32)>;
    /// The counts of the Rust's metrics; they do not know of removals.
    fn counts(&self) -> Counts;
    fn check(&self);
    fn copy(&self) -> Box<dyn Excerpt>;
}

impl Excerpt for arc::ArcCore<u64, u32> {
    fn cache(&self) -> &dyn counted::traits::Cache<u64, u32> {
        self
    }

    fn cache_mut(&mut self) -> &mut dyn counted::traits::Cache<u64, u32> {
        self
    }

    fn whole(&self) -> State {
        let residents = |list: &[(u64, u32)]| list.iter().map(|&(page, frame)| Resident { page, frame, slot: 0, bit: false }).collect();
        let s = self.state();
        assert_eq!([s.target, s.t1.len(), s.t2.len(), s.b1.len(), s.b2.len()], [self.p_value(), self.t1_len(), self.t2_len(), self.b1_len(), self.b2_len()]);
        State { kind: ARC, c: self.capacity(), target: s.target, t1: residents(&s.t1), t2: residents(&s.t2), b1: s.b1, b2: s.b2, free: vec![] }
    }

    fn listed(&self) -> Vec<(u64, u32)> {
        self.iter().map(|(&page, &frame)| (page, frame)).collect()
    }

    fn counts(&self) -> Counts {
        let m = self.metrics_snapshot();
        Counts { gets: m.get_calls, hits: m.get_hits, updates: m.insert_updates, news: m.insert_new, evictions: m.evicted_entries, steps: m.evict_calls, removals: 0 }
    }

    fn check(&self) {
        self.debug_validate_invariants();
    }

    fn copy(&self) -> Box<dyn Excerpt> {
        Box::new(self.clone())
    }
}

macro_rules! car_excerpt {
    ($module:ident) => {
        impl Excerpt for $module::CarCore<u64, u32> {
            fn cache(&self) -> &dyn counted::traits::Cache<u64, u32> {
                self
            }

            fn cache_mut(&mut self) -> &mut dyn counted::traits::Cache<u64, u32> {
                self
            }

            fn whole(&self) -> State {
                let residents =
                    |clock: &[$module::CarResident<u64, u32>]| clock.iter().map(|r| Resident { page: r.key, frame: r.value, slot: r.slot, bit: r.referenced }).collect();
                let s = self.state();
                assert_eq!(
                    [s.target, s.recent.len(), s.frequent.len(), s.ghost_recent.len(), s.ghost_frequent.len()],
                    [self.target_recent_size(), self.recent_len(), self.frequent_len(), self.ghost_recent_len(), self.ghost_frequent_len()]
                );
                let (t1, t2) = (residents(&s.recent), residents(&s.frequent));
                State { kind: CAR, c: self.capacity(), target: s.target, t1, t2, b1: s.ghost_recent, b2: s.ghost_frequent, free: s.free }
            }

            fn listed(&self) -> Vec<(u64, u32)> {
                self.iter().map(|(&page, &frame)| (page, frame)).collect()
            }

            fn counts(&self) -> Counts {
                let m = self.metrics_snapshot();
                let (gets, hits, updates, news) = (m.get_calls, m.get_hits, m.insert_updates, m.insert_new);
                Counts { gets, hits, updates, news, evictions: m.evicted_entries, steps: m.hand_sweeps, removals: 0 }
            }

            fn check(&self) {
                self.debug_validate_invariants();
            }

            fn copy(&self) -> Box<dyn Excerpt> {
                Box::new(self.clone())
            }
        }
    };
}
car_excerpt!(car);
car_excerpt!(car_step_1);

/// Which Rust.
#[derive(Clone, Copy, PartialEq, Eq)]
pub enum Side {
    Arc,
    /// CAR with the step set to 1, as RULES 5.11 has it.
    CarStep1,
    /// CAR as published.
    CarExcerpt,
}

/// The side that the rules are compared with.
pub fn side_of(kind: u8) -> Side {
    if kind == ARC {
        Side::Arc
    } else {
        Side::CarStep1
    }
}

pub struct Rust {
    excerpt: Box<dyn Excerpt>,
    /// The state after the last call.
    now: State,
    removals: u64,
}

impl Clone for Rust {
    fn clone(&self) -> Rust {
        Rust { excerpt: self.excerpt.copy(), now: self.now.clone(), removals: self.removals }
    }
}

impl Rust {
    pub fn new(side: Side, c: usize) -> Rust {
        let excerpt: Box<dyn Excerpt> = match side {
            Side::Arc => Box::new(arc::ArcCore::new(c)),
            Side::CarStep1 => Box::new(car_step_1::CarCore::new(c)),
            Side::CarExcerpt => Box::new(car::CarCore::new(c)),
        };
        let now = excerpt.whole();
        Rust { excerpt, now, removals: 0 }
    }

    /// The page that an insert put out.
    fn victim(&self, after: &State) -> Option<Victim> {
        if after.t1.len() + after.t2.len() > self.now.t1.len() + self.now.t2.len() {
            return None;
        }
        let left: HashSet<u64> = after.residents().map(|r| r.page).collect();
        let mut out = self.now.residents().filter(|r| !left.contains(&r.page));
        let r = out.next()?;
        assert!(out.next().is_none(), "one insert put out two pages");
        let (in_b1, in_b2) = (after.b1.first() == Some(&r.page), after.b2.first() == Some(&r.page));
        assert!(in_b1 != in_b2, "the victim is not the newest of one ghost list");
        Some(Victim { page: r.page, frame: r.frame, in_b1 })
    }

    fn inserted(&self, page: u64, old: Option<u32>, after: &State) -> Answer {
        match old {
            Some(frame) => Answer::Old(frame),
            None if after.resident(page).is_some() => Answer::New(self.victim(after)),
            None => Answer::Nothing,
        }
    }
}

impl Cache for Rust {
    fn call(&mut self, operation: Operation) -> Called {
        let steps_before = self.excerpt.counts().steps;
        let cache = self.excerpt.cache_mut();
        let mut old = None;
        let answer = match operation {
            Operation::Get(page) => cache.get(&page).map_or(Answer::Miss, |&frame| Answer::Hit(frame)),
            Operation::Peek(page) => {
                let seen = cache.peek(&page).copied();
                assert_eq!(cache.contains(&page), seen.is_some());
                seen.map_or(Answer::No, Answer::See)
            }
            Operation::Remove(page) => cache.remove(&page).map_or(Answer::Absent, Answer::Gone),
            Operation::Clear => {
                cache.clear();
                Answer::Clear
            }
            Operation::Insert(page, frame) => {
                old = cache.insert(page, frame);
                Answer::Nothing
            }
        };
        let after = self.excerpt.whole();
        let answer = if let Operation::Insert(page, _) = operation { self.inserted(page, old, &after) } else { answer };
        self.removals += u64::from(matches!(answer, Answer::Gone(_)));
        self.now = after;
        Called { answer, steps: self.excerpt.counts().steps - steps_before }
    }

    fn state(&self) -> &State {
        &self.now
    }

    fn listing(&self) -> Vec<(u64, u32)> {
        assert_eq!(self.excerpt.cache().len(), self.now.residents().count());
        self.excerpt.listed()
    }

    fn own_counts(&self) -> Option<Counts> {
        Some(Counts { removals: self.removals, ..self.excerpt.counts() })
    }

    fn validate(&self) {
        self.excerpt.check();
    }
}
