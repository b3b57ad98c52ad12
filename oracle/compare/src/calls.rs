//! The calls of a cache and their answers, in the words of docs/RULES.md.
use crate::state::State;
use crate::trace::Operation;
use std::fmt;

pub const ARC: u8 = 1;
pub const CAR: u8 = 2;

/// Who was put out by an insert, with its frame, and whether it is recorded in B1 (or else in B2).
#[derive(Clone, Copy, Debug, PartialEq, Eq)]
pub struct Victim {
    pub page: u64,
    pub frame: u32,
    pub in_b1: bool,
}

#[derive(Clone, Copy, Debug, PartialEq, Eq)]
pub enum Answer {
    Hit(u32),
    Miss,
    New(Option<Victim>),
    Old(u32),
    /// An insert that stored nothing: capacity 0.
    Nothing,
    Gone(u32),
    Absent,
    Clear,
    See(u32),
    No,
}

/// The line of an answer, without its end.
impl fmt::Display for Answer {
    fn fmt(&self, f: &mut fmt::Formatter<'_>) -> fmt::Result {
        match self {
            Answer::Hit(frame) => write!(f, "hit {frame}"),
            Answer::Miss => write!(f, "miss"),
            Answer::New(None) => write!(f, "new"),
            Answer::New(Some(v)) => write!(f, "new out {} {} {}", v.page, v.frame, if v.in_b1 { "b1" } else { "b2" }),
            Answer::Old(frame) => write!(f, "old {frame}"),
            Answer::Nothing => write!(f, "none"),
            Answer::Gone(frame) => write!(f, "gone {frame}"),
            Answer::Absent => write!(f, "absent"),
            Answer::Clear => write!(f, "clear"),
            Answer::See(frame) => write!(f, "see {frame}"),
            Answer::No => write!(f, "no"),
        }
    }
}

/// An answer, and the replacement steps that it took.
#[derive(Clone, Copy, Debug, PartialEq, Eq)]
pub struct Called {
    pub answer: Answer,
    pub steps: u64,
}

/// A batch's counts.
#[derive(Clone, Copy, Debug, Default, PartialEq, Eq)]
pub struct Counts {
    pub gets: u64,
    pub hits: u64,
    pub updates: u64,
    pub news: u64,
    pub evictions: u64,
    pub steps: u64,
    pub removals: u64,
}

impl Counts {
    pub fn count(&mut self, called: Called) {
        self.steps += called.steps;
        match called.answer {
            Answer::Hit(_) => {
                self.gets += 1;
                self.hits += 1;
            }
            Answer::Miss => self.gets += 1,
            Answer::New(victim) => {
                self.news += 1;
                self.evictions += u64::from(victim.is_some());
            }
            Answer::Old(_) => self.updates += 1,
            Answer::Gone(_) => self.removals += 1,
            Answer::Nothing | Answer::Absent | Answer::Clear | Answer::See(_) | Answer::No => {}
        }
    }
}

/// One side of a comparison: a cache of the excerpts or of the list model.
pub trait Cache {
    fn call(&mut self, operation: Operation) -> Called;
    fn state(&self) -> &State;
    fn listing(&self) -> Vec<(u64, u32)>;
    /// The counts that the cache itself has kept, where it does.
    fn own_counts(&self) -> Option<Counts>;
    /// Stops where the cache finds itself broken.
    fn validate(&self) {}
}
