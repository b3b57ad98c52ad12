//! The excerpts and the list model in step: every answer, step count and whole state is compared, and the text that is written is the excerpts'.
use crate::calls::{Cache, Called, Counts, ARC, CAR};
use crate::model::{Model, Step};
use crate::program::{head, put_call, put_end, run, Case, Ended, REPLAY_MOST, STATES_MOST};
use crate::rust::{side_of, Rust, Side};
use crate::trace::Operation;

/// The Rust and its list model, two caches that should be one, and what they did so far.
#[derive(Clone)]
pub struct Pair {
    pub rust: Rust,
    model: Model,
    counts: Counts,
    done: u64,
}

impl Pair {
    pub fn new(side: Side, c: usize) -> Pair {
        let kind = if side == Side::Arc { ARC } else { CAR };
        let step = if side == Side::CarExcerpt { Step::Quotient } else { Step::One };
        Pair { rust: Rust::new(side, c), model: Model::new(kind, c, step), counts: Counts::default(), done: 0 }
    }

    pub fn call(&mut self, operation: Operation) -> Result<Called, String> {
        let (called, wanted) = (self.rust.call(operation), self.model.call(operation));
        if called != wanted || self.rust.state() != self.model.state() {
            return Err(format!(
                "the Rust and the list model differ at operation {} (from 0), {operation:?}:\n  the Rust:  {called:?}, {}\n  the model: {wanted:?}, {}",
                self.done,
                self.rust.state().text(called.steps),
                self.model.state().text(wanted.steps)
            ));
        }
        self.counts.count(called);
        self.done += 1;
        Ok(called)
    }

    /// What is compared at the end: the listing, the Rust's own counts, the Rust's own assertions.
    pub fn end(&self) -> Result<Counts, String> {
        self.rust.validate();
        if self.rust.listing() != self.model.listing() {
            return Err("the Rust and the list model differ in their listings".to_string());
        }
        if self.rust.own_counts() != Some(self.counts) {
            return Err(format!("the Rust's metrics are {:?}, the answers count {:?}", self.rust.own_counts(), self.counts));
        }
        Ok(self.counts)
    }
}

/// What `states` writes on a case, and the number of operations in it.
pub fn states(case: &Case) -> Result<(String, u64), String> {
    let head = match head(&case.input, STATES_MOST) {
        Ok(head) => head,
        Err(line) => return Ok((format!("{line}\n"), 0)),
    };
    let mut pair = Pair::new(side_of(head.kind), head.c);
    let mut out = String::new();
    let ended = run(&case.input, head.at, |operation| {
        let called = pair.call(operation)?;
        put_call(&mut out, case.mode, called, pair.rust.state());
        Ok::<(), String>(())
    })?;
    put_end(&mut out, &ended, pair.end()?, &pair.rust);
    Ok((out, pair.done))
}

/// What `replay` writes on an input, and the number of operations in it.
pub fn replay(input: &[u8]) -> Result<(String, u64), String> {
    let head = match head(input, REPLAY_MOST) {
        Ok(head) => head,
        Err(line) => return Ok((format!("{line}\n"), 0)),
    };
    let mut pair = Pair::new(side_of(head.kind), head.c);
    let mut out = String::new();
    let ended: Ended = run(input, head.at, |operation| {
        out.push_str(&format!("{}\n", pair.call(operation)?.answer));
        Ok::<(), String>(())
    })?;
    pair.end()?;
    out.push_str(&format!("{}\n", ended.line()));
    Ok((out, pair.done))
}
