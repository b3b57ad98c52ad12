//! The lines of the program of RULES 9, and the output of the test program `states` (oracle/README.md), from any cache.
use crate::calls::{Cache, Called, Counts, ARC, CAR};
use crate::state::State;
use crate::trace::{frame, next, Next, Operation};
use std::fmt::Write;

/// The largest capacity of the program `replay`, and of the library.
pub const REPLAY_MOST: usize = 256;
pub const STATES_MOST: usize = 1024;

/// One case of `states`: how states are told, and an input in the form of the program's.
#[derive(Clone, Debug)]
pub struct Case {
    pub mode: u8,
    pub input: Vec<u8>,
}

/// Mode 0: every state whole. Any other mode: its digest.
pub const WHOLE: u8 = 0;
pub const DIGEST: u8 = 1;

/// The most bytes that a case's input can have.
pub const LONGEST: usize = 65535;

impl Case {
    pub fn write(&self, out: &mut Vec<u8>) {
        assert!(self.input.len() <= LONGEST);
        out.push(self.mode);
        out.extend((self.input.len() as u16).to_le_bytes());
        out.extend(&self.input);
    }

    /// The case at a place, and the place after it; none at the end, and none that is cut.
    pub fn read(bytes: &[u8], at: usize) -> Option<(Case, usize)> {
        let start = at + 3;
        let header = bytes.get(at..start)?;
        let after = start + usize::from(u16::from_le_bytes([header[1], header[2]]));
        Some((Case { mode: header[0], input: bytes.get(start..after)?.to_vec() }, after))
    }
}

/// What a kind byte and c ask for.
#[derive(Clone, Copy)]
pub struct Head {
    pub kind: u8,
    pub c: usize,
    /// Where the operations start.
    pub at: usize,
}

/// The first bytes of an input, or the only line where they are refused.
pub fn head(input: &[u8], most: usize) -> Result<Head, &'static str> {
    let &kind = input.first().ok_or("stop 5 at 0")?;
    if kind != ARC && kind != CAR {
        return Err("stop 4 at 0");
    }
    let (c, at) = frame(input, 1).ok_or("stop 5 at 1")?;
    if c as usize > most {
        return Err("stop 1 at 1");
    }
    Ok(Head { kind, c: c as usize, at })
}

/// How the operations ended.
pub enum Ended {
    Whole { done: u64 },
    Refused { number: u8, offset: usize },
}

impl Ended {
    pub fn line(&self) -> String {
        match self {
            Ended::Whole { done } => format!("end {done}"),
            Ended::Refused { number, offset } => format!("stop {number} at {offset}"),
        }
    }
}

/// Reads the operations from a place on and hands each to a function, which may stop the run.
pub fn run<E>(input: &[u8], mut at: usize, mut each: impl FnMut(Operation) -> Result<(), E>) -> Result<Ended, E> {
    let mut done = 0;
    loop {
        match next(input, at) {
            Next::End => return Ok(Ended::Whole { done }),
            Next::Refused(number) => return Ok(Ended::Refused { number, offset: at }),
            Next::Operation(operation, after) => {
                each(operation)?;
                done += 1;
                at = after;
            }
        }
    }
}

/// The line of a call and that of the state after it.
pub fn put_call(out: &mut String, mode: u8, called: Called, state: &State) {
    let told = if mode == WHOLE { state.text(called.steps) } else { state.digest(called.steps).to_string() };
    writeln!(out, "{}\n{told}", called.answer).unwrap();
}

/// The last lines of a case: how it ended, the counts with the digest of the last state, the listing.
pub fn put_end(out: &mut String, ended: &Ended, counts: Counts, cache: &dyn Cache) {
    let Counts { gets, hits, updates, news, evictions, steps, removals } = counts;
    writeln!(out, "{}", ended.line()).unwrap();
    writeln!(out, "counts {gets} {hits} {updates} {news} {evictions} {steps} {removals} {}", cache.state().digest(0)).unwrap();
    let listing = cache.listing();
    write!(out, "list {}", listing.len()).unwrap();
    for (page, frame) in listing {
        write!(out, " {page} {frame}").unwrap();
    }
    out.push('\n');
}
