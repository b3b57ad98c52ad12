//! What the programs of the oracle share. `trace` and `model` are written from docs/RULES.md alone; `rust` is the excerpts behind the same calls; `state` is
//! what both are compared by; `program` makes the lines and states of a run; `cases` and `random` make inputs; `agree` runs both sides in step.
pub mod agree;
pub mod calls;
pub mod cases;
pub mod model;
pub mod program;
pub mod random;
pub mod rust;
pub mod state;
pub mod tour;
pub mod trace;
