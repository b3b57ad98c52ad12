//! The excerpts of cachekit that ARC and CAR need, and the smallest completion around them. Files with an excerpt start with it, byte for byte
//! (`excerpts.sha256` lists them, `same` compares); what follows in such a file is ours. Ours alone: this file, `ds`, `policy/mod.rs`, `metrics/mod.rs`.
pub mod ds;
pub mod error;
#[cfg(feature = "metrics")]
pub mod metrics;
pub mod policy;
pub mod traits;
