//! The excerpts' counters, as far as ARC and CAR use them.
#[allow(dead_code)]
pub(crate) mod cell;
#[allow(dead_code, rustdoc::broken_intra_doc_links)]
pub mod metrics_impl;
pub mod snapshot;
pub mod traits;
