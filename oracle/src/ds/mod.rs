//! The one data structure that ARC and CAR lean on. The excerpt of this file names a dozen others, which are not at hand.
pub mod ghost_list;
pub use ghost_list::GhostList;
