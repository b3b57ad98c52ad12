//! The two policies, and CAR once more with the step of RULES 5.11.
pub mod arc;
pub mod car;
/// `car` with the step of the target set to 1 in `adapt`, its only difference: `oracle/same` makes it again from `car.rs` and compares.
pub mod car_step_1;
