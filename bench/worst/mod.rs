//! Worst cases.
pub mod buckets;
pub mod index;
pub mod loads;
pub mod median;
