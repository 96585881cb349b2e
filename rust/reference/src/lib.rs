//! Documents 01 and 02 a second time, for tests and the benchmark.
//!
//! [`second`] is an independent implementation of every call, written from the documents alone; [`exact`]
//! has their exact pictures in fractions. Neither shares code with the proved library, and no package that
//! users link depends on this one.

pub mod exact;
pub mod second;
