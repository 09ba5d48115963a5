//! Plain Rust for the jobs of the proved library: what its speed is measured against (src/bin/bench.rs). One job has C
//! programs besides, two forms of Knuth's Algorithm H.
//!
//! Each call makes the tests that the library's call makes and gives the same answers, so that times compare like with like. It
//! is written for speed with safe Rust alone, and no call is inlined into its caller: the library's are not either. As there,
//! radices (notch counts) and words (settings) are bytes with digit (sluice) n first; the arrays of an engine have digit 1, the
//! fastest, first. A locked digit has radix 1, every other one moves. Single calls are like those of the crates; the library for
//! C has none, so they have no row in the benchmarks.
pub mod algorithm_h;
pub mod disks;
mod engine;
pub mod list;
pub mod log;
mod tide_words;
pub mod tides;
pub mod walk;
pub mod words;

pub use engine::Step;

#[cfg(test)]
mod tests;
