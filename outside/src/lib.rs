//! A second program for the survey walk, of its own origin, and its comparisons with the proved one.
pub mod capi;
pub mod chance;
pub mod clock;
pub mod compare;
pub mod plain;
pub mod ranks;
pub mod run;
pub mod second;
pub mod tables;
pub mod two_pass;
