//! A plain, fast bridge with a replay of packed captures, and what a benchmark
//! needs around it. The head of main.rs says how it is used.
#![forbid(unsafe_code)]

pub mod compare;
pub mod engine;
mod far;
pub mod make;
pub mod plain;
pub mod random;
pub mod time;
pub mod write;
