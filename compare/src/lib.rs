//! The codes, boxes and repairs as the papers give them, worked out without the library, and the library to
//! hold against them.
#![deny(unsafe_code)]

pub mod boxes;
pub mod calls;
pub mod counted;
pub mod graded;
pub mod guarded;
pub mod interleaving;
pub mod library;
pub mod live_sets;
pub mod made_elsewhere;
pub mod open;
#[allow(unsafe_code)]
mod pages;
pub mod pairs;
pub mod papers;
pub mod plan_checks;
pub mod planner;
pub mod random;
pub mod rounds;
pub mod samples;
pub mod tally;
pub mod triples;
pub mod waves;
