//! The exported calls compared with the reference, on lines: structured ones made from a seed, lines changed at random, and those
//! of a coverage-guided fuzzer.

pub mod case;
pub mod fuzz;
pub mod guided;
pub mod linked;
