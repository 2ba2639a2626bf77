//! Belfrywool for Rust: the proved calls of a trajectory engine, with types that cannot be mixed up.
//!
//! Every function here makes one proved call. A call that cannot answer returns a [`Refusal`] and no figure. No function keeps state,
//! and only [`repair`] allocates. Any number of threads may call them at the same time.
//!
//! ```
//! use belfrywool::*;
//!
//! // An Earth of 8 km³/s², and no other body.
//! let setting = Setting { coefficients: [8.0, 0.0, 0.0, 0.0, 0.0, 0.0], j: 0.0, a: 0.0, k: 0.0, dut: Dut(0), rule: Rule::OLD };
//! let injection = Coordinates { moment: Moment(0), centre: Body::EARTH, position: [2.0, 0.0, 0.0], velocity: [0.0, 4.0, 0.0] };
//! let state = inject(Book::EMPTY, &setting, &injection)?;
//! let run = Run { h: 1000, target: Moment(60_000), budget: u32::MAX, guesses: Guesses::default() };
//! let answer = fly(Book::EMPTY, &setting, &state, &run);
//! assert_eq!(answer.outcome, Outcome::Arrived);
//! assert_eq!(answer.steps, 60);
//! # Ok::<(), Refusal>(())
//! ```
//!
//! The library is found in the folder that `BELFRYWOOL_LIB` names when a program is built. If that folder has `libbelfrywool.a`, it is
//! linked, else its parts. A program that does not need the calls of `belfry_earth` or `belfry_repair` can leave out the feature of
//! that name. The archive is then left out too.

pub mod calls;

mod almanac;
mod book;
mod conic;
#[cfg(feature = "belfry_earth")]
mod earth;
mod environment;
mod flight;
mod pane;
mod refusal;
#[cfg(feature = "belfry_repair")]
mod repair;
mod state;
mod values;

pub use almanac::*;
pub use book::*;
pub use conic::{Conic, ConicKind};
#[cfg(feature = "belfry_earth")]
pub use earth::*;
pub use environment::*;
pub use flight::*;
pub use pane::*;
pub use refusal::{meaning, Refusal};
#[cfg(feature = "belfry_repair")]
pub use repair::*;
pub use state::*;
pub use values::*;

/// The version of this crate, which is that of the library that it is made for.
pub const VERSION: &str = env!("CARGO_PKG_VERSION");
