//! Document 01 written a second time, in plain Rust, from the document only. Every call is total: a refusal is the document's
//! number in `Err`.

pub mod ask;
pub mod book;
pub mod calendar;
pub mod conic;
pub mod extras;
pub mod fields;
pub mod fixed;
pub mod holds;
pub mod hour;
pub mod listing;
pub mod motion;
pub mod moves;
pub mod pane;
pub mod parting;
pub mod pull;
pub mod repair;
pub mod root;
pub mod rule;
pub mod sine;
pub mod sphere;
pub mod strip;
pub mod table;
pub mod trial;
pub mod vector;
