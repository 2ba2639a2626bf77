//! Shared by the programs of the bench.

pub mod asked;
pub mod best;
pub mod books;
pub mod clock;
pub mod decoded;
pub mod flight;
pub mod flights;
pub mod growth;
pub mod parts;
pub mod plain;
pub mod race;
