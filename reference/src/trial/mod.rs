//! Inputs from a seed, and the comparison of programs with the reference. A file uses only files of its own stage or of one before
//! it, and no two files use each other.

// Pieces: chance, books, floats, times, and a trip with all its inputs.
pub mod books;
pub mod centres;
pub mod chance;
pub mod changed;
pub mod damage;
pub mod extras;
pub mod floats;
pub mod fuller;
pub mod lines;
pub mod listings;
pub mod moon;
pub mod times;
pub mod trip;
pub mod world;

// Cases: the questions, sort by sort.
pub mod about;
pub mod almanac;
pub mod broken;
pub mod cover;
pub mod earth;
pub mod journeys;
pub mod listing_pairs;
pub mod lookups;
pub mod mends;
pub mod moving;
pub mod night;
pub mod offers;
pub mod runs;
pub mod sizes;
pub mod spheres;
pub mod states;
pub mod stored;
pub mod strips;
pub mod tables;
pub mod terms;
pub mod travel;
pub mod unreadable;

// Plan: how many of each, and with which books.
pub mod fuller_nights;
pub mod panes;
pub mod plan;

// Report: programs started, answers compared and counted.
pub mod child;
pub mod compare;
pub mod drive;
pub mod programs;
pub mod report;
pub mod unchanged;
