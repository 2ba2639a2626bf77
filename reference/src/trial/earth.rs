//! The Earth as centre: old lines, each with the new line of the same meaning.

use super::chance::Chance;
use super::floats::{anything, hexes};
use super::lookups::ACCEL;
use super::runs::RUN;
use super::states::{CONIC, FIXED};
use super::world::{Case, World};

/// A line with fields inserted, each at its place in the new line.
pub fn with(line: &str, others: &[(usize, &str)]) -> String {
    let mut fields: Vec<&str> = line.split(' ').collect();
    others.iter().for_each(|&(at, field)| fields.insert(at, field));
    fields.join(" ")
}

pub fn turns(c: &mut Chance, w: &World) -> Vec<[String; 2]> {
    let (_, make) = c.pick(FIXED);
    let stored = hexes(&anything(c));
    let new = |line: &str| with(line, &[(1, "0"), (4, "1"), (11, &stored)]).replacen("fixed", "turn", 1);
    make(c, w).into_iter().map(|line| [line.clone(), new(&line)]).collect()
}

pub fn orbits(c: &mut Chance, w: &World) -> Vec<[String; 2]> {
    let (_, make) = c.pick(CONIC);
    let moment = c.any_length(64).to_string();
    let stored = hexes(&anything(c));
    let new = |line: &str| with(line, &[(2, &moment), (3, "1"), (10, &stored)]).replacen("conic", "orbit", 1);
    make(c, w).into_iter().map(|line| [line.clone(), new(&line)]).collect()
}

pub fn pulls(c: &mut Chance, w: &World) -> Vec<[String; 2]> {
    let (_, make) = c.pick(ACCEL);
    make(c, w).into_iter().map(|(_, t)| [t.accel_line(), t.pull_line()]).collect()
}

/// The new line has the rule's acceleration, and its answer has the centre and the acceleration too.
pub fn flights(c: &mut Chance, w: &World) -> Vec<[String; 2]> {
    let (_, make) = c.pick(RUN);
    make(c, w).into_iter().map(|(_, t)| [t.run_line(), t.kept(w.bytes()).fly_line()]).collect()
}

pub const EARTH: &[Case] = &[
    ("fixed and turn", |c, w| turns(c, w).concat()),
    ("conic and orbit", |c, w| orbits(c, w).concat()),
    ("accel and pull", |c, w| pulls(c, w).concat()),
    ("run and fly", |c, w| flights(c, w).concat()),
];
