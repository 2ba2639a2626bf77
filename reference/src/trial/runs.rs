//! Run calls: plain ones, guesses, portions, and the list of all sorts.

use super::broken::{at_target, ends, many_broken, one_broken, single, two_broken};
use super::chance::Chance;
use super::cover::{crossing, edge, far_off, middle_gap, no_cover};
use super::sizes::{any_floats, collision, growing, new_component, new_position, on_body, overflow};
use super::trip::{covered_moment, guesses, noted, trip, trip_at, RunCase, Trip};
use super::world::World;
use crate::motion::Outcome;
use crate::rule::State;

pub fn plain(c: &mut Chance, w: &World) -> Vec<(String, Trip)> {
    let mut t = trip(c, w);
    if c.one_in(4) {
        t.aim(60);
        t.budget = 1000;
    }
    noted("", t)
}

/// One guess style for all bodies, with steps.
pub fn guessing(c: &mut Chance, w: &World) -> Vec<(String, Trip)> {
    const STYLES: [&str; 9] = ["right", "one behind", "one ahead", "any entry", "just beyond",
        "far beyond", "wrapped", "first", "any number"];
    let mut t = trip(c, w);
    let style = c.below(9);
    t.guesses = guesses(c, w, t.state.moment, style);
    t.budget = 1 + c.below(5) as u32;
    noted(STYLES[style as usize], t)
}

/// A journey in one call and the same one in portions, each from the last answer.
pub fn portions(c: &mut Chance, w: &World) -> Vec<(String, Trip)> {
    let mut t = crossing(c, w).remove(0).1;
    t.aim(c.between(4, 20));
    t.budget = u32::MAX;
    let mut list = noted("whole", t.clone());
    for _ in 0..6 {
        t.budget = c.below(5) as u32;
        list.push(("portion".to_string(), t.clone()));
        let ran = t.run(w.bytes());
        t.state = ran.state;
        t.guesses = ran.guesses;
        if ran.outcome != Outcome::Going {
            break;
        }
    }
    list
}

/// A run that is refused on the way, and further calls from there.
pub fn again(c: &mut Chance, w: &World) -> Vec<(String, Trip)> {
    let mut t = crossing(c, w).remove(0).1;
    t.budget = 1000;
    let mut list = noted("first", t.clone());
    let ran = t.run(w.bytes());
    if ran.outcome != Outcome::Arrived {
        t.state = ran.state;
        t.guesses = ran.guesses;
        for budget in [0, 1, 1000] {
            t.budget = budget;
            list.push(("met again".to_string(), t.clone()));
        }
    }
    list
}

/// A state as at injection, flown for a while with all bodies of the book.
pub fn long(c: &mut Chance, w: &World) -> Vec<(String, Trip)> {
    let t = covered_moment(c, w);
    let mut trip = trip_at(c, w, t);
    let (position, velocity) = ([6600.0 + c.within(50.0), c.within(900.0), c.within(900.0)], [c.within(2.0), 10.9, c.within(2.0)]);
    trip.state = State { position, velocity, ..trip.state };
    trip.h = c.pick(&[1000, 10_000, 60_000]);
    trip.aim(c.between(50, 200));
    trip.budget = c.pick(&[10, 100, u32::MAX]);
    noted("", trip)
}

pub const RUN: &[RunCase] = &[
    ("plain", plain),
    ("plain", plain),
    ("guesses", guessing),
    ("guesses", guessing),
    ("crossing", crossing),
    ("edge", edge),
    ("edge", edge),
    ("edge", edge),
    ("gap at the middle stages", middle_gap),
    ("gap at the middle stages", middle_gap),
    ("portions", portions),
    ("refused again", again),
    ("single step", single),
    ("at the target", at_target),
    ("no cover", no_cover),
    ("one broken", one_broken),
    ("two broken", two_broken),
    ("two broken", two_broken),
    ("many broken", many_broken),
    ("ends of time", ends),
    ("overflow", overflow),
    ("overflow, then no cover", far_off),
    ("growing", growing),
    ("new component", new_component),
    ("new component", new_position),
    ("collision", collision),
    ("on a body", on_body),
    ("any floats", any_floats),
    ("long", long),
];
