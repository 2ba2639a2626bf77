//! Trips about a centre: on it, on another body, close to it, and about an unused one.

use super::centres::{other_centre, used_centre};
use super::chance::Chance;
use super::trip::{bad_centre, noted, trip, RunCase, Trip};
use super::world::World;
use crate::moves::{cover, stands};
use crate::vector::{sub, Vector};

/// The position of a body from the Earth at the moment of the trip; zero if there is none.
pub fn place(w: &World, t: &Trip, body: u64) -> Vector {
    let now = t.state.moment;
    let found = cover(w.bytes(), body, now).and_then(|entry| stands(w.bytes(), entry, now));
    found.map_or([0.0; 3], |m| m.place)
}

/// About a used body other than the Earth.
fn other(c: &mut Chance, w: &World) -> Trip {
    let mut t = trip(c, w);
    t.state.centre = other_centre(c, &t.setting);
    t
}

/// On the centre itself, or so close to it that r3 vanishes or the pull overflows.
fn on_centre(c: &mut Chance, w: &World) -> Vec<(String, Trip)> {
    let mut t = other(c, w);
    let size = c.pick(&[0.0, -0.0, 1e-170, 1e-110, 1e-105, 1e-100, 1e-50]);
    t.state.position = [size, c.pick(&[0.0, -0.0]), 0.0];
    noted("", t)
}

/// On another used body, the Earth often among them, or very close to it.
fn on_another(c: &mut Chance, w: &World) -> Vec<(String, Trip)> {
    let mut t = other(c, w);
    let body = used_centre(c, &t.setting);
    t.state.position = sub(place(w, &t, body), place(w, &t, t.state.centre));
    if c.one_in(2) {
        t.state.position[0] += c.sized(-30, 4);
    }
    noted("", t)
}

/// An orbit about the centre, low or wide, walked a while.
fn close(c: &mut Chance, w: &World) -> Vec<(String, Trip)> {
    let mut t = other(c, w);
    let m = t.setting.coefficients[t.state.centre as usize - 1];
    let r = c.pick(&[1800.0, 5e3, 4e4, 1e6]);
    t.set_state([r, c.within(r), c.within(r), c.within(0.1), (m / r).sqrt(), c.within(0.1)]);
    t.h = c.pick(&[t.h.min(60_000), 1000, 60_000]);
    t.aim(c.between(2, 60));
    t.budget = c.pick(&[1, 20, u32::MAX]);
    noted("", t)
}

/// A body that is not used, with cover or without.
fn unused(c: &mut Chance, w: &World) -> Vec<(String, Trip)> {
    let mut t = trip(c, w);
    let centre = c.between(2, 6);
    t.setting.coefficients[centre as usize - 1] = c.pick(&[0.0, -0.0]);
    t.state.centre = centre;
    noted("", t)
}

fn no_centre(c: &mut Chance, w: &World) -> Vec<(String, Trip)> {
    let mut t = trip(c, w);
    t.state.centre = bad_centre(c);
    noted("", t)
}

/// The least coefficient above 0 is enough for a centre.
fn least(c: &mut Chance, w: &World) -> Vec<(String, Trip)> {
    let mut t = other(c, w);
    t.setting.coefficients[t.state.centre as usize - 1] = f64::from_bits(1);
    noted("", t)
}

pub const ABOUT: &[RunCase] = &[
    ("on the centre", on_centre),
    ("on another body", on_another),
    ("on another body", on_another),
    ("close", close),
    ("close", close),
    ("unused centre", unused),
    ("no centre", no_centre),
    ("least coefficient", least),
];
