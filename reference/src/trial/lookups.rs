//! Lines for body, and trips for accel and pull.

use super::chance::Chance;
use super::cover;
use super::floats::wild;
use super::sizes;
use super::times::bad_moment;
use super::trip::{break_setting, noted, trip, RunCase, Trip, NOMINAL};
use super::world::{Case, World};
use crate::hour::END;

pub fn body_line(number: u64, moment: u64) -> Vec<String> {
    vec![format!("body {number} {moment}")]
}

pub fn body_covered(c: &mut Chance, w: &World) -> Vec<String> {
    let e = cover::some_entry(c, w);
    body_line(u64::from(e.body), e.start + c.below(e.span.min(END)))
}

/// Within two milliseconds of the start, the middle or the end of an entry.
pub fn body_edge(c: &mut Chance, w: &World) -> Vec<String> {
    let e = cover::some_entry(c, w);
    let place = c.pick(&[e.start, e.start + e.span / 2, e.start + e.span, e.start + e.span]);
    body_line(u64::from(e.body), (place + c.below(4)).saturating_sub(2))
}

/// A number without a body, or one that wraps to a body's.
pub fn body_number(c: &mut Chance, w: &World) -> Vec<String> {
    let e = cover::some_entry(c, w);
    let near = u64::from(e.body);
    let any = c.any_length(64);
    let number = c.pick(&[0, 1, 7, near + 256, near + 65_536, near + (1 << 32), u64::MAX, any]);
    let moment = if c.one_in(4) { bad_moment(c) } else { e.start };
    body_line(number, moment)
}

pub const BODY: &[Case] = &[
    ("covered", body_covered),
    ("covered", body_covered),
    ("edge", body_edge),
    ("edge", body_edge),
    ("any moment", |c, _| { let b = c.between(0, 8); body_line(b, c.below(END)) }),
    ("number", body_number),
    ("moment out of range", |c, _| { let b = c.between(0, 8); let m = bad_moment(c); body_line(b, m) }),
    ("end of time", |c, _| { let b = c.between(1, 6); body_line(b, END - 2 + c.below(3)) }),
];

/// n overflows, r3 vanishes, or a pull overflows.
pub fn accel_sizes(c: &mut Chance, w: &World) -> Vec<(String, Trip)> {
    let mut t = trip(c, w);
    let (m, size) = c.pick(&[(1.0, 1e155), (1.0, 1e-110), (1.0, 1e-162), (1e300, 1e-50), (1e300, 1e10), (1.0, 1e103)]);
    let k = c.sized(-3, 3);
    t.state.position = [size * k, c.pick(&[0.0, size]), c.pick(&[0.0, -0.0, -size])];
    t.setting.coefficients[0] = m;
    noted("", t)
}

/// Some of 4, 3 and 7 (position), or all; the bodies have cover or none.
pub fn accel_broken(c: &mut Chance, w: &World) -> Vec<(String, Trip)> {
    let mut t = trip(c, w);
    if c.one_in(2) {
        t.setting.coefficients = NOMINAL;
        t.state.moment = c.below(END);
    }
    let which = c.between(1, 7);
    if which & 1 != 0 {
        break_setting(c, &mut t);
    }
    if which & 2 != 0 {
        t.state.moment = bad_moment(c);
    }
    if which & 4 != 0 {
        let i = c.below(3) as usize;
        t.state.position[i] = c.not_finite();
    }
    noted("", t)
}

pub fn accel_wild(c: &mut Chance, w: &World) -> Vec<(String, Trip)> {
    let mut t = trip(c, w);
    t.set_state(wild(c));
    noted("", t)
}

/// The inputs of a run call that an acceleration takes.
pub const ACCEL: &[RunCase] = &[
    ("plain", |c, w| noted("", trip(c, w))),
    ("plain", |c, w| noted("", trip(c, w))),
    ("plain", |c, w| noted("", trip(c, w))),
    ("edge", cover::edge),
    ("no cover", cover::no_cover),
    ("on a body", sizes::on_body),
    ("any floats", sizes::any_floats),
    ("sizes", accel_sizes),
    ("broken", accel_broken),
    ("broken", accel_broken),
    ("wild position", accel_wild),
];
