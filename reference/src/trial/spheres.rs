//! Lines for sphere.

use super::chance::Chance;
use super::floats::hex;
use super::times::{bad_dut, bad_moment, moment_dut};
use super::world::{Case, World};
use crate::hour::{CIRCLE, END};
use crate::sphere::QUARTER;

/// The fields of a line: rule, DUT, moment, radius, speed, and the angles as they are written.
struct Spoken {
    rule: u64,
    dut: u32,
    moment: u64,
    radius: f64,
    speed: f64,
    angles: [String; 4],
}

impl Spoken {
    fn line(&self) -> Vec<String> {
        let [latitude, longitude, path, azimuth] = &self.angles;
        let (radius, speed) = (hex(self.radius), hex(self.speed));
        vec![format!("sphere {} {} {} {radius} {latitude} {longitude} {speed} {path} {azimuth}", self.rule, self.dut, self.moment)]
    }
}

/// From -90 to 90 degrees, often at an end, at 0 or at a whole octant.
fn signed(c: &mut Chance) -> String {
    let any = c.below(QUARTER + 1);
    let parts = c.pick(&[any, any, QUARTER, QUARTER - 1, QUARTER / 2, QUARTER / 2 + 1, 1, 0]);
    let sign = if c.one_in(2) { "-" } else { "" };
    format!("{sign}{parts}")
}

/// Within one circle, often at an end or at a whole octant.
fn round(c: &mut Chance) -> String {
    let any = c.below(CIRCLE);
    let octant = c.below(8) * (CIRCLE / 8);
    c.pick(&[any, any, octant, CIRCLE - 1, 0]).to_string()
}

fn flight(c: &mut Chance) -> Spoken {
    let (moment, dut) = moment_dut(c);
    let (radius, speed) = (6378.0 + c.within(300.0), 7.0 + c.within(4.0));
    let rule = c.below(2);
    Spoken { rule, dut, moment, radius, speed, angles: [signed(c), round(c), signed(c), round(c)] }
}

/// Radius subnormal, huge or ordinary; speed of every size and sign, zero too.
fn sizes(c: &mut Chance, _: &World) -> Vec<String> {
    let mut s = flight(c);
    s.radius = c.sized(-1074, 1024).abs().max(f64::from_bits(1));
    s.speed = c.pick(&[0.0, -0.0, 1.0, f64::MAX]) * c.pick(&[1.0, -1.0]);
    if c.one_in(2) {
        s.speed = c.sized(-1074, 1024);
    }
    s.line()
}

/// An angle just out of its range, far out of it, or negative if it must not be.
fn bad_angle(c: &mut Chance) -> (usize, String) {
    let i = c.below(4) as usize;
    let any = c.any_length(64);
    let far = c.pick(&[any.max(CIRCLE), u64::MAX, 1 << 63, (1 << 63) - 1, 1 << 62]);
    let text = match i {
        0 | 2 => {
            let parts = c.pick(&[QUARTER + 1, CIRCLE, CIRCLE - QUARTER, far]);
            format!("{}{parts}", c.pick(&["", "-"]))
        }
        _ => c.pick(&[CIRCLE, CIRCLE + 1, far]).to_string(),
    };
    (i, text)
}

/// Some of 4, 3, 12 and 7, or all.
fn broken(c: &mut Chance, _: &World) -> Vec<String> {
    let mut s = flight(c);
    let which = c.between(1, 15);
    if which & 1 != 0 {
        if c.one_in(2) {
            s.dut = bad_dut(c);
        } else {
            s.rule = c.pick(&[2, 3, 256, 1 << 32, u64::MAX]);
        }
    }
    if which & 2 != 0 {
        s.moment = if c.one_in(2) { bad_moment(c) } else { u64::from(s.dut).clamp(1, END) - 1 };
    }
    if which & 4 != 0 {
        let (i, text) = bad_angle(c);
        s.angles[i] = text;
    }
    if which & 8 != 0 {
        let size = c.not_finite();
        match c.below(3) {
            0 => s.radius = size,
            1 => s.speed = size,
            _ => s.radius = c.pick(&[0.0, -0.0, -1.0, -6378.0]),
        }
    }
    s.line()
}

/// A line that is not a call: a sign where none is allowed, or more than one.
fn signs(c: &mut Chance, _: &World) -> Vec<String> {
    let mut s = flight(c);
    let i = c.below(4) as usize;
    let sign = c.pick(&["--", "+", "- ", "-"]);
    s.angles[i] = if sign == "-" { "-".to_string() } else { format!("{sign}{}", s.angles[i]) };
    s.line()
}

pub const SPHERE: &[Case] = &[
    ("flight", |c, _| flight(c).line()),
    ("flight", |c, _| flight(c).line()),
    ("flight", |c, _| flight(c).line()),
    ("sizes", sizes),
    ("broken", broken),
    ("broken", broken),
    ("signs", signs),
];
