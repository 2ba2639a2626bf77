//! Lines for fixed, turn, conic and orbit.

use super::chance::Chance;
use super::floats::{anything, flight, hex, hexes, largest, one_not_finite, signed_zeros, wild};
use super::times::{bad_dut, bad_moment, bad_rule, hard_ut, moment_dut, some_rule, whole_octants};
use super::trip::bad_centre;
use super::world::{Case, World};
use crate::hour::END;

pub fn fixed_line(dut: u32, moment: u64, s: [f64; 6]) -> Vec<String> {
    vec![format!("fixed {dut} {moment} {}", hexes(&s))]
}

pub fn fixed_with(c: &mut Chance, s: [f64; 6]) -> Vec<String> {
    let (moment, dut) = moment_dut(c);
    fixed_line(dut, moment, s)
}

/// At least one of DUT, moment and state is refused.
pub fn fixed_refused(c: &mut Chance, _: &World) -> Vec<String> {
    let which = c.between(1, 7);
    let dut = if which & 1 != 0 { bad_dut(c) } else { c.between(1, 100_000) as u32 };
    let moment = match which & 2 {
        0 => c.between(100_000, END - 1),
        _ if c.one_in(2) => u64::from(dut).min(100_000) - 1,
        _ => bad_moment(c),
    };
    let s = if which & 4 != 0 { one_not_finite(c) } else { flight(c) };
    fixed_line(dut, moment, s)
}

pub const FIXED: &[Case] = &[
    ("flight", |c, _| { let s = flight(c); fixed_with(c, s) }),
    ("flight", |c, _| { let s = flight(c); fixed_with(c, s) }),
    ("flight", |c, _| { let s = flight(c); fixed_with(c, s) }),
    ("wild", |c, _| { let s = wild(c); fixed_with(c, s) }),
    ("zeros", |c, _| { let s = signed_zeros(c); fixed_with(c, s) }),
    ("zeros, whole octants", |c, _| { let s = signed_zeros(c); let (m, d) = whole_octants(c); fixed_line(d, m, s) }),
    ("largest", |c, _| { let s = largest(c); fixed_with(c, s) }),
    ("state not finite", |c, _| { let s = one_not_finite(c); fixed_with(c, s) }),
    ("refused", fixed_refused),
];

/// Mostly the Earth.
pub fn turn_centre(c: &mut Chance) -> u64 {
    match c.below(8) {
        0 => c.between(2, 6),
        1 => bad_centre(c),
        _ => 1,
    }
}

/// A line of fixed as one of turn, by a rule and about a centre, with a random stored acceleration.
pub fn turn_by(c: &mut Chance, rule: u64, fixed: Vec<String>) -> Vec<String> {
    let turn = |line: String| {
        let fields: Vec<&str> = line.splitn(4, ' ').collect();
        let (centre, stored) = (turn_centre(c), hexes(&anything(c)));
        format!("turn {rule} {} {} {centre} {} {stored}", fields[1], fields[2], fields[3])
    };
    fixed.into_iter().map(turn).collect()
}

/// The same by some rule.
pub fn turn_some(c: &mut Chance, fixed: Vec<String>) -> Vec<String> {
    let rule = some_rule(c);
    turn_by(c, rule, fixed)
}

pub const TURN: &[Case] = &[
    ("flight", |c, _| { let s = flight(c); let l = fixed_with(c, s); turn_some(c, l) }),
    ("flight", |c, _| { let s = flight(c); let l = fixed_with(c, s); turn_some(c, l) }),
    ("hard", |c, _| { let s = flight(c); let m = hard_ut(c); turn_by(c, 1, fixed_line(0, m, s)) }),
    ("wild", |c, _| { let s = wild(c); let l = fixed_with(c, s); turn_some(c, l) }),
    ("largest", |c, _| { let s = largest(c); let l = fixed_with(c, s); turn_some(c, l) }),
    ("state not finite", |c, _| { let s = one_not_finite(c); let l = fixed_with(c, s); turn_some(c, l) }),
    ("refused", |c, w| { let l = fixed_refused(c, w); turn_some(c, l) }),
    ("rule", |c, w| { let l = fixed_refused(c, w); let r = bad_rule(c); turn_by(c, r, l) }),
];

pub fn conic_line(m: f64, s: [f64; 6]) -> Vec<String> {
    vec![format!("conic {} {}", hex(m), hexes(&s))]
}

/// The document's figures turned and scaled by powers of two.
pub fn conic_figures(c: &mut Chance, _: &World) -> Vec<String> {
    let (m, v) = c.pick(&[(8.0, [0.0, 2.0]), (8.0, [0.0, 4.0]), (8.0, [2.0, 2.0]), (8.0, [2.0, 0.0]), (4.0, [2.0, 0.0])]);
    let far = 2f64.powi(c.below(41) as i32 - 20);
    let fast = 2f64.powi(c.below(41) as i32 - 20);
    let (first, second) = c.pick(&[(0, 1), (1, 2), (2, 0), (1, 0), (2, 1), (0, 2)]);
    let mut s = [0.0, 0.0, -0.0, 0.0, -0.0, 0.0];
    s[first] = 2.0 * far;
    s[3 + first] = v[0] * fast;
    s[3 + second] = v[1] * fast;
    conic_line(m * far * fast * fast, s)
}

/// Close to a circle, where e2 may fall below 0.
pub fn conic_circle(c: &mut Chance, _: &World) -> Vec<String> {
    let (m, r) = (c.sized(10, 40).abs(), c.sized(5, 20).abs());
    let v = (m / r).sqrt();
    let mut s = [r, 0.0, 0.0, 0.0, v, 0.0];
    if c.one_in(2) {
        let (a, b) = (c.within(1.0), c.within(1.0));
        let size = (a * a + b * b).sqrt();
        s = [r * a / size, r * b / size, 0.0, -v * b / size, v * a / size, 0.0];
    }
    conic_line(m, s)
}

/// Close to the speed of escape, where c3 is small.
pub fn conic_escape(c: &mut Chance, _: &World) -> Vec<String> {
    let (m, r) = (c.sized(-900, 900).abs(), c.sized(-300, 300).abs());
    let v = ((2.0 * m) / r).sqrt();
    conic_line(m, [r, 0.0, 0.0, 0.0, v, 0.0])
}

/// Velocity along the position: n(C) is zero or nearly so.
pub fn conic_radial(c: &mut Chance, _: &World) -> Vec<String> {
    let s = flight(c);
    let k = c.pick(&[0.0, -0.0, 1.0, -0.5, 0.001, 2.0]);
    conic_line(398603.2, [s[0], s[1], s[2], s[0] * k, s[1] * k, s[2] * k])
}

/// Sizes of m, position and velocity chosen independently: figures overflow or vanish one by one.
pub fn conic_sizes(c: &mut Chance, _: &World) -> Vec<String> {
    let (a, b, d) = (c.below(2020) as i64 - 1010, c.below(1060) as i64 - 540, c.below(1060) as i64 - 540);
    let m = c.sized(a, a + 2).abs();
    let mut s = [0.0; 6];
    for (i, value) in s.iter_mut().enumerate() {
        let middle = if i < 3 { b } else { d };
        *value = if c.one_in(4) { 0.0 } else { c.sized(middle, middle + 3) };
    }
    conic_line(m, s)
}

/// One figure that is not finite each time: n, v2, c3, n(C), p, e2, a, far; and a p that vanishes.
pub fn conic_overflows(c: &mut Chance, _: &World) -> Vec<String> {
    let (m, s): (f64, [f64; 6]) = c.pick(&[
        (8.0, [1e155, 0.0, 0.0, 0.0, 1.0, 0.0]),
        (8.0, [2.0, 0.0, 0.0, 0.0, 1e155, 0.0]),
        (1e308, [2.0, 0.0, 0.0, 0.0, 1.0, 0.0]),
        (1e200, [1e-120, 0.0, 0.0, 0.0, 1.0, 0.0]),
        (8.0, [1e120, 0.0, 0.0, 0.0, 1e120, 0.0]),
        (1e-200, [1e60, 0.0, 0.0, 0.0, 1e60, 0.0]),
        (1e-60, [1e60, 0.0, 0.0, 0.0, 1e80, 0.0]),
        (1e300, [1e150, 0.0, 0.0, 0.0, 1e71, 0.0]),
        (1e-10, [1e150, 0.0, 0.0, 1e-160, 1e-150, 0.0]),
        (8.0, [1e-170, 0.0, 0.0, 0.0, 1.0, 0.0]),
        (1e300, [1.0, 0.0, 0.0, 0.0, 1e-160, 0.0]),
    ]);
    let k = 1.0 + c.within(1e-3);
    conic_line(m, [s[0], s[1], s[2], s[3], s[4] * k, s[5]])
}

/// c3 is a last place or two of v2 and r near the greatest: a as large as it can be.
pub fn conic_far(c: &mut Chance, _: &World) -> Vec<String> {
    let r = 2f64.powi(510);
    let v = 2f64.powi(c.pick(&[-2, 0, 1, 2])) * (1.0 + c.within(0.5).abs());
    let m = f64::from_bits(((v * v) * r / 2.0).to_bits() + c.below(4));
    let v2 = v * v;
    let k = f64::from_bits(v2.to_bits() - c.below(3)) / v2;
    conic_line(m, [r, 0.0, 0.0, 0.0, v * k, v * c.pick(&[0.0, 1e-8])])
}

/// m refused, alone or with the state.
pub fn conic_m(c: &mut Chance, _: &World) -> Vec<String> {
    let m = match c.below(5) {
        0 => 0.0,
        1 => -0.0,
        2 => -c.sized(0, 40).abs(),
        _ => c.not_finite(),
    };
    let s = match c.below(3) {
        0 => one_not_finite(c),
        1 => [0.0; 6],
        _ => flight(c),
    };
    conic_line(m, s)
}

pub fn conic_state(c: &mut Chance, _: &World) -> Vec<String> {
    let mut s = one_not_finite(c);
    if c.one_in(3) {
        s = flight(c);
        s[..3].copy_from_slice(&[0.0, -0.0, 0.0]);
    }
    conic_line(8.0, s)
}

pub const CONIC: &[Case] = &[
    ("flight", |c, _| { let s = flight(c); conic_line(398603.2, s) }),
    ("flight", |c, _| { let s = flight(c); conic_line(398603.2, s) }),
    ("figures", conic_figures),
    ("circle", conic_circle),
    ("escape", conic_escape),
    ("radial", conic_radial),
    ("sizes", conic_sizes),
    ("sizes", conic_sizes),
    ("sizes", conic_sizes),
    ("overflows", conic_overflows),
    ("far", conic_far),
    ("wild", |c, _| { let s = wild(c); let m = c.finite().abs(); conic_line(m, s) }),
    ("m refused", conic_m),
    ("state refused", conic_state),
];

/// A line of conic as one of orbit, at any moment and about any centre, with a random stored acceleration.
pub fn orbit_of(c: &mut Chance, conic: &str) -> String {
    let fields: Vec<&str> = conic.splitn(3, ' ').collect();
    let moment = if c.one_in(2) { c.below(END) } else { c.any_length(64) };
    let centre = if c.one_in(4) { bad_centre(c) } else { c.between(1, 6) };
    format!("orbit {} {moment} {centre} {} {}", fields[1], fields[2], hexes(&anything(c)))
}
