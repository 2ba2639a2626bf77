//! Lines for root, sincos, hour, date and day.

use super::chance::Chance;
use super::floats::hex;
use super::times::{bad_dut, bad_moment, bad_rule, hard_ut, moment_dut, some_rule, whole_octants};
use super::world::{Case, World};
use crate::calendar::{day_of, month_days, LAST_DAY};
use crate::hour::{CIRCLE, DUT_MOST, END};
use crate::sine::OCTANT;

pub fn root_line(x: f64) -> Vec<String> {
    vec![format!("root {}", hex(x))]
}

/// A float moved by a few units of its last place.
pub fn near(c: &mut Chance, x: f64) -> f64 {
    f64::from_bits(x.to_bits().wrapping_add(c.between(0, 4)).wrapping_sub(2))
}

/// k·k times an even power of two, and its neighbours.
pub fn root_square(c: &mut Chance, _: &World) -> Vec<String> {
    let k = c.any_length(26).max(1) as f64;
    let scale = 2f64.powi(2 * (c.below(480) as i32 - 250));
    let square = (k * k) * scale;
    root_line(near(c, square))
}

/// The rounded square of a full float, and its neighbours.
pub fn root_rounded_square(c: &mut Chance, _: &World) -> Vec<String> {
    let x = c.sized(-500, 500);
    root_line(near(c, x * x))
}

/// The square of a float plus half a unit of its last place: close to a tie.
pub fn root_tie(c: &mut Chance, _: &World) -> Vec<String> {
    let k = u128::from((1 << 53) + 2 * c.below(1 << 52) + 1);
    let x = (k * k) as f64 * 2f64.powi(2 * (c.below(200) as i32 - 100));
    root_line(near(c, x))
}

pub fn root_subnormal(c: &mut Chance, _: &World) -> Vec<String> {
    let x = f64::from_bits(c.any_length(52));
    root_line(x)
}

pub const ROOT: &[Case] = &[
    ("any bits", |c, _| root_line(c.any_bits())),
    ("not negative", |c, _| root_line(c.finite().abs())),
    ("subnormal", root_subnormal),
    ("edge", |c, _| root_line(c.edge())),
    ("edge's neighbour", |c, _| { let x = c.edge(); root_line(near(c, x)) }),
    ("perfect square", root_square),
    ("rounded square", root_rounded_square),
    ("close to a tie", root_tie),
    ("power of two", |c, _| root_line(f64::from_bits(c.below(2047) << 52))),
    ("not finite", |c, _| root_line(c.not_finite())),
    ("negative", |c, _| root_line(-c.finite().abs())),
    ("near 1", |c, _| { let x = 1.0 + c.within(1e-9); root_line(x) }),
];

pub fn sincos_line(parts: u64) -> Vec<String> {
    vec![format!("sincos {parts}")]
}

pub const SINCOS: &[Case] = &[
    ("any", |c, _| sincos_line(c.below(CIRCLE))),
    ("any", |c, _| sincos_line(c.below(CIRCLE))),
    ("octant's edge itself", |c, _| sincos_line(OCTANT * c.below(9))),
    ("octant's edge", |c, _| {
        let edge = OCTANT * c.below(9) + c.below(5);
        sincos_line(edge.saturating_sub(2))
    }),
    ("small", |c, _| sincos_line(c.any_length(40))),
    ("whole degrees", |c, _| sincos_line(c.below(361) * 10_000_000_000)),
    ("a circle or more", |c, _| { let past = c.any_length(63); sincos_line(CIRCLE + past) }),
    ("any size", |c, _| sincos_line(c.any_length(64))),
    ("circle's edge", |c, _| sincos_line(CIRCLE - 2 + c.below(4))),
];

pub fn hour_line(moment: u64, dut: u32) -> Vec<String> {
    vec![format!("hour {moment} {dut}")]
}

/// Around UT 0: the moment a little before or after DUT.
pub fn hour_first(c: &mut Chance, _: &World) -> Vec<String> {
    let dut = c.below(u64::from(DUT_MOST) + 1);
    hour_line((dut + c.below(5)).saturating_sub(2), dut as u32)
}

pub const HOUR: &[Case] = &[
    ("any", |c, _| { let (m, d) = moment_dut(c); hour_line(m, d) }),
    ("any", |c, _| { let (m, d) = moment_dut(c); hour_line(m, d) }),
    ("any", |c, _| { let (m, d) = moment_dut(c); hour_line(m, d) }),
    ("whole octants", |c, _| { let (m, d) = whole_octants(c); hour_line(m, d) }),
    ("around UT 0", hour_first),
    ("UT below 0", |c, _| { let d = c.between(1, 100_000); let m = c.below(d); hour_line(m, d as u32) }),
    ("end of time", |c, _| { let m = END - 3 + c.below(5); let d = c.below(3) as u32; hour_line(m, d) }),
    ("DUT", |c, _| { let d = bad_dut(c); let m = c.below(END); hour_line(m, d) }),
    ("DUT and moment", |c, _| { let d = bad_dut(c); let m = bad_moment(c); hour_line(m, d) }),
    ("moment", |c, _| { let m = bad_moment(c); let d = c.below(100_001) as u32; hour_line(m, d) }),
];

pub fn sidereal_line(rule: u64, moment: u64, dut: u32) -> Vec<String> {
    vec![format!("sidereal {rule} {moment} {dut}")]
}

/// A UT that is hard for the 1982 rule.
pub fn sidereal_hard(c: &mut Chance, _: &World) -> Vec<String> {
    let dut = c.pick(&[0, 35_000, c.clone().below(u64::from(DUT_MOST) + 1)]);
    let moment = hard_ut(c) + dut;
    sidereal_line(1, moment, dut as u32)
}

/// At least one of rule, DUT and moment is refused.
pub fn sidereal_refused(c: &mut Chance, _: &World) -> Vec<String> {
    let which = c.between(1, 7);
    let rule = if which & 1 != 0 { bad_rule(c) } else { c.below(2) };
    let dut = if which & 2 != 0 { bad_dut(c) } else { c.between(1, 100_000) as u32 };
    let moment = match which & 4 {
        0 => c.between(100_000, END - 1),
        _ if c.one_in(2) => u64::from(dut).min(100_000) - 1,
        _ => bad_moment(c),
    };
    sidereal_line(rule, moment, dut)
}

pub const SIDEREAL: &[Case] = &[
    ("any", |c, _| { let r = some_rule(c); let (m, d) = moment_dut(c); sidereal_line(r, m, d) }),
    ("any", |c, _| { let r = some_rule(c); let (m, d) = moment_dut(c); sidereal_line(r, m, d) }),
    ("hard", sidereal_hard),
    ("hard", sidereal_hard),
    ("refused", sidereal_refused),
];

pub fn date_line(day: u64) -> Vec<String> {
    vec![format!("date {day}")]
}

/// A day near the end of a month, often of February or of the year.
pub fn month_end(c: &mut Chance) -> u64 {
    let year = c.between(1950, 2049);
    let month = c.pick(&[1, 2, 2, 2, 3, 4, 5, 6, 7, 8, 9, 10, 11, 12, 12]);
    let last = day_of(year, month, month_days(year, month)).unwrap_or(0);
    (last + c.below(4)).saturating_sub(1)
}

pub const DATE: &[Case] = &[
    ("any", |c, _| date_line(c.below(LAST_DAY + 1))),
    ("month's end", |c, _| date_line(month_end(c))),
    ("last days", |c, _| date_line(LAST_DAY - 2 + c.below(5))),
    ("first days", |c, _| date_line(c.below(70))),
    ("any size", |c, _| date_line(c.any_length(64))),
    ("wrapped", |c, _| { let high = c.pick(&[1 << 16, 1 << 32, 1 << 63]); date_line(high + c.below(36_525)) }),
];

pub fn day_line(year: u64, month: u64, day: u64) -> Vec<String> {
    vec![format!("day {year} {month} {day}")]
}

/// A date with one number increased by a power of two, to find a wrap.
pub fn day_wrapped(c: &mut Chance, _: &World) -> Vec<String> {
    let mut d = [c.between(1950, 2049), c.between(1, 12), c.between(1, 28)];
    d[c.below(3) as usize] += c.pick(&[1 << 8, 1 << 16, 1 << 32, 1 << 63]);
    day_line(d[0], d[1], d[2])
}

pub fn day_edges(c: &mut Chance, _: &World) -> Vec<String> {
    let year = c.pick(&[0, 1900, 1949, 1950, 1951, 1952, 1999, 2000, 2001, 2048, 2049, 2050, 2100]);
    let month = c.pick(&[0, 1, 2, 3, 11, 12, 13, u64::MAX]);
    let day = c.pick(&[0, 1, 27, 28, 29, 30, 31, 32, u64::MAX]);
    day_line(year, month, day)
}

pub const DAY_OF: &[Case] = &[
    ("any", |c, _| { let y = c.between(1950, 2049); let m = c.between(1, 12); day_line(y, m, c.between(1, 31)) }),
    ("month's end", |c, _| { let y = c.between(1950, 2049); let m = c.between(1, 12); day_line(y, m, c.between(28, 32)) }),
    ("February's end", |c, _| { let y = c.between(1949, 2051); day_line(y, 2, c.between(28, 30)) }),
    ("edges", day_edges),
    ("wrapped", day_wrapped),
    ("any size", |c, _| { let y = c.any_length(64); let m = c.any_length(64); day_line(y, m, c.any_length(64)) }),
];
