//! An injection as launch crews speak it: from Earth-fixed spherical to a state in 1950.0 axes.

use crate::fixed::{precession, product, rate, turn, turned};
use crate::hour::{sidereal, universal, CIRCLE, DAY};
use crate::sine::sine_cosine;
use crate::vector::{finite, Vector};

/// 90 degrees in parts.
pub const QUARTER: u64 = CIRCLE / 4;

/// Radius in km and speed in km/s; angles in parts, latitude and path angle with a sign.
#[derive(Clone, Copy, Debug)]
pub struct Sphere {
    pub radius: f64,
    pub latitude: i128,
    pub longitude: u64,
    pub speed: f64,
    pub path: i128,
    pub azimuth: u64,
}

/// Sine and cosine of an angle from -90 to 90 degrees; a circle is added to a negative one first. Else 12.
fn signed(angle: i128) -> Result<(f64, f64), u64> {
    if angle.unsigned_abs() > u128::from(QUARTER) {
        return Err(12);
    }
    let parts = if angle < 0 { angle + i128::from(CIRCLE) } else { angle };
    sine_cosine(parts as u64)
}

fn transposed(t: [Vector; 3]) -> [Vector; 3] {
    [0, 1, 2].map(|j| [t[0][j], t[1][j], t[2][j]])
}

/// The injection call: 4 (DUT, rule), 3, 12, 7 (radius, speed), 7 (result).
pub fn from_sphere(rule: u64, dut: u32, moment: u64, s: &Sphere) -> Result<(Vector, Vector), u64> {
    let angle = sidereal(rule, moment, dut)?;
    let ut = universal(moment, dut)?;
    // All angles are checked before the sizes.
    let (latitude, longitude) = (signed(s.latitude)?, sine_cosine(s.longitude)?);
    let (path, azimuth) = (signed(s.path)?, sine_cosine(s.azimuth)?);
    if !s.radius.is_finite() || !s.speed.is_finite() || s.radius <= 0.0 {
        return Err(7);
    }
    let ((sf, cf), (st, ct)) = (latitude, longitude);
    let ((sg, cg), (sz, cz)) = (path, azimuth);
    let rc = s.radius * cf;
    let p = [rc * ct, rc * st, s.radius * sf];
    let vc = s.speed * cg;
    let u = [s.speed * sg, vc * sz, vc * cz];
    let tilted = turned([[cf, 0.0, -sf], [0.0, 1.0, 0.0], [sf, 0.0, cf]], u);
    let mut v = turned([[ct, -st, 0.0], [st, ct, 0.0], [0.0, 0.0, 1.0]], tilted);
    let w = rate(ut / DAY);
    v[0] -= w * p[1];
    v[1] += w * p[0];
    let (sine, cosine) = sine_cosine(angle)?;
    let back = transposed(product(turn(sine, cosine), precession(moment)));
    let (p, v) = (turned(back, p), turned(back, v));
    if finite(p) && finite(v) {
        Ok((p, v))
    } else {
        Err(7)
    }
}
