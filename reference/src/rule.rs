//! The setting, the state, and the rule of the acceleration.

use crate::book;
use crate::extras::{self, Extras};
use crate::hour::{self, END};
use crate::pull::pull;
use crate::vector::{add, finite, sub, Vector};

/// Six gravitational coefficients by body number from 1, DUT, J, A and K, and the rule of the hour angle.
#[derive(Clone, Copy, Debug)]
pub struct Setting {
    pub coefficients: [f64; 6],
    pub dut: u32,
    pub extras: Extras,
    pub rule: u64,
}

/// The numbers of the Earth and the Sun, and the numbers a centre can have.
pub const EARTH: u64 = 1;
pub const SUN: u64 = 3;
pub const CENTRES: std::ops::RangeInclusive<u64> = 1..=6;

/// A moment and a centre, with position and velocity from that centre, and the stored acceleration.
#[derive(Clone, Copy, Debug)]
pub struct State {
    pub moment: u64,
    pub centre: u64,
    pub position: Vector,
    pub velocity: Vector,
    pub acceleration: Vector,
}

impl State {
    /// A state whose acceleration is still to be computed.
    pub fn bare(moment: u64, centre: u64, position: Vector, velocity: Vector) -> State {
        State { moment, centre, position, velocity, acceleration: [0.0; 3] }
    }

    /// 7 if position or velocity is not finite.
    pub fn finite(&self) -> Result<(), u64> {
        if finite(self.position) && finite(self.velocity) {
            Ok(())
        } else {
            Err(7)
        }
    }
}

/// The checks of coefficients, J, A and K, DUT and rule: 4.
pub fn setting_allowed(setting: &Setting) -> Result<(), u64> {
    let m = setting.coefficients;
    let allowed = m.iter().all(|c| c.is_finite() && *c >= 0.0) && m[0] > 0.0;
    if !allowed {
        return Err(4);
    }
    setting.extras.allowed()?;
    hour::allowed(setting.rule, setting.dut)
}

/// The numbers of the bodies whose coefficient is above 0, with it.
pub fn used(setting: &Setting) -> impl Iterator<Item = (usize, f64)> + '_ {
    (1..=6).map(|body| (body, setting.coefficients[body - 1])).filter(|&(_, m)| m > 0.0)
}

/// The bodies looked up: the used ones except the Earth, and the Sun if it shines, used or not.
pub fn looked_up(setting: &Setting) -> impl Iterator<Item = usize> + '_ {
    let lit = |body| body as u64 == SUN && setting.extras.sun_shines();
    (2..=6).filter(move |&body| setting.coefficients[body - 1] > 0.0 || lit(body))
}

/// 14 if a centre is not one of the used bodies.
pub fn centre_allowed(setting: &Setting, centre: u64) -> Result<(), u64> {
    used(setting).any(|(body, _)| body as u64 == centre).then_some(()).ok_or(14)
}

/// Positions from the Earth of the bodies looked up, in rising number: 6, then 7, body by body. The Earth's is zero.
pub fn lookups(book: &[u8], setting: &Setting, t: u64) -> Result<[Vector; 7], u64> {
    let mut places = [[0.0; 3]; 7];
    for body in looked_up(setting) {
        let i = book::find(book, body as u64, t).ok_or(6u64)?;
        places[body] = book::motion(book, i, t)?.place;
    }
    Ok(places)
}

/// The rule of the acceleration itself, for a book that passes and a setting and a centre that are allowed.
pub fn slope(book: &[u8], setting: &Setting, t: u64, centre: u64, p: Vector) -> Result<Vector, u64> {
    slope_under(&lookups(book, setting, t)?, setting, centre, p)
}

/// The same with the bodies looked up.
pub fn slope_under(places: &[Vector; 7], setting: &Setting, centre: u64, p: Vector) -> Result<Vector, u64> {
    let centre = centre as usize;
    let g = pull(p, setting.coefficients[centre - 1])?;
    let mut a = [-g[0], -g[1], -g[2]];
    for (body, m) in used(setting).filter(|&(body, _)| body != centre) {
        let r = sub(places[body], places[centre]);
        a = sub(a, add(pull(sub(p, r), m)?, pull(r, m)?));
    }
    let from = |body: u64| sub(p, sub(places[body as usize], places[centre]));
    a = extras::with_both(a, &setting.extras, from(EARTH), setting.coefficients[0], from(SUN))?;
    if finite(a) {
        Ok(a)
    } else {
        Err(7)
    }
}

/// The acceleration call: 1, 4, 14, 3, 7 (position), then its own rule.
pub fn acceleration(
    book: &[u8], setting: &Setting, t: u64, centre: u64, p: Vector,
) -> Result<Vector, u64> {
    book::check(book)?;
    setting_allowed(setting)?;
    centre_allowed(setting, centre)?;
    if t >= END {
        return Err(3);
    }
    if !finite(p) {
        return Err(7);
    }
    slope(book, setting, t, centre, p)
}

/// The state with the acceleration that the rule gives; the rule's own 6 or 7.
pub fn ruled(book: &[u8], setting: &Setting, s: &State) -> Result<State, u64> {
    let acceleration = slope(book, setting, s.moment, s.centre, s.position)?;
    Ok(State { acceleration, ..*s })
}

/// The injection call: 1, 4, 14, 3, 7 (position and velocity), then the rule's own 6 or 7. The stored acceleration is not read.
pub fn inject(book: &[u8], setting: &Setting, s: &State) -> Result<State, u64> {
    book::check(book)?;
    setting_allowed(setting)?;
    centre_allowed(setting, s.centre)?;
    if s.moment >= END {
        return Err(3);
    }
    s.finite()?;
    ruled(book, setting, s)
}
