//! The two last terms of the acceleration: the oblate Earth and sunlight.

use crate::pull::pull;
use crate::vector::{add, n, sub, Vector};

/// J, the Earth's radius A in km, and K in km³/s².
#[derive(Clone, Copy, Debug, PartialEq)]
pub struct Extras {
    pub j: f64,
    pub a: f64,
    pub k: f64,
}

impl Extras {
    /// An old order has no such terms.
    pub const NONE: Extras = Extras { j: 0.0, a: 0.0, k: 0.0 };
    /// Document 003's J and A, without sunlight.
    pub const NOMINAL: Extras = Extras { j: 0.001623450, a: 6378.1650, k: 0.0 };

    /// 4 if one of the three is negative or not finite.
    pub fn allowed(&self) -> Result<(), u64> {
        let allowed = [self.j, self.a, self.k].iter().all(|x| x.is_finite() && *x >= 0.0);
        allowed.then_some(()).ok_or(4)
    }

    /// With K above 0 the Sun is looked up.
    pub fn sun_shines(&self) -> bool {
        self.k > 0.0
    }
}

/// What the term of the oblate Earth of coefficient m subtracts, at a position from it. With u = (z·z)/n it is ((J·g)·((A·A)/n))·(1
/// - 5·u) for x and y; for z it has 3 instead of 1.
pub fn flattening(extras: &Extras, position: Vector, m: f64) -> Result<Vector, u64> {
    let g = pull(position, m)?;
    let n = n(position);
    let u = (position[2] * position[2]) / n;
    let part = |g: f64, whole: f64| ((extras.j * g) * ((extras.a * extras.a) / n)) * (whole - 5.0 * u);
    Ok([part(g[0], 1.0), part(g[1], 1.0), part(g[2], 3.0)])
}

/// An acceleration with both terms, by the position from the Earth of coefficient m and that from the Sun. A term whose J or K is
/// zero is left out.
pub fn with_both(a: Vector, extras: &Extras, from_earth: Vector, m: f64, from_sun: Vector) -> Result<Vector, u64> {
    let mut a = a;
    if extras.j > 0.0 {
        a = sub(a, flattening(extras, from_earth, m)?);
    }
    if extras.sun_shines() {
        a = add(a, pull(from_sun, extras.k)?);
    }
    Ok(a)
}
