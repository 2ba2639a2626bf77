//! The pull of one body.

use crate::root::root;
use crate::vector::{n, Vector};

/// g(v, m); 7 if n is not finite, or r3 is zero or not finite.
pub fn pull(v: Vector, m: f64) -> Result<Vector, u64> {
    let n = n(v);
    if !n.is_finite() {
        return Err(7);
    }
    let r3 = n * root(n).map_err(|_| 7u64)?;
    if r3 == 0.0 || !r3.is_finite() {
        return Err(7);
    }
    Ok([(m * v[0]) / r3, (m * v[1]) / r3, (m * v[2]) / r3])
}
