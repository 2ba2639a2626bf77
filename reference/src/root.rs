//! The square root, by the machine's own instruction.

/// The root of a finite float that is not negative; else 11. Each zero gives itself.
pub fn root(x: f64) -> Result<f64, u64> {
    if !x.is_finite() || x < 0.0 {
        return Err(11);
    }
    Ok(x.sqrt())
}
