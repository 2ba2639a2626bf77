//! Whether the floating-point environment is the one that the proofs assume.

use std::hint::black_box;

/// The parts of the floating-point environment that the proofs assume.
#[derive(Clone, Copy, Debug, PartialEq, Eq)]
pub struct Environment {
    /// Results are rounded to nearest, ties to even.
    pub rounds_to_nearest: bool,
    /// Subnormal numbers are neither read nor written as zero.
    pub keeps_subnormals: bool,
}

impl Environment {
    /// Both.
    ///
    /// ```
    /// use belfrywool::Environment;
    ///
    /// assert!(!Environment { rounds_to_nearest: true, keeps_subnormals: false }.is_as_proved());
    /// ```
    pub fn is_as_proved(self) -> bool {
        self.rounds_to_nearest && self.keeps_subnormals
    }
}

/// Tests the environment of the calling thread with a few sums and products. Another library, or a graphics driver, may have changed
/// it. Then the proved calls still return, but their figures are not the promised ones.
///
/// ```
/// assert!(belfrywool::environment().is_as_proved());
/// ```
pub fn environment() -> Environment {
    let sum = |x: f64, y: f64| black_box(black_box(x) + black_box(y));
    let product = |x: f64, y: f64| black_box(black_box(x) * black_box(y));
    let (half, quarter) = (f64::EPSILON / 2.0, f64::EPSILON / 4.0);
    let next = 1.0 + f64::EPSILON;
    let up = sum(1.0, half + quarter) == next && sum(-1.0, -half - quarter) == -next;
    let down = sum(1.0, quarter) == 1.0 && sum(-1.0, -quarter) == -1.0;
    let ties = sum(1.0, half) == 1.0 && sum(next, half) == next + f64::EPSILON;
    let least = f64::from_bits(1);
    let written = product(f64::MIN_POSITIVE, 0.5).to_bits() == 1 << 51;
    let read = product(least, 2.0).to_bits() == 2 && product(least, 1e300) > 0.0;
    Environment { rounds_to_nearest: up && down && ties, keeps_subnormals: written && read }
}
