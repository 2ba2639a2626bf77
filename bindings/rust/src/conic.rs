//! The conic of a state.

use crate::refusal::answer;
use crate::{Body, Refusal};

/// A conic: its centre, and one kind.
#[derive(Clone, Copy, Debug, PartialEq)]
pub struct Conic {
    pub centre: Body,
    pub kind: ConicKind,
}

/// Half axis a in km, eccentricity e, parameter p and nearest distance q in km, and a last figure of the kind.
#[derive(Clone, Copy, Debug, PartialEq)]
pub enum ConicKind {
    /// With the far distance in km.
    Ellipse { a: f64, e: f64, p: f64, q: f64, far: f64 },
    /// With the root of c3, the speed far away, in km/s.
    Hyperbola { a: f64, e: f64, p: f64, q: f64, root_c3: f64 },
}

/// The kind of an ellipse, the second number of `names`.
const ELLIPSE: u64 = 1;

pub(crate) fn figured(number: u64, names: [u64; 2], [a, e, p, q, last]: [f64; 5]) -> Result<Conic, Refusal> {
    let kind = match names[1] {
        ELLIPSE => ConicKind::Ellipse { a, e, p, q, far: last },
        _ => ConicKind::Hyperbola { a, e, p, q, root_c3: last },
    };
    answer(number, Conic { centre: Body(names[0]), kind })
}
