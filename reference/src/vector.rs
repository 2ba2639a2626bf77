//! Three floats, and a few operations.

pub type Vector = [f64; 3];

pub fn finite(v: Vector) -> bool {
    v.iter().all(|c| c.is_finite())
}

/// n = (x·x + y·y) + z·z
pub fn n(v: Vector) -> f64 {
    (v[0] * v[0] + v[1] * v[1]) + v[2] * v[2]
}

pub fn sub(a: Vector, b: Vector) -> Vector {
    [a[0] - b[0], a[1] - b[1], a[2] - b[2]]
}

pub fn add(a: Vector, b: Vector) -> Vector {
    [a[0] + b[0], a[1] + b[1], a[2] + b[2]]
}

/// base + factor·slope, component by component.
pub fn along(base: Vector, factor: f64, slope: Vector) -> Vector {
    [
        base[0] + factor * slope[0],
        base[1] + factor * slope[1],
        base[2] + factor * slope[2],
    ]
}

/// (y·vz - z·vy, z·vx - x·vz, x·vy - y·vx)
pub fn cross(p: Vector, v: Vector) -> Vector {
    [
        p[1] * v[2] - p[2] * v[1],
        p[2] * v[0] - p[0] * v[2],
        p[0] * v[1] - p[1] * v[0],
    ]
}
