//! Vectors of space: grid numbers (i64) or millimetres (f64).

use std::ops::{Add, Mul, Sub};

pub trait Scalar: Copy + Add<Output = Self> + Sub<Output = Self> + Mul<Output = Self> {}

impl Scalar for i64 {}
impl Scalar for f64 {}

pub fn minus<T: Scalar>(p: [T; 3], q: [T; 3]) -> [T; 3] {
    [p[0] - q[0], p[1] - q[1], p[2] - q[2]]
}

pub fn dot<T: Scalar>(p: [T; 3], q: [T; 3]) -> T {
    p[0] * q[0] + p[1] * q[1] + p[2] * q[2]
}

pub fn cross<T: Scalar>(p: [T; 3], q: [T; 3]) -> [T; 3] {
    [p[1] * q[2] - p[2] * q[1], p[2] * q[0] - p[0] * q[2], p[0] * q[1] - p[1] * q[0]]
}

/// The same direction with length 1, of a vector that is not zero.
pub fn unit(p: [f64; 3]) -> [f64; 3] {
    let length = dot(p, p).sqrt();
    p.map(|x| x / length)
}

/// The normal of a triangle (rule 2.6).
fn normal([a, b, c]: [[i64; 3]; 3]) -> [i64; 3] {
    cross(minus(b, a), minus(c, a))
}

/// The direction of the normal of a triangle that is not on one line.
pub fn unit_normal(corners: [[i64; 3]; 3]) -> [f64; 3] {
    unit(normal(corners).map(|x| x as f64))
}

/// The length of the normal of a triangle (rule 2.7).
pub fn length_in_quarters(corners: [[i64; 3]; 3]) -> u64 {
    let normal = normal(corners);
    (16 * dot(normal, normal) as u64).isqrt()
}
