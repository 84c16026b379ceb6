//! Vectors of whole numbers. `inline` lets them into the loops of other modules, as in `weights`.

pub type Vector = [i64; 3];

#[inline]
pub fn minus(p: Vector, q: Vector) -> Vector {
    [p[0] - q[0], p[1] - q[1], p[2] - q[2]]
}

#[inline]
pub fn dot(u: Vector, v: Vector) -> i64 {
    u[0] * v[0] + u[1] * v[1] + u[2] * v[2]
}

#[inline]
pub fn cross(u: Vector, v: Vector) -> Vector {
    [u[1] * v[2] - u[2] * v[1], u[2] * v[0] - u[0] * v[2], u[0] * v[1] - u[1] * v[0]]
}
