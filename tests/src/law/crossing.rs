//! Rule 2.20 in its own words, with weights up to a sum: whole weights on the corners of two triangles
//! that lead to one point.

use super::reader::Point;
use std::collections::HashMap;

/// Every three weights with this sum.
fn weights(sum: i64) -> impl Iterator<Item = [i64; 3]> {
    (0..=sum).flat_map(move |i| (0..=sum - i).map(move |j| [i, j, sum - i - j]))
}

/// The sum of the corners, each as often as its weight says.
fn weighted(corners: [Point; 3], weights: [i64; 3]) -> Point {
    [0, 1, 2].map(|axis| (0..3).map(|k| weights[k] * corners[k][axis]).sum())
}

/// Has a corner that the other triangle does not have a weight above zero?
fn is_outside(corners: [Point; 3], weights: [i64; 3], other: [Point; 3]) -> bool {
    (0..3).any(|k| weights[k] > 0 && !other.contains(&corners[k]))
}

/// Have two triangles weights of one sum up to this one that lead to one point, though not every corner
/// with a weight above zero belongs to both? A corner may stand twice or three times, so a segment is a
/// triangle here and a point too; three different ones are not on one line.
pub fn cross_by_weights(t: [Point; 3], u: [Point; 3], highest: i64) -> bool {
    (1..=highest).any(|sum| {
        let reached = |own| (weighted(t, own), is_outside(t, own, u));
        let by_t: HashMap<Point, bool> = weights(sum).map(reached).collect();
        weights(sum).any(|own| {
            let at = by_t.get(&weighted(u, own));
            at.is_some_and(|&outside| outside || is_outside(u, own, t))
        })
    })
}
