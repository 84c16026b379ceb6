//! Normals with their lengths, and the weights that are made of them.

use super::reader::Polygon;
use super::vectors::{cross, dot, minus, Vector};
use crate::calls::Triangle;

/// The parts of a unit in which lengths are counted.
const PARTS: i64 = 4;

/// The bend at a right angle, and the scale of ratios, which takes the parts of both lengths out.
const RIGHT_ANGLE: i64 = 1000;
const SCALE: i64 = RIGHT_ANGLE * PARTS * PARTS;

/// The whole part of a root. Squares are below 2^52: f64 holds them, and rounds no root up to the next
/// whole number.
#[inline]
fn root(square: i64) -> i64 {
    let root = (square as f64).sqrt() as i64;
    debug_assert!(root * root <= square && square < (root + 1) * (root + 1));
    root
}

/// A normal with its length, which is 0 for no surface.
#[derive(Clone, Copy)]
pub struct Normal {
    at: Vector,
    length: i64,
}

impl Normal {
    #[inline]
    fn new(at: Vector) -> Normal {
        Normal { at, length: root(PARTS * PARTS * dot(at, at)) }
    }

    #[inline]
    pub fn of(polygon: &Polygon, triangle: Triangle) -> Normal {
        let [p, q, r] = triangle.map(|k| polygon.vertices[k as usize]);
        Normal::new(cross(minus(q, p), minus(r, p)))
    }

    #[inline]
    pub fn bend(&self, other: &Normal) -> u32 {
        let ratio = (SCALE * dot(self.at, other.at)).div_euclid(self.length * other.length);
        (RIGHT_ANGLE - ratio.clamp(-RIGHT_ANGLE, RIGHT_ANGLE)) as u32
    }
}

/// What the candidates' own weights are made of, beside their normals.
pub struct Weights {
    area_factor: u32,
    bend_factor: u32,
    last: u8,
    /// By the vertex that the rim edge starts at; edition 1 has no list.
    outside: Vec<Normal>,
}

impl Weights {
    pub fn new(polygon: &Polygon) -> Weights {
        let Polygon { n, area_factor, bend_factor, .. } = *polygon;
        let outside = polygon.outside.iter().map(|&normal| Normal::new(normal)).collect();
        Weights { area_factor, bend_factor, last: n as u8 - 1, outside }
    }

    /// The area weight of a triangle, and the bend weights at those of its edges that are on the rim.
    #[inline]
    pub fn own(&self, [a, b, c]: Triangle, normal: &Normal) -> u32 {
        let area = self.area_factor * normal.length as u32;
        if self.outside.is_empty() {
            return area;
        }
        let bend = |on_rim: bool, start: u8| {
            let outside = &self.outside[start as usize];
            if on_rim && outside.length != 0 {
                normal.bend(outside)
            } else {
                0
            }
        };
        let closing = a == 0 && c == self.last;
        let bends = bend(b == a + 1, a) + bend(c == b + 1, b) + bend(closing, self.last);
        area + self.bend_factor * bends
    }
}
