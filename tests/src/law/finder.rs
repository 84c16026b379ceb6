//! Candidates, weights and rows of a rim (rules 2.1 to 2.19), or number 12.

use super::reader::{Point, Rim};
use crate::calls::{Row, Triangle};
use crate::jobs::{all_fours, all_triples};
use std::collections::BTreeSet;

#[derive(Clone, Debug, PartialEq, Eq)]
pub struct Lists {
    pub candidates: Vec<Triangle>,
    pub weights: Vec<u32>,
    pub rows: Vec<Row>,
}

/// The points x with across · x = offset: a plane, unless `across` is three zeros.
#[derive(Clone, Copy)]
struct Plane {
    across: [i128; 3],
    offset: i128,
}

impl Plane {
    /// x is as far from p as from q where 2 (q - p) · x = |q|² - |p|².
    fn between(p: Point, q: Point) -> Plane {
        let across = [0, 1, 2].map(|k| 2 * (q[k] - p[k]) as i128);
        Plane { across, offset: squared(q) - squared(p) }
    }

    /// The plane of three points that are not on one line.
    fn through(three: [Point; 3]) -> Plane {
        let across = normal(&three, [0, 1, 2]).map(i128::from);
        Plane { across, offset: dot(across, three[0]) }
    }

    fn holds(&self, p: Point) -> bool {
        dot(self.across, p) == self.offset
    }
}

/// The centre of a sphere or circle: three numerators over one denominator, which is not zero.
#[derive(Clone, Copy, Debug)]
pub struct Centre {
    pub numerators: [i128; 3],
    pub denominator: i128,
}

fn determinant(m: [[i128; 3]; 3]) -> i128 {
    m[0][0] * (m[1][1] * m[2][2] - m[1][2] * m[2][1])
        - m[0][1] * (m[1][0] * m[2][2] - m[1][2] * m[2][0])
        + m[0][2] * (m[1][0] * m[2][1] - m[1][1] * m[2][0])
}

fn dot(u: [i128; 3], p: Point) -> i128 {
    u.iter().zip(p).map(|(&x, y)| x * y as i128).sum()
}

fn squared(p: Point) -> i128 {
    dot(p.map(i128::from), p)
}

/// The point that three planes share, by Cramer's rule; none where they do not share just one.
fn shared_point(planes: [Plane; 3]) -> Option<Centre> {
    let rows = planes.map(|plane| plane.across);
    let denominator = determinant(rows);
    if denominator == 0 {
        return None;
    }
    let numerators = [0, 1, 2].map(|column| {
        let mut replaced = rows;
        for (row, plane) in replaced.iter_mut().zip(planes) {
            row[column] = plane.offset;
        }
        determinant(replaced)
    });
    Some(Centre { numerators, denominator })
}

/// The centre of the sphere through four points (rule 2.2); none where they are in one plane.
pub fn centre_of_sphere([o, p, q, r]: [Point; 4]) -> Option<Centre> {
    shared_point([p, q, r].map(|s| Plane::between(o, s)))
}

/// The centre of the circle through three points (rule 2.18), which is in their plane; none where
/// they are on one line.
pub fn centre_of_circle([o, p, q]: [Point; 3]) -> Option<Centre> {
    shared_point([Plane::between(o, p), Plane::between(o, q), Plane::through([o, p, q])])
}

/// The squared distance to the centre, times the squared denominator.
pub fn squared_distance(centre: &Centre, p: Point) -> i128 {
    let apart = |k: usize| p[k] as i128 * centre.denominator - centre.numerators[k];
    (0..3).map(|k| apart(k) * apart(k)).sum()
}

/// What three or four vertices are to their rim.
enum Judged {
    Dropped,
    Counts,
    /// They count, and another vertex is on their circle or sphere.
    OneMore,
}

/// Rules 2.3 and 2.19.
fn judge(points: &[Point], corners: &[u8], centre: Option<Centre>) -> Judged {
    let Some(centre) = centre else {
        return Judged::Dropped;
    };
    let radius = squared_distance(&centre, points[corners[0] as usize]);
    let mut one_more = false;
    for (k, &point) in points.iter().enumerate() {
        let distance = squared_distance(&centre, point);
        if distance < radius {
            return Judged::Dropped;
        }
        one_more = one_more || (distance == radius && !corners.contains(&(k as u8)));
    }
    if one_more {
        Judged::OneMore
    } else {
        Judged::Counts
    }
}

/// Those of all threes or fours that count, or 12 (rule 4.12).
fn counting<const N: usize>(
    points: &[Point],
    all: impl IntoIterator<Item = [u8; N]>,
    centre: fn([Point; N]) -> Option<Centre>,
) -> Result<Vec<[u8; N]>, u32> {
    let mut counting = Vec::new();
    for corners in all {
        match judge(points, &corners, centre(corners.map(|k| points[k as usize]))) {
            Judged::Dropped => {}
            Judged::Counts => counting.push(corners),
            Judged::OneMore => return Err(12),
        }
    }
    Ok(counting)
}

/// Rule 2.5: some plane holds every vertex. Where three are not on one line, it can only be theirs.
pub fn is_flat(points: &[Point]) -> bool {
    let spans = |&three: &Triangle| normal(points, three) != [0; 3];
    all_triples(points.len()).into_iter().find(spans).is_none_or(|three| {
        let plane = Plane::through(three.map(|k| points[k as usize]));
        points.iter().all(|&p| plane.holds(p))
    })
}

/// Rule 2.19: the threes that count, as a set.
pub fn threes(points: &[Point]) -> Result<BTreeSet<Triangle>, u32> {
    let all = all_triples(points.len());
    Ok(counting(points, all, centre_of_circle)?.into_iter().collect())
}

/// Rule 2.3: the faces of the fours that count, as a set.
pub fn faces(points: &[Point]) -> Result<BTreeSet<Triangle>, u32> {
    let all = all_fours(points.len());
    let fours = counting(points, all, centre_of_sphere)?.into_iter();
    Ok(fours.flat_map(|[a, b, c, d]| [[a, b, c], [a, b, d], [a, c, d], [b, c, d]]).collect())
}

/// Rule 2.4, as a set; or 12.
pub fn candidates(points: &[Point]) -> Result<BTreeSet<Triangle>, u32> {
    if is_flat(points) {
        threes(points)
    } else {
        faces(points)
    }
}

fn cross(u: Point, v: Point) -> Point {
    [u[1] * v[2] - u[2] * v[1], u[2] * v[0] - u[0] * v[2], u[0] * v[1] - u[1] * v[0]]
}

/// Rule 2.6.
pub fn normal(points: &[Point], [a, b, c]: Triangle) -> Point {
    let [p, q, r] = [a, b, c].map(|k| points[k as usize]);
    cross([0, 1, 2].map(|k| q[k] - p[k]), [0, 1, 2].map(|k| r[k] - p[k]))
}

/// Lengths count quarters (rule 2.7).
const QUARTERS: i128 = 4;

/// The thousand of rule 2.10, and the quarters of the two lengths that it is divided by.
const RATIO: i128 = 1000 * QUARTERS * QUARTERS;

/// Rule 2.7: the largest m with m · m ≤ (4 |normal|)².
pub fn length(normal: Point) -> u64 {
    let square = QUARTERS * QUARTERS * squared(normal);
    let m = square.isqrt();
    assert!(m * m <= square && square < (m + 1) * (m + 1));
    m as u64
}

/// 1000 - q, with q the clamped floor of 16,000 d / (m · m).
pub fn bend(d: i128, m_inner: u64, m_outer: u64) -> u64 {
    // The divisor is positive, so the Euclidean quotient is the floor.
    let q = (RATIO * d).div_euclid(m_inner as i128 * m_outer as i128).clamp(-1000, 1000);
    (1000 - q) as u64
}

/// The bend of two normals.
pub fn bend_of(inner: Point, outer: Point) -> u64 {
    bend(dot(inner.map(i128::from), outer), length(inner), length(outer))
}

/// Rule 2.9.
pub fn hangs_on(t: Triangle, u: Triangle) -> bool {
    (t[0], t[2]) == (u[0], u[1]) || (t[0], t[2]) == (u[1], u[2])
}

/// Rule 2.14: both ends of rim edge i are corners of t.
pub fn has_rim_edge(t: Triangle, i: usize, n: usize) -> bool {
    [i, (i + 1) % n].iter().all(|&end| t.contains(&(end as u8)))
}

/// Rule 2.15: the area weight, and a bend weight for each rim edge that has a surface outside.
fn own_weight(rim: &Rim, t: Triangle, normal: Point) -> u64 {
    let mut weight = rim.area_factor * length(normal);
    for (i, surface) in rim.surfaces.iter().enumerate() {
        if let Some(outside) = surface {
            if has_rim_edge(t, i, rim.points.len()) {
                weight += rim.bend_factor * bend_of(normal, *outside);
            }
        }
    }
    weight
}

/// The candidates with their weights and rows, or 12.
pub fn find(rim: &Rim) -> Result<Lists, u32> {
    let candidates: Vec<Triangle> = candidates(&rim.points)?.into_iter().collect();
    let normals: Vec<Point> = candidates.iter().map(|&t| normal(&rim.points, t)).collect();
    let own = |(&t, &normal)| own_weight(rim, t, normal) as u32;
    let weights = candidates.iter().zip(&normals).map(own).collect();
    let mut rows = Vec::new();
    for (outer, &u) in candidates.iter().enumerate() {
        for (inner, &t) in candidates.iter().enumerate() {
            if hangs_on(t, u) {
                let weight = rim.bend_factor * bend_of(normals[inner], normals[outer]);
                rows.push([outer as u32, inner as u32, weight as u32]);
            }
        }
    }
    Ok(Lists { candidates, weights, rows })
}
