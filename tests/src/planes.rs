//! Flat rims: outlines in the steps of a plane of grid points, tilted as a rule.

use crate::law::finder::{is_flat, normal};
use crate::random::Random;
use crate::rims::Point;
use std::f64::consts::TAU;

/// A point of a plane, in steps along its two directions.
pub type Step = [i64; 2];

/// The directions of a plane, which are not parallel.
pub type Directions = [Point; 2];

/// Directions of one length at a right angle: what is a square in steps is one in space.
pub const SQUARE: [Directions; 6] = [
    [[1, 0, 0], [0, 1, 0]],
    [[0, 0, 1], [1, 0, 0]],
    [[0, -1, 0], [0, 0, 1]],
    [[3, 4, 0], [0, 0, 5]],
    [[1, 2, 2], [2, 1, -2]],
    [[2, 3, 6], [3, -6, 2]],
];

#[derive(Clone, Copy, Debug)]
pub struct Plane {
    pub origin: Point,
    pub along: Directions,
}

impl Plane {
    /// A plane along these directions, in which all steps up to so many are on the grid; none where
    /// the directions are too long for that.
    pub fn along(along: Directions, reach: i64, random: &mut Random) -> Option<Plane> {
        let free = [0, 1, 2].map(|k| 1000 - reach * (along[0][k].abs() + along[1][k].abs()));
        let fits = free.iter().all(|&free| free >= 0);
        fits.then(|| Plane { origin: free.map(|free| random.between(-free, free)), along })
    }

    /// Any plane, in which all steps up to so many are on the grid.
    pub fn any(reach: i64, random: &mut Random) -> Plane {
        loop {
            let size = random.one_of(&[1, 3, 20, 500]);
            let mut any = || [0; 3].map(|_| random.between(-size, size));
            let directions = [any(), any()];
            let along = if random.once_in(2) { random.one_of(&SQUARE) } else { directions };
            let plane = Plane::along(along, reach, random);
            if let Some(plane) = plane.filter(|plane| plane.normal() != [0; 3]) {
                return plane;
            }
        }
    }

    pub fn point(&self, [i, j]: Step) -> Point {
        [0, 1, 2].map(|k| self.origin[k] + i * self.along[0][k] + j * self.along[1][k])
    }

    pub fn points(&self, steps: &[Step]) -> Vec<Point> {
        steps.iter().map(|&step| self.point(step)).collect()
    }

    /// It looks to the side from which an outline runs counterclockwise.
    pub fn normal(&self) -> Point {
        normal(&self.points(&[[0, 0], [1, 0], [0, 1]]), [0, 1, 2])
    }
}

/// The shapes of flat rims.
#[derive(Clone, Copy, Debug, PartialEq, Eq)]
pub enum Outline {
    /// Convex but for noise.
    Ring,
    /// Far out and near by turns, so that there are candidates outside the polygon.
    Star,
    Scattered,
}

impl Outline {
    pub const ALL: [Outline; 3] = [Outline::Ring, Outline::Star, Outline::Scattered];

    /// So many vertices within so many steps either way.
    pub fn steps(self, n: usize, reach: i64, random: &mut Random) -> Vec<Step> {
        let offset = random.fraction() * TAU;
        let dent = (3.0 / n as f64).min(0.4);
        let step = |k: usize| {
            let [one, two] = [random.fraction(), random.fraction()];
            let angle = offset + TAU * k as f64 / n as f64;
            let around = |radius: f64| [radius * angle.cos(), radius * angle.sin()];
            let at = match self {
                Outline::Star if k % 2 == 1 => around(1.0 - dent * (1.0 + one)),
                Outline::Ring | Outline::Star => around(1.0 - one / n as f64),
                Outline::Scattered => [2.0 * one - 1.0, 2.0 * two - 1.0],
            };
            at.map(|x| (x * reach as f64).round() as i64)
        };
        (0..n).map(step).collect()
    }
}

/// Scattered vertices, the first of them on one line.
pub fn run(n: usize, on_line: usize, reach: i64, random: &mut Random) -> Vec<Step> {
    let mut steps = Outline::Scattered.steps(n, reach, random);
    steps[..on_line].iter_mut().for_each(|step| step[1] = 0);
    steps
}

/// A flat rim of any kind. Where few steps are within reach, threes on one line and circles with a
/// fourth vertex on them are frequent.
pub fn any_rim(n: usize, random: &mut Random) -> Vec<Point> {
    let reach = random.one_of(&[3, 4, 6, 25, 200, 1000]);
    let on_line = random.between(3, n as i64) as usize;
    let steps = match random.once_in(4) {
        true => run(n, on_line, reach, random),
        false => random.one_of(&Outline::ALL).steps(n, reach, random),
    };
    Plane::any(reach, random).points(&steps)
}

/// The rims with vertex k one step away along an axis that are on the grid and not flat.
pub fn with_one_off(points: &[Point], k: usize) -> Vec<Vec<Point>> {
    let steps = (0..3).flat_map(|axis| [-1, 1].map(|step| (axis, step)));
    let moved = steps.map(|(axis, step)| {
        let mut points = points.to_vec();
        points[k][axis] += step;
        points
    });
    moved.filter(|points| is_on_grid(points[k]) && !is_flat(points)).collect()
}

pub fn is_on_grid(point: Point) -> bool {
    point.iter().all(|g| g.abs() <= 1000)
}

/// A flat rim of any kind, or now and then one that is flat but for one vertex.
pub fn any_rim_or_one_off(n: usize, random: &mut Random) -> Vec<Point> {
    let points = any_rim(n, random);
    let mut off = match random.once_in(4) {
        true => with_one_off(&points, random.below(n)),
        false => Vec::new(),
    };
    random.shuffle(&mut off);
    off.pop().unwrap_or(points)
}
