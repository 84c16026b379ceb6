//! Rims that meet themselves: two of their edges have a point in common that is no vertex of both.

use crate::crossings::{is_on, segments_meet};
use crate::planes::{Outline, Plane, Step};
use crate::random::Random;
use crate::rims::Point;

/// How two edges meet.
#[derive(Clone, Copy, Debug, PartialEq, Eq)]
pub enum Meeting {
    /// Inside both.
    Crossing,
    /// A vertex of one is on the other.
    Touching,
    /// On one line, with a part in common.
    Overlapping,
    /// From one vertex the same way: neighbours that fold back on each other.
    FoldingBack,
}

/// Any step within so many either way.
fn any_step(reach: i64, random: &mut Random) -> Step {
    [0; 2].map(|_| random.between(-reach, reach))
}

/// Four steps: the segments between the first two and between the last two meet inside both.
fn crossing_steps(reach: i64, random: &mut Random) -> [Step; 4] {
    loop {
        let steps = [(); 4].map(|()| any_step(reach, random));
        let [p, q, r, s] = steps.map(|[x, y]| [x, y, 0]);
        let touch = is_on([p, q], r) || is_on([p, q], s) || is_on([r, s], p) || is_on([r, s], q);
        if segments_meet([p, q], [r, s]) && !touch {
            return steps;
        }
    }
}

impl Meeting {
    pub const ALL: [Meeting; 4] =
        [Meeting::Crossing, Meeting::Touching, Meeting::Overlapping, Meeting::FoldingBack];

    /// The vertices of the two edges, within so many steps either way: the first edge is between the
    /// first two, the second between the last two.
    fn steps(self, reach: i64, random: &mut Random) -> Vec<Step> {
        let middle = any_step(reach / 4, random);
        let along = Some(any_step(reach / 4, random)).filter(|step| *step != [0, 0]);
        let along = along.unwrap_or([1, 0]);
        let at = |times: i64| [0, 1].map(|k| middle[k] + times * along[k]);
        let mut steps = match self {
            Meeting::Crossing => crossing_steps(reach, random).to_vec(),
            Meeting::Touching => {
                vec![at(-1), at(random.between(1, 3)), at(0), any_step(reach, random)]
            }
            Meeting::Overlapping => {
                random.one_of(&[[-2, 1, -1, 3], [-2, 3, 1, -1], [2, -1, 0, -3]]).map(at).to_vec()
            }
            Meeting::FoldingBack => {
                random.one_of(&[[1, 0, 2], [1, 0, 3], [2, 0, 3]]).map(at).to_vec()
            }
        };
        if random.once_in(2) {
            steps.reverse();
        }
        steps
    }

    /// A rim of so many vertices, at least 4, two edges of which meet so. They are in a plane of any
    /// tilt; the other vertices are in it too, or near it.
    pub fn rim(self, n: usize, is_flat: bool, random: &mut Random) -> Vec<Point> {
        let reach = random.one_of(&[8, 25, 200]);
        let plane = Plane::any(reach, random);
        let edges = plane.points(&self.steps(reach, random));
        let outline = random.one_of(&Outline::ALL);
        let mut others = plane.points(&outline.steps(n - edges.len(), reach, random));
        if !is_flat {
            others.iter_mut().for_each(|point| *point = near(*point, random));
        }
        let after = match self {
            Meeting::FoldingBack => others.split_off(0),
            _ => others.split_off(random.below(others.len() + 1)),
        };
        let mut points = [&edges[..2], &others, &edges[2..], &after].concat();
        points.rotate_left(random.below(n));
        points
    }
}

/// A point of the grid near another one.
fn near(point: Point, random: &mut Random) -> Point {
    let most = random.one_of(&[1, 30, 300]);
    point.map(|g| (g + random.between(-most, most)).clamp(-1000, 1000))
}

/// A ring in a plane of any tilt, or near it; and the same vertices with a part of the rim turned round,
/// so that two edges that were across from each other are now the diagonals between their ends. These
/// four vertices are in the plane.
pub fn ring_and_turned(n: usize, is_flat: bool, random: &mut Random) -> [Vec<Point>; 2] {
    let reach = random.one_of(&[100, 300]);
    let mut ring = Plane::any(reach, random).points(&Outline::Ring.steps(n, reach, random));
    let first = random.below(n - 3);
    let last = random.between(first as i64 + 2, n as i64 - 2) as usize;
    if !is_flat {
        for k in (0..n).filter(|&k| ![first, first + 1, last, last + 1].contains(&k)) {
            ring[k] = near(ring[k], random);
        }
    }
    let mut turned = ring.clone();
    turned[first + 1..=last].reverse();
    [ring, turned]
}
