//! How the vertices of a rim lie, in exact numbers: in one plane, on edges that meet, on one sphere or
//! circle. Grid numbers keep all in 64 bits.

use crate::vectors::{cross, dot, minus};

type Vector = [i64; 3];

/// The normal of the plane that holds all points, the first two of which differ; zeros where one line
/// holds them. None where no plane does: the rim is not flat (rule 2.5).
pub fn plane_normal(points: &[Vector]) -> Option<Vector> {
    let from_first = |&p: &Vector| minus(p, points[0]);
    let along = from_first(&points[1]);
    let mut normals = points.iter().map(|p| cross(along, from_first(p)));
    let normal = normals.find(|&normal| normal != [0; 3]).unwrap_or_default();
    points.iter().all(|p| dot(normal, from_first(p)) == 0).then_some(normal)
}

/// The rim edges (rule 3.2), each as the rim runs.
pub fn rim_edges(n: usize) -> impl Iterator<Item = [usize; 2]> {
    (0..n).map(move |k| [k, (k + 1) % n])
}

/// The first two rim edges that meet, but for neighbours, which have a vertex in common.
pub fn meeting_edges(points: &[Vector]) -> Option<[[usize; 2]; 2]> {
    let n = points.len();
    let mut pairs = rim_edges(n).flat_map(|edge| rim_edges(n).map(move |other| [edge, other]));
    pairs.find(|[edge, other]| {
        let [one, two] = [edge, other].map(|edge| edge.map(|k| points[k]));
        !edge.iter().any(|k| other.contains(k)) && meet(one, two)
    })
}

/// Have two edges a point in common? Parallel ones are not looked at.
fn meet([p, q]: [Vector; 2], [r, s]: [Vector; 2]) -> bool {
    let [along, across] = [minus(q, p), minus(s, r)];
    let normal = cross(along, across);
    let side = |u: Vector, v: Vector| dot(normal, cross(u, v)).signum();
    let on_one_side = |u: Vector, v: Vector, w: Vector| side(u, v) * side(u, w) > 0;
    normal != [0; 3]
        && dot(normal, minus(r, p)) == 0
        && !on_one_side(along, minus(r, p), minus(s, p))
        && !on_one_side(across, minus(p, r), minus(q, r))
}

/// A vector from the first corner, and its square.
type Lifted = (Vector, i64);

/// The sphere through four points, or the circle through three in their plane, seen from the first:
/// volume |x|² = slope · x on it, and on the inner side the difference has the sign opposite to the
/// volume's.
struct Round {
    corner: Vector,
    volume: i64,
    slope: Vector,
}

impl Round {
    /// None where the four are in one plane.
    fn sphere([corner, b, c, d]: [Vector; 4]) -> Option<Round> {
        Round::through(corner, [b, c, d].map(|p| lifted(corner, p)))
    }

    /// None where the three are on one line. The direction of an axis that is not in their plane takes
    /// the place of a fourth corner. It has no square; the others have theirs of space, as a circle
    /// seen along an axis is an ellipse.
    fn circle([corner, b, c]: [Vector; 3]) -> Option<Round> {
        let [u, v] = [b, c].map(|p| lifted(corner, p));
        let mut axes = [[1, 0, 0], [0, 1, 0], [0, 0, 1]].into_iter();
        axes.find_map(|axis| Round::through(corner, [u, v, (axis, 0)]))
    }

    /// None where the three vectors are in one plane.
    fn through(corner: Vector, [(u, uu), (v, vv), (w, ww)]: [Lifted; 3]) -> Option<Round> {
        let volume = dot(u, cross(v, w));
        let parts = [(uu, cross(v, w)), (vv, cross(w, u)), (ww, cross(u, v))];
        let slope = [0, 1, 2].map(|k| parts.iter().map(|(square, n)| square * n[k]).sum());
        (volume != 0).then_some(Round { corner, volume, slope })
    }

    /// Negative inside, 0 on it, positive outside.
    fn side(&self, p: Vector) -> i64 {
        let (x, square) = lifted(self.corner, p);
        (self.volume * square - dot(self.slope, x)) * self.volume.signum()
    }
}

fn lifted(corner: Vector, p: Vector) -> Lifted {
    let x = minus(p, corner);
    (x, dot(x, x))
}

/// Vertices for which 12 is due (rule 4.12), if there are any: corners that count and another vertex,
/// on one sphere or, in a flat rim, on one circle.
pub fn cospherical(points: &[Vector]) -> Option<Vec<usize>> {
    let n = points.len();
    let mut threes =
        (0..n).flat_map(|a| (a + 1..n).flat_map(move |b| (b + 1..n).map(move |c| [a, b, c])));
    if plane_normal(points).is_some() {
        threes.find_map(|three| with_another(points, three, Round::circle))
    } else {
        let mut fours = threes.flat_map(|[a, b, c]| (c + 1..n).map(move |d| [a, b, c, d]));
        fours.find_map(|four| with_another(points, four, Round::sphere))
    }
}

/// The corners and another vertex on their sphere or circle, where they count (rules 2.3 and 2.19): no
/// vertex is inside.
fn with_another<const N: usize>(
    points: &[Vector],
    corners: [usize; N],
    round: fn([Vector; N]) -> Option<Round>,
) -> Option<Vec<usize>> {
    let round = round(corners.map(|k| points[k]))?;
    let mut another = None;
    for (k, &point) in points.iter().enumerate() {
        match round.side(point) {
            side if side < 0 => return None,
            0 if !corners.contains(&k) => another = another.or(Some(k)),
            _ => {}
        }
    }
    another.map(|k| corners.into_iter().chain([k]).collect())
}
