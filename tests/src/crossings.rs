//! Do triangles, or the edges of a rim, have more points in common than they should? Decided by the
//! signs of volumes and of turns; nothing here knows of spheres or circles. On the grid a volume is
//! below 2^36 and a turn below 2^48.

use crate::calls::Triangle;
use crate::rims::Point;

/// The corners of a triangle, which are not on one line. Corners are common where the points are one.
pub type Corners = [Point; 3];

/// The ends of a segment, which differ.
pub type Segment = [Point; 2];

fn minus(p: Point, q: Point) -> Point {
    [0, 1, 2].map(|k| p[k] - q[k])
}

fn dot(u: Point, v: Point) -> i64 {
    (0..3).map(|k| u[k] * v[k]).sum()
}

fn cross(u: Point, v: Point) -> Point {
    [u[1] * v[2] - u[2] * v[1], u[2] * v[0] - u[0] * v[2], u[0] * v[1] - u[1] * v[0]]
}

fn normal([a, b, c]: Corners) -> Point {
    cross(minus(b, a), minus(c, a))
}

/// On which side of the plane of three points is a fourth? 0 where it is in the plane.
fn side([a, b, c]: Corners, p: Point) -> i64 {
    dot(normal([a, b, c]), minus(p, a)).signum()
}

/// In a plane with this normal: is a point on the left of a segment (1), on its line (0) or on its
/// right (-1)?
fn turn(normal: Point, [p, q]: Segment, r: Point) -> i64 {
    dot(normal, cross(minus(q, p), minus(r, p))).signum()
}

/// The edges, each with the triangle on its left.
fn edges([a, b, c]: Corners) -> [Segment; 3] {
    [[a, b], [b, c], [c, a]]
}

/// Is a point in a triangle, on its edges and corners included?
pub fn is_in(triangle: Corners, p: Point) -> bool {
    let up = normal(triangle);
    side(triangle, p) == 0 && edges(triangle).iter().all(|&edge| turn(up, edge, p) >= 0)
}

/// Is a point on a segment, its ends included?
pub fn is_on([p, q]: Segment, x: Point) -> bool {
    let [to_p, to_q] = [minus(p, x), minus(q, x)];
    cross(to_p, to_q) == [0; 3] && dot(to_p, to_q) <= 0
}

/// Have two segments a point in common? Where they are parallel, it can only be an end of one of them
/// that is on the other.
pub fn segments_meet([p, q]: Segment, [r, s]: Segment) -> bool {
    let up = cross(minus(q, p), minus(s, r));
    if up == [0; 3] {
        return is_on([p, q], r) || is_on([p, q], s) || is_on([r, s], p) || is_on([r, s], q);
    }
    let on_one_side = |edge, x, y| turn(up, edge, x) * turn(up, edge, y) > 0;
    dot(up, minus(r, p)) == 0 && !on_one_side([p, q], r, s) && !on_one_side([r, s], p, q)
}

/// Has a segment a point in common with a triangle? Where it is not in the plane, its line runs through
/// the triangle unless it passes some edges on the left and others on the right.
fn meets([p, q]: Segment, triangle: Corners) -> bool {
    match [side(triangle, p), side(triangle, q)] {
        [0, 0] => {
            let meets_edge = |&edge: &Segment| segments_meet([p, q], edge);
            is_in(triangle, p) || edges(triangle).iter().any(meets_edge)
        }
        [1, 1] | [-1, -1] => false,
        _ => {
            let passed = edges(triangle).map(|[a, b]| side([p, q, a], b));
            !(passed.contains(&1) && passed.contains(&-1))
        }
    }
}

/// Does the way from the first corner of a triangle to another point begin in the triangle?
fn begins_in(triangle: Corners, p: Point) -> bool {
    let up = normal(triangle);
    let [first, _, last] = edges(triangle);
    side(triangle, p) == 0 && turn(up, first, p) >= 0 && turn(up, last, p) >= 0
}

/// The same triangle, from another of its corners on.
fn from_corner([a, b, c]: Corners, corner: Point) -> Corners {
    match corner {
        _ if corner == b => [b, c, a],
        _ if corner == c => [c, a, b],
        _ => [a, b, c],
    }
}

/// Has an edge of the first triangle a point in the second that is not in the hull of their common
/// corners? An edge between two of them is in it, one that starts from one of them has only this end in
/// it, and any other has no point in it.
fn edge_crosses(first: Corners, second: Corners) -> bool {
    edges(first).into_iter().any(|[p, q]| match [p, q].map(|end| second.contains(&end)) {
        [true, true] => false,
        [true, false] => begins_in(from_corner(second, p), q),
        [false, true] => begins_in(from_corner(second, q), p),
        [false, false] => meets([p, q], second),
    })
}

/// Have two triangles a point in common that is not in the hull of their common corners? The points in
/// both are the hull of such that are on an edge of one of them, so it is enough to look at edges.
pub fn triangles_cross(t: Corners, u: Corners) -> bool {
    edge_crosses(t, u) || edge_crosses(u, t)
}

fn corners(points: &[Point], triangle: Triangle) -> Corners {
    triangle.map(|k| points[k as usize])
}

/// The first triangle of a list that crosses this one, if any does.
pub fn crossed_by(points: &[Point], list: &[Triangle], triangle: Triangle) -> Option<Triangle> {
    let own = corners(points, triangle);
    list.iter().copied().find(|&other| triangles_cross(corners(points, other), own))
}

/// Two triangles of a list that cross, if any do.
pub fn crossing_pair(points: &[Point], list: &[Triangle]) -> Option<[Triangle; 2]> {
    list.iter().enumerate().find_map(|(k, &triangle)| {
        crossed_by(points, &list[..k], triangle).map(|earlier| [earlier, triangle])
    })
}

/// A triangle of a list and a vertex that is in it, but not as a corner, if there are such.
pub fn vertex_inside(points: &[Point], list: &[Triangle]) -> Option<(Triangle, usize)> {
    list.iter().find_map(|&triangle| {
        let of_triangle = corners(points, triangle);
        let is_inside =
            |&k: &usize| !triangle.contains(&(k as u8)) && is_in(of_triangle, points[k]);
        (0..points.len()).find(is_inside).map(|vertex| (triangle, vertex))
    })
}

/// Have two rim edges, each by its two vertices, a point in common other than a vertex of both? Edges
/// from one vertex have where both run the same way.
fn edges_meet(points: &[Point], edge: [usize; 2], other: [usize; 2]) -> bool {
    let at = |k: usize| points[k];
    let Some(&shared) = edge.iter().find(|k| other.contains(k)) else {
        return segments_meet(edge.map(at), other.map(at));
    };
    let along = |[i, j]: [usize; 2]| minus(points[if i == shared { j } else { i }], points[shared]);
    let [u, v] = [along(edge), along(other)];
    cross(u, v) == [0; 3] && dot(u, v) > 0
}

/// Two edges of a rim that meet outside a vertex of both, if any do. Edge i starts at vertex i.
pub fn meeting_edges(points: &[Point]) -> Option<[usize; 2]> {
    let n = points.len();
    let edge = |i: usize| [i, (i + 1) % n];
    let mut pairs = (0..n).flat_map(|j| (0..j).map(move |i| [i, j]));
    pairs.find(|&[i, j]| edges_meet(points, edge(i), edge(j)))
}
