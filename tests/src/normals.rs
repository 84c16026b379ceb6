//! Normals of the surfaces outside a rim, for files of edition 2.

use crate::law::finder::normal;
use crate::random::Random;
use crate::rims::Point;

/// The three numbers that end a record of edition 2.
pub type Normal = [i16; 3];

/// No surface (rule 1.13).
pub const NONE: Normal = [0; 3];

/// A normal for each vertex of a rim, by the edge that starts there: on no edge, on some, on all.
pub fn along(points: &[Point], random: &mut Random) -> Vec<Normal> {
    let in_four = random.one_of(&[0, 1, 2, 4, 4]);
    let mut any = |k: usize| if random.below(4) < in_four { one(points, k, random) } else { NONE };
    (0..points.len()).map(&mut any).collect()
}

/// A normal for each of n vertices, none of them zeros.
pub fn on_all(n: usize, random: &mut Random) -> Vec<Normal> {
    let mut any = || match any(1000, random) {
        NONE => [0, 0, 1],
        normal => normal,
    };
    (0..n).map(|_| any()).collect()
}

/// A short normal for each of n vertices, now and then none.
pub fn short(n: usize, random: &mut Random) -> Vec<Normal> {
    (0..n).map(|_| any(2, random)).collect()
}

/// Numbers of any size up to this one.
fn any(size: i64, random: &mut Random) -> Normal {
    [0; 3].map(|_| random.between(-size, size) as i16)
}

/// Small, large or at the ends of the range, or along the normal of a triangle on the edge.
fn one(points: &[Point], k: usize, random: &mut Random) -> Normal {
    match random.below(6) {
        0 => any(2, random),
        1 => any(1000, random),
        2 => [0; 3].map(|_| random.one_of(&[-1000, -999, 0, 999, 1000])),
        3 => [0; 3].map(|_| random.one_of(&[-1000, 1000])),
        4 => on_triangle(points, k, random),
        _ => on_triangle(points, k, random).map(|x| -x),
    }
}

/// The direction of the normal of a triangle on the edge that starts at k, as far as it fits.
fn on_triangle(points: &[Point], k: usize, random: &mut Random) -> Normal {
    let n = points.len();
    let mut corners = [k, (k + 1) % n, (k + 2 + random.below(n - 2)) % n].map(|v| v as u8);
    corners.sort_unstable();
    shrunk(normal(points, corners))
}

/// A vector divided by what its numbers have in common, and then to fit where it is too long.
fn shrunk(vector: Point) -> Normal {
    let common = vector.iter().fold(0, |common, &x| greatest_divisor(common, x.abs())).max(1);
    let least = vector.map(|x| x / common);
    let highest = least.iter().map(|x| x.abs()).max().unwrap_or(0).max(1000);
    least.map(|x| (x * 1000 / highest) as i16)
}

pub fn greatest_divisor(a: i64, b: i64) -> i64 {
    if b == 0 {
        a
    } else {
        greatest_divisor(b, a % b)
    }
}
