//! Flat rims, through the calls.

#![forbid(unsafe_code)]

mod common;

use common::rim_file;
use patch_box::{Candidate, Number, Outcome, OwnedTables};

/// The outcome, and the candidates.
fn closed(points: &[[f32; 3]]) -> Result<(Outcome, Vec<Candidate>), Number> {
    let file = rim_file(points, None);
    let mut tables = OwnedTables::new(patch_box::sizes(&file)?);
    let outcome = patch_box::rim(&file, tables.lend())?;
    Ok((outcome, tables.candidates))
}

/// The points at these places of a plane, by two directions at right angles, each 3 mm long.
fn tilted<const N: usize>(places: [[f32; 2]; N]) -> [[f32; 3]; N] {
    let [u, v] = [[1.0, 2.0, 2.0], [2.0, 1.0, -2.0]];
    places.map(|[s, t]| [0, 1, 2].map(|k| s * u[k] + t * v[k]))
}

/// By hand: the normals are (0, 0, 64) and (0, -48, 64), so the lengths in quarters are 256 and 320.
#[test]
fn triangles_are_closed() {
    for (height, total) in [(0.0, 256), (0.75, 320)] {
        let triangle = [[0.0, 0.0, 0.0], [1.0, 0.0, 0.0], [0.0, 1.0, height]];
        let patch = Outcome::Patch { triangles: 1, total };
        assert_eq!(closed(&triangle), Ok((patch, vec![[0, 1, 2]])));
    }
}

/// A rhombus has the two halves at its short diagonal, without a bend. By hand: each half is 27 square
/// millimetres, so it weighs 27 * 512.
#[test]
fn a_rhombus_is_halved() {
    let rhombus = tilted([[-3.0, 0.0], [0.0, -1.0], [3.0, 0.0], [0.0, 1.0]]);
    let patch = Outcome::Patch { triangles: 2, total: 2 * 27 * 512 };
    assert_eq!(closed(&rhombus), Ok((patch, vec![[0, 1, 3], [1, 2, 3]])));
}

/// The tilted square is no square as seen along any axis. With a corner off the circle, in the plane or
/// not, both are closed.
#[test]
fn four_on_a_circle() {
    let corners = [[0.0, 0.0], [1.0, 0.0], [1.0, 1.0], [0.0, 1.0]];
    for square in [corners.map(|[x, y]| [x, y, 5.0]), tilted(corners)] {
        assert_eq!(closed(&square), Err(Number::Cospherical));
        for axis in 0..3 {
            let mut moved = square;
            moved[2][axis] += 0.125;
            let closed = closed(&moved).map(|(outcome, _)| outcome);
            assert!(matches!(closed, Ok(Outcome::Patch { triangles: 2, .. })), "{closed:?}");
        }
    }
}

#[test]
fn points_on_one_line() {
    let line = tilted([0.0, 2.0, -1.0, 1.0, 5.0].map(|s| [s, 1.0]));
    for n in 3..=5 {
        assert_eq!(closed(&line[..n]), Ok((Outcome::None, vec![])));
    }
}
