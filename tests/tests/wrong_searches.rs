//! Searches for the candidates of flat rims that are wrong, each in one way, and rims that tell them
//! from the right one.

use outside_tests::calls::{Calls, Places, Tables, Triangle};
use outside_tests::jobs::all_triples;
use outside_tests::law::finder::{
    candidates, centre_of_circle, faces, is_flat, normal, squared_distance, threes,
};
use outside_tests::law::reader;
use outside_tests::library::each;
use outside_tests::planes;
use outside_tests::random::Random;
use outside_tests::rims::{Point, RimFile};
use std::collections::BTreeSet;

/// The candidates of a rim, or 12.
type Found = Result<BTreeSet<Triangle>, u32>;

fn is_on_one_line(points: &[Point], three: Triangle) -> bool {
    normal(points, three) == [0; 3]
}

/// The points as seen along an axis.
fn seen_along(points: &[Point], axis: usize) -> Vec<Point> {
    let mut points = points.to_vec();
    points.iter_mut().for_each(|point| point[axis] = 0);
    points
}

/// The circles of a flat rim are taken as seen along an axis, unless that is in the plane.
fn by_projected_circles(points: &[Point], axis: usize) -> Found {
    let seen = seen_along(points, axis);
    let lost = |&three: &Triangle| is_on_one_line(points, three) != is_on_one_line(&seen, three);
    if !is_flat(points) || all_triples(points.len()).iter().any(lost) {
        return candidates(points);
    }
    candidates(&seen)
}

/// A rim is taken for flat where its first four vertices are in one plane.
fn flat_by_the_first_four(points: &[Point]) -> Found {
    match is_flat(&points[..points.len().min(4)]) {
        true => threes(points),
        false => faces(points),
    }
}

/// 12 is given at the first vertex on a circle, though another one may be inside it.
fn twelve_at_once(points: &[Point]) -> Found {
    let on = |three: &Triangle| {
        let centre = centre_of_circle(three.map(|k| points[k as usize]));
        centre.is_some_and(|centre| {
            let distance = |k: u8| squared_distance(&centre, points[k as usize]);
            let mut others = (0..points.len() as u8).filter(|k| !three.contains(k));
            others.any(|k| distance(k) == distance(three[0]))
        })
    };
    match is_flat(points) && all_triples(points.len()).iter().any(on) {
        true => Err(12),
        false => candidates(points),
    }
}

/// Three vertices of a flat rim that are on one line are let in.
fn with_threes_on_one_line(points: &[Point]) -> Found {
    let mut found = candidates(points)?;
    let on_line = |three: &Triangle| is_flat(points) && is_on_one_line(points, *three);
    found.extend(all_triples(points.len()).into_iter().filter(on_line));
    Ok(found)
}

const WRONG: [(&str, fn(&[Point]) -> Found); 7] = [
    ("no circles", faces),
    ("flat by the first four", flat_by_the_first_four),
    ("circles as seen along x", |points| by_projected_circles(points, 0)),
    ("circles as seen along y", |points| by_projected_circles(points, 1)),
    ("circles as seen along z", |points| by_projected_circles(points, 2)),
    ("12 at once", twelve_at_once),
    ("threes on one line", with_threes_on_one_line),
];

/// Rims as those that `flat_rims` compares by: many tell each wrong search from the right one.
#[test]
fn told_by_rims_in_any_plane() {
    let mut random = Random::new(1);
    let mut told = WRONG.map(|(name, _)| (name, 0));
    for _ in 0..2_000 {
        let n = random.between(3, 9) as usize;
        let points = planes::any_rim_or_one_off(n, &mut random);
        if reader::read(&RimFile::plain(&points, 1, 1).bytes()).is_ok() {
            let right = candidates(&points);
            for ((_, search), (_, times)) in WRONG.iter().zip(&mut told) {
                *times += (search(&points) != right) as usize;
            }
        }
    }
    assert!(told.iter().all(|&(_, times)| times > 30), "{told:?}");
}

/// The star of examples/tilted.rim has a patch; as seen along any axis it has none.
#[test]
fn told_by_the_tilted_star() {
    let star = reader::read(include_bytes!("../../examples/tilted.rim")).expect("taken").points;
    let triangles = |calls: &dyn Calls, points: &[Point]| {
        let file = RimFile::plain(points, 1, 1).bytes();
        calls.patch_rim(&file, &mut Tables::guarded(Places::BENCH)).triangles
    };
    for calls in each() {
        assert_eq!(triangles(calls, &star), 4, "{}", calls.name());
        for axis in 0..3 {
            assert_eq!(triangles(calls, &seen_along(&star, axis)), 0, "{}", calls.name());
        }
    }
}
