//! The exact crossing test, by which `crossing` judges, against the words of rule 2.20: weights on the
//! corners of two triangles. On a small lattice, weights up to a small sum reach a point at which two
//! triangles cross, where they do.

use outside_tests::calls::{Places, Tables, Triangle};
use outside_tests::crossings::{is_in, meeting_edges, triangles_cross, Corners};
use outside_tests::jobs::{all_triples, job_of};
use outside_tests::law::crossing::cross_by_weights;
use outside_tests::law::finder::{is_flat, normal};
use outside_tests::library::under_test;
use outside_tests::planes::Plane;
use outside_tests::random::{seeds, Random};
use outside_tests::rims::{lattice, Point, RimFile};
use std::collections::BTreeSet;

/// How many pairs do not cross and how many do, by their common corners, 0 to 2: of those that are not in
/// one plane, and of those that are.
type Met = [[[usize; 2]; 3]; 2];

fn is_triangle(corners: Corners) -> bool {
    normal(&corners, [0, 1, 2]) != [0; 3]
}

/// Both ways give the same; and so do the corners in another order, as large as the grid allows.
fn compare(t: Corners, u: Corners, highest: i64, met: &mut Met) {
    let crosses = triangles_cross(t, u);
    assert_eq!(crosses, cross_by_weights(t, u, highest), "{t:?} and {u:?}");
    let most = [t, u].as_flattened().as_flattened().iter().map(|g| g.abs()).max().unwrap_or(1);
    let large = |corners: Corners| corners.map(|point| point.map(|g| 1000 / most * g));
    let [[a, b, c], [d, e, f]] = [t, u].map(large);
    for [one, two] in [[[c, b, a], [e, f, d]], [[d, f, e], [b, c, a]]] {
        assert_eq!(triangles_cross(one, two), crosses, "{one:?} and {two:?}");
    }
    let common = t.iter().filter(|corner| u.contains(corner)).count();
    if common < 3 {
        met[is_flat(&[t, u].concat()) as usize][common][crosses as usize] += 1;
    }
}

/// All pairs of triangles on these points.
fn compare_all(points: &[Point], highest: i64) -> Met {
    let threes = all_triples(points.len()).into_iter();
    let corners = threes.map(|three| three.map(|k| points[k as usize]));
    let all: Vec<Corners> = corners.filter(|&corners| is_triangle(corners)).collect();
    let mut met = Met::default();
    for (k, &t) in all.iter().enumerate() {
        all[..k].iter().for_each(|&u| compare(t, u, highest, &mut met));
    }
    met
}

/// By hand: triangle (0, 0, 0), (4, 0, 0), (0, 4, 0) and another one that crosses it, or does not.
const BY_HAND: [(&str, Corners, bool); 20] = [
    ("apart", [[5, 5, 0], [6, 5, 0], [5, 6, 1]], false),
    ("above it", [[0, 0, 1], [4, 0, 1], [0, 4, 1]], false),
    ("through the inside", [[1, 1, -1], [1, 1, 1], [9, 9, 0]], true),
    ("beside it through the plane", [[3, 3, -1], [3, 3, 1], [9, 9, 0]], false),
    ("edge through edge", [[2, 0, -1], [2, 0, 1], [2, -3, 0]], true),
    ("corner on the inside", [[1, 1, 0], [1, 1, 1], [2, 1, 1]], true),
    ("corner on an edge", [[2, 2, 0], [5, 5, 0], [5, 5, 3]], true),
    ("corner on an edge from the side", [[3, 0, 0], [3, -3, 0], [4, -3, 0]], true),
    ("in the same plane, inside", [[1, 1, 0], [2, 1, 0], [1, 2, 0]], true),
    ("in the same plane, around it", [[-9, -9, 0], [30, -9, 0], [-9, 30, 0]], true),
    ("part of an edge", [[1, 0, 0], [3, 0, 0], [2, 0, 5]], true),
    ("more than an edge", [[-1, 0, 0], [9, 0, 0], [2, -5, 0]], true),
    ("a common corner", [[0, 0, 0], [-1, 0, 0], [0, -1, 2]], false),
    ("a common corner, edges on one line", [[0, 0, 0], [-3, 0, 0], [-2, 0, 2]], false),
    ("a common corner, along an edge", [[0, 0, 0], [3, 0, 0], [2, -3, 1]], true),
    ("a common corner, along the inside", [[0, 0, 0], [1, 1, 0], [1, 1, 1]], true),
    ("a common corner, through the inside", [[0, 0, 0], [2, 2, -1], [2, 2, 1]], true),
    ("a common edge", [[0, 0, 0], [4, 0, 0], [1, 1, 3]], false),
    ("a common edge, from the other side", [[0, 0, 0], [4, 0, 0], [5, -4, 0]], false),
    ("a common edge, on the same side", [[0, 0, 0], [4, 0, 0], [9, 1, 0]], true),
];

#[test]
fn triangles_by_hand() {
    let triangle = [[0, 0, 0], [4, 0, 0], [0, 4, 0]];
    for (name, [a, b, c], cross) in BY_HAND {
        for other in [[a, b, c], [b, c, a], [c, a, b], [c, b, a], [b, a, c], [a, c, b]] {
            assert_eq!(triangles_cross(triangle, other), cross, "{name}");
            assert_eq!(triangles_cross(other, triangle), cross, "{name}");
        }
        assert_eq!(cross_by_weights(triangle, [a, b, c], 24), cross, "{name}");
    }
    assert!(!triangles_cross(triangle, triangle));
}

/// Two triangles with two common corners that are not in one plane have their edge in common, and no
/// more. All other kinds of pairs are met, crossing and not.
fn expect_all_met(in_space: [[usize; 2]; 3]) {
    assert_eq!(in_space[2][1], 0, "{in_space:?}");
    let others = in_space.iter().flatten().filter(|&&pairs| pairs == 0);
    assert_eq!(others.count(), 1, "{in_space:?}");
}

#[test]
fn triangles_on_the_corners_of_a_cube() {
    let corners: Vec<Point> = (0..8).map(|k| [k & 1, k >> 1 & 1, k >> 2]).collect();
    let [in_space, in_plane] = compare_all(&corners, 4);
    expect_all_met(in_space);
    assert_eq!(in_plane[2], [24, 48], "two of four triangles on each of 12 rectangles");
}

/// Nine points of a plane, level and tilted.
#[test]
fn triangles_in_a_plane() {
    for along in [[[1, 0, 0], [0, 1, 0]], [[0, 1, -1], [-1, 0, 1]]] {
        let steps: Vec<_> = (0..9).map(|k| [k % 3, k / 3 - 1]).collect();
        let points = Plane { origin: [0, -1, 0], along }.points(&steps);
        let [in_space, in_plane] = compare_all(&points, 8);
        assert_eq!(in_space, [[0; 2]; 3]);
        assert!(in_plane.iter().flatten().all(|&pairs| pairs > 0), "{in_plane:?}");
    }
}

/// So many different points of a small lattice, now and then of a plane.
fn few_points(n: usize, size: i64, random: &mut Random) -> Vec<Point> {
    let tilt = [0; 2].map(|_| random.between(-1, 1));
    let is_flat = random.once_in(2);
    let mut points = BTreeSet::new();
    while points.len() < n {
        let [x, y, z] = lattice(1, size, random)[0];
        let z = if is_flat { tilt[0] * x + tilt[1] * y } else { z };
        points.extend([[x, y, z]].into_iter().filter(|point| point[2].abs() <= size));
    }
    let mut points: Vec<Point> = points.into_iter().collect();
    random.shuffle(&mut points);
    points
}

/// Triangles with 0, 1 or 2 common corners.
#[test]
fn triangles_on_a_small_lattice() {
    let mut met = Met::default();
    for seed in seeds("triangles on a small lattice") {
        let mut random = Random::new(seed);
        for case in 0..2_000 {
            let points = few_points(4 + case % 3, 1, &mut random);
            let [t, u] = [0, points.len() - 3].map(|k| [points[k], points[k + 1], points[k + 2]]);
            if is_triangle(t) && is_triangle(u) {
                compare(t, u, 32, &mut met);
            }
        }
    }
    let [in_space, in_plane] = met;
    expect_all_met(in_space);
    assert!(in_plane.iter().flatten().all(|&pairs| pairs > 20), "{met:?}");
}

/// What weights find is a crossing, also where the lattice is too large for them to find each.
#[test]
fn triangles_on_a_larger_lattice() {
    let mut found = 0;
    for seed in seeds("triangles on a larger lattice") {
        let mut random = Random::new(seed);
        for case in 0..2_000 {
            let points = few_points(4 + case % 3, 5, &mut random);
            let [t, u] = [0, points.len() - 3].map(|k| [points[k], points[k + 1], points[k + 2]]);
            if is_triangle(t) && is_triangle(u) && cross_by_weights(t, u, 12) {
                assert!(triangles_cross(t, u), "{t:?} and {u:?}");
                found += 1;
            }
        }
    }
    assert!(found > 200, "{found} crossings");
}

/// A point in a triangle, but not as a corner.
#[test]
fn points_in_triangles() {
    let mut random = Random::new(1);
    let mut met = [0; 2];
    for _ in 0..4_000 {
        let points = few_points(4, 2, &mut random);
        let [t, p] = [[points[0], points[1], points[2]], [points[3]; 3]];
        if is_triangle(t) {
            let inside = is_in(t, points[3]);
            assert_eq!(inside, cross_by_weights(t, p, 16), "{points:?}");
            met[inside as usize] += 1;
        }
    }
    assert!(met.iter().all(|&times| times > 100), "{met:?}");
}

/// Two edges, as triangles with a corner that stands twice, have a point other than a shared end.
fn meet_by_weights(points: &[Point]) -> bool {
    let n = points.len();
    let edge = |i: usize| [i, (i + 1) % n, (i + 1) % n].map(|k| points[k]);
    let mut pairs = (0..n).flat_map(|j| (0..j).map(move |i| [i, j]));
    pairs.any(|[i, j]| cross_by_weights(edge(i), edge(j), 8))
}

#[test]
fn edges_that_meet() {
    let mut random = Random::new(2);
    let mut met = [0; 2];
    for case in 0..2_000 {
        let points = few_points(3 + case % 4, 1, &mut random);
        let meets = meeting_edges(&points).is_some();
        assert_eq!(meets, meet_by_weights(&points), "{points:?}");
        met[meets as usize] += 1;
    }
    assert!(met.iter().all(|&times| times > 500), "{met:?}");
}

/// The rule itself, of the candidates that what is under test finds.
#[test]
fn candidates_of_small_rims() {
    let mut pairs = 0;
    for seed in seeds("candidates by weights") {
        let mut random = Random::new(seed);
        for _ in 0..300 {
            let n = random.between(4, 7) as usize;
            let size = random.one_of(&[1, 2, 4]);
            let points = few_points(n, size, &mut random);
            let file = RimFile::varied(&points, [1, 1], &mut random).bytes();
            if under_test().sizes(&file).is_err() {
                continue;
            }
            let job = job_of(under_test(), &file, &mut Tables::guarded(Places::BENCH));
            let corners = |three: Triangle| three.map(|k| points[k as usize]);
            for (k, &t) in job.candidates.iter().enumerate() {
                for &u in &job.candidates[..k] {
                    assert!(
                        !cross_by_weights(corners(t), corners(u), 8),
                        "{t:?}, {u:?}: {points:?}"
                    );
                    pairs += 1;
                }
            }
        }
    }
    assert!(pairs > 5_000, "{pairs} pairs");
}
