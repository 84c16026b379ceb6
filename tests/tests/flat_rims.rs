//! Flat rims (rules 2.5 and 2.17 to 2.19): their circles, number 12 on one (rule 4.12), vertices on
//! one line, and rims that are flat but for one vertex.

use outside_tests::calls::{PatchAnswer, Places, Tables, Triangle};
use outside_tests::comparison::{compare_calls, compare_finder, compare_rim};
use outside_tests::fast::FAST;
use outside_tests::jobs::{job_of, price_and_patch};
use outside_tests::law::finder::{candidates, has_rim_edge, is_flat, length, normal};
use outside_tests::law::{BY_INTERVALS, BY_SETS};
use outside_tests::library::{each, under_test};
use outside_tests::planes::{self, is_on_grid, with_one_off, Directions, Outline, Plane, Step};
use outside_tests::random::{seeds, Random};
use outside_tests::rims::{Point, RimFile};
use std::collections::BTreeSet;

fn tables() -> Tables {
    Tables::guarded(Places::BENCH)
}

/// Every call on a rim in a file of any kind, by the plain search and by what is under test.
fn compare(points: &[Point], random: &mut Random) -> PatchAnswer {
    let factors = random.one_of(&[[1, 1], [1, 1], [0, 1], [1, 0], [16, 65_535]]);
    let file = RimFile::varied(points, factors, random).bytes();
    compare_calls(&BY_SETS, under_test(), &file, &tables())
}

/// Two candidates on one edge are on either side of it, so the rows of a flat rim weigh nothing.
fn rows_weigh_nothing(points: &[Point]) -> bool {
    let job = job_of(&BY_SETS, &RimFile::plain(points, 1, 1).bytes(), &mut tables());
    job.rows.iter().all(|row| row[2] == 0)
}

#[test]
fn rims_in_any_plane() {
    let [mut patches, mut nones, mut refused] = [0; 3];
    for seed in seeds("rims in any plane") {
        let mut random = Random::new(seed);
        for _ in 0..4_000 {
            let n = random.between(3, 9) as usize;
            let points = planes::any_rim_or_one_off(n, &mut random);
            let answer = compare(&points, &mut random);
            match (answer.number, answer.triangles) {
                (0, 0) => nones += 1,
                (0, _) => patches += 1,
                (number, _) => refused += (number == 12) as usize,
            }
            if answer.number == 0 && is_flat(&points) {
                assert!(rows_weigh_nothing(&points), "{points:?}");
            }
        }
    }
    let outcomes = [patches, nones, refused];
    assert!(patches > 2_000 && nones > 1_000 && refused > 150, "{outcomes:?}");
}

/// Every number of vertices, by the fast reference and by what is under test, and some of them by the
/// plain search too; then with one vertex off the plane.
#[test]
fn rims_of_every_size() {
    let mut patches = 0;
    for seed in seeds("flat rims of every size") {
        let mut random = Random::new(seed);
        for (n, outline) in (3..=64).flat_map(|n| Outline::ALL.map(|outline| (n, outline))) {
            let reach = random.one_of(&[300, 1000]);
            let steps = outline.steps(n, reach, &mut random);
            let points = Plane::any(reach, &mut random).points(&steps);
            let file = RimFile::varied(&points, [1, 1], &mut random).bytes();
            let answer = compare_calls(&FAST, under_test(), &file, &tables());
            patches += (answer.triangles > 0) as usize;
            if n % 9 == 1 {
                compare_rim(&BY_INTERVALS, under_test(), &file, &tables());
            }
            if let Some(off) = with_one_off(&points, random.below(n)).pop() {
                let file = RimFile::varied(&off, [1, 1], &mut random).bytes();
                compare_calls(&FAST, under_test(), &file, &tables());
            }
        }
    }
    assert!(patches > 200, "{patches} patches");
}

/// The lists that the finder leaves are those of the plain search, and as a direct job they have the
/// patch of the one call.
#[test]
fn lists_as_a_direct_job() {
    let mut random = Random::new(3);
    for _ in 0..300 {
        let n = random.between(3, 20) as usize;
        let points = planes::any_rim(n, &mut random);
        let file = RimFile::varied(&points, [1, 1], &mut random).bytes();
        if compare_finder(&BY_INTERVALS, under_test(), &file, &tables()).number != 0 {
            continue;
        }
        let mut of_rim = tables();
        let answer = under_test().patch_rim(&file, &mut of_rim);
        let job = job_of(under_test(), &file, &mut tables());
        let mut of_job = Tables::of_job(&job, n - 2, job.candidates.len());
        assert_eq!(price_and_patch(under_test(), n, &mut of_job), answer, "{points:?}");
        let walks = [of_rim, of_job].map(|left| left.triangles.view()[..answer.triangles].to_vec());
        assert_eq!(walks[0], walks[1], "{points:?}");
    }
}

/// A rectangle of so many steps about the middle, and a fifth vertex.
fn rectangle_and_fifth([i, j]: Step, fifth: Step) -> [Step; 5] {
    [[-i, -j], [i, -j], [i, j], [-i, j], fifth]
}

/// The corners of squares and rectangles are on one circle, in whatever order they come.
#[test]
fn rectangles() {
    let mut random = Random::new(4);
    for (along, sides) in planes::SQUARE
        .iter()
        .flat_map(|&along| [[5, 5], [7, 1], [1, 40]].map(|sides| (along, sides)))
    {
        let plane = Plane::along(along, 40, &mut random).expect("short directions");
        let points = plane.points(&rectangle_and_fifth(sides, [0, 0])[..4]);
        for [p, q, r] in [[1, 2, 3], [1, 3, 2], [2, 1, 3], [2, 3, 1], [3, 1, 2], [3, 2, 1]] {
            let order = [points[0], points[p], points[q], points[r]];
            assert_eq!(compare(&order, &mut random).number, 12, "{order:?}");
        }
    }
}

/// A fifth vertex for a square, and how many candidates there are with it. Inside the circle of the
/// square it drops all threes of the corners, and makes a candidate with each side that it is neither
/// on nor beyond. On the circle or outside it is no help: 12.
const FIFTH: [(Step, Option<usize>); 8] = [
    ([1, 2], Some(4)),
    ([-4, -4], Some(4)),
    ([4, -5], Some(3)),
    ([-7, 0], Some(3)),
    ([7, 1], None),
    ([-1, 7], None),
    ([8, 0], None),
    ([9, 20], None),
];

/// The fifth vertex at each place of the rim: before the fourth vertex on the circle, and after it.
#[test]
fn squares_with_a_fifth_vertex() {
    let mut random = Random::new(5);
    for (along, place) in planes::SQUARE.iter().flat_map(|&along| (0..5).map(move |k| (along, k))) {
        let plane = Plane::along(along, 20, &mut random).expect("short directions");
        for (fifth, count) in FIFTH {
            let mut steps = rectangle_and_fifth([5, 5], fifth);
            steps.rotate_left(place);
            let points = plane.points(&steps);
            let number = if count.is_some() { 0 } else { 12 };
            assert_eq!(compare(&points, &mut random).number, number, "{steps:?}");
            let found = candidates(&points).ok();
            assert_eq!(found.as_ref().map(BTreeSet::len), count, "{steps:?}");
            let has_fifth = |three: &Triangle| three.contains(&(4 - place as u8));
            assert!(found.iter().flatten().all(has_fifth), "{steps:?}");
        }
    }
}

/// So many different steps along the first direction, in any order.
fn on_one_line(n: usize, reach: i64, random: &mut Random) -> Vec<Step> {
    let mut steps: Vec<Step> = (-reach..=reach).map(|i| [i, 0]).collect();
    random.shuffle(&mut steps);
    steps.truncate(n);
    steps
}

/// 'None' from tables without a place but those for triangles, and 13 where these are too few.
#[test]
fn rims_on_one_line() {
    let mut random = Random::new(6);
    for n in 3..=64 {
        let reach = random.one_of(&[32, 100, 1000]);
        let mut steps = on_one_line(n, reach, &mut random);
        if random.once_in(3) {
            steps.sort_unstable();
        }
        let points = Plane::any(reach, &mut random).points(&steps);
        let file = RimFile::varied(&points, [16, 65_535], &mut random).bytes();
        let exact = Places { triangles: n - 2, candidates: 0, weights: 0, rows: 0, work: 0 };
        for calls in each() {
            assert_eq!(calls.sizes(&file), Ok(exact), "{}, {points:?}", calls.name());
        }
        for (triangles, number) in [(n - 3, 13), (n - 2, 0), (n, 0)] {
            let lent = Tables::guarded(Places { triangles, ..exact });
            let answer = compare_calls(&BY_INTERVALS, under_test(), &file, &lent);
            assert_eq!(answer, PatchAnswer::refused(number), "{points:?}");
        }
    }
}

/// A triangle of these vertices, which come in any order.
fn triangle(corners: [u8; 3]) -> Triangle {
    let mut corners = corners;
    corners.sort_unstable();
    corners
}

/// One vertex is off the line of the others: it makes a candidate with each two neighbours on the
/// line, and the rim has a patch where it runs along the line.
#[test]
fn all_but_one_on_one_line() {
    let mut random = Random::new(7);
    for (n, in_order) in (4..=12).flat_map(|n| [false, true].map(|in_order| (n, in_order))) {
        for place in 0..n {
            let mut along = on_one_line(n - 1, 40, &mut random);
            let mut steps = along.clone();
            along.sort_unstable();
            if in_order {
                steps.clone_from(&along);
            }
            let apex = [random.between(-40, 40), random.one_of(&[-40, -1, 1, 40])];
            steps.push(apex);
            steps.rotate_left(place);
            let number = |step| steps.iter().position(|s| *s == step).expect("a vertex") as u8;
            let fan = along.windows(2).map(|two| triangle([two[0], two[1], apex].map(number)));
            let points = Plane::any(40, &mut random).points(&steps);
            assert_eq!(candidates(&points), Ok(fan.collect()), "{points:?}");
            let answer = compare(&points, &mut random);
            assert!(!in_order || answer.triangles == n - 2, "{points:?}");
        }
    }
}

/// The first three vertices, the first four, and so on are on one line, or any as many in a row.
#[test]
fn runs_on_one_line() {
    let mut random = Random::new(8);
    for (n, on_line) in (4..=9).flat_map(|n| (3..n).map(move |on_line| (n, on_line))) {
        for case in 0..40 {
            let reach = random.one_of(&[6, 50, 300]);
            let mut steps = planes::run(n, on_line, reach, &mut random);
            steps.rotate_left(if case % 2 == 0 { 0 } else { random.below(n) });
            let points = Plane::any(reach, &mut random).points(&steps);
            compare(&points, &mut random);
            let mut found = candidates(&points).into_iter().flatten();
            assert!(found.all(|three| normal(&points, three) != [0; 3]), "{points:?}");
        }
    }
}

/// With one vertex off the plane of the others, the sphere through it and three of them meets the plane
/// in the circle of the three. So the candidates are those of the others, and with each edge of these
/// and the vertex one more.
fn cone(points: &[Point], apex: usize) -> Result<BTreeSet<Triangle>, u32> {
    let mut others = points.to_vec();
    others.remove(apex);
    let number = |k: u8| k + (k as usize >= apex) as u8;
    let base = candidates(&others)?.into_iter().map(|three| three.map(number));
    let apex = apex as u8;
    let faces = |[a, b, c]: Triangle| [[a, b, c], [a, b, apex], [a, apex, c], [apex, b, c]];
    Ok(base.flat_map(faces).map(triangle).collect())
}

/// A vertex of a flat rim is a step off its plane, any of them, so also one after the first four: the
/// candidates are those of spheres.
#[test]
fn flat_but_for_one_vertex() {
    let mut compared = 0;
    for seed in seeds("flat but for one vertex") {
        let mut random = Random::new(seed);
        for _ in 0..150 {
            let n = random.between(4, 8) as usize;
            let points = planes::any_rim(n, &mut random);
            let apex = random.below(n);
            for off in with_one_off(&points, apex) {
                if compare(&off, &mut random).number != 11 {
                    assert_eq!(candidates(&off), cone(&off, apex), "{off:?}");
                    compared += 1;
                }
            }
        }
    }
    assert!(compared > 500, "{compared} rims");
}

/// With the normal of the plane outside every edge, a candidate inside the polygon bends by 0 at each
/// of its rim edges, and one outside, which runs the other way round, by 2000. The patch is inside.
#[test]
fn candidates_outside_the_polygon() {
    let mut random = Random::new(9);
    let mut outside = 0;
    for case in 0..300 {
        let n = 4 + case % 9;
        let along = planes::SQUARE[case % planes::SQUARE.len()];
        let plane = Plane::along(along, 100, &mut random).expect("short directions");
        let points = plane.points(&Outline::Star.steps(n, 100, &mut random));
        let up = plane.normal();
        let file = RimFile::plain(&points, 1, 7).with_normals(&vec![up.map(|x| x as i16); n]);
        let answer = compare_calls(&BY_SETS, under_test(), &file.bytes(), &tables());
        if answer.triangles == 0 {
            continue;
        }
        let job = job_of(under_test(), &file.bytes(), &mut tables());
        let mut area = 0;
        for (&three, &weight) in job.candidates.iter().zip(&job.weights) {
            let own = normal(&points, three);
            let m = length(own) as u32;
            let is_inside = own.iter().zip(up).map(|(x, y)| x * y).sum::<i64>() > 0;
            let rim_edges = (0..n).filter(|&i| has_rim_edge(three, i, n)).count() as u32;
            let bend = if is_inside { 0 } else { 2000 };
            assert_eq!(weight, m + 7 * bend * rim_edges, "{three:?} of {points:?}");
            area += if is_inside { m as u64 } else { 0 };
            outside += (weight > m) as usize;
        }
        assert_eq!(answer.total, area, "{points:?}");
    }
    assert!(outside > 200, "{outside} candidates outside");
}

/// Directions that lead to the ends of the grid along one axis each, or along two at once.
const FAR: [Directions; 4] = [
    [[1, 0, 0], [0, 1, 0]],
    [[1, 1, 0], [0, 0, 1]],
    [[1, 0, 0], [0, 1, -1]],
    [[1, -1, 0], [1, 0, -1]],
];

/// The points of a plane next to the ends of the grid and to its middle, in any order.
fn far_points(plane: &Plane, random: &mut Random) -> Vec<Point> {
    let far = [-2000, -1999, -1998, -1000, -999, -997, -3, 0, 1, 500, 998, 1000, 1997, 2000];
    let steps = far.iter().flat_map(|&i| far.map(|j| [i, j]));
    let points = steps.map(|step| plane.point(step)).filter(|&point| is_on_grid(point));
    let mut points: Vec<Point> = points.collect();
    random.shuffle(&mut points);
    points
}

/// Vertices as far apart as the grid allows, where all numbers are largest.
#[test]
fn far_vertices() {
    let mut random = Random::new(10);
    let mut taken = 0;
    for case in 0..2_000 {
        let origin = [0; 3].map(|_| random.one_of(&[-1000, 0, 1000]));
        let mut points = far_points(&Plane { origin, along: FAR[case % FAR.len()] }, &mut random);
        points.truncate(random.between(3, 8) as usize);
        taken += (points.len() > 2 && compare(&points, &mut random).number == 0) as usize;
    }
    assert!(taken > 500, "{taken} rims");
}
