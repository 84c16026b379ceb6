//! The worked cases (rules 6.1 to 6.5 and 6.8) and others worked by hand, by the reference and by what
//! is under test.

use outside_tests::calls::{Calls, Job, PatchAnswer, Places, Tables, Triangle};
use outside_tests::jobs::{job, p};
use outside_tests::law::finder::{bend, bend_of};
use outside_tests::law::grid::{grid_number, GridNumber};
use outside_tests::law::{reader, tilings, BY_INTERVALS, BY_SETS};
use outside_tests::library::under_test;
use outside_tests::rims::{Point, RimFile, FLAT, LINE, P, SQUARE};
use std::collections::HashMap;

const P_TRIPLES: [Triangle; 4] = [[0, 1, 2], [0, 1, 3], [0, 2, 3], [1, 2, 3]];

fn all() -> [&'static dyn Calls; 3] {
    [&BY_SETS, &BY_INTERVALS, under_test()]
}

/// The price, the patch, the triangles and the work table of a job, by each.
fn expect(job: &Job, number: u32, walk: &[u16], total: u64) {
    for calls in all() {
        let before = Tables::of_job(job, job.n, job.candidates.len() + 1);
        let mut left = before.clone();
        let answer = PatchAnswer { number, triangles: walk.len(), total };
        let mut expected = before;
        if number == 0 {
            expected.clear_work();
        }
        assert_eq!(calls.price(job.n, &mut left), answer, "{}", calls.name());
        assert_eq!(left.difference(&expected), None, "{}", calls.name());
        assert_eq!(calls.patch(job.n, total, &mut left), answer, "{}", calls.name());
        expected.triangles.fill(walk);
        assert_eq!(left.difference(&expected), None, "{}", calls.name());
    }
}

/// The lists, the patch and every other place of the tables of a rim file, by each.
fn expect_file(file: &[u8], lists: &Job, walk: &[u16], total: u64) {
    let rim = reader::read(file).expect("taken");
    for calls in all() {
        let before = Tables::guarded(Places::BENCH);
        let mut left = before.clone();
        let answer = calls.patch_rim(file, &mut left);
        let expected = PatchAnswer { number: 0, triangles: walk.len(), total };
        assert_eq!(answer, expected, "{}, {rim:?}", calls.name());
        let difference = left.difference(&before.after(lists, walk));
        assert_eq!(difference, None, "{}, {rim:?}", calls.name());
    }
}

/// The same of a rim with these factors.
fn expect_rim(points: &[Point], factors: [u16; 2], lists: &Job, walk: &[u16], total: u64) {
    let file = RimFile::plain(points, factors[0], factors[1]).bytes();
    expect_file(&file, lists, walk, total);
}

/// Each refuses the rim, and leaves the tables as they were.
fn expect_refusal(points: &[Point], number: u32) {
    let file = RimFile::plain(points, 1, 1).bytes();
    for calls in all() {
        let before = Tables::guarded(Places::BENCH);
        let mut left = before.clone();
        assert_eq!(calls.patch_rim(&file, &mut left), PatchAnswer::refused(number), "{points:?}");
        assert_eq!(left.difference(&before), None, "{}, {points:?}", calls.name());
    }
}

#[test]
fn rim_file_p() {
    expect_rim(&P, [1, 1], &p(), &[1, 3], 943);
}

#[test]
fn other_tiling_of_p() {
    let rows = HashMap::from([([1, 3], 314), ([2, 0], 360)]);
    let job = job(4, &P_TRIPLES, &[320, 256, 320, 373], &[]);
    assert!(tilings::is_tiling(4, &P_TRIPLES, &[0, 2]));
    assert_eq!(tilings::total(&job, &rows, &[0, 2]), 1000);
    assert_eq!(tilings::total(&job, &rows, &[1, 3]), 943);
    assert_eq!(tilings::from_all_sets(4, &P_TRIPLES).len(), 2);
}

#[test]
fn direct_jobs() {
    expect(&job(3, &[[0, 1, 2]], &[5], &[]), 0, &[0], 5);
    expect(&job(3, &[], &[], &[]), 0, &[], 0);
    expect(&job(4, &P_TRIPLES, &[1; 4], &[]), 0, &[1, 3], 2);
    expect(&job(4, &P_TRIPLES, &[1; 4], &[[1, 3, 1]]), 0, &[2, 0], 2);
    expect(&job(4, &P_TRIPLES, &[1; 4], &[[1, 0, 1]]), 16, &[], 0);
    expect(&job(5, &[[0, 1, 2], [0, 2, 4]], &[1, 1], &[]), 0, &[], 0);
}

#[test]
fn bends() {
    assert_eq!(bend_of([0, 0, 7], [0, 0, 7]), 0);
    assert_eq!(bend_of([1, 1, 1], [1, 1, 1]), 0);
    assert_eq!(bend_of([5, 0, 0], [0, 3, 0]), 1000);
    assert_eq!(bend_of([1, 1, 1], [-1, -1, -1]), 2000);
    assert_eq!(bend(-1, 400, 400), 1001);
}

/// P with one coordinate given by its bits.
fn with_height(bits: u32) -> Vec<u8> {
    let mut file = RimFile::plain(&P, 1, 1);
    file.records[2].bits[2] = bits;
    file.bytes()
}

#[test]
fn range_of_coordinates() {
    assert_eq!(grid_number(125.0f32.to_bits()), GridNumber::At(1000));
    assert_eq!(grid_number((-125.0f32).to_bits()), GridNumber::At(-1000));
    let rim = reader::read(&with_height(125.0f32.to_bits())).expect("125.0 is taken");
    assert_eq!(rim.points[2], [8, 8, 1000]);
    for calls in all() {
        let number = |bits: u32| calls.read_rim(&with_height(bits)).number;
        assert_eq!(number(125.0f32.to_bits()), 0);
        assert_eq!(number((-125.0f32).to_bits()), 0);
        assert_eq!(number(125.0f32.to_bits() + 1), 9);
        assert_eq!(number((-125.0f32).to_bits() + 1), 9);
        assert_eq!(number(f32::MAX.to_bits()), 9);
        assert_eq!(number(f32::INFINITY.to_bits()), 8);
    }
}

fn chain(n: usize) -> RimFile {
    let points: Vec<Point> = (0..n as i64).map(|k| [k, k * k % 61, k * k * k % 97]).collect();
    RimFile::plain(&points, 1, 1)
}

#[test]
fn length_of_chains() {
    let mut own_end = chain(64);
    own_end.records[63].next = 64;
    for calls in all() {
        let read = |file: &RimFile| calls.read_rim(&file.bytes());
        assert_eq!((read(&chain(64)).number, read(&chain(64)).vertices), (0, 64));
        assert_eq!(read(&chain(65)).number, 5);
        assert_eq!(read(&own_end).number, 4);
        assert_eq!(read(&chain(3)).vertices, 3);
        assert_eq!(read(&chain(2)).number, 10);
        assert_eq!(read(&chain(0)).number, 10);
    }
}

#[test]
fn corners_of_a_cube() {
    let corner = |k: i64| [k & 1, k >> 1 & 1, k >> 2].map(|bit| 40 * bit);
    for left_out in 0..8 {
        for and_other in 0..left_out {
            for and_third in 0..and_other {
                let kept = (0..8).filter(|k| ![left_out, and_other, and_third].contains(k));
                let points: Vec<Point> = kept.map(corner).collect();
                expect_refusal(&points, 12);
            }
        }
    }
}

#[test]
fn a_vertex_on_a_sphere_that_does_not_count() {
    // Five points on a sphere around the origin, and a sixth inside it: no four of the five count.
    let points =
        [[120, 0, 0], [-40, 80, 80], [-40, -80, -80], [40, -80, 80], [80, 40, -80], [10, 7, 3]];
    let file = RimFile::plain(&points, 1, 1).bytes();
    let mut tables = Tables::guarded(Places::BENCH);
    let answer = BY_SETS.patch_rim(&file, &mut tables);
    assert_eq!(answer.number, 0);
    for calls in all() {
        let mut left = Tables::guarded(Places::BENCH);
        assert_eq!(calls.patch_rim(&file, &mut left), answer);
        assert_eq!(left.difference(&tables), None);
    }
}

/// One candidate, level and tilted, in every order of the vertices.
#[test]
fn three_vertices() {
    for (points, m) in
        [([[0, 0, 0], [8, 0, 0], [0, 8, 0]], 256), ([[1, 2, 3], [4, 6, 3], [1, 2, 8]], 100)]
    {
        for [i, j, k] in [[0, 1, 2], [0, 2, 1], [1, 0, 2], [1, 2, 0], [2, 0, 1], [2, 1, 0]] {
            let lists = job(3, &[[0, 1, 2]], &[3 * m], &[]);
            expect_rim(&[points[i], points[j], points[k]], [3, 5], &lists, &[0], 3 * m as u64);
        }
    }
}

/// The triangle of examples/triangle.rim, without normals and with an upright one outside each edge, to
/// which it bends by 26.
#[test]
fn a_triangle() {
    let file = include_bytes!("../../examples/triangle.rim");
    expect_file(file, &job(3, &[[0, 1, 2]], &[212_586], &[]), &[0], 212_586);
    let points = reader::read(file).expect("taken").points;
    let upright = RimFile::plain(&points, 1, 1).with_normals(&[[0, 0, 9]; 3]).bytes();
    expect_file(&upright, &job(3, &[[0, 1, 2]], &[212_664], &[]), &[0], 212_664);
}

/// The normals of the three candidates are 9900, 5700 and 6800 long, and all look up.
#[test]
fn flat_rim() {
    let candidates = [[0, 1, 3], [0, 3, 4], [1, 2, 3]];
    let lists = job(5, &candidates, &[39_600, 22_800, 27_200], &[[0, 2, 0], [1, 0, 0]]);
    expect_rim(&FLAT, [1, 1], &lists, &[1, 0, 2], 89_600);
}

#[test]
fn corners_of_a_square() {
    expect_refusal(&SQUARE, 12);
    for left_out in 0..4 {
        let three: Vec<Point> = (0..4).filter(|k| *k != left_out).map(|k| SQUARE[k]).collect();
        expect_rim(&three, [1, 1], &job(3, &[[0, 1, 2]], &[256], &[]), &[0], 256);
    }
}

/// The square of examples/dent.rim. The fifth vertex is inside the circle of the other four, so none of
/// their threes counts. Candidate 034 is outside the polygon.
#[test]
fn a_square_with_a_dent() {
    let file = include_bytes!("../../examples/dent.rim");
    let candidates = [[0, 1, 4], [0, 3, 4], [1, 2, 4], [2, 3, 4]];
    let weights = [235_520, 92_160, 317_440, 174_080];
    let lists = job(5, &candidates, &weights, &[[0, 2, 0], [2, 3, 0]]);
    expect_file(file, &lists, &[0, 2, 3], 727_040);
}

/// The star of examples/tilted.rim, in the plane x + y + z = 0. The normals of its four triangles are
/// 5184 along each axis, those of the three candidates outside are -14400.
#[test]
fn a_tilted_star() {
    let file = include_bytes!("../../examples/tilted.rim");
    let candidates = [[0, 1, 2], [0, 1, 5], [0, 4, 5], [1, 2, 3], [1, 3, 5], [2, 3, 4], [3, 4, 5]];
    let weights = [99_766, 35_915, 99_766, 35_915, 35_915, 99_766, 35_915];
    let lists = job(6, &candidates, &weights, &[[1, 4, 0], [4, 3, 0], [4, 6, 0]]);
    expect_file(file, &lists, &[1, 4, 3, 6], 143_660);
}

/// The points of examples/line.rim, which stand in order on their line, and others that do not.
#[test]
fn rims_on_one_line() {
    let example = reader::read(include_bytes!("../../examples/line.rim")).expect("taken");
    for n in [3, 4, 5] {
        for points in [&example.points[..n], &LINE[..n]] {
            expect_rim(points, [3, 5], &job(n, &[], &[], &[]), &[], 0);
        }
    }
}

#[test]
fn heights_of_level_points() {
    let mut file = RimFile::plain(&[[0, 0, 10], [80, 0, 0], [80, 80, 0], [0, 80, 30]], 1, 1);
    for k in [1, 2] {
        file.records[k].kind = 2;
        file.records[k].bits[2] = 0;
    }
    let rim = reader::read(&file.bytes()).expect("accepted");
    assert_eq!(rim.points, [[0, 0, 10], [80, 0, 10], [80, 80, 10], [0, 80, 30]]);
    // A kind 1 that stands before it in the file only is no help.
    file.first = 3;
    for calls in all() {
        assert_eq!(calls.read_rim(&file.bytes()).number, 7);
    }
}
