//! Small rims against the plain search.

use outside_tests::calls::{Places, Tables};
use outside_tests::comparison::compare_calls;
use outside_tests::law::BY_SETS;
use outside_tests::library::under_test;
use outside_tests::random::{seeds, Random};
use outside_tests::rims::{lattice, Point, RimFile, Shape};

/// How often each outcome came, for the tests to see that all of them do.
#[derive(Default, Debug)]
struct Outcomes {
    patches: usize,
    nones: usize,
    refused: [usize; 18],
}

/// Half of the factors are 0 or 1, so that equal totals are frequent.
fn factors(random: &mut Random) -> [u16; 2] {
    let area = random.one_of(&[0, 0, 1, 1, 2, 5, 16]);
    let bend = random.one_of(&[0, 0, 1, 1, 3, 700, 65_535]);
    [area, bend]
}

fn compare_all(points: &[Point], random: &mut Random, tables: &Tables, outcomes: &mut Outcomes) {
    let file = RimFile::varied(points, factors(random), random).bytes();
    let answer = compare_calls(&BY_SETS, under_test(), &file, tables);
    match (answer.number, answer.triangles) {
        (0, 0) => outcomes.nones += 1,
        (0, _) => outcomes.patches += 1,
        (number, _) => outcomes.refused[number as usize] += 1,
    }
}

/// Rims of 3 to 9 vertices by a maker of points, from a fixed seed and a fresh one.
fn run(subject: &str, cases: usize, points: impl Fn(usize, &mut Random) -> Vec<Point>) -> Outcomes {
    let tables = Tables::guarded(Places { candidates: 84, weights: 85, work: 86, ..Places::BENCH });
    let mut outcomes = Outcomes::default();
    for seed in seeds(subject) {
        let mut random = Random::new(seed);
        for _ in 0..cases {
            let n = random.one_of(&[3, 4, 4, 5, 5, 6, 6, 7, 7, 8, 8, 9]);
            let points = points(n, &mut random);
            compare_all(&points, &mut random, &tables, &mut outcomes);
        }
    }
    outcomes
}

#[test]
fn rims_of_every_shape() {
    let outcomes = run("rims of every shape", 8_000, |n, random| {
        let size = random.one_of(&[4, 30, 200, 1000]);
        random.one_of(&Shape::ALL).points(n, size, random)
    });
    assert!(outcomes.patches > 3_000 && outcomes.nones > 2_000, "{outcomes:?}");
    assert!(outcomes.refused[11] > 500 && outcomes.refused[12] > 50, "{outcomes:?}");
}

/// Few different lengths and bends, so that equal totals and fifth vertices are frequent.
#[test]
fn rims_on_a_small_lattice() {
    let outcomes = run("rims on a small lattice", 8_000, |n, random| {
        let size = random.one_of(&[1, 2, 3, 5, 8]);
        lattice(n, size, random)
    });
    assert!(outcomes.patches > 1_000 && outcomes.refused[12] > 300, "{outcomes:?}");
}

/// A convex ring with small heights has tilings as a rule, often many.
#[test]
fn rims_with_patches() {
    let outcomes = run("rims with patches", 8_000, |n, random| {
        let shape = random.one_of(&[Shape::NoisyCircle, Shape::Saddle, Shape::Spiral]);
        let size = random.one_of(&[20, 100, 1000]);
        shape.points(n, size, random)
    });
    assert!(outcomes.patches > 6_000, "{outcomes:?}");
}
