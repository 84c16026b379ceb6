//! Rims up to 64 vertices against the exact finder and the interval programme.

use outside_tests::calls::{Places, Tables};
use outside_tests::comparison::{compare_finder, compare_rim};
use outside_tests::law::BY_INTERVALS;
use outside_tests::library::under_test;
use outside_tests::random::{seeds, Random};
use outside_tests::rims::{lattice, Edition, RimFile, Shape};

#[test]
fn rims_of_10_to_32() {
    let tables = Tables::guarded(Places::BENCH);
    for seed in seeds("rims of 10 to 32") {
        let mut random = Random::new(seed);
        for case in 0..60 {
            let shape = Shape::GENERAL[case % 6];
            let n = random.between(10, 32) as usize;
            let size = random.one_of(&[150, 1000]);
            let points = shape.points(n, size, &mut random);
            let factors = random.one_of(&[[1, 1], [0, 1], [1, 0], [0, 0], [16, 65_535]]);
            let file = RimFile::varied(&points, factors, &mut random).bytes();
            compare_rim(&BY_INTERVALS, under_test(), &file, &tables);
        }
    }
}

#[test]
fn rims_of_64() {
    let enough = Tables::guarded(Places::ENOUGH);
    let mut patches = 0;
    for seed in seeds("rims of 64") {
        let mut random = Random::new(seed);
        for shape in Shape::GENERAL {
            let points = shape.points(64, 1000, &mut random);
            for edition in Edition::BOTH {
                let file = RimFile::varied(&points, [1, 1], &mut random);
                let file = file.in_edition(edition, 64, &mut random).bytes();
                let answer = compare_rim(&BY_INTERVALS, under_test(), &file, &enough);
                patches += (answer.triangles == 62) as usize;
            }
        }
    }
    assert!(patches >= 4, "{patches} patches");
}

/// More candidates than the bench program's tables hold.
#[test]
fn skew_lines_in_the_tables_of_the_bench_program() {
    let tables = Tables::guarded(Places::BENCH);
    for seed in seeds("skew lines") {
        let mut random = Random::new(seed);
        for (n, number) in [(32, 0), (64, 13)] {
            let points = Shape::SkewLines.points(n, 1000, &mut random);
            let file = RimFile::plain(&points, 1, 1).bytes();
            let answer = compare_rim(&BY_INTERVALS, under_test(), &file, &tables);
            assert_eq!(answer.number, number);
        }
    }
}

/// Flat rims, and rims with a fifth vertex on a sphere, of many vertices.
#[test]
fn refused_and_flat_rims() {
    let tables = Tables::guarded(Places::BENCH);
    for seed in seeds("refused and flat rims") {
        let mut random = Random::new(seed);
        for n in [12, 24, 40] {
            let flat = Shape::Flat.points(n, 1000, &mut random);
            let small = lattice(n, 12, &mut random);
            for points in [flat, small] {
                let file = RimFile::varied(&points, [1, 1], &mut random).bytes();
                compare_finder(&BY_INTERVALS, under_test(), &file, &tables);
                compare_rim(&BY_INTERVALS, under_test(), &file, &tables);
            }
        }
    }
}
