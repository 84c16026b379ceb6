//! The sizing call: what it says is what the one call needs, no less and no more.

use outside_tests::calls::{Places, Tables};
use outside_tests::comparison::{compare_rim, compare_sizes};
use outside_tests::damage;
use outside_tests::law::{BY_INTERVALS, BY_SETS};
use outside_tests::library::under_test;
use outside_tests::random::{seeds, Random};
use outside_tests::rims::{lattice, Edition, RimFile, Shape, FIVE_CORNERS};

/// By the reference and by what is under test.
fn sizes(file: &[u8]) -> Result<Places, u32> {
    compare_sizes(&BY_SETS, under_test(), file)
}

fn number(file: &[u8], places: Places) -> u32 {
    compare_rim(&BY_INTERVALS, under_test(), file, &Tables::guarded(places)).number
}

/// Each place less is one too few.
fn check_fit(file: &[u8], sizes: Places) {
    assert_eq!(number(file, sizes), 0);
    let Places { triangles, candidates, weights, rows, work } = sizes;
    assert_eq!(number(file, Places { triangles: triangles - 1, ..sizes }), 13);
    if candidates > 0 {
        assert_eq!(number(file, Places { candidates: candidates - 1, ..sizes }), 13);
        assert_eq!(number(file, Places { weights: weights - 1, ..sizes }), 13);
        assert_eq!(number(file, Places { work: work - 1, ..sizes }), 13);
    }
    if rows > 0 {
        assert_eq!(number(file, Places { rows: rows - 1, ..sizes }), 13);
    }
}

#[test]
fn rims_of_every_shape() {
    for seed in seeds("sizes of rims") {
        let mut random = Random::new(seed);
        for case in 0..400 {
            let n = random.between(3, 12) as usize;
            let points = match case % 11 {
                10 => lattice(n, 3, &mut random),
                shape => Shape::ALL[shape].points(n, 1000, &mut random),
            };
            let file = RimFile::varied(&points, [1, 3], &mut random).bytes();
            if let Ok(sizes) = sizes(&file) {
                check_fit(&file, sizes);
            }
        }
    }
}

#[test]
fn rims_of_64() {
    let mut random = Random::new(5);
    for shape in Shape::GENERAL {
        let points = shape.points(64, 1000, &mut random);
        for edition in Edition::BOTH {
            let file = RimFile::plain(&points, 1, 1).in_edition(edition, points.len(), &mut random);
            let file = file.bytes();
            if let Ok(sizes) = sizes(&file) {
                assert_eq!(sizes.triangles, 62);
                assert_eq!(number(&file, sizes), 0, "{shape:?}");
            }
        }
    }
}

#[test]
fn refused_files() {
    let mut random = Random::new(4);
    for edition in Edition::BOTH {
        for damage in damage::all(edition) {
            let points = Shape::NoisyCircle.points(6, 500, &mut random);
            let file = RimFile::plain(&points, 1, 1);
            let mut file = file.in_edition(edition, points.len(), &mut random);
            damage.apply(&mut file);
            assert_eq!(sizes(&file.bytes()), Err(damage.number()));
        }
        let cube = RimFile::plain(&FIVE_CORNERS, 1, 1);
        let cube = cube.in_edition(edition, 5, &mut random);
        assert_eq!(sizes(&cube.bytes()), Err(12));
    }
}

/// The places that patch_box.h states for every rim: triples of vertices, and two rows for a four.
#[test]
fn places_for_every_rim() {
    let most = Places {
        triangles: 62,
        candidates: 41_664,
        weights: 41_664,
        rows: 1_270_752,
        work: 41_664,
    };
    let mut random = Random::new(6);
    for shape in [Shape::SkewLines, Shape::Scattered] {
        let file = RimFile::plain(&shape.points(64, 1000, &mut random), 1, 1).bytes();
        let sizes = sizes(&file).expect("accepted");
        assert!(sizes.candidates <= most.candidates && sizes.rows <= most.rows);
        assert_eq!(number(&file, most), 0, "{shape:?}");
    }
}
