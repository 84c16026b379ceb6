//! The convert program, where CONVERT_PROGRAM names it: a rim file on its standard input, the file in
//! the other edition on its standard output.

use outside_tests::damage::{self, damaged, undamaged};
use outside_tests::programs::CONVERT;
use outside_tests::random::{seeds, Random};
use outside_tests::rims::{Edition, RimFile, Shape, FIVE_CORNERS, P};
use std::path::Path;

fn both_ways(one: RimFile) {
    let [one, two] = [one.bytes(), one.converted().bytes()];
    CONVERT.expect(&one, &two);
    CONVERT.expect(&two, &one);
}

/// Also a rim that has 12, which is not asked.
#[test]
fn rims_by_hand() {
    both_ways(RimFile::plain(&P, 1, 1));
    both_ways(RimFile::plain(&FIVE_CORNERS, 16, 65_535));
}

#[test]
fn rims_of_every_shape() {
    for seed in seeds("rims for the convert program") {
        let mut random = Random::new(seed);
        for shape in Shape::ALL {
            for n in [3, 4, 7, 12, 20, 64] {
                let points = shape.points(n, 1000, &mut random);
                let file = RimFile::varied(&points, [1, 3], &mut random);
                CONVERT.compare(&file.bytes());
                CONVERT.compare(&file.converted().bytes());
            }
        }
    }
}

/// A number of a normal, on the chain and in a spare record.
#[test]
fn normals() {
    for (number, due) in [(1, [19; 2]), (-1000, [19; 2]), (2000, [18, 19])] {
        for (k, due) in [2, 6].into_iter().zip(due) {
            let mut file = undamaged(Edition::First, 4).converted();
            file.records.push(file.records[0]);
            file.declared += 1;
            file.records[k].normal[1] = number;
            CONVERT.expect_refusal(&file.bytes(), due);
        }
    }
}

#[test]
fn damaged_files() {
    for (edition, damage) in damage::each_alone() {
        CONVERT.expect_refusal(&damaged(edition, 4, &[damage]).bytes(), damage.number());
    }
}

/// 256 records in either edition, and what is longer. With 1538 bytes more, a file of edition 1 has
/// the length of the longest one.
#[test]
fn longest_files() {
    let mut random = Random::new(5);
    let one = undamaged(Edition::First, 4).among_spare_records(250, &mut random);
    both_ways(one.clone());
    for file in [one.bytes(), one.converted().bytes()] {
        for more in [1, 2, 16, 22, 1538, 1539, 5_000_000] {
            CONVERT.expect_refusal(&[&file[..], &vec![0; more]].concat(), 1);
        }
    }
    CONVERT.expect_refusal(&vec![0xff; 5_000_000], 1);
}

#[test]
fn shorter_than_a_header() {
    for length in 0..8 {
        CONVERT.expect_refusal(&vec![0; length], 1);
    }
    for length in 0..10 {
        CONVERT.expect_refusal(&vec![0xff; length], 1);
    }
}

#[test]
fn examples() {
    let folder = Path::new(env!("CARGO_MANIFEST_DIR")).join("../examples");
    for entry in std::fs::read_dir(folder).expect("examples") {
        let path = entry.expect("a file").path();
        if path.extension().is_some_and(|extension| extension == "rim") {
            CONVERT.compare(&std::fs::read(path).expect("a rim file"));
        }
    }
}
