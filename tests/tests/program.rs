//! The bench program and the trim program (rules 5.3, 5.4 and 5.9), where BENCH_PROGRAM and
//! TRIM_PROGRAM name them: rim files on their standard input.

use outside_tests::damage::{self, damaged, number_due, undamaged};
use outside_tests::law::program::{bench, trim, TRIM_LIMIT};
use outside_tests::planes;
use outside_tests::programs::{BENCH, TRIM};
use outside_tests::random::{seeds, Random};
use outside_tests::rims::{lattice, Edition, Point, RimFile, Shape, FLAT, LINE, P, SQUARE};
use std::path::Path;

fn compare(file: &[u8]) {
    BENCH.compare(file);
    TRIM.compare(file);
}

/// Both print this.
fn expect(file: &[u8], text: &str) {
    BENCH.expect(file, text.as_bytes());
    TRIM.expect(file, text.as_bytes());
}

#[test]
fn rim_file_p() {
    let file = RimFile::plain(&P, 1, 1).bytes();
    expect(&file, "patch 4 2 943\n0 1 3 256 0\n1 2 3 373 314\n");
}

/// The fourth number is the whole own weight: 373 and twice 314 for the surfaces outside.
#[test]
fn rim_file_p_with_normals() {
    let file = RimFile::plain(&P, 1, 1).with_normals(&[[0, 0, 1]; 4]).bytes();
    expect(&file, "patch 4 2 1571\n0 1 3 256 0\n1 2 3 1001 314\n");
}

#[test]
fn flat_rims() {
    let file = |points: &[Point]| RimFile::plain(points, 1, 1).bytes();
    expect(&file(&FLAT), "patch 5 3 89600\n0 3 4 22800 0\n0 1 3 39600 0\n1 2 3 27200 0\n");
    expect(&file(&FLAT[..3]), "patch 3 1 25200\n0 1 2 25200 0\n");
    expect(&file(&SQUARE), "refused 12\n");
    expect(&file(&LINE), "none\n");
}

#[test]
fn rims_of_every_shape() {
    for seed in seeds("rims for the programs") {
        let mut random = Random::new(seed);
        for shape in Shape::ALL {
            for n in [3, 4, 7, 12, 20] {
                let points = shape.points(n, 1000, &mut random);
                compare(&RimFile::varied(&points, [1, 3], &mut random).bytes());
            }
        }
        for n in 4..9 {
            compare(&RimFile::plain(&lattice(n, 3, &mut random), 1, 1).bytes());
            compare(
                &RimFile::varied(&planes::any_rim(n, &mut random), [1, 3], &mut random).bytes(),
            );
        }
    }
}

/// Tables that are just enough or too short: 13 is the bench program's own. The trim program refuses
/// them before it looks for candidates.
#[test]
fn rims_of_64() {
    let mut random = Random::new(1);
    for shape in Shape::GENERAL {
        let points = shape.points(64, 1000, &mut random);
        for edition in Edition::BOTH {
            compare(
                &RimFile::plain(&points, 1, 1)
                    .in_edition(edition, points.len(), &mut random)
                    .bytes(),
            );
        }
    }
}

#[test]
fn damaged_files() {
    for (edition, damage) in damage::each_alone() {
        let file = damaged(edition, 4, &[damage]).bytes();
        BENCH.expect_refusal(&file, damage.number());
        TRIM.expect_refusal(&file, number_due(&[damage], TRIM_LIMIT));
    }
}

/// The part that fits into any buffer is no file of its own. With 187 records, a file of edition 2
/// is longer than any of edition 1.
#[test]
fn input_longer_than_any_file() {
    for edition in Edition::BOTH {
        let mut file = undamaged(edition, 4);
        let spare = file.records[0];
        for records in [6, 186, 187, 256] {
            file.records.resize(records, spare);
            file.declared = records as u16;
            for more in [0, 1, 2, 16, 22, 5_000_000] {
                let longer = [file.bytes(), vec![0; more]].concat();
                assert_eq!(bench(&longer) == "refused 1\n", more > 0, "{more} more bytes");
                compare(&longer);
            }
        }
        assert_eq!(file.bytes().len(), if edition == Edition::First { 4104 } else { 5642 });
    }
    for length in 0..11 {
        compare(&vec![0; length]);
        compare(&vec![0xff; length]);
    }
}

/// Each line of the table in examples/README.md: a rim file, and the first lines of both answers.
#[test]
fn examples() {
    let folder = Path::new(env!("CARGO_MANIFEST_DIR")).join("../examples");
    let readme = std::fs::read_to_string(folder.join("README.md")).expect("examples/README.md");
    let mut named = Vec::new();
    for line in readme.lines().filter(|line| line.contains(".rim |")) {
        let cells: Vec<&str> = line.split('|').map(str::trim).collect();
        if let [_, name, _, of_bench, of_trim, _] = cells[..] {
            let file = std::fs::read(folder.join(name)).expect(name);
            let of_trim = if of_trim == "the same" { of_bench } else { of_trim };
            for (answer, line) in [(bench(&file), of_bench), (trim(&file), of_trim)] {
                assert_eq!(answer.lines().next(), Some(line.trim_matches('`')), "{name}");
            }
            compare(&file);
            named.push(name.to_string());
        }
    }
    let there = std::fs::read_dir(folder).expect("examples");
    let names = there.map(|file| file.expect("a file").file_name().into_string().expect("UTF-8"));
    let mut rims: Vec<String> = names.filter(|name| name.ends_with(".rim")).collect();
    rims.sort();
    named.sort();
    assert_eq!(rims, named);
}
