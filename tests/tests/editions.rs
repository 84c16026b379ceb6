//! The edition of a file (rule 1.12): its first u16 alone tells it, and with it where all else is.

use outside_tests::calls::{Places, ReadAnswer, Tables};
use outside_tests::comparison::expect_number;
use outside_tests::library::each;
use outside_tests::normals;
use outside_tests::random::{seeds, Random};
use outside_tests::rims::{lattice, Edition, Record, RimFile, Shape};

/// Each reads so many vertices.
fn expect_vertices(file: &[u8], vertices: usize) {
    for calls in each() {
        let expected = ReadAnswer { number: 0, vertices };
        assert_eq!(calls.read_rim(file), expected, "{}, {} bytes", calls.name(), file.len());
    }
}

/// A chain of n among so many records of edition 2.
fn second(n: usize, records: usize) -> RimFile {
    let mut random = Random::new(n as u64);
    let points = Shape::Saddle.points(n, 900, &mut random);
    let mut file = RimFile::plain(&points, 1, 1).with_normals(&normals::on_all(n, &mut random));
    file.records.resize_with(records, || Record::anything(&mut random));
    file.declared = records as u16;
    file
}

fn set(bytes: &mut [u8], at: usize, number: u16) {
    bytes[at..at + 2].copy_from_slice(&number.to_le_bytes());
}

#[test]
fn shorter_than_a_header() {
    for length in 0..10 {
        for filling in [0, 1, 0xff] {
            let mut bytes = vec![filling; length];
            bytes.iter_mut().take(2).for_each(|byte| *byte = 0xff);
            expect_number(&bytes, 1, &(length, filling));
        }
    }
}

/// A header alone: no records, an empty chain.
#[test]
fn no_records() {
    let header = |first: u16| RimFile { first, ..second(0, 0) }.bytes();
    assert_eq!(header(0).len(), 10);
    expect_number(&header(0), 10, &"empty chain");
    expect_number(&header(1), 3, &"a first record that there is not");
    expect_number(&header(0xffff), 3, &"the mark twice");
}

/// A count is right with its own length alone; the lengths of edition 1 are wrong here.
#[test]
fn wrong_lengths() {
    for records in [0, 1, 3, 5, 6, 13, 255, 256] {
        let file = second(records.min(3), records).bytes();
        assert_eq!(file.len(), 10 + 22 * records);
        let right = file.len();
        let first = 8 + 16 * records;
        for length in [first, first + 2, right - 2, right - 1, right + 1, right + 2, right + 22] {
            let mut wrong = file.clone();
            wrong.resize(length, 0);
            if length != right {
                expect_number(&wrong, 1, &(records, length));
            }
        }
    }
}

#[test]
fn most_records() {
    let file = second(5, 256).bytes();
    assert_eq!(file.len(), 5642);
    expect_vertices(&file, 5);
    expect_vertices(&second(64, 256).bytes(), 64);
    expect_number(&second(5, 257).bytes(), 1, &257);
    for declared in [258, 0x1ff, 0x100 + 0x8000, 0xffff] {
        let mut wrong = second(5, 256);
        wrong.declared = declared;
        expect_number(&wrong.bytes(), 1, &declared);
    }
}

/// The lengths that fit a count in each edition: 8 + 16 · (7 + 11 k) is 10 + 22 · (5 + 8 k). Where
/// the bytes of both counts fit, the count of edition 1 is the first record of edition 2, which is
/// too high: 3, and 2 before it, where edition 1 sees only a bend factor.
#[test]
fn lengths_of_both_editions() {
    for k in 0..23 {
        let (ones, twos) = (7 + 11 * k, 5 + 8 * k);
        let vertices = [ones.min(64), twos.min(64)];
        let points = Shape::Saddle.points(vertices[0], 900, &mut Random::new(k as u64));
        let mut file = RimFile::plain(&points, 5, 1);
        file.records.resize(ones, file.records[0]);
        file.declared = ones as u16;
        let mut one = file.bytes();
        expect_vertices(&one, vertices[0]);
        let two = second(vertices[1], twos).bytes();
        expect_vertices(&two, vertices[1]);
        assert_eq!(one.len(), two.len());

        set(&mut one, 4, twos as u16);
        set(&mut one, 6, 17);
        let area_factor = if twos > 16 { 2 } else { 0 };
        for calls in each() {
            assert_eq!(calls.read_rim(&one).number, area_factor, "edition 1, {k}");
        }
        set(&mut one, 0, 0xffff);
        expect_number(&one, 2, &k);
        set(&mut one, 6, 16);
        expect_number(&one, 3, &k);
    }
}

/// Any other first u16 is the link of edition 1, here one that leads too far.
#[test]
fn marks_that_are_none() {
    for first in [0xfffe, 0xff00, 0x00ff, 0x7fff, 0xfeff] {
        let mut file = RimFile { edition: Edition::First, first, ..second(5, 5) };
        expect_number(&file.bytes(), 3, &first);
        file.area_factor = 17;
        expect_number(&file.bytes(), 2, &first);
        let mut marked = second(5, 5).bytes();
        set(&mut marked, 0, first);
        expect_number(&marked, 1, &first);
    }
}

/// The numbers of the header stand two bytes on, and keep their meaning.
#[test]
fn header_of_edition_2() {
    let mut file = second(5, 9);
    file.bend_factor = 0xffff;
    for (area_factor, number) in [(0, 0), (16, 0), (17, 2), (0xffff, 2)] {
        file.area_factor = area_factor;
        for calls in each() {
            assert_eq!(calls.read_rim(&file.bytes()).number, number, "{}", calls.name());
        }
    }
    for (first, number) in [(0, 10), (10, 3), (0xffff, 3)] {
        let file = RimFile { first, area_factor: 1, ..file.clone() };
        expect_number(&file.bytes(), number, &first);
    }
    let bytes = file.bytes();
    assert_eq!(bytes[..10], [255, 255, 1, 0, 9, 0, 255, 255, 255, 255]);
}

/// Three zeros are no surface: all is as in edition 1, whatever the spare records hold.
#[test]
fn zero_normals_change_nothing() {
    let before = Tables::guarded(Places::BENCH);
    for seed in seeds("zero normals") {
        let mut random = Random::new(seed);
        for _ in 0..1_000 {
            let n = random.between(3, 9) as usize;
            let size = random.one_of(&[5, 100, 1000]);
            let points = match random.below(4) {
                0 => lattice(n, 3, &mut random),
                _ => random.one_of(&Shape::ALL).points(n, size, &mut random),
            };
            let factors = [random.below(17) as u16, random.one_of(&[0, 1, 40, 65_535])];
            let file = RimFile::varied(&points, factors, &mut random);
            let two = file.clone().with_normals(&vec![normals::NONE; n]).bytes();
            let one = RimFile { edition: Edition::First, ..file }.bytes();
            for calls in each() {
                let mut left = [before.clone(), before.clone()];
                let answers = [&one, &two].map(|file| calls.read_rim(file));
                assert_eq!(answers[0], answers[1], "{}, {points:?}", calls.name());
                let patched = calls.patch_rim(&one, &mut left[0]);
                assert_eq!(calls.patch_rim(&two, &mut left[1]), patched, "{points:?}");
                assert_eq!(left[0].difference(&left[1]), None, "{}, {points:?}", calls.name());
                assert_eq!(calls.sizes(&one), calls.sizes(&two), "{points:?}");
            }
        }
    }
}
