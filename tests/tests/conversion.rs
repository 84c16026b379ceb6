//! Conversion between editions (rule 1.15): each byte of the converted file, the places that it needs,
//! number 19 (rule 4.19) and what comes before it (rule 4.35).

use outside_tests::calls::{Calls, ConvertAnswer, Lent, Places, Tables, MOST_BYTES};
use outside_tests::comparison::{compare_conversion, expect_no_conversion, hexadecimal};
use outside_tests::law::BY_SETS;
use outside_tests::library::{each, under_test};
use outside_tests::normals;
use outside_tests::random::{seeds, Random};
use outside_tests::rims::{lattice, Edition, Point, Record, RimFile, Shape, FIVE_CORNERS, P};

/// A file in edition 1 and in edition 2.
type Pair = [Vec<u8>; 2];

/// The bytes of both.
fn lengths(records: usize) -> [usize; 2] {
    [8 + 16 * records, 10 + 22 * records]
}

/// Where the normal of a record stands in edition 2; records count from 0 here.
fn normal_at(record: usize) -> usize {
    10 + 22 * record + 16
}

/// The file in both editions, with its records and without any normal.
fn pair(file: RimFile) -> Pair {
    let one = RimFile { edition: Edition::First, ..file };
    let files = [one.bytes(), one.clone().converted().bytes()];
    assert_eq!(files.each_ref().map(Vec::len), lengths(one.records.len()));
    files
}

/// A file of so many vertices, as a rule one that is read.
fn any_file(n: usize, random: &mut Random) -> RimFile {
    let size = random.one_of(&[5, 100, 1000]);
    let points = match random.below(4) {
        0 => lattice(n, 3, random),
        _ => random.one_of(&Shape::ALL).points(n, size, random),
    };
    let factors = [random.below(17) as u16, random.one_of(&[0, 1, 40, 65_535])];
    RimFile::varied(&points, factors, random)
}

fn is_read(file: &[u8]) -> bool {
    BY_SETS.read_rim(file).number == 0
}

/// Each converts the file to these bytes, and leaves the places after them as they were.
fn expect_converted(file: &[u8], edition: u32, expected: &[u8]) {
    let length = expected.len();
    for more in [0, 7] {
        let before = Lent::guarded(length + more);
        let mut filled = before.clone();
        filled.table()[..length].copy_from_slice(expected);
        for calls in each() {
            let mut left = before.clone();
            let answer = calls.convert(file, &mut left);
            let case = format!("{} on file {}", calls.name(), hexadecimal(file));
            assert_eq!(answer, ConvertAnswer { number: 0, edition, length }, "{case}");
            assert_eq!(left.difference(&filled), None, "{case}");
        }
    }
}

/// Each converts either file to the other, so that there and back is the file itself.
fn expect_both_ways([one, two]: &Pair) {
    expect_converted(one, 2, two);
    expect_converted(two, 1, one);
}

/// The file in the other edition, as one gives it.
fn converted(calls: &dyn Calls, file: &[u8]) -> Vec<u8> {
    let mut out = Lent::guarded(MOST_BYTES);
    let answer = calls.convert(file, &mut out);
    assert_eq!(answer.number, 0, "{} on file {}", calls.name(), hexadecimal(file));
    out.view()[..answer.length].to_vec()
}

#[test]
fn rim_file_p() {
    let files = pair(RimFile::plain(&P, 1, 1));
    assert_eq!(files[0][..8], [1, 0, 4, 0, 1, 0, 1, 0]);
    assert_eq!(files[1][..10], [255, 255, 1, 0, 4, 0, 1, 0, 1, 0]);
    let third = [4, 0, 1, 0, 0, 0, 128, 63, 0, 0, 128, 63, 0, 0, 64, 63];
    assert_eq!(files[0][40..56], third);
    assert_eq!(files[1][54..76], [&third[..], &[0; 6]].concat());
    expect_both_ways(&files);
}

/// Files of any kind. What the reader refuses is refused with its number.
#[test]
fn there_and_back() {
    for seed in seeds("there and back") {
        let mut random = Random::new(seed);
        for _ in 0..2_000 {
            let n = random.between(3, 12) as usize;
            let file = any_file(n, &mut random);
            let has_normals = file.records.iter().any(|record| record.normal != normals::NONE);
            let files = pair(file.clone());
            match BY_SETS.read_rim(&files[0]).number {
                0 => expect_both_ways(&files),
                due => files.iter().for_each(|f| expect_no_conversion(f, MOST_BYTES, due, &file)),
            }
            if is_read(&files[0]) && file.edition == Edition::Second && has_normals {
                expect_no_conversion(&file.bytes(), MOST_BYTES, 19, &file);
            }
        }
    }
}

/// Each record, spare or not, has its bytes where it had them, and nothing but zeros after them.
#[test]
fn records_stay_at_their_places() {
    for seed in seeds("records at their places") {
        let mut random = Random::new(seed);
        for spare in 0..200 {
            let n = random.between(3, 40) as usize;
            let points = Shape::Spiral.points(n, 1000, &mut random);
            let file = RimFile::plain(&points, 1, 1).among_spare_records(spare, &mut random);
            let one = file.bytes();
            for calls in each() {
                let two = converted(calls, &one);
                assert_eq!([one.len(), two.len()], lengths(n + spare));
                assert_eq!(two[..10], [&[255, 255], &one[..8]].concat());
                for (record, longer) in one[8..].chunks(16).zip(two[10..].chunks(22)) {
                    assert_eq!(longer, [record, &[0; 6]].concat());
                }
                assert_eq!(converted(calls, &two), one);
            }
        }
    }
}

/// The other calls make no difference between a file and the converted one.
fn expect_same_answers(calls: &dyn Calls, file: &[u8], tables: &Tables) {
    let files = [file, &converted(calls, file)];
    let case = format!("{} on file {}", calls.name(), hexadecimal(file));
    let [one, two] = files.map(|file| (calls.read_rim(file), calls.sizes(file)));
    assert_eq!(one, two, "{case}");
    let [one, two] = files.map(|file| {
        let mut left = [tables.clone(), tables.clone()];
        let found = calls.find_candidates(file, &mut left[0]);
        (found, calls.patch_rim(file, &mut left[1]), left)
    });
    assert_eq!((one.0, one.1), (two.0, two.1), "{case}");
    for (one, two) in one.2.iter().zip(&two.2) {
        assert_eq!(one.difference(two), None, "{case}");
    }
}

#[test]
fn converted_files_have_the_same_answers() {
    let tables = Tables::guarded(Places::BENCH);
    for seed in seeds("answers of converted files") {
        let mut random = Random::new(seed);
        for _ in 0..500 {
            let n = random.between(3, 9) as usize;
            let files = pair(any_file(n, &mut random));
            for file in files.iter().filter(|file| is_read(file)) {
                each().iter().for_each(|&calls| expect_same_answers(calls, file, &tables));
            }
        }
    }
}

#[test]
fn larger_files_have_the_same_answers() {
    let tables = Tables::guarded(Places::ENOUGH);
    for seed in seeds("answers of larger converted files") {
        let mut random = Random::new(seed);
        for (n, shape) in [10, 20, 40, 64].iter().flat_map(|&n| Shape::GENERAL.map(|s| (n, s))) {
            let points = shape.points(n, 1000, &mut random);
            let files = pair(RimFile::varied(&points, [1, 1], &mut random));
            for file in files.iter().filter(|file| is_read(file)) {
                expect_same_answers(under_test(), file, &tables);
            }
        }
    }
}

/// The file in both editions, and the second with one normal: the places that each conversion needs,
/// and its number where it has them.
fn conversions(file: RimFile, random: &mut Random) -> [(Vec<u8>, usize, u32); 3] {
    let records = file.records.len();
    let [one, two] = pair(file);
    let mut lossy = two.clone();
    lossy[normal_at(random.below(records))] = 1;
    let [down, up] = lengths(records);
    [(one, up, 0), (two, down, 0), (lossy, down, 19)]
}

/// 13 exactly where the table has fewer places than the converted file has bytes.
fn check_places(file: &[u8], needed: usize, number: u32, places: impl Iterator<Item = usize>) {
    for places in places {
        let answer = compare_conversion(&BY_SETS, under_test(), file, places);
        let expected = if places < needed { 13 } else { number };
        assert_eq!(answer.number, expected, "{places} places for {needed}");
    }
}

#[test]
fn tables_of_every_length() {
    let mut random = Random::new(9);
    let three = [[0, 0, 0], [9, 0, 0], [5, 7, 0]];
    let twelve = Shape::NoisyCircle.points(12, 900, &mut random);
    for (points, spare) in [(&three[..], 0), (&P, 0), (&P, 3), (&FIVE_CORNERS, 1), (&twelve, 9)] {
        let file = RimFile::plain(points, 2, 3).among_spare_records(spare, &mut random);
        for (file, needed, number) in conversions(file, &mut random) {
            check_places(&file, needed, number, 0..=needed + 40);
        }
    }
}

#[test]
fn tables_for_256_records() {
    let mut random = Random::new(10);
    let points = Shape::Saddle.points(40, 900, &mut random);
    let file = RimFile::plain(&points, 2, 3).among_spare_records(216, &mut random);
    for (file, needed, number) in conversions(file, &mut random) {
        let few = (0..=40).chain((64..needed).step_by(97));
        check_places(&file, needed, number, few.chain(needed - 40..=needed + 40));
    }
}

/// A chain of six between six spare records, in edition 2 and without any normal.
fn twelve_records() -> RimFile {
    let mut random = Random::new(11);
    let points = Shape::NoisyCircle.points(6, 500, &mut random);
    RimFile::plain(&points, 1, 1).among_spare_records(6, &mut random).converted()
}

/// The records of the chain.
fn chain(file: &RimFile) -> Vec<usize> {
    let mut chain = Vec::new();
    let mut link = file.first as usize;
    while link != 0 {
        chain.push(link - 1);
        link = file.records[link - 1].next as usize;
    }
    chain
}

/// Twelve records, with a normal in one or more of them: 18, where it is due, comes before 13, and 13
/// before 19.
fn expect_lossy(file: &[u8], is_18_due: bool, case: &dyn std::fmt::Debug) {
    let [needed, _] = lengths(12);
    for (places, number) in [(0, 13), (needed - 1, 13), (needed, 19), (MOST_BYTES, 19)] {
        expect_no_conversion(file, places, if is_18_due { 18 } else { number }, case);
    }
}

/// Each of the six bytes, alone, of each record. 18 is due on the chain alone.
#[test]
fn each_byte_of_each_normal() {
    let file = twelve_records();
    let chain = chain(&file);
    for (k, byte) in (0..12).flat_map(|k| (0..6).map(move |byte| (k, byte))) {
        for value in [1, 3, 4, 0x7f, 0x80, 0xff] {
            let mut lossy = file.bytes();
            lossy[normal_at(k) + byte] = value;
            let number = i16::from_le_bytes(if byte % 2 == 0 { [value, 0] } else { [0, value] });
            let is_18_due = chain.contains(&k) && !(-1000..=1000).contains(&number);
            expect_lossy(&lossy, is_18_due, &(k, byte, value));
        }
    }
}

#[test]
fn each_number_of_each_normal() {
    let file = twelve_records();
    let chain = chain(&file);
    for (k, axis) in (0..12).flat_map(|k| (0..3).map(move |axis| (k, axis))) {
        for (number, out_of_range) in [
            (1, false),
            (-1, false),
            (256, false),
            (-1000, false),
            (1000, false),
            (1001, true),
            (2000, true),
            (i16::MIN, true),
        ] {
            let mut lossy = file.clone();
            lossy.records[k].normal[axis] = number;
            let is_18_due = out_of_range && chain.contains(&k);
            expect_lossy(&lossy.bytes(), is_18_due, &(k, axis, number));
        }
    }
}

/// 18 on the chain comes before 19, wherever the two records stand.
#[test]
fn number_18_before_19() {
    let file = twelve_records();
    for (k, other) in chain(&file).iter().flat_map(|&k| (0..12).map(move |other| (k, other))) {
        let mut lossy = file.clone();
        lossy.records[other].normal = [0, 1, 0];
        expect_lossy(&lossy.bytes(), false, &other);
        lossy.records[k].normal = [0, 0, 2000];
        expect_lossy(&lossy.bytes(), true, &(k, other));
    }
}

/// A normal in every record, in the spare ones alone, in none.
#[test]
fn many_normals() {
    let mut file = twelve_records();
    file.records.iter_mut().for_each(|record| record.normal = [1000, -1000, 1]);
    expect_lossy(&file.bytes(), false, &"every record");
    let mut file = file.with_normals(&[normals::NONE; 6]);
    expect_lossy(&file.bytes(), false, &"spare records");
    file.records.iter_mut().for_each(|record| record.normal = normals::NONE);
    expect_both_ways(&[file.clone().converted().bytes(), file.bytes()]);
}

/// Edition 1 has no normal to lose, whatever stands where edition 2 would have one.
#[test]
fn never_19_in_edition_1() {
    let spare = Record { next: 0xffff, kind: 0xffff, bits: [u32::MAX; 3], normal: [-1; 3] };
    for records in 3..40 {
        let mut file = RimFile::plain(&[[1, 2, 3], [-4, 5, -6], [-7, -8, -9]], 16, 0xffff);
        file.records.resize(records, spare);
        file.declared = records as u16;
        expect_both_ways(&pair(file));
    }
}

/// The finder's number is not asked.
#[test]
fn never_12() {
    let files = pair(RimFile::plain(&FIVE_CORNERS, 1, 1));
    for calls in each() {
        assert_eq!(files.each_ref().map(|file| calls.sizes(file)), [Err(12); 2]);
    }
    expect_both_ways(&files);
}

/// The longest chain, and one that is a record too long, in files up to the longest.
#[test]
fn longest_chains() {
    let mut random = Random::new(12);
    let points: Vec<Point> = (0..65).map(|k| [k, -k, k * k % 50]).collect();
    for n in [64, 65] {
        for spare in [0, 1, 100, 256 - n] {
            let file = RimFile::plain(&points[..n], 1, 1).among_spare_records(spare, &mut random);
            let files = pair(file);
            match n {
                64 => expect_both_ways(&files),
                _ => files.iter().for_each(|file| expect_no_conversion(file, 0, 5, &spare)),
            }
        }
    }
}

/// 120 bytes are seven records of edition 1 and five of edition 2: the first u16 alone decides.
#[test]
fn length_of_both_editions() {
    let mut random = Random::new(13);
    let points = Shape::Saddle.points(7, 900, &mut random);
    for n in [3, 4, 5] {
        let mut records = |spare: usize| {
            pair(RimFile::plain(&points[..n], 5, 1).among_spare_records(spare, &mut random))
        };
        let [seven, five] = [records(7 - n), records(5 - n)];
        assert_eq!([seven[0].len(), five[1].len()], [120; 2]);
        expect_both_ways(&seven);
        expect_both_ways(&five);
    }
}
