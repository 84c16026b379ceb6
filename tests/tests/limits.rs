//! The limit that a call is asked for, from 3 to 64: numbers 20 (rule 4.20) and 14 (rule 4.14), the
//! trim program with its limit of 24 (rule 5.9), and one answer under every limit that a rim fits
//! into (rule 3.11).

use outside_tests::calls::{Calls, Places, ReadAnswer, Tables};
use outside_tests::comparison::{
    compare_calls, compare_finder, compare_reader, compare_rim, compare_sizes, expect_number,
    expect_number_within,
};
use outside_tests::damage::{
    self, damaged, number_due, random_records, undamaged, Damage, ABOVE_125, NAN,
};
use outside_tests::law::program::TRIM_LIMIT;
use outside_tests::law::reader::LARGEST_LIMIT;
use outside_tests::law::{BY_INTERVALS, BY_SETS};
use outside_tests::library::{each_within, under_test};
use outside_tests::programs::{BENCH, TRIM};
use outside_tests::random::{seeds, Random};
use outside_tests::rims::{lattice, Edition, RimFile, Shape, FIVE_CORNERS};
use std::fmt::Debug;

/// The limits of the two programs.
const BOTH: [usize; 2] = [TRIM_LIMIT, LARGEST_LIMIT];

/// A chain of n records in order, with a normal on every edge in edition 2.
fn chain(n: usize, edition: Edition) -> RimFile {
    let mut random = Random::new(n as u64);
    let points = Shape::Saddle.points(n, 900, &mut random);
    RimFile::plain(&points, 1, 1).in_edition(edition, n, &mut random)
}

/// The number of a record past the limit.
fn past(limit: usize) -> u32 {
    match limit {
        LARGEST_LIMIT => 5,
        _ => 20,
    }
}

/// The numbers due under the limits 24 and 64, for every call and for the programs; 0 where the file
/// is taken, with the answer of the law.
fn expect(file: &RimFile, numbers: [u32; 2], case: &dyn Debug) {
    let file = file.bytes();
    for ((limit, program), number) in BOTH.into_iter().zip([TRIM, BENCH]).zip(numbers) {
        if number == 0 {
            program.compare(&file);
            expect_taken(limit, &file, case);
        } else {
            program.expect_refusal(&file, number);
            expect_number_within(limit, &file, number, case);
        }
    }
    if numbers[1] != 0 {
        expect_number(&file, numbers[1], case);
    }
}

fn expect_taken(limit: usize, file: &[u8], case: &dyn Debug) {
    let [law, tested] = [BY_INTERVALS.within(limit), under_test().within(limit)];
    let answer = compare_calls(&*law, &*tested, file, &Tables::guarded(Places::BENCH));
    assert_eq!(answer.number, 0, "within {limit}, {case:?}");
}

#[test]
fn lengths_of_chains() {
    for edition in Edition::BOTH {
        for (n, numbers) in [
            (3, [0, 0]),
            (23, [0, 0]),
            (24, [0, 0]),
            (25, [20, 0]),
            (63, [20, 0]),
            (64, [20, 0]),
            (65, [20, 5]),
            (256, [20, 5]),
        ] {
            expect(&chain(n, edition), numbers, &(edition, n));
        }
    }
}

/// The link that leaves a record next to a limit, in a file of 70: back, past the last record, or to
/// one more. 3 and 4 come before 20.
#[test]
fn links_next_to_the_limit() {
    let links = [
        (23, 23, [4, 4]),
        (24, 24, [4, 4]),
        (24, 23, [4, 4]),
        (24, 1, [4, 4]),
        (24, 71, [3, 3]),
        (24, 0xffff, [3, 3]),
        (24, 25, [20, 5]),
        (24, 70, [20, 0]),
        (25, 25, [20, 4]),
        (25, 71, [20, 3]),
        (64, 64, [20, 4]),
        (64, 63, [20, 4]),
        (64, 1, [20, 4]),
        (64, 71, [20, 3]),
        (64, 0xffff, [20, 3]),
        (64, 70, [20, 5]),
    ];
    for edition in Edition::BOTH {
        for (record, next, numbers) in links {
            let mut file = chain(70, edition);
            file.records[record - 1].next = next;
            expect(&file, numbers, &(edition, record, next));
        }
    }
}

/// What can be wrong with the record at a position.
fn wrong_records(position: usize, edition: Edition) -> Vec<Damage> {
    let normal = (edition == Edition::Second).then_some(Damage::Normal(position, 0, 1001));
    let others = [
        Damage::Kind(position, 3),
        Damage::NotFinite(position, 1, NAN),
        Damage::Tail(position, 1),
        Damage::OutOfRange(position, 2, ABOVE_125),
    ];
    others.into_iter().chain(normal).collect()
}

/// A record past the limit is not looked at: 20 comes before its 6, 8, 9 and 18, and after those of
/// the records within the limit.
#[test]
fn records_next_to_the_limit() {
    for edition in Edition::BOTH {
        for position in [1, 23, 24, 25, 63, 64] {
            for damage in wrong_records(position, edition) {
                let mut file = chain(70, edition);
                damage.apply(&mut file);
                let number =
                    |limit: usize| if position < limit { damage.number() } else { past(limit) };
                expect(&file, BOTH.map(number), &(edition, damage));
            }
        }
        let mut file = chain(70, edition);
        Damage::NoHeight.apply(&mut file);
        expect(&file, [7, 7], &edition);
    }
}

/// 20 comes before what is asked of the whole chain: 11, and 10 of a chain that never ends so early.
#[test]
fn numbers_after_the_chain() {
    for edition in Edition::BOTH {
        for (n, same, numbers) in
            [(24, (0, 1), [11, 11]), (25, (0, 1), [20, 11]), (25, (3, 24), [20, 11])]
        {
            let mut file = chain(n, edition);
            Damage::SamePoint(same.0, same.1).apply(&mut file);
            expect(&file, numbers, &(edition, n, same));
        }
        for end in 0..3 {
            let mut file = chain(25, edition);
            Damage::TooFew(end).apply(&mut file);
            expect(&file, [10, 10], &(edition, end));
        }
        let cube = RimFile::plain(&FIVE_CORNERS, 1, 1);
        let cube = cube.in_edition(edition, 5, &mut Random::new(5)).bytes();
        for limit in 3..=LARGEST_LIMIT {
            let [law, tested] = [BY_SETS.within(limit), under_test().within(limit)];
            let answer = compare_calls(&*law, &*tested, &cube, &Tables::guarded(Places::BENCH));
            assert_eq!(answer.number, if limit < 5 { 20 } else { 12 }, "within {limit}");
        }
    }
}

/// Chains of any length by each, with every limit.
#[test]
fn every_limit() {
    for edition in Edition::BOTH {
        for n in [0, 1, 2, 3, 4, 5, 8, 23, 24, 25, 26, 63, 64, 65, 70] {
            let file = chain(n, edition).bytes();
            for limit in (0..=70).chain([usize::MAX]) {
                let case = (edition, n, limit);
                match limit {
                    ..3 | 65.. => expect_number_within(limit, &file, 14, &case),
                    _ if limit < n => expect_number_within(limit, &file, past(limit), &case),
                    _ if n < 3 => expect_number_within(limit, &file, 10, &case),
                    _ => expect_vertices(limit, &file, n),
                }
            }
        }
    }
}

/// Each reads so many vertices, and closes the rim alike: short ones as the law does too.
fn expect_vertices(limit: usize, file: &[u8], vertices: usize) {
    let [law, fast, tested] = each_within(limit);
    for calls in [&law, &fast, &tested] {
        assert_eq!(calls.read_rim(file), ReadAnswer { number: 0, vertices }, "{}", calls.name());
    }
    let tables = Tables::guarded(Places::BENCH);
    compare_calls(&*fast, &*tested, file, &tables);
    if vertices <= 8 {
        compare_calls(&*law, &*tested, file, &tables);
    }
}

/// 14 comes before every other number: next to the range, for a limit with high bits, for the last one.
#[test]
fn limits_out_of_range() {
    let limits =
        [0, 1, 2, 65, 70, 256 + 24, 65_536 + 24, (1 << 32) + 24, (1 << 63) + 64, usize::MAX];
    for limit in limits {
        for (edition, damage) in damage::each_alone() {
            let file = damaged(edition, 6, &[damage]).bytes();
            expect_number_within(limit, &file, 14, &(edition, damage));
        }
        for edition in Edition::BOTH {
            for file in [undamaged(edition, 6), chain(24, edition), chain(65, edition)] {
                expect_number_within(limit, &file.bytes(), 14, &(edition, file.declared));
            }
        }
        expect_number_within(limit, &[], 14, &"no bytes");
    }
}

/// A file of six records is too long for the smallest limits by itself.
#[test]
fn damaged_files_within_limits() {
    for limit in 3..=LARGEST_LIMIT {
        for (edition, damage) in damage::each_alone() {
            let file = damaged(edition, 7, &[damage]).bytes();
            expect_number_within(limit, &file, number_due(&[damage], limit), &(edition, damage));
        }
    }
    for limit in [3, 5, 6, TRIM_LIMIT, 63] {
        for edition in Edition::BOTH {
            for pair in damage::each_pair(edition) {
                let file = damaged(edition, 8, &pair).bytes();
                expect_number_within(limit, &file, number_due(&pair, limit), &(edition, pair));
            }
        }
    }
}

/// Files of about as many records as the limit, with something wrong now and then.
#[test]
fn random_records_within_limits() {
    for seed in seeds("random records within limits") {
        let mut random = Random::new(seed);
        let mut numbers = [0; 21];
        for _ in 0..20_000 {
            let any = random.between(0, 70);
            let limit = random.one_of(&[any, TRIM_LIMIT as i64, LARGEST_LIMIT as i64]);
            let count = (limit + random.between(-3, 5)).max(0) as usize;
            let file = random_records(count, &mut random).bytes();
            let [law, fast, tested] = each_within(limit as usize);
            compare_reader(&*law, &*fast, &file);
            numbers[compare_reader(&*law, &*tested, &file) as usize] += 1;
        }
        let met = |number: &usize| numbers[*number] > 20;
        let expected = [0, 2, 3, 4, 5, 6, 7, 8, 9, 10, 11, 14, 18, 20];
        assert!(expected.iter().all(met), "{numbers:?}");
    }
}

/// A rim of 3 to 24 vertices: records in any order between spare ones, level points, normals.
fn any_rim(random: &mut Random) -> Vec<u8> {
    let n = random.between(3, TRIM_LIMIT as i64) as usize;
    let size = random.one_of(&[5, 100, 1000]);
    let points = match random.below(8) {
        0 => lattice(n, 6, random),
        1 => random.one_of(&Shape::ALL).points(n, size, random),
        _ => random.one_of(&Shape::GENERAL).points(n, size, random),
    };
    let factors = [random.below(17) as u16, random.one_of(&[0, 1, 40, 65_535])];
    RimFile::varied(&points, factors, random).bytes()
}

/// A rim that fits has the answer and the tables of the calls without a limit, and the programs print
/// the same for it.
#[test]
fn one_answer_under_every_limit() {
    let tables = Tables::guarded(Places::BENCH);
    let mut patches = 0;
    for seed in seeds("one answer under every limit") {
        let mut random = Random::new(seed);
        for _ in 0..1_000 {
            let file = any_rim(&mut random);
            let answer = compare_rim(&BY_INTERVALS, under_test(), &file, &tables);
            patches += (answer.triangles > 0) as usize;
            let vertices = BY_SETS.read_rim(&file).vertices;
            let lowest = if vertices == 0 { TRIM_LIMIT } else { vertices };
            let any = random.between(lowest as i64, LARGEST_LIMIT as i64) as usize;
            for limit in [lowest, lowest + 1, TRIM_LIMIT, any, 63, LARGEST_LIMIT] {
                compare_calls(under_test(), &*under_test().within(limit), &file, &tables);
            }
            assert_eq!(BENCH.compare(&file), TRIM.compare(&file));
        }
    }
    assert!(patches > 800, "{patches} patches");
}

/// A rim of 24 with the limit 24: each table at every length, the others at just enough.
#[test]
fn tables_of_a_rim_of_24() {
    let [law, fast, tested] = each_within(TRIM_LIMIT);
    for edition in Edition::BOTH {
        let file = chain(TRIM_LIMIT, edition).bytes();
        let need = compare_sizes(&*law, &*tested, &file).expect("accepted");
        let Places { triangles, candidates, weights, rows, work } = need;
        for length in 0..=rows.max(candidates) + 1 {
            for (places, needed, of_finder) in [
                (Places { triangles: length, ..need }, triangles, false),
                (Places { candidates: length, ..need }, candidates, true),
                (Places { weights: length, ..need }, weights, true),
                (Places { rows: length, ..need }, rows, true),
                (Places { work: length, ..need }, work, false),
            ] {
                let tables = Tables::guarded(places);
                let number = if length < needed { 13 } else { 0 };
                let closed = compare_rim(&*fast, &*tested, &file, &tables).number;
                let found = compare_finder(&*fast, &*tested, &file, &tables).number;
                let of_found = if of_finder { number } else { 0 };
                assert_eq!([closed, found], [number, of_found], "{places:?} for {need:?}");
            }
        }
    }
}
