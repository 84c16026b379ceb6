//! Files of both editions with something wrong: every number 1 to 11 and 18 alone and in pairs, cut
//! files, random bytes, flipped bits.

use outside_tests::calls::{Places, Tables};
use outside_tests::comparison::{
    compare_conversion, compare_finder, compare_reader, compare_rim, expect_number,
};
use outside_tests::damage::{self, damaged, number_due, random_records, undamaged, Damage};
use outside_tests::law::reader::LARGEST_LIMIT;
use outside_tests::law::BY_SETS;
use outside_tests::library::under_test;
use outside_tests::random::{seeds, Random};
use outside_tests::rims::{Edition, Record, RimFile, Shape};
use std::collections::BTreeSet;

fn tables() -> Tables {
    Tables::guarded(Places { triangles: 6, candidates: 30, weights: 30, rows: 60, work: 30 })
}

/// The number of the conversion, with places enough for either edition.
fn number_of_conversion(file: &[u8]) -> u32 {
    compare_conversion(&BY_SETS, under_test(), file, 2 * file.len()).number
}

fn expect(file: &RimFile, number: u32, case: &dyn std::fmt::Debug) {
    expect_number(&file.bytes(), number, case);
}

#[test]
fn undamaged_files_are_patched() {
    for edition in Edition::BOTH {
        for seed in 0..20 {
            let file = undamaged(edition, seed).bytes();
            assert_eq!(compare_rim(&BY_SETS, under_test(), &file, &tables()).number, 0);
        }
    }
}

#[test]
fn every_number_alone() {
    for (edition, damage) in damage::each_alone() {
        expect(&damaged(edition, 3, &[damage]), damage.number(), &(edition, damage));
    }
}

fn pairs_in(edition: Edition, numbers: &[u32]) {
    let mut pairs = BTreeSet::new();
    for pair in damage::each_pair(edition) {
        let file = damaged(edition, 4, &pair);
        expect(&file, number_due(&pair, LARGEST_LIMIT), &(edition, pair));
        pairs.insert(pair.map(Damage::number));
    }
    let missing = numbers.iter().flat_map(|&one| numbers.iter().map(move |&two| [one, two]));
    let missing: Vec<_> = missing.filter(|pair| !pairs.contains(pair)).collect();
    assert!(missing.iter().all(|[one, two]| one == two), "not tested: {missing:?}");
}

#[test]
fn every_number_in_pairs() {
    pairs_in(Edition::First, &[1, 2, 3, 4, 5, 6, 7, 8, 9, 10, 11]);
    pairs_in(Edition::Second, &[1, 2, 3, 4, 5, 6, 7, 8, 9, 18, 10, 11]);
}

/// 3, 4 and 5 on the link that leaves the 64th record, whatever the record it leads to holds.
#[test]
fn links_of_the_64th_record() {
    let points: Vec<[i64; 3]> = (0..70).map(|k| [k, -k, k * k % 50]).collect();
    let links = [(71, 3), (0xffff, 3), (1, 4), (63, 4), (64, 4), (65, 5), (70, 5)];
    let broken = Record { next: 9, kind: 9, bits: [f32::NAN.to_bits(); 3], normal: [i16::MIN; 3] };
    for edition in Edition::BOTH {
        for (next, number) in links {
            let mut file = RimFile::plain(&points, 1, 1);
            file.edition = edition;
            file.records[63].next = next;
            expect(&file, number, &(edition, next));
            file.records[64..].fill(broken);
            expect(&file, number, &(edition, next));
        }
    }
}

#[test]
fn truncations_and_extensions() {
    let mut random = Random::new(7);
    for (n, edition) in [3, 4, 5, 8].iter().flat_map(|&n| Edition::BOTH.map(|e| (n, e))) {
        let points = Shape::Saddle.points(n, 300, &mut random);
        let file = RimFile::varied(&points, [1, 1], &mut random);
        let bytes = file.in_edition(edition, points.len(), &mut random).bytes();
        for length in 0..bytes.len() {
            let answer = compare_rim(&BY_SETS, under_test(), &bytes[..length], &tables());
            assert_eq!(answer.number, 1, "{length} of {}", bytes.len());
        }
        for more in 1..40 {
            let longer = [&bytes[..], &vec![0; more]].concat();
            assert_eq!(compare_reader(&BY_SETS, under_test(), &longer), 1);
        }
    }
}

#[test]
fn every_bit_flipped() {
    for seed in seeds("every bit flipped") {
        let mut random = Random::new(seed);
        for _ in 0..6 {
            let n = random.between(3, 6) as usize;
            let shape = random.one_of(&[Shape::NoisyCircle, Shape::Flat, Shape::Spiral]);
            let size = random.one_of(&[20, 900]);
            let points = shape.points(n, size, &mut random);
            let bytes = RimFile::varied(&points, [1, 1], &mut random).bytes();
            for bit in 0..8 * bytes.len() {
                let mut flipped = bytes.clone();
                flipped[bit / 8] ^= 1 << (bit % 8);
                compare_rim(&BY_SETS, under_test(), &flipped, &tables());
                compare_finder(&BY_SETS, under_test(), &flipped, &tables());
                number_of_conversion(&flipped);
            }
        }
    }
}

#[test]
fn several_bytes_changed() {
    for seed in seeds("several bytes changed") {
        let mut random = Random::new(seed);
        for _ in 0..10_000 {
            let n = random.between(3, 7) as usize;
            let points = Shape::Scattered.points(n, 900, &mut random);
            let mut bytes = RimFile::varied(&points, [1, 1], &mut random).bytes();
            for _ in 0..random.between(2, 5) {
                let at = random.below(bytes.len());
                bytes[at] = match random.below(3) {
                    0 => random.next_u64() as u8,
                    1 => random.one_of(&bytes),
                    _ => bytes[at] ^ 1 << random.below(8),
                };
            }
            compare_rim(&BY_SETS, under_test(), &bytes, &tables());
            number_of_conversion(&bytes);
        }
    }
}

/// Bytes of any kind, and files whose header is right for their length but whose records are not.
#[test]
fn random_bytes() {
    for seed in seeds("random bytes") {
        let mut random = Random::new(seed);
        let mut numbers = [0; 19];
        for _ in 0..30_000 {
            let bytes = match random.below(4) {
                0 => (0..random.below(60)).map(|_| random.next_u64() as u8).collect(),
                _ => random_records(random_count(&mut random), &mut random).bytes(),
            };
            let number = compare_reader(&BY_SETS, under_test(), &bytes);
            numbers[number as usize] += 1;
            let converted = number_of_conversion(&bytes);
            assert!(converted == number || number == 0 && converted == 19, "{number} {converted}");
            if bytes.len() < 200 {
                compare_rim(&BY_SETS, under_test(), &bytes, &tables());
            }
        }
        let met = |number: &usize| numbers[*number] > 20;
        let expected = [1, 2, 3, 4, 5, 6, 7, 8, 9, 18, 10, 11];
        assert!(expected.iter().all(met), "{numbers:?}");
    }
}

/// Few records, or now and then about as many as the longest chain has.
fn random_count(random: &mut Random) -> usize {
    let long = random.once_in(10);
    (if long { random.between(64, 80) } else { random.between(0, 8) }) as usize
}
