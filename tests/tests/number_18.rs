//! Number 18 (rule 4.18) and its place: after 9 of its record, before the link to the next one.

use outside_tests::comparison::expect_number;
use outside_tests::damage::{Damage, ABOVE_125, NAN};
use outside_tests::library::each;
use outside_tests::random::Random;
use outside_tests::rims::{Edition, Record, RimFile, Shape, FIVE_CORNERS};

fn undamaged(n: usize) -> RimFile {
    let points = Shape::NoisyCircle.points(n, 500, &mut Random::new(n as u64));
    RimFile::plain(&points, 1, 1).with_normals(&vec![[-1000, 0, 1000]; n])
}

fn expect(file: &RimFile, number: u32, case: &dyn std::fmt::Debug) {
    expect_number(&file.bytes(), number, case);
}

fn is_taken(file: &RimFile) -> bool {
    let bytes = file.bytes();
    each().iter().all(|calls| calls.read_rim(&bytes).number == 0)
}

/// A file of six with 18 due at one position and something else wrong.
fn beside(position: usize, other: Damage, number: u32) {
    let mut file = undamaged(6);
    other.apply(&mut file);
    Damage::Normal(position, 1, 1001).apply(&mut file);
    expect(&file, number, &(position, other));
}

#[test]
fn alone() {
    for (n, position) in [3, 6, 64].iter().flat_map(|&n| (0..n).map(move |p| (n, p))) {
        for k in 0..3 {
            for (number, due) in [
                (i16::MIN, true),
                (-32_767, true),
                (-1001, true),
                (-1000, false),
                (-1, false),
                (0, false),
                (1000, false),
                (1001, true),
                (1024, true),
                (i16::MAX, true),
            ] {
                let mut file = undamaged(n);
                file.records[position].normal[k] = number;
                match due {
                    true => expect(&file, 18, &(n, position, k, number)),
                    false => assert!(is_taken(&file), "{n} {position} {k} {number}"),
                }
            }
        }
    }
}

/// The other two numbers of a normal that is out of range may be anything.
#[test]
fn with_the_rest_of_the_normal() {
    for normal in [[1001, 0, 0], [0, -1001, 0], [i16::MIN; 3], [1001, i16::MAX, -1001]] {
        let mut file = undamaged(5);
        file.records[2].normal = normal;
        expect(&file, 18, &normal);
    }
}

/// A level point has a normal too, after its four zero bytes.
#[test]
fn on_a_level_point() {
    for p in 1..6 {
        let mut file = undamaged(6);
        Damage::Tail(p, 0).apply(&mut file);
        assert!(is_taken(&file), "{p}");
        file.records[p].normal = [0, 0, -1001];
        expect(&file, 18, &p);
        file.records[p].bits[2] = 1;
        expect(&file, 8, &p);
    }
}

/// 6, 8 and 9 of a record come before its 18, and 18 before them of the next record.
#[test]
fn beside_6_8_and_9() {
    for q in 0..6 {
        let others = [
            (6, Damage::Kind(q, 3)),
            (8, Damage::NotFinite(q, 2, NAN)),
            (9, Damage::OutOfRange(q, 2, ABOVE_125)),
        ];
        for (number, other) in others {
            for p in 0..6 {
                beside(p, other, if p < q { 18 } else { number });
            }
        }
    }
    for q in 1..6 {
        for p in 0..6 {
            beside(p, Damage::Tail(q, 1), if p < q { 18 } else { 8 });
        }
    }
}

/// 7 is due at the first record alone.
#[test]
fn beside_7() {
    for p in 0..6 {
        beside(p, Damage::NoHeight, 7);
    }
}

/// 18 comes before whatever is asked of the whole chain.
#[test]
fn beside_10_and_11() {
    for p in 0..6 {
        beside(p, Damage::SamePoint(0, 1), 18);
        beside(p, Damage::SamePoint(4, 5), 18);
    }
    for end in 0..3 {
        for p in 0..6 {
            beside(p, Damage::TooFew(end), if p < end { 18 } else { 10 });
        }
    }
}

/// A link is followed after the record that it leaves, and before the record that it leads to.
#[test]
fn beside_3_and_4() {
    for link in 0..6 {
        for p in 0..6 {
            beside(p, Damage::Link(link, 0), if p < link { 18 } else { 3 });
            if link > 0 {
                beside(p, Damage::Repeat(link, link - 1), if p < link { 18 } else { 4 });
            }
        }
    }
}

#[test]
fn beside_5() {
    for p in [0, 1, 62, 63, 64, 65] {
        let mut file = undamaged(6);
        Damage::TooMany.apply(&mut file);
        file.records[p].normal[0] = -1001;
        expect(&file, if p < 64 { 18 } else { 5 }, &p);
    }
}

#[test]
fn after_1_and_2() {
    for p in 0..6 {
        for number in [17, 0xffff] {
            beside(p, Damage::AreaFactor(number), 2);
        }
        beside(p, Damage::Length, 1);
        beside(p, Damage::Records257, 1);
    }
}

#[test]
fn before_12() {
    let mut file = RimFile::plain(&FIVE_CORNERS, 1, 1).with_normals(&[[0, 0, 1]; 5]);
    for (normal, number) in [([0, 0, 1], 12), ([0, 0, 1001], 18)] {
        file.records[4].normal = normal;
        for calls in each() {
            assert_eq!(calls.sizes(&file.bytes()), Err(number), "{}", calls.name());
        }
    }
}

/// The chain takes every second record; what the others hold has no meaning.
#[test]
fn spare_records_are_not_judged() {
    let mut file = undamaged(6);
    let spare = Record { next: 0xffff, kind: 9, bits: [NAN; 3], normal: [i16::MIN, 1001, -1001] };
    let number = |k: usize| if k < 6 { 2 * k as u16 + 2 } else { 0 };
    let linked = |(k, record): (usize, &Record)| Record { next: number(k + 1), ..*record };
    let chain: Vec<Record> = file.records.iter().enumerate().map(linked).collect();
    file.records = chain.iter().flat_map(|&record| [spare, record]).collect();
    file.first = number(0);
    file.declared = 12;
    assert!(is_taken(&file));
    for p in 0..6 {
        let mut damaged = file.clone();
        damaged.records[2 * p + 1].normal[2] = 1001;
        expect(&damaged, 18, &p);
    }
}

/// Edition 1 has no normals to judge.
#[test]
fn never_in_edition_1() {
    for p in 0..6 {
        let mut file = undamaged(6);
        Damage::Normal(p, 0, i16::MIN).apply(&mut file);
        expect(&file, 18, &p);
        file.edition = Edition::First;
        assert!(is_taken(&file));
    }
}
