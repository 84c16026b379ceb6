//! The half step (rule 1.10): every half from -999.5 to 999.5 and the floats next to each, as the
//! stored vectors have them and through the calls; and one patch for one file (rule 3.10).

use outside_tests::calls::{Calls, Guard, Lent, PatchAnswer, Places, Tables, Triangle};
use outside_tests::comparison::{compare_reader, compare_rim, hexadecimal};
use outside_tests::law::grid::{grid_number, GridNumber};
use outside_tests::law::BY_SETS;
use outside_tests::library::{each, under_test};
use outside_tests::random::{seeds, Random};
use outside_tests::rims::{Edition, Point, RimFile, Shape};

/// What the program of the vectors prints.
const STORED: &str = include_str!("../../crates/grid_vectors/stdout");

/// 8v of each half, from the lowest.
fn halves() -> impl Iterator<Item = f64> {
    (-1000..1000).map(|whole| whole as f64 + 0.5)
}

/// The float next below v, v, and the one next above it.
fn around(eighths: f64) -> [f32; 3] {
    let v = (eighths / 8.0) as f32;
    assert_eq!(v as f64 * 8.0, eighths);
    [v.next_down(), v, v.next_up()]
}

/// Their grid numbers: below the half the lower number, above it the upper one, and at it whichever
/// of the two is even.
fn numbers(eighths: f64) -> [i64; 3] {
    let lower = eighths.floor() as i64;
    let even = if lower % 2 == 0 { lower } else { lower + 1 };
    [lower, even, lower + 1]
}

#[test]
fn stored_vectors() {
    let mut lines = STORED.lines();
    for eighths in halves() {
        let [below, at, above] = numbers(eighths);
        let expected = format!("{eighths:.1}: {below} {at} {above}");
        assert_eq!(lines.next(), Some(expected.as_str()));
        let found = around(eighths).map(|v| grid_number(v.to_bits()));
        assert_eq!(found, [below, at, above].map(GridNumber::At), "{eighths}");
    }
    assert_eq!(lines.next(), None);
    for (eighths, even) in [(0.5, 0), (1.5, 2), (-0.5, 0), (-1.5, -2), (999.5, 1000)] {
        assert_eq!(numbers(eighths)[1], even);
    }
}

/// Where a float can stand whose grid number a vertex gets.
#[derive(Clone, Copy, Debug)]
enum Place {
    Point(usize),
    LevelPoint(usize),
    HeightBeforeLevelPoint,
}

impl Place {
    const ALL: [Place; 6] = [
        Place::Point(0),
        Place::Point(1),
        Place::Point(2),
        Place::LevelPoint(0),
        Place::LevelPoint(1),
        Place::HeightBeforeLevelPoint,
    ];

    fn axis(self) -> usize {
        match self {
            Place::Point(axis) | Place::LevelPoint(axis) => axis,
            Place::HeightBeforeLevelPoint => 2,
        }
    }

    /// A rim whose vertex 1 has the float v at this place, and whose vertex 2 has the same
    /// coordinates but for g in the place of v. The other two vertices are far from both.
    fn rim(self, v: f32, g: i64) -> RimFile {
        const AT: Point = [3, -5, 7];
        let mut same = AT;
        same[self.axis()] = g;
        let mut file = RimFile::plain(&[[903, -905, AT[2]], AT, same, [-903, 905, 8]], 1, 1);
        match self {
            Place::Point(axis) => file.records[1].bits[axis] = v.to_bits(),
            Place::LevelPoint(axis) => {
                file.records[1].kind = 2;
                file.records[1].bits[axis] = v.to_bits();
                file.records[1].bits[2] = 0;
            }
            Place::HeightBeforeLevelPoint => {
                file.records[0].bits[2] = v.to_bits();
                file.records[1].kind = 2;
                file.records[1].bits[2] = 0;
            }
        }
        file
    }
}

/// Two vertices share a grid point (11) exactly where one has the grid number of the other's float.
#[test]
fn every_half_at_every_place() {
    for eighths in halves() {
        let lower = eighths.floor() as i64;
        for (v, number) in around(eighths).into_iter().zip(numbers(eighths)) {
            for place in Place::ALL {
                for g in [lower, lower + 1] {
                    let file = place.rim(v, g).bytes();
                    let expected = if g == number { 11 } else { 0 };
                    let given = compare_reader(&BY_SETS, under_test(), &file);
                    assert_eq!(given, expected, "8v = {eighths}, {v:?} and {g} at {place:?}");
                }
            }
        }
    }
}

/// The points, each coordinate moved to a half beside it or to a float next to one.
fn on_halves(points: &[Point], random: &mut Random) -> RimFile {
    let mut file = RimFile::plain(points, 1, 1);
    for record in &mut file.records {
        record.bits = record.bits.map(|bits| {
            let half = if random.once_in(2) { 0.5 } else { -0.5 };
            let eighths = (f32::from_bits(bits) as f64 * 8.0 + half).clamp(-999.5, 999.5);
            let floats = around(eighths);
            if random.once_in(3) { random.one_of(&floats) } else { floats[1] }.to_bits()
        });
    }
    file
}

#[test]
fn rims_of_halves() {
    for seed in seeds("rims of halves") {
        let mut random = Random::new(seed);
        let mut patches = 0;
        for _ in 0..1500 {
            let n = random.between(3, 8) as usize;
            let size = random.one_of(&[4, 30, 1000]);
            let points = random.one_of(&Shape::GENERAL).points(n, size, &mut random);
            let edition = random.one_of(&Edition::BOTH);
            let file = on_halves(&points, &mut random).in_edition(edition, n, &mut random).bytes();
            let tables = Tables::guarded(Places::BENCH);
            patches += (compare_rim(&BY_SETS, under_test(), &file, &tables).triangles > 0) as usize;
        }
        assert!(patches > 300, "{patches} patches");
    }
}

/// Other ways at a half, of 8v: up, down, away from zero, toward zero, and to the odd number.
const OTHERS: [fn(f64) -> f64; 5] = [
    |eighths| (eighths + 0.5).floor(),
    |eighths| (eighths - 0.5).ceil(),
    |eighths| eighths.round(),
    |eighths| eighths.signum() * (eighths.abs() - 0.5).ceil(),
    |eighths| 1.0 + (eighths - 1.0).round_ties_even(),
];

fn total(file: &RimFile) -> u64 {
    let answer =
        compare_rim(&BY_SETS, under_test(), &file.bytes(), &Tables::guarded(Places::BENCH));
    assert_eq!(answer.number, 0);
    answer.total
}

/// The points of examples/halves.rim: a box that goes another way at a half gets another total.
#[test]
fn other_ways_at_a_half() {
    let list = include_str!("../../examples/halves.txt").lines();
    let eighths = |word: &str| word.parse::<f64>().expect("a number") * 8.0;
    let points: Vec<[f64; 3]> = list
        .filter(|line| !line.starts_with('#'))
        .map(|line| line.split(' ').map(eighths).collect::<Vec<f64>>().try_into().expect("three"))
        .collect();
    let rounded = |way: fn(f64) -> f64| -> RimFile {
        let points: Vec<Point> = points.iter().map(|p| p.map(|x| way(x) as i64)).collect();
        RimFile::plain(&points, 1, 1)
    };
    let mut file = rounded(f64::floor);
    for (record, point) in file.records.iter_mut().zip(&points) {
        record.bits = point.map(|x| (x as f32 / 8.0).to_bits());
    }
    assert_eq!(file.bytes(), include_bytes!("../../examples/halves.rim"));
    assert_eq!(total(&file), 21_122);
    assert_eq!(total(&rounded(f64::round_ties_even)), 21_122);
    assert_eq!(OTHERS.map(|way| total(&rounded(way))), [20_554, 21_036, 21_526, 20_086, 20_480]);
}

/// Tables that are longer than needed by different numbers of places, and hold anything.
fn tables(needed: Places, random: &mut Random) -> Tables {
    fn fill<T: Guard>(lent: &mut Lent<T>, value: impl Fn(u64) -> T, random: &mut Random) {
        lent.table().fill_with(|| value(random.next_u64()));
    }
    let mut more = |places: usize| places + random.below(9);
    let mut tables = Tables::guarded(Places {
        triangles: more(needed.triangles),
        candidates: more(needed.candidates),
        weights: more(needed.weights),
        rows: more(needed.rows),
        work: more(needed.work),
    });
    fill(&mut tables.triangles, |x| x as u16, random);
    fill(&mut tables.candidates, |x| [x as u8, (x >> 8) as u8, (x >> 16) as u8], random);
    fill(&mut tables.weights, |x| x as u32, random);
    fill(&mut tables.rows, |x| [x as u32 % 9, (x >> 8) as u32 % 9, (x >> 32) as u32], random);
    fill(&mut tables.work, |x| x, random);
    tables
}

/// An answer, and the triangles handed back, by number, vertices and own weight.
type Patch = (PatchAnswer, Vec<(u16, Triangle, u32)>);

fn patch(calls: &dyn Calls, file: &[u8], mut tables: Tables) -> Patch {
    let answer = calls.patch_rim(file, &mut tables);
    let triangle =
        |&t: &u16| (t, tables.candidates.view()[t as usize], tables.weights.view()[t as usize]);
    let triangles = tables.triangles.view()[..answer.triangles].iter().map(triangle).collect();
    (answer, triangles)
}

#[test]
fn one_file_one_patch() {
    for seed in seeds("one file, one patch") {
        let mut random = Random::new(seed);
        for case in 0..600 {
            let n = random.between(3, 9) as usize;
            let points = Shape::ALL[case % Shape::ALL.len()].points(n, 300, &mut random);
            let file = match random.once_in(2) {
                true => RimFile::varied(&points, [1, 1], &mut random).bytes(),
                false => on_halves(&points, &mut random).bytes(),
            };
            let none = Places { triangles: 0, candidates: 0, weights: 0, rows: 0, work: 0 };
            let needed = BY_SETS.sizes(&file).unwrap_or(none);
            let first = patch(&BY_SETS, &file, tables(needed, &mut random));
            for calls in each() {
                for _ in 0..3 {
                    let again = patch(calls, &file, tables(needed, &mut random));
                    assert_eq!(again, first, "{}, file {}", calls.name(), hexadecimal(&file));
                }
            }
        }
    }
}
