//! Lengths and ratios that are wrong, each in one way, and rims that tell them from the right ones.

use outside_tests::calls::{Places, Row, Tables, Triangle};
use outside_tests::jobs::{hanging_pairs, job_of};
use outside_tests::law::finder::{candidates, has_rim_edge, normal};
use outside_tests::law::reader::{self, Rim};
use outside_tests::library::each;
use outside_tests::normals::{self, Normal};
use outside_tests::random::Random;
use outside_tests::rims::{lattice, Point, RimFile, P};

/// A length by the square of its normal.
type Length = fn(u64) -> u64;

/// The lengths and ratios of a rim in steps. A wrong way has some of them changed.
#[derive(Clone, Copy)]
struct Steps {
    area: Length,
    /// The lengths of both normals of a row, and what their dot product is multiplied by.
    in_rows: Length,
    ratio_in_rows: i64,
    /// The same of a candidate and a surface outside.
    at_surfaces: Length,
    of_surfaces: Length,
    ratio_at_surfaces: i64,
}

const RIGHT: Steps = Steps {
    area: quarters,
    in_rows: quarters,
    ratio_in_rows: 16_000,
    at_surfaces: quarters,
    of_surfaces: quarters,
    ratio_at_surfaces: 16_000,
};

/// Rule 2.7.
fn quarters(square: u64) -> u64 {
    (16 * square).isqrt()
}

/// As lengths were before they were counted in quarters.
fn wholes(square: u64) -> u64 {
    square.isqrt()
}

fn whole_part_first(square: u64) -> u64 {
    4 * square.isqrt()
}

fn nearest(square: u64) -> u64 {
    (64 * square).isqrt().div_ceil(2)
}

fn rounded_up(square: u64) -> u64 {
    (16 * square - 1).isqrt() + 1
}

fn dot(u: Point, v: Point) -> i64 {
    u.iter().zip(v).map(|(x, y)| x * y).sum()
}

fn bend(normals: [Point; 2], lengths: [Length; 2], ratio: i64) -> u64 {
    let [m, k] = [0, 1].map(|i| lengths[i](dot(normals[i], normals[i]) as u64) as i64);
    let q = (ratio * dot(normals[0], normals[1])).div_euclid(m * k);
    (1000 - q.clamp(-1000, 1000)) as u64
}

impl Steps {
    /// The own weights and the rows of a rim with these candidates.
    fn lists(&self, rim: &Rim, candidates: &[Triangle]) -> (Vec<u32>, Vec<Row>) {
        let normals: Vec<Point> = candidates.iter().map(|&t| normal(&rim.points, t)).collect();
        let own = |(&t, &normal)| self.own_weight(rim, t, normal) as u32;
        let mut rows = hanging_pairs(candidates);
        for [outer, inner, weight] in &mut rows {
            let pair = [normals[*inner as usize], normals[*outer as usize]];
            let bend = bend(pair, [self.in_rows; 2], self.ratio_in_rows);
            *weight = (rim.bend_factor * bend) as u32;
        }
        (candidates.iter().zip(&normals).map(own).collect(), rows)
    }

    fn own_weight(&self, rim: &Rim, t: Triangle, normal: Point) -> u64 {
        let n = rim.points.len();
        let outside = (0..n).filter(|&i| has_rim_edge(t, i, n)).filter_map(|i| rim.surfaces[i]);
        let lengths = [self.at_surfaces, self.of_surfaces];
        let bends = outside.map(|outside| bend([normal, outside], lengths, self.ratio_at_surfaces));
        let area = (self.area)(dot(normal, normal) as u64);
        rim.area_factor * area + rim.bend_factor * bends.sum::<u64>()
    }

    fn all_lengths(&mut self, length: Length) {
        self.area = length;
        self.in_rows = length;
        self.at_surfaces = length;
        self.of_surfaces = length;
    }

    fn both_ratios(&mut self, ratio: i64) {
        self.ratio_in_rows = ratio;
        self.ratio_at_surfaces = ratio;
    }
}

const WRONG: [(&str, fn(&mut Steps)); 14] = [
    ("whole lengths", |s| {
        s.all_lengths(wholes);
        s.both_ratios(1_000);
    }),
    ("four times the whole root", |s| s.all_lengths(whole_part_first)),
    ("the nearest quarter", |s| s.all_lengths(nearest)),
    ("quarters rounded up", |s| s.all_lengths(rounded_up)),
    ("1,000 in the ratio", |s| s.both_ratios(1_000)),
    ("4,000 in the ratio", |s| s.both_ratios(4_000)),
    ("1,000 in the ratio of rows", |s| s.ratio_in_rows = 1_000),
    ("1,000 in the ratio at surfaces", |s| s.ratio_at_surfaces = 1_000),
    ("whole lengths in area weights", |s| s.area = wholes),
    ("whole lengths in rows", |s| {
        s.in_rows = wholes;
        s.ratio_in_rows = 1_000;
    }),
    ("whole lengths in rows, with 16,000", |s| s.in_rows = wholes),
    ("whole lengths of normals outside", |s| {
        s.of_surfaces = wholes;
        s.ratio_at_surfaces = 4_000;
    }),
    ("whole lengths of normals outside, with 16,000", |s| s.of_surfaces = wholes),
    ("whole lengths at surfaces outside", |s| {
        s.at_surfaces = wholes;
        s.of_surfaces = wholes;
        s.ratio_at_surfaces = 1_000;
    }),
];

/// Which of the wrong ways give other lists than the right one, which is that of each. None where the
/// rim is refused.
fn told_by(points: &[Point], normals: &[Normal]) -> Option<[bool; WRONG.len()]> {
    let file = RimFile::plain(points, 1, 1).with_normals(normals).bytes();
    let rim = reader::read(&file).ok()?;
    let candidates: Vec<Triangle> = candidates(&rim.points).ok()?.into_iter().collect();
    let right = RIGHT.lists(&rim, &candidates);
    for calls in each() {
        let job = job_of(calls, &file, &mut Tables::guarded(Places::BENCH));
        assert_eq!(job.candidates, candidates, "{}, {rim:?}", calls.name());
        assert_eq!((job.weights, job.rows), right, "{}, {rim:?}", calls.name());
    }
    Some(WRONG.map(|(_, change)| {
        let mut steps = RIGHT;
        change(&mut steps);
        steps.lists(&rim, &candidates) != right
    }))
}

/// With the normal (0, 1, 1) outside its edges, rim file P tells every one.
#[test]
fn told_by_rim_file_p() {
    let told = told_by(&P, &[[0, 1, 1]; 4]).expect("taken");
    for ((name, _), told) in WRONG.iter().zip(told) {
        assert!(told, "{name}");
    }
}

/// Rims as those that `lengths` compares by: many tell each.
#[test]
fn told_by_small_rims() {
    let mut random = Random::new(1);
    let mut times = WRONG.map(|(name, _)| (name, 0));
    for _ in 0..400 {
        let n = random.between(3, 7) as usize;
        let points = lattice(n, random.one_of(&[2, 4, 9]), &mut random);
        let normals = normals::short(n, &mut random);
        for (told, (_, times)) in told_by(&points, &normals).iter().flatten().zip(&mut times) {
            *times += *told as usize;
        }
    }
    assert!(times.iter().all(|&(_, times)| times > 30), "{times:?}");
}
