//! The references against each other and against other ways to the same thing.

use outside_tests::calls::{Job, Places, Tables};
use outside_tests::comparison::{compare_job, compare_judge, compare_rim};
use outside_tests::fast::FAST;
use outside_tests::jobs::{all_fours, random_job};
use outside_tests::law::finder::{
    centre_of_circle, centre_of_sphere, is_flat, normal, squared_distance, Centre,
};
use outside_tests::law::grid::{grid_number, GridNumber};
use outside_tests::law::{tilings, BY_INTERVALS, BY_SETS};
use outside_tests::patches::all_of;
use outside_tests::planes;
use outside_tests::random::{seeds, Random};
use outside_tests::rims::{lattice, Point, RimFile, Shape};

/// f64 holds 8v exactly.
fn by_f64(bits: u32) -> GridNumber {
    let v = f32::from_bits(bits);
    let eighths = v as f64 * 8.0;
    if !v.is_finite() {
        GridNumber::NotFinite
    } else if eighths.abs() > 1000.0 {
        GridNumber::OutOfRange
    } else {
        GridNumber::At(eighths.round_ties_even() as i64)
    }
}

#[test]
fn grid_numbers() {
    for seed in seeds("grid numbers") {
        let mut random = Random::new(seed);
        for _ in 0..500_000 {
            let bits = random.next_u64() as u32;
            assert_eq!(grid_number(bits), by_f64(bits), "{bits:08x}");
        }
    }
    for sixteenths in -2010..=2010 {
        let bits = (sixteenths as f32 / 16.0).to_bits();
        for bits in [bits.wrapping_sub(1), bits, bits.wrapping_add(1)] {
            assert_eq!(grid_number(bits), by_f64(bits), "{bits:08x}");
        }
    }
    for exponent in 0..=255 {
        for fraction in [0, 1, 0x40_0000, 0x7f_ffff] {
            for sign in [0, 0x8000_0000] {
                let bits = sign | exponent << 23 | fraction;
                assert_eq!(grid_number(bits), by_f64(bits), "{bits:08x}");
            }
        }
    }
}

/// Points near to each other and far apart, as many as there are corners.
fn corners<const N: usize>(subject: &str, mut check: impl FnMut([Point; N])) {
    for seed in seeds(subject) {
        let mut random = Random::new(seed);
        for size in [1, 3, 50, 1000] {
            for _ in 0..5_000 {
                check(lattice(N, size, &mut random).try_into().expect("as many"));
            }
        }
    }
}

fn are_as_far(centre: &Centre, points: &[Point]) -> bool {
    let distance = |p: &Point| squared_distance(centre, *p);
    points.iter().all(|p| distance(p) == distance(&points[0]))
}

#[test]
fn spheres_pass_through_their_corners() {
    corners("spheres", |four: [Point; 4]| {
        if let Some(centre) = centre_of_sphere(four) {
            assert!(are_as_far(&centre, &four), "{four:?}");
        }
    });
}

/// And their centres are in the plane of the corners; only corners on one line have no circle.
#[test]
fn circles_pass_through_their_corners() {
    corners("circles", |three: [Point; 3]| {
        let across = normal(&three, [0, 1, 2]).map(i128::from);
        let Some(centre) = centre_of_circle(three) else {
            assert_eq!(across, [0; 3], "{three:?}");
            return;
        };
        assert!(are_as_far(&centre, &three), "{three:?}");
        let apart = |k: usize| centre.numerators[k] - centre.denominator * three[0][k] as i128;
        assert_eq!((0..3).map(|k| across[k] * apart(k)).sum::<i128>(), 0, "{three:?}");
    });
}

/// A rim is flat exactly where no four of its vertices have a sphere.
#[test]
fn flat_rims_in_two_ways() {
    for seed in seeds("flat rims in two ways") {
        let mut random = Random::new(seed);
        for case in 0..4_000 {
            let n = random.between(3, 7) as usize;
            let points = match case % 4 {
                0 => lattice(n, random.one_of(&[1, 2]), &mut random),
                _ => planes::any_rim_or_one_off(n, &mut random),
            };
            let has_sphere =
                |four: &[u8; 4]| centre_of_sphere(four.map(|k| points[k as usize])).is_some();
            assert_eq!(is_flat(&points), !all_fours(n).iter().any(has_sphere), "{points:?}");
        }
    }
}

#[test]
fn sets_in_two_ways() {
    for seed in seeds("sets in two ways") {
        let mut random = Random::new(seed);
        for case in 0..1_500 {
            let n = 3 + case % 5;
            let keep = [100, 90, 80, 45, 30][n - 3];
            let mut job = random_job(n, keep, 0, 1, &mut random);
            job.candidates.truncate(14);
            let mut by_edges = tilings::from_bad_edges(n, &job.candidates);
            let mut by_sets = tilings::from_all_sets(n, &job.candidates);
            by_edges.sort();
            by_sets.sort();
            assert_eq!(by_edges, by_sets, "{job:?}");
        }
    }
}

#[test]
fn all_triples_have_as_many_tilings_as_the_catalan_numbers() {
    for (n, catalan) in [(3, 1), (4, 2), (5, 5), (6, 14), (7, 42), (8, 132), (9, 429)] {
        let job = random_job(n, 100, 0, 1, &mut Random::new(1));
        assert_eq!(tilings::from_bad_edges(n, &job.candidates).len(), catalan);
    }
}

fn two_against_sets(job: &Job) {
    let places = [job.n - 2, job.candidates.len()];
    compare_job(&BY_SETS, &BY_INTERVALS, job, places);
    compare_job(&BY_SETS, &FAST, job, places);
}

#[test]
fn jobs_by_sets_by_intervals_and_fast() {
    for seed in seeds("jobs by three references") {
        let mut random = Random::new(seed);
        for _ in 0..4_000 {
            let n = random.between(3, 8) as usize;
            let keep = random.one_of(&[100, 80, 60]);
            let rows = random.one_of(&[100, 60, 20, 0]);
            two_against_sets(&random_job(n, keep, rows, random.one_of(&[0, 1, 3]), &mut random));
        }
    }
}

#[test]
fn judges_by_sets_by_intervals_and_fast() {
    for seed in seeds("judges by three references") {
        let mut random = Random::new(seed);
        for _ in 0..60 {
            let n = random.between(3, 5) as usize;
            let keep = random.one_of(&[100, 80, 60]);
            let rows = random.one_of(&[100, 60, 0]);
            let job = random_job(n, keep, rows, random.one_of(&[0, 1, 1000]), &mut random);
            for patch in all_of(&job, &mut random) {
                let work = job.candidates.len();
                compare_judge(&BY_SETS, &BY_INTERVALS, &job, &patch, work);
                compare_judge(&BY_SETS, &FAST, &job, &patch, work);
            }
        }
    }
}

#[test]
fn rims_by_sets_by_intervals_and_fast() {
    let tables = Tables::guarded(Places::BENCH);
    for seed in seeds("rims by three references") {
        let mut random = Random::new(seed);
        for _ in 0..4_000 {
            let n = random.between(3, 8) as usize;
            let points = match random.once_in(3) {
                true => planes::any_rim_or_one_off(n, &mut random),
                false => random.one_of(&Shape::ALL).points(n, 60, &mut random),
            };
            let file = RimFile::varied(&points, [1, 1], &mut random).bytes();
            compare_rim(&BY_SETS, &BY_INTERVALS, &file, &tables);
            compare_rim(&BY_SETS, &FAST, &file, &tables);
        }
    }
}
