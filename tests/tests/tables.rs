//! Tables of every length from none to more than enough (rule 4.13), compared place by place.

use outside_tests::calls::{Calls, Job, Patch, Places, Tables};
use outside_tests::comparison::{compare_finder, compare_job, compare_judge, compare_rim};
use outside_tests::jobs::{random_job, random_tiling};
use outside_tests::law::{judge, BY_SETS};
use outside_tests::library::under_test;
use outside_tests::patches::numbers;
use outside_tests::planes;
use outside_tests::random::{seeds, Random};
use outside_tests::rims::{Edition, RimFile, Shape, FIVE_CORNERS, FLAT, LINE, P, SQUARE};

fn is_enough(places: Places, needed: Places) -> bool {
    needed.triangles <= places.triangles
        && needed.candidates <= places.candidates
        && needed.weights <= places.weights
        && needed.rows <= places.rows
        && needed.work <= places.work
}

fn check(file: &[u8], places: Places, needed: Places) {
    let tables = Tables::guarded(places);
    let answer = compare_rim(&BY_SETS, under_test(), file, &tables);
    let expected = if is_enough(places, needed) { 0 } else { 13 };
    assert_eq!(answer.number, expected, "{places:?} for {needed:?}");
}

/// Every combination of lengths for rims of three to five vertices, flat ones among them and two on
/// one line, whose 'none' needs places for triangles too.
#[test]
fn every_combination_of_lengths() {
    let mut random = Random::new(2);
    let five = Shape::NoisyCircle.points(5, 100, &mut random);
    let rims = [&P[..], &five, &FLAT[..3], &FLAT[..4], &FLAT, &LINE[..3], &LINE];
    for (points, edition) in rims.iter().flat_map(|&points| Edition::BOTH.map(|e| (points, e))) {
        let file =
            RimFile::plain(points, 1, 1).in_edition(edition, points.len(), &mut random).bytes();
        let need = BY_SETS.sizes(&file).expect("accepted");
        for triangles in 0..=need.triangles + 1 {
            for candidates in 0..=need.candidates + 1 {
                for weights in 0..=need.weights + 1 {
                    for rows in 0..=need.rows + 1 {
                        for work in 0..=need.work + 1 {
                            let places = Places { triangles, candidates, weights, rows, work };
                            check(&file, places, need);
                        }
                    }
                }
            }
        }
    }
}

/// One table at a time at every length, the others at just enough, for larger rims.
#[test]
fn each_table_at_every_length() {
    for seed in seeds("each table at every length") {
        let mut random = Random::new(seed);
        for _ in 0..40 {
            let n = random.between(3, 9) as usize;
            let points = match random.once_in(3) {
                true => planes::any_rim(n, &mut random),
                false => random.one_of(&Shape::GENERAL).points(n, 700, &mut random),
            };
            let file = RimFile::varied(&points, [1, 1], &mut random).bytes();
            let Ok(need) = BY_SETS.sizes(&file) else { continue };
            for length in 0..=need.rows.max(need.candidates) + 2 {
                check(&file, Places { triangles: length, ..need }, need);
                check(&file, Places { candidates: length, ..need }, need);
                check(&file, Places { weights: length, ..need }, need);
                check(&file, Places { rows: length, ..need }, need);
                check(&file, Places { work: length, ..need }, need);
            }
        }
    }
}

/// The finder asks for three of the tables only.
#[test]
fn tables_of_the_finder() {
    for seed in seeds("tables of the finder") {
        let mut random = Random::new(seed);
        for _ in 0..40 {
            let n = random.between(3, 8) as usize;
            let points = match random.once_in(3) {
                true => planes::any_rim(n, &mut random),
                false => Shape::Scattered.points(n, 700, &mut random),
            };
            let file = RimFile::varied(&points, [1, 1], &mut random).bytes();
            let Ok(need) = BY_SETS.sizes(&file) else { continue };
            let need = Places { triangles: 0, work: 0, ..need };
            let number = |places: Places| {
                let tables = Tables::guarded(places);
                compare_finder(&BY_SETS, under_test(), &file, &tables).number
            };
            for length in 0..=need.rows + 2 {
                let short = |needed: usize| if length < needed { 13 } else { 0 };
                let candidates = Places { candidates: length, ..need };
                let weights = Places { weights: length, ..need };
                assert_eq!(number(candidates), short(need.candidates));
                assert_eq!(number(weights), short(need.weights));
                assert_eq!(number(Places { rows: length, ..need }), short(need.rows));
            }
        }
    }
}

/// 12 comes before 13, whatever the tables: a fifth vertex on a sphere, a fourth on a circle.
#[test]
fn number_12_with_short_tables() {
    for (points, edition) in
        [&FIVE_CORNERS[..], &SQUARE].iter().flat_map(|&points| Edition::BOTH.map(|e| (points, e)))
    {
        for length in 0..=10 {
            let mut random = Random::new(length as u64);
            let file = RimFile::plain(points, 1, 1).in_edition(edition, points.len(), &mut random);
            let places = Places {
                triangles: length % 4,
                candidates: length,
                weights: length,
                rows: length,
                work: length,
            };
            let tables = Tables::guarded(places);
            assert_eq!(compare_rim(&BY_SETS, under_test(), &file.bytes(), &tables).number, 12);
        }
    }
}

/// A direct job: the triangle, weight and work tables at every length.
#[test]
fn tables_of_a_direct_job() {
    for seed in seeds("tables of a direct job") {
        let mut random = Random::new(seed);
        for _ in 0..60 {
            let n = random.between(3, 6) as usize;
            let job = random_job(n, random.one_of(&[100, 70]), 70, 2, &mut random);
            let count = job.candidates.len();
            for triangles in 0..=n {
                for work in 0..=count + 1 {
                    for weights in [0, count.saturating_sub(1), count, count + 2] {
                        let job = with_weights(&job, weights);
                        let answer = compare_job(&BY_SETS, under_test(), &job, [triangles, work]);
                        let enough = n - 2 <= triangles && count <= work && count <= weights;
                        assert_eq!(answer.number, if enough { 0 } else { 13 });
                    }
                }
            }
        }
    }
}

/// The judge asks for the weight and work tables only: its list is never too short a table.
#[test]
fn tables_of_the_judge() {
    for seed in seeds("tables of the judge") {
        let mut random = Random::new(seed);
        for _ in 0..60 {
            let n = random.between(3, 6) as usize;
            let job = random_job(n, 100, 70, 2, &mut random);
            let list = numbers(&job, &random_tiling(n, &mut random));
            let total = judge::total(&job, &list);
            let patches = [(0, &list[..], total), (22, &list, total + 1), (21, &list[1..], total)];
            let count = job.candidates.len();
            for (work, weights) in
                (0..=count + 2).flat_map(|w| (0..=count + 2).map(move |x| (w, x)))
            {
                let enough = count <= work && count <= weights;
                let job = with_weights(&job, weights);
                for (number, list, stated) in patches {
                    let patch = Patch { list: list.to_vec(), stated };
                    let answer = compare_judge(&BY_SETS, under_test(), &job, &patch, work);
                    assert_eq!(answer.number, if enough { number } else { 13 });
                }
            }
        }
    }
}

fn with_weights(job: &Job, places: usize) -> Job {
    let mut job = job.clone();
    job.weights.resize(places, u32::MAX);
    job
}
