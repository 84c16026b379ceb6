//! Small direct jobs against the plain search, and larger ones against the interval programme.

use outside_tests::calls::Job;
use outside_tests::comparison::compare_job;
use outside_tests::jobs::{all_triples, random_job};
use outside_tests::law::{tilings, BY_INTERVALS, BY_SETS};
use outside_tests::library::under_test;
use outside_tests::random::{seeds, Random};

fn compare_small(job: &Job, random: &mut Random) -> bool {
    let places = [job.n - 2 + random.below(3), job.candidates.len() + random.below(3)];
    compare_job(&BY_SETS, under_test(), job, places).triangles > 0
}

#[test]
fn small_jobs() {
    for seed in seeds("small jobs") {
        let mut random = Random::new(seed);
        let mut patches = 0;
        for _ in 0..12_000 {
            let n = random.one_of(&[3, 4, 4, 5, 5, 6, 6, 7, 7, 8]);
            let keep = random.one_of(&[100, 90, 75, 60, 40]);
            let rows = random.one_of(&[100, 70, 30, 5, 0]);
            let highest = random.one_of(&[0, 1, 1, 2, 3, 2_000_000_000]);
            let mut job = random_job(n, keep, rows, highest, &mut random);
            // Weights past the candidates are nobody's, whatever they hold.
            job.weights.extend([u32::MAX, 0].iter().take(random.below(3)));
            patches += compare_small(&job, &mut random) as usize;
        }
        assert!((4_000..11_500).contains(&patches), "{patches} patches");
    }
}

/// Candidates of two tilings alone: equal totals in every case.
#[test]
fn ties_of_two_tilings() {
    for seed in seeds("ties of two tilings") {
        let mut random = Random::new(seed);
        for _ in 0..3_000 {
            let n = random.between(4, 8) as usize;
            let triples = all_triples(n);
            let every = tilings::from_bad_edges(n, &triples);
            let mut kept: Vec<usize> = Vec::new();
            for _ in 0..2 {
                kept.extend(&every[random.below(every.len())]);
            }
            kept.sort_unstable();
            kept.dedup();
            let candidates: Vec<_> = kept.iter().map(|&k| triples[k]).collect();
            let weights = vec![random.below(2) as u32; candidates.len()];
            let job = Job { n, candidates, weights, rows: Vec::new() };
            assert!(compare_small(&job, &mut random), "a tiling was put in");
        }
    }
}

/// Weights as large as they may be: totals past 32 bits.
#[test]
fn largest_totals() {
    for n in [3, 4, 5, 6, 20, 40] {
        let mut job = random_job(n, 100, 100, 0, &mut Random::new(1));
        job.weights.fill(2_000_000_000);
        job.rows.iter_mut().for_each(|row| row[2] = 2_000_000_000);
        let places = [n - 2, job.candidates.len()];
        let answer = compare_job(&BY_INTERVALS, under_test(), &job, places);
        assert_eq!(answer.total, 2_000_000_000 * (2 * n as u64 - 5));
    }
}

#[test]
fn larger_jobs() {
    for seed in seeds("larger jobs") {
        let mut random = Random::new(seed);
        for _ in 0..150 {
            let n = random.between(9, 30) as usize;
            let keep = random.one_of(&[100, 70, 40, 20]);
            let rows = random.one_of(&[100, 50, 0]);
            let highest = random.one_of(&[0, 1, 3, 1000]);
            let job = random_job(n, keep, rows, highest, &mut random);
            compare_job(&BY_INTERVALS, under_test(), &job, [62, job.candidates.len()]);
        }
    }
}

/// All 41,664 triples of 64 vertices, with every row and with none.
#[test]
fn all_triples_of_64() {
    for seed in seeds("all triples of 64") {
        let mut random = Random::new(seed);
        for rows in [0, 2, 100] {
            let job = random_job(64, 100, rows, random.one_of(&[1, 3]), &mut random);
            assert_eq!(job.candidates.len(), 41_664);
            compare_job(&BY_INTERVALS, under_test(), &job, [62, 41_664]);
        }
    }
}
