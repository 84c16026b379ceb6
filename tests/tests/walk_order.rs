//! Patches listed turn by turn (rule 3.12): jobs of one tiling, of every shape.

use outside_tests::calls::{Job, Tables, Triangle};
use outside_tests::comparison::compare_job;
use outside_tests::jobs::{hanging_pairs, price_and_patch, random_tiling, tiling};
use outside_tests::law::{Law, BY_INTERVALS, BY_SETS};
use outside_tests::library::under_test;
use outside_tests::random::{seeds, Random};

/// A job whose only candidates are those of one tiling, with some rows.
fn job_of(n: usize, candidates: Vec<Triangle>, random: &mut Random) -> Job {
    let weights = candidates.iter().map(|_| random.below(1000) as u32).collect();
    let mut rows = hanging_pairs(&candidates);
    rows.retain(|_| random.once_in(2));
    rows.iter_mut().for_each(|row| row[2] = random.below(1000) as u32);
    Job { n, candidates, weights, rows }
}

/// The most parts that wait at once while these triangles are listed in this order. Each turn lists
/// the triangle on the edge of the part that comes next, and after it no more parts wait than
/// triangles are still to be listed.
fn most_waiting(n: usize, candidates: &[Triangle], listed: &[u16]) -> usize {
    let mut parts = vec![(0, (n - 1) as u8)];
    let mut most = parts.len();
    for (turn, &number) in listed.iter().enumerate() {
        let (first, last) = parts.pop().expect("a part waits");
        let [a, b, c] = candidates[number as usize];
        assert_eq!((a, c), (first, last), "turn {turn} of {listed:?}");
        parts.extend([(b, c), (a, b)].into_iter().filter(|(first, last)| first + 1 < *last));
        assert!(parts.len() <= listed.len() - turn - 1, "turn {turn} of {listed:?}");
        most = most.max(parts.len());
    }
    most
}

/// The one tiling is the answer, as the law says; the most parts that wait.
fn listed_whole(law: &Law, job: &Job, random: &mut Random) -> usize {
    let count = job.n - 2;
    let places = [count + random.below(3), count + random.below(3)];
    assert_eq!(compare_job(law, under_test(), job, places).triangles, count);
    let mut tables = Tables::of_job(job, places[0], places[1]);
    price_and_patch(under_test(), job.n, &mut tables);
    most_waiting(job.n, &job.candidates, &tables.triangles.view()[..count])
}

/// Every tiling of the vertices from `first` to `last`.
fn every_tiling(first: u8, last: u8) -> Vec<Vec<Triangle>> {
    if last == first + 1 {
        return vec![Vec::new()];
    }
    let mut tilings = Vec::new();
    for b in first + 1..last {
        for left in every_tiling(first, b) {
            for right in every_tiling(b, last) {
                tilings.push([vec![[first, b, last]], left.clone(), right].concat());
            }
        }
    }
    tilings
}

/// All 2,055 tilings of 3 to 10 vertices.
#[test]
fn every_tiling_of_small_polygons() {
    let mut random = Random::new(1);
    let mut count = 0;
    for n in 3..=10 {
        let mut most = 0;
        for mut candidates in every_tiling(0, n - 1) {
            candidates.sort_unstable();
            let job = job_of(n as usize, candidates, &mut random);
            most = most.max(listed_whole(&BY_SETS, &job, &mut random));
            count += 1;
        }
        assert_eq!(most, (n as usize - 1) / 2, "{n} vertices");
    }
    assert_eq!(count, 2_055);
}

/// Shapes of 64 and of fewer vertices: both fans, a zigzag, halves, and two combs. On the comb whose
/// long triangles come first as many parts wait as on any tiling: 31 of 64 vertices.
#[test]
fn fans_zigzags_and_combs() {
    let mut random = Random::new(2);
    for n in 3..=64 {
        let mut most = |middle: fn(u8, u8) -> u8| {
            let job = job_of(n, tiling(n, middle), &mut random);
            listed_whole(&BY_INTERVALS, &job, &mut random)
        };
        assert_eq!(most(|first, _| first + 1), 1);
        assert_eq!(most(|_, last| last - 1), 1);
        let zigzag = |first: u8, last| if (first + last) % 2 == 0 { first + 1 } else { last - 1 };
        assert_eq!(most(zigzag), 1);
        assert!(most(|first, last| first.midpoint(last)) <= 6);
        assert!(most(|first, last| (first + 2).min(last - 1)) <= 2);
        assert_eq!(most(|first, last| (last - 2).max(first + 1)), (n - 1) / 2);
    }
}

#[test]
fn random_tilings() {
    for seed in seeds("random tilings") {
        let mut random = Random::new(seed);
        for _ in 0..3_000 {
            let n = random.between(3, 64) as usize;
            let candidates = random_tiling(n, &mut random);
            let job = job_of(n, candidates, &mut random);
            assert!(listed_whole(&BY_INTERVALS, &job, &mut random) <= (n - 1) / 2);
        }
    }
}
