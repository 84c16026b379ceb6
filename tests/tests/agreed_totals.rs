//! Patches at agreed totals (rule 4.23): 23 where the total is not the least of the job, after the
//! numbers of the job and after 'none' (rule 4.37), without a triangle written.

use outside_tests::calls::{Calls, Job, PatchAnswer, Tables};
use outside_tests::comparison::{compare_patch, compare_price};
use outside_tests::damaged_jobs::{all, damaged, disturb, each_pair, undamaged, Damage, Lending};
use outside_tests::interval;
use outside_tests::jobs::{all_triples, job_over, random_job, random_tiling};
use outside_tests::law::finder::has_rim_edge;
use outside_tests::law::tests_of_jobs::HIGHEST_WEIGHT;
use outside_tests::law::{judge, tilings, Law, BY_INTERVALS, BY_SETS};
use outside_tests::library::under_test;
use outside_tests::prices::{figures, worked};
use outside_tests::random::{seeds, Random};

/// What is under test, as the law says, with a few places more than it needs.
fn patched(law: &Law, job: &Job, agreed: u64, random: &mut Random) -> PatchAnswer {
    let [triangles, work] = [job.n - 2, job.candidates.len()].map(|most| most + random.below(3));
    let tables = Tables::of_job(job, triangles, work);
    compare_patch(law, under_test(), job.n, agreed, &tables).0
}

/// A job that has a tiling is patched at its least total and refused at each other one.
fn try_figures(law: &Law, job: &Job, random: &mut Random) {
    let figures = figures(job);
    let patch = PatchAnswer { number: 0, triangles: job.n - 2, total: figures[0] };
    for agreed in figures {
        let expected = if agreed == patch.total { patch } else { PatchAnswer::refused(23) };
        assert_eq!(patched(law, job, agreed, random), expected, "{agreed} for {job:?}");
    }
}

#[test]
fn worked_cases() {
    for case in worked() {
        let places = [case.job.n, case.job.candidates.len()];
        let tables = Tables::of_job(&case.job, places[0], places[1]);
        for calls in [&BY_INTERVALS as &dyn Calls, under_test()] {
            let (answer, left) = compare_patch(&BY_SETS, calls, case.job.n, case.agreed, &tables);
            assert_eq!(answer, case.answer, "{} for {:?}", case.agreed, case.job);
            assert_eq!(left.triangles.view()[..answer.triangles], case.walk);
        }
    }
}

/// A job with a tiling: over those triangles and `others` in 100 of the triples.
fn job_with_a_tiling(n: usize, others: usize, random: &mut Random) -> Job {
    let tiling = random_tiling(n, random);
    let mut candidates = all_triples(n);
    candidates.retain(|triangle| random.below(100) < others || tiling.contains(triangle));
    let rows = random.one_of(&[100, 50, 0]);
    let highest = random.one_of(&[0, 1, 3, 1000, HIGHEST_WEIGHT]);
    job_over(n, candidates, rows, highest, random)
}

#[test]
fn figures_of_small_jobs() {
    for seed in seeds("figures of small jobs") {
        let mut random = Random::new(seed);
        for case in 0..1_200 {
            let others = random.one_of(&[100, 60, 30, 0]);
            let job = job_with_a_tiling(3 + case % 6, others, &mut random);
            try_figures(&BY_SETS, &job, &mut random);
        }
    }
}

#[test]
fn figures_of_larger_jobs() {
    for seed in seeds("figures of larger jobs") {
        let mut random = Random::new(seed);
        for _ in 0..100 {
            let n = random.between(9, 64) as usize;
            let job = job_with_a_tiling(n, random.one_of(&[8, 3, 0]), &mut random);
            try_figures(&BY_INTERVALS, &job, &mut random);
        }
    }
}

/// Every tiling's total is agreed on: the least one alone gives a patch.
#[test]
fn totals_of_every_tiling() {
    let mut random = Random::new(7);
    for (n, highest) in (4..=7).flat_map(|n| [1, 1000, HIGHEST_WEIGHT].map(|high| (n, high))) {
        let job = random_job(n, 100, 60, highest, &mut random);
        let least = figures(&job)[0];
        for set in tilings::from_bad_edges(n, &job.candidates) {
            let list: Vec<u16> = set.iter().map(|&k| k as u16).collect();
            let total = judge::total(&job, &list);
            let number = patched(&BY_SETS, &job, total, &mut random).number;
            assert_eq!(number, if total == least { 0 } else { 23 }, "{total} for {job:?}");
        }
    }
}

/// Weights as large as they may be: 32 bits of an agreed total say nothing.
#[test]
fn totals_past_32_bits() {
    let mut random = Random::new(1);
    for n in [4, 5, 6, 20, 64] {
        let mut job = job_with_a_tiling(n, if n > 8 { 1 } else { 60 }, &mut random);
        job.weights.fill(HIGHEST_WEIGHT);
        job.rows.iter_mut().for_each(|row| row[2] = HIGHEST_WEIGHT);
        let least = figures(&job)[0];
        assert!(least > u32::MAX as u64 || n == 4);
        try_figures(&BY_INTERVALS, &job, &mut random);
        for bit in 0..64 {
            let answer = patched(&BY_INTERVALS, &job, least ^ (1 << bit), &mut random);
            assert_eq!(answer, PatchAnswer::refused(23), "bit {bit} of {least}");
        }
    }
}

/// 0 is a total as any other: that of a patch, not of 'none'.
#[test]
fn a_least_total_of_0() {
    let mut random = Random::new(2);
    for n in 3..=12 {
        let mut job = job_with_a_tiling(n, random.one_of(&[100, 40]), &mut random);
        job.weights.fill(HIGHEST_WEIGHT);
        let free = random_tiling_of(&job, &mut random);
        free.iter().for_each(|&k| job.weights[k as usize] = 0);
        job.rows.retain(|row| !free.contains(&(row[1] as u16)));
        let tables = Tables::of_job(&job, 0, job.candidates.len());
        let (price, _) = compare_price(&BY_INTERVALS, under_test(), n, &tables);
        assert_eq!(price, PatchAnswer { number: 0, triangles: n - 2, total: 0 });
        try_figures(&BY_INTERVALS, &job, &mut random);
    }
}

/// One of a job's tilings: the best at other weights.
fn random_tiling_of(job: &Job, random: &mut Random) -> Vec<u16> {
    let mut other = job.clone();
    other.weights.iter_mut().for_each(|weight| *weight = random.below(1000) as u32);
    interval::best(&other).expect("a tiling").walk
}

/// 'None' whatever was agreed, 0 or not: no total of such a job is wrong.
#[test]
fn jobs_without_a_tiling() {
    for seed in seeds("agreed on without a tiling") {
        let mut random = Random::new(seed);
        for _ in 0..400 {
            let n = random.between(3, 16) as usize;
            let edge = random.below(n);
            let mut candidates = all_triples(n);
            candidates.retain(|&triangle| !has_rim_edge(triangle, edge, n));
            let job = job_over(n, candidates, 50, random.one_of(&[0, 2, 1000]), &mut random);
            let tables = Tables::of_job(&job, 0, job.candidates.len());
            let (price, _) = compare_price(&BY_INTERVALS, under_test(), n, &tables);
            assert_eq!(price, PatchAnswer::NONE, "{job:?}");
            for agreed in figures(&job).into_iter().chain([random.next_u64()]) {
                let answer = patched(&BY_INTERVALS, &job, agreed, &mut random);
                assert_eq!(answer, PatchAnswer::NONE, "{agreed} for {job:?}");
            }
        }
    }
}

/// Totals of the undamaged job, whose tilings all cost 21, with their numbers.
const TOTALS: [(u64, u32); 6] =
    [(21, 0), (20, 23), (22, 23), (0, 23), (21 + (1 << 32), 23), (u64::MAX, 23)];

fn expect(lending: &Lending, agreed: u64, number: u32, damages: &[Damage]) {
    let names: Vec<&str> = damages.iter().map(|damage| damage.1).collect();
    let Lending { job, places: [triangles, work] } = lending;
    let tables = Tables::of_job(job, *triangles, *work);
    let (answer, left) = compare_patch(&BY_SETS, under_test(), job.n, agreed, &tables);
    assert_eq!(answer.number, number, "{agreed}, {names:?}");
    assert!(damages.is_empty() || left == tables, "{agreed}, {names:?}");
}

/// The numbers of a job that lacks no places for triangles.
fn number_of_price(damages: &[Damage]) -> u32 {
    let of_job = damages.iter().filter(|damage| !damage.1.contains("triangle place"));
    of_job.map(|damage| damage.0).next().unwrap_or(0)
}

/// The price has no number for triangles, and else those of the patch, whatever was agreed.
#[test]
fn numbers_of_the_job_come_first() {
    let alone = all().into_iter().map(|damage| vec![damage]);
    let pairs: Vec<Vec<Damage>> = each_pair(&all()).map(Vec::from).collect();
    for damages in [Vec::new()].into_iter().chain(alone).chain(pairs) {
        let lending = if damages.is_empty() { undamaged() } else { damaged(&damages) };
        for (agreed, number) in TOTALS {
            let number = damages.first().map_or(number, |damage| damage.0);
            expect(&lending, agreed, number, &damages);
        }
        let Lending { job, places: [triangles, work] } = &lending;
        let tables = Tables::of_job(job, *triangles, *work);
        let (price, _) = compare_price(&BY_SETS, under_test(), job.n, &tables);
        assert_eq!(price.number, number_of_price(&damages));
    }
}

#[test]
fn jobs_disturbed_by_chance() {
    for seed in seeds("patched jobs disturbed by chance") {
        let mut random = Random::new(seed);
        let mut met = [0; 24];
        for _ in 0..12_000 {
            let n = random.between(3, 7) as usize;
            let job = job_with_a_tiling(n, random.one_of(&[100, 50]), &mut random);
            let figures = figures(&job);
            let agreed = if random.once_in(2) { figures[0] } else { random.one_of(&figures) };
            let mut lending = Lending { places: [62, job.candidates.len()], job };
            for _ in 0..random.below(3) {
                disturb(&mut lending, &mut random);
            }
            let Lending { job, places: [triangles, work] } = lending;
            let tables = Tables::of_job(&job, triangles, work);
            let (answer, _) = compare_patch(&BY_SETS, under_test(), job.n, agreed, &tables);
            met[answer.number as usize] += 1;
        }
        let numbers = [0, 13, 14, 15, 16, 17, 23];
        assert!(numbers.iter().all(|&number| met[number] > 100), "{met:?}");
    }
}
