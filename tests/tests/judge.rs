//! The judge of patches from other programs: 21 and 22 after the numbers of the job (rules 4.21, 4.22
//! and 4.36), and the excess over the least total, whatever the order of the list (3.13, 3.14).

use outside_tests::calls::{Calls, Job, JudgeAnswer, Patch, Tables, Triangle};
use outside_tests::closing::{rims_at_random, rims_of_the_examples};
use outside_tests::comparison::compare_judge;
use outside_tests::damaged_jobs::{damaged, disturb, each_pair, undamaged, Lending, OF_JOBS};
use outside_tests::jobs::{
    all_triples, job_of, job_over, price_and_patch, random_job, random_tiling,
};
use outside_tests::law::finder::has_rim_edge;
use outside_tests::law::{judge, tilings, Law, BY_INTERVALS, BY_SETS};
use outside_tests::library::under_test;
use outside_tests::patches::{
    all_of, every_set, least_total, numbers, spoilt, totals, worked, SLIPS,
};
use outside_tests::random::{seeds, Random};
use std::fmt::Debug;

const ACCEPTED: JudgeAnswer = JudgeAnswer { number: 0, excess: 0 };

/// What is under test, as the law says, with a few work places more than it needs.
fn judged(law: &Law, job: &Job, list: &[u16], stated: u64, random: &mut Random) -> JudgeAnswer {
    let work = job.candidates.len() + random.below(3);
    let patch = Patch { list: list.to_vec(), stated };
    compare_judge(law, under_test(), job, &patch, work)
}

/// Every total and every slip of a tiling of a job with this least total.
fn judge_tiling(law: &Law, job: &Job, list: &[u16], least: u64, random: &mut Random) {
    let mut list = list.to_vec();
    random.shuffle(&mut list);
    let totals = totals(job, &list, least);
    for stated in totals {
        let number = if stated == totals[0] { 0 } else { 22 };
        let excess = if number == 0 { stated - least } else { 0 };
        assert_eq!(judged(law, job, &list, stated, random), JudgeAnswer { number, excess });
    }
    for slip in SLIPS {
        let spoilt = spoilt(slip, job, &list, random);
        for stated in [totals[0], judge::total(job, &spoilt), random.next_u64()] {
            let answer = judged(law, job, &spoilt, stated, random);
            assert_eq!(answer, JudgeAnswer::refused(21), "{}", slip.0);
        }
    }
}

#[test]
fn worked_cases() {
    for (job, patch, answer) in worked() {
        let work = job.candidates.len();
        for calls in [&BY_INTERVALS as &dyn Calls, under_test()] {
            assert_eq!(compare_judge(&BY_SETS, calls, &job, &patch, work), answer, "{patch:?}");
        }
    }
}

/// So many of these candidates at most, in order.
fn some_of(mut candidates: Vec<Triangle>, most: usize, random: &mut Random) -> Vec<Triangle> {
    random.shuffle(&mut candidates);
    candidates.truncate(most);
    candidates.sort_unstable();
    candidates
}

/// Jobs of 3 to 6 vertices with up to 10 candidates.
#[test]
fn every_set_of_small_jobs() {
    for seed in seeds("every set of small jobs") {
        let mut random = Random::new(seed);
        let mut met = [0; 23];
        for case in 0..200 {
            let n = 3 + case % 4;
            let rows = random.one_of(&[100, 70, 30, 0]);
            let highest = random.one_of(&[0, 1, 2, 1000, 2_000_000_000]);
            let most = random.one_of(&[10, 10, 9, 7]);
            let candidates = some_of(all_triples(n), most, &mut random);
            let mut job = job_over(n, candidates, rows, highest, &mut random);
            // Weights past the candidates are nobody's, whatever they hold.
            job.weights.extend([u32::MAX, 0].iter().take(random.below(3)));
            for Patch { list, stated } in all_of(&job, &mut random) {
                met[judged(&BY_SETS, &job, &list, stated, &mut random).number as usize] += 1;
            }
        }
        assert!([0, 21, 22].iter().all(|&number| met[number] > 100), "{met:?}");
    }
}

/// Of the 1,048,576 sets of the triples of 6 vertices, 14 are tilings.
#[test]
fn every_set_of_all_triples_of_6() {
    let mut random = Random::new(6);
    let job = random_job(6, 100, 70, 3, &mut random);
    let mut accepted = 0;
    for mut list in every_set(20) {
        random.shuffle(&mut list);
        let stated = judge::total(&job, &list);
        accepted += (judged(&BY_SETS, &job, &list, stated, &mut random).number == 0) as usize;
    }
    assert_eq!(accepted, 14);
}

#[test]
fn every_tiling_of_4_to_8() {
    let mut random = Random::new(8);
    for (n, highest) in (4..=8).flat_map(|n| [0, 1, 1000].map(|highest| (n, highest))) {
        let job = random_job(n, 100, 60, highest, &mut random);
        let least = least_total(&job);
        for set in tilings::from_bad_edges(n, &job.candidates) {
            let list: Vec<u16> = set.iter().map(|&k| k as u16).collect();
            judge_tiling(&BY_SETS, &job, &list, least, &mut random);
        }
    }
}

/// A list in every order.
fn every_order(list: &[u16]) -> Vec<Vec<u16>> {
    let mut orders = vec![Vec::new()];
    for &number in list {
        let with = |order: &Vec<u16>, at: usize| [&order[..at], &[number], &order[at..]].concat();
        let longer = orders.iter().flat_map(|order| (0..=order.len()).map(|at| with(order, at)));
        orders = longer.collect();
    }
    orders
}

#[test]
fn every_order_of_a_tiling() {
    let mut random = Random::new(7);
    for n in 3..=8 {
        let job = random_job(n, 100, 60, 9, &mut random);
        for _ in 0..3 {
            let list = numbers(&job, &random_tiling(n, &mut random));
            let stated = judge::total(&job, &list);
            let first = judged(&BY_INTERVALS, &job, &list, stated, &mut random);
            assert_eq!(first.number, 0);
            for order in every_order(&list) {
                assert_eq!(judged(&BY_INTERVALS, &job, &order, stated, &mut random), first);
                let wrong = judged(&BY_INTERVALS, &job, &order, stated + 1, &mut random);
                assert_eq!(wrong, JudgeAnswer::refused(22));
            }
        }
    }
}

/// A job over these triangles, those of tilings as a rule, and `others` in 100 of the triples.
fn job_around(n: usize, triangles: &[Triangle], others: usize, random: &mut Random) -> Job {
    let mut candidates = all_triples(n);
    candidates.retain(|_| random.below(100) < others);
    candidates.extend(triangles);
    candidates.sort_unstable();
    candidates.dedup();
    let rows = random.one_of(&[100, 50, 0]);
    let highest = random.one_of(&[0, 1, 3, 1000, 2_000_000_000]);
    job_over(n, candidates, rows, highest, random)
}

#[test]
fn tilings_of_larger_jobs() {
    for seed in seeds("tilings of larger jobs") {
        let mut random = Random::new(seed);
        for _ in 0..150 {
            let n = random.between(9, 64) as usize;
            let count = random.one_of(&[1, 2, 4]);
            let tilings: Vec<_> = (0..count).map(|_| random_tiling(n, &mut random)).collect();
            let job = job_around(n, &tilings.concat(), random.one_of(&[0, 1, 4]), &mut random);
            let least = least_total(&job);
            for tiling in tilings {
                let list = numbers(&job, &tiling);
                judge_tiling(&BY_INTERVALS, &job, &list, least, &mut random);
            }
        }
    }
}

/// All 41,664 triples, so that every tiling of 64 vertices is one of the job.
#[test]
fn all_triples_of_64() {
    let mut random = Random::new(64);
    for rows in [0, 5] {
        let job = random_job(64, 100, rows, 1000, &mut random);
        let least = least_total(&job);
        let list = numbers(&job, &random_tiling(64, &mut random));
        judge_tiling(&BY_INTERVALS, &job, &list, least, &mut random);
    }
}

/// Weights as large as they may be: totals and excess past 32 bits.
#[test]
fn largest_totals() {
    let mut random = Random::new(1);
    for n in [4, 5, 6, 20, 64] {
        let [one, other] = [0, 1].map(|_| random_tiling(n, &mut random));
        let mut job = job_around(n, &[&one[..], &other].concat(), 0, &mut random);
        job.rows.iter_mut().for_each(|row| row[2] = 2_000_000_000);
        job.weights.fill(2_000_000_000);
        numbers(&job, &one).iter().for_each(|&k| job.weights[k as usize] = 0);
        let least = least_total(&job);
        for tiling in [one, other] {
            judge_tiling(&BY_INTERVALS, &job, &numbers(&job, &tiling), least, &mut random);
        }
    }
}

/// The patch that was found for a job, alone or by the one call, over its lists; whether there is one.
fn judge_found(job: &Job, list: &[u16], total: u64, random: &mut Random) -> bool {
    if list.is_empty() {
        let all: Vec<u16> = (0..job.candidates.len() as u16).collect();
        for list in [&[][..], &all, &all[..all.len().min(job.n - 2)]] {
            let answer = judged(&BY_INTERVALS, job, list, total, random);
            assert_eq!(answer, JudgeAnswer::refused(21));
        }
        return false;
    }
    assert_eq!(judged(&BY_INTERVALS, job, list, total, random), ACCEPTED);
    judge_tiling(&BY_INTERVALS, job, list, total, random);
    true
}

#[test]
fn answers_of_the_tiler() {
    for seed in seeds("answers of the tiler") {
        let mut random = Random::new(seed);
        let mut patches = 0;
        for _ in 0..600 {
            let n = random.between(3, 24) as usize;
            let keep = random.one_of(&[100, 80, 60, 30]);
            let highest = random.one_of(&[0, 1, 3, 1000]);
            let job = random_job(n, keep, random.one_of(&[100, 50, 0]), highest, &mut random);
            let mut tables = Tables::of_job(&job, n - 2, job.candidates.len());
            let answer = price_and_patch(under_test(), n, &mut tables);
            let list = &tables.triangles.view()[..answer.triangles];
            patches += judge_found(&job, list, answer.total, &mut random) as usize;
        }
        assert!((200..595).contains(&patches), "{patches} patches");
    }
}

/// The patch of a rim, over the parts of the tables that its lists fill, with more weights now and
/// then; whether there is one.
fn judge_rim(file: &[u8], random: &mut Random) -> bool {
    let calls = under_test();
    let Ok(places) = calls.sizes(file) else { return false };
    let mut tables = Tables::guarded(places);
    let mut job = job_of(calls, file, &mut tables);
    job.weights.extend([u32::MAX; 5].iter().take(random.below(6)));
    let answer = calls.patch_rim(file, &mut tables);
    judge_found(&job, &tables.triangles.view()[..answer.triangles], answer.total, random)
}

#[test]
fn patches_of_rims() {
    rims_at_random("patches of rims", judge_rim);
}

#[test]
fn patches_of_the_examples() {
    let mut random = Random::new(1);
    rims_of_the_examples(|file| judge_rim(file, &mut random));
}

/// No candidate is on one of the rim edges: every list gets 21, the empty one too.
#[test]
fn small_jobs_without_a_tiling() {
    for seed in seeds("small jobs without a tiling") {
        let mut random = Random::new(seed);
        for _ in 0..100 {
            let n = random.between(3, 6) as usize;
            let edge = random.below(n);
            let mut candidates = all_triples(n);
            candidates.retain(|&triangle| !has_rim_edge(triangle, edge, n));
            let candidates = some_of(candidates, 8, &mut random);
            let job = job_over(n, candidates, 70, 2, &mut random);
            for Patch { list, stated } in all_of(&job, &mut random) {
                let answer = judged(&BY_SETS, &job, &list, stated, &mut random);
                assert_eq!(answer, JudgeAnswer::refused(21));
            }
        }
    }
}

/// The candidates are those of a tiling but the one on one rim edge.
#[test]
fn larger_jobs_without_a_tiling() {
    for seed in seeds("larger jobs without a tiling") {
        let mut random = Random::new(seed);
        for _ in 0..300 {
            let n = random.between(4, 64) as usize;
            let edge = random.below(n);
            let mut rest = random_tiling(n, &mut random);
            rest.retain(|&triangle| !has_rim_edge(triangle, edge, n));
            assert_eq!(rest.len(), n - 3);
            let job = job_around(n, &rest, 0, &mut random);
            let list = numbers(&job, &rest);
            let spoilt = SLIPS.map(|slip| spoilt(slip, &job, &list, &mut random));
            for list in spoilt.iter().chain([&list]) {
                let stated = judge::total(&job, list);
                let answer = judged(&BY_INTERVALS, &job, list, stated, &mut random);
                assert_eq!(answer, JudgeAnswer::refused(21));
            }
        }
    }
}

/// The triangles of a tiling over and over, one of them as often, and numbers in turn: lists of up to
/// 70,000, among them those that have each edge 257 or 65,537 times as often as a tiling.
#[test]
fn lists_of_any_length() {
    let mut random = Random::new(70);
    for n in [3, 4, 5, 64] {
        let tiling = random_tiling(n, &mut random);
        let job = job_around(n, &tiling, 1, &mut random);
        let list = numbers(&job, &tiling);
        let stated = judge::total(&job, &list);
        let long = [255, 256, 257, 1000, 257 * (n - 2), 65_535, 65_536, 65_537, 70_000];
        for length in (0..=2 * n).chain(long) {
            let over_and_over = list.iter().copied().cycle().take(length).collect();
            let in_turn = (0..length).map(|k| k as u16).collect();
            for long in [over_and_over, vec![list[0]; length], in_turn] {
                let answer = judged(&BY_INTERVALS, &job, &long, stated, &mut random);
                assert!(answer.number == 21 || length == n - 2, "{length} numbers of {n} vertices");
                assert!(answer.number == 0 || long != list, "{length} numbers of {n} vertices");
            }
        }
    }
}

/// Patches of the undamaged job, whose tilings all cost 21, with their numbers.
const PATCHES: [(u32, &[u16], u64); 11] = [
    (0, &[0, 3, 5], 21),
    (0, &[5, 0, 3], 21),
    (22, &[0, 3, 5], 20),
    (22, &[5, 3, 0], u64::MAX),
    (21, &[0, 3], 21),
    (21, &[0, 3, 3], 21),
    (21, &[0, 3, 10], 21),
    (21, &[0, 3, 5, 5], 0),
    (21, &[3; 70_000], 21),
    (21, &[65_535], 7),
    (21, &[], 0),
];

fn expect(lending: &Lending, list: &[u16], stated: u64, number: u32, case: &dyn Debug) {
    let patch = Patch { list: list.to_vec(), stated };
    let answer = compare_judge(&BY_SETS, under_test(), &lending.job, &patch, lending.places[1]);
    assert_eq!(answer, JudgeAnswer { number, excess: 0 }, "{patch:?}, {case:?}");
}

/// What is wrong with the job comes before what is wrong with the patch.
#[test]
fn numbers_of_the_job_come_first() {
    for (number, list, stated) in PATCHES {
        expect(&undamaged(), list, stated, number, &"undamaged");
        for damage in OF_JOBS {
            expect(&damaged(&[damage]), list, stated, damage.0, &damage.1);
        }
        for [one, two] in each_pair(&OF_JOBS) {
            expect(&damaged(&[one, two]), list, stated, one.0, &(one.1, two.1));
        }
    }
}

#[test]
fn jobs_disturbed_by_chance() {
    for seed in seeds("judged jobs disturbed by chance") {
        let mut random = Random::new(seed);
        let mut met = [0; 23];
        for _ in 0..12_000 {
            let n = random.between(3, 7) as usize;
            let tiling = random_tiling(n, &mut random);
            let job = job_around(n, &tiling, random.one_of(&[100, 50]), &mut random);
            let mut list = numbers(&job, &tiling);
            let totals = totals(&job, &list, 0);
            let stated = if random.once_in(2) { totals[0] } else { random.one_of(&totals) };
            if random.once_in(3) {
                list = spoilt(random.one_of(&SLIPS), &job, &list, &mut random);
            }
            let mut lending = Lending { places: [0, job.candidates.len()], job };
            for _ in 0..random.below(3) {
                disturb(&mut lending, &mut random);
            }
            let Lending { job, places } = lending;
            let patch = Patch { list, stated };
            let answer = compare_judge(&BY_SETS, under_test(), &job, &patch, places[1]);
            met[answer.number as usize] += 1;
        }
        let numbers = [0, 13, 14, 15, 16, 17, 21, 22];
        assert!(numbers.iter().all(|&number| met[number] > 100), "{met:?}");
    }
}
