//! Jobs edited between price and patch (rules 4.23 and 5.12): the patch is of the job as it is handed
//! over then. A total that is no longer the least writes no triangle, one that still is gives the best
//! patch of the edited job.

use outside_tests::calls::{Job, PatchAnswer, Tables};
use outside_tests::comparison::{compare_patch, compare_price};
use outside_tests::interval;
use outside_tests::jobs::{p, random_job};
use outside_tests::law::tilings::Tiling;
use outside_tests::law::{judge, Law, BY_INTERVALS, BY_SETS};
use outside_tests::library::under_test;
use outside_tests::prices::{worked, Case, EDITS};
use outside_tests::random::{seeds, Random};

/// The tables that the price of the first job left, with the second job's weights and rows.
fn edited(priced: &Tables, job: &Job) -> Tables {
    let mut tables = priced.clone();
    tables.weights.fill(&job.weights);
    tables.rows.fill(&job.rows);
    tables
}

fn priced(law: &Law, job: &Job) -> (PatchAnswer, Tables) {
    let tables = Tables::of_job(job, job.n, job.candidates.len() + 1);
    compare_price(law, under_test(), job.n, &tables)
}

#[test]
fn worked_cases() {
    let mut edits = 0;
    for Case { priced: first, job, agreed, answer, walk } in worked() {
        if first == job {
            continue;
        }
        let (price, tables) = priced(&BY_SETS, &first);
        assert_eq!((first, price.total), (p(), 943));
        let tables = edited(&tables, &job);
        let (patch, left) = compare_patch(&BY_SETS, under_test(), job.n, agreed, &tables);
        assert_eq!((patch, &left.triangles.view()[..walk.len()]), (answer, &walk[..]), "{job:?}");
        edits += 1;
    }
    assert!(edits > 10);
}

/// How often a total outlived an edit, with the same patch and with another, and how often not.
#[derive(Clone, Copy, Default, Debug)]
struct Met {
    same: usize,
    other: usize,
    not_least: usize,
    refused: usize,
}

/// The patch of an edited job, in these tables, at the total of its best tiling before.
fn patch_edited(law: &Law, job: &Job, tables: &Tables, before: &Tiling, met: &mut Met) {
    let total = before.total;
    let (answer, left) = compare_patch(law, under_test(), job.n, total, tables);
    if answer.number == 17 {
        met.refused += 1;
        return;
    }
    let best = interval::best(job).expect("a tiling as before");
    if best.total != total {
        assert_eq!(answer, PatchAnswer::refused(23), "{job:?}");
        assert_eq!(left.triangles, tables.triangles, "{job:?}");
        met.not_least += 1;
        return;
    }
    assert_eq!(answer, PatchAnswer { number: 0, triangles: job.n - 2, total }, "{job:?}");
    assert_eq!(left.triangles.view()[..job.n - 2], best.walk, "{job:?}");
    assert_eq!(judge::total(job, &best.walk), total, "{job:?}");
    met.same += (best == *before) as usize;
    met.other += (best != *before) as usize;
}

/// Each edit of a job that has a tiling.
fn try_edits(law: &Law, job: &Job, met: &mut [Met; EDITS.len()], random: &mut Random) {
    let Some(best) = interval::best(job) else { return };
    let (price, tables) = priced(law, job);
    assert_eq!(price.total, best.total, "{job:?}");
    for ((_, edit), met) in EDITS.iter().zip(met) {
        let mut changed = job.clone();
        edit(&mut changed, &best, random);
        let changed_tables = edited(&tables, &changed);
        patch_edited(law, &changed, &changed_tables, &best, met);
        // Edited back, it is the job of the price again.
        let (patch, _) =
            compare_patch(law, under_test(), job.n, price.total, &edited(&changed_tables, job));
        assert_eq!(patch, price, "{job:?}");
    }
}

/// All of it is met, and without an edit, which comes first, the same patch alone.
fn expect_all_met(met: &[Met; EDITS.len()]) {
    let counts: [fn(&Met) -> usize; 4] =
        [|met| met.same, |met| met.other, |met| met.not_least, |met| met.refused];
    assert!(counts.iter().all(|&of| met.iter().map(of).sum::<usize>() > 30), "{met:?}");
    assert!(counts[1..].iter().all(|of| of(&met[0]) == 0), "{met:?}");
}

#[test]
fn small_jobs() {
    for seed in seeds("small jobs edited") {
        let mut random = Random::new(seed);
        let mut met = [Met::default(); EDITS.len()];
        for case in 0..500 {
            let keep = random.one_of(&[100, 80, 60]);
            let highest = random.one_of(&[0, 1, 3, 1000, 1_999_999_999]);
            let rows = random.one_of(&[100, 50, 0]);
            let job = random_job(3 + case % 5, keep, rows, highest, &mut random);
            try_edits(&BY_SETS, &job, &mut met, &mut random);
        }
        expect_all_met(&met);
    }
}

#[test]
fn larger_jobs() {
    for seed in seeds("larger jobs edited") {
        let mut random = Random::new(seed);
        let mut met = [Met::default(); EDITS.len()];
        for _ in 0..60 {
            let n = random.between(8, 20) as usize;
            let highest = random.one_of(&[1, 3, 1000]);
            let rows = random.one_of(&[100, 30, 0]);
            let job = random_job(n, random.one_of(&[100, 70]), rows, highest, &mut random);
            try_edits(&BY_INTERVALS, &job, &mut met, &mut random);
        }
        expect_all_met(&met);
    }
}
