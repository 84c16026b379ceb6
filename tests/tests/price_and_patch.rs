//! Price and patch in turn (rules 3.15 and 5.11 to 5.13): what the search says of the job at once, in
//! every place, whatever the tables held; and the patch of the one call, which never gives 23.

use outside_tests::calls::{Calls, Job, JudgeAnswer, PatchAnswer, Places, Tables};
use outside_tests::closing::{rims_at_random, rims_of_the_examples};
use outside_tests::comparison::{compare_patch, compare_price};
use outside_tests::damage;
use outside_tests::interval;
use outside_tests::jobs::{job_of, random_job};
use outside_tests::law::tilings::{self, Tiling};
use outside_tests::law::BY_SETS;
use outside_tests::library::{each, under_test};
use outside_tests::random::{seeds, Random};
use outside_tests::rims::{RimFile, Shape};

fn random_job_of(n: usize, random: &mut Random) -> Job {
    let keep = random.one_of(&[100, 80, 60, 40]);
    let rows = random.one_of(&[100, 50, 0]);
    let highest = random.one_of(&[0, 1, 3, 1000, 2_000_000_000]);
    random_job(n, keep, rows, highest, random)
}

/// The answer of a job, by a search that knows nothing of calls.
fn answer_of(best: Option<&Tiling>) -> PatchAnswer {
    best.map_or(PatchAnswer::NONE, |best| PatchAnswer {
        number: 0,
        triangles: best.walk.len(),
        total: best.total,
    })
}

/// Price and patch in turn on these tables: after the price zeros in the work table and nothing else,
/// after the patch the triangles too.
fn expect_in_turn(calls: &dyn Calls, n: usize, tables: &Tables, best: Option<&Tiling>) {
    let answer = answer_of(best);
    let name = calls.name();
    let mut expected = tables.clone();
    expected.clear_work();
    let mut left = tables.clone();
    assert_eq!(calls.price(n, &mut left), answer, "{name}, {tables:?}");
    assert_eq!(left.difference(&expected), None, "{name}, {tables:?}");
    assert_eq!(calls.patch(n, answer.total, &mut left), answer, "{name}, {tables:?}");
    best.into_iter().for_each(|best| expected.triangles.fill(&best.walk));
    assert_eq!(left.difference(&expected), None, "{name}, {tables:?}");
}

/// Tables with a few places more than the job needs.
fn tables_of(job: &Job, random: &mut Random) -> Tables {
    Tables::of_job(job, job.n - 2 + random.below(3), job.candidates.len() + random.below(3))
}

#[test]
fn small_jobs() {
    for seed in seeds("small jobs in turn") {
        let mut random = Random::new(seed);
        let mut patches = 0;
        for case in 0..3_000 {
            let job = random_job_of(3 + case % 6, &mut random);
            let best = tilings::best(&job);
            let tables = tables_of(&job, &mut random);
            for calls in each() {
                expect_in_turn(calls, job.n, &tables, best.as_ref());
            }
            patches += best.is_some() as usize;
        }
        assert!((1_000..2_900).contains(&patches), "{patches} patches");
    }
}

#[test]
fn larger_jobs() {
    for seed in seeds("larger jobs in turn") {
        let mut random = Random::new(seed);
        for _ in 0..150 {
            let n = random.between(9, 30) as usize;
            let job = random_job_of(n, &mut random);
            let tables = tables_of(&job, &mut random);
            expect_in_turn(under_test(), n, &tables, interval::best(&job).as_ref());
        }
        let job = random_job(64, 100, random.one_of(&[0, 2]), 1000, &mut random);
        let tables = tables_of(&job, &mut random);
        expect_in_turn(under_test(), 64, &tables, interval::best(&job).as_ref());
    }
}

/// Among what it may hold is the agreed total itself, in every place, and totals next to it.
#[test]
fn whatever_the_work_table_holds() {
    for seed in seeds("whatever the work table holds") {
        let mut random = Random::new(seed);
        for _ in 0..600 {
            let n = random.between(3, 12) as usize;
            let job = random_job_of(n, &mut random);
            let best = interval::best(&job);
            let total = answer_of(best.as_ref()).total;
            for held in [0, total, total.wrapping_sub(1), 1 << 62, u64::MAX, random.next_u64()] {
                let mut tables = tables_of(&job, &mut random);
                tables.work.table().fill(held);
                expect_in_turn(under_test(), n, &tables, best.as_ref());
            }
        }
    }
}

/// A price again, before the patch and after it, and a patch again, are what they were.
#[test]
fn over_and_over() {
    let mut random = Random::new(5);
    for _ in 0..300 {
        let job = random_job_of(random.between(3, 8) as usize, &mut random);
        let (price, mut tables) =
            compare_price(&BY_SETS, under_test(), job.n, &tables_of(&job, &mut random));
        for _ in 0..3 {
            let (again, left) = compare_price(&BY_SETS, under_test(), job.n, &tables);
            assert_eq!((again, left.difference(&tables)), (price, None), "{job:?}");
            let (patch, left) = compare_patch(&BY_SETS, under_test(), job.n, price.total, &tables);
            assert_eq!(patch, price, "{job:?}");
            tables = left;
        }
    }
}

/// The price asks for no place for triangles, and the patch for n - 2, whatever was agreed.
#[test]
fn places_for_triangles() {
    for seed in seeds("places for triangles") {
        let mut random = Random::new(seed);
        for _ in 0..300 {
            let n = random.between(3, 8) as usize;
            let job = random_job_of(n, &mut random);
            for places in 0..n {
                let tables = Tables::of_job(&job, places, job.candidates.len());
                let (price, priced) = compare_price(&BY_SETS, under_test(), n, &tables);
                assert_eq!(price.number, 0, "{job:?}");
                for agreed in [price.total, price.total + 1, 0, u64::MAX] {
                    let (patch, _) = compare_patch(&BY_SETS, under_test(), n, agreed, &priced);
                    assert_eq!(patch.number == 13, places < n - 2, "{places} places, {job:?}");
                }
            }
        }
    }
}

/// What the patch wrote, over the tables that it left.
#[test]
fn the_judge_accepts_the_patch() {
    for seed in seeds("the judge accepts the patch") {
        let mut random = Random::new(seed);
        let mut patches = 0;
        for _ in 0..600 {
            let n = random.between(3, 24) as usize;
            let job = random_job_of(n, &mut random);
            let mut tables = Tables::of_job(&job, n - 2, job.candidates.len());
            let price = under_test().price(n, &mut tables);
            let patch = under_test().patch(n, price.total, &mut tables);
            if patch.triangles > 0 {
                let answer = under_test().judge(n, price.total, &mut tables);
                assert_eq!(answer, JudgeAnswer { number: 0, excess: 0 }, "{job:?}");
                patches += 1;
            }
        }
        assert!(patches > 150, "{patches} patches");
    }
}

/// The lists of a rim as a direct job have the answer of the one call; whether that is a patch.
fn expect_rim_in_turn(file: &[u8]) -> bool {
    let calls = under_test();
    let Ok(places) = calls.sizes(file) else { return false };
    let mut tables = Tables::guarded(places);
    let answer = calls.patch_rim(file, &mut tables);
    let walk = tables.triangles.view()[..answer.triangles].to_vec();
    let best = Some(Tiling { walk, total: answer.total }).filter(|best| !best.walk.is_empty());
    let job = job_of(calls, file, &mut tables);
    let of_job = Tables::of_job(&job, places.triangles, places.work);
    expect_in_turn(calls, job.n, &of_job, best.as_ref());
    best.is_some()
}

#[test]
fn lists_of_rims() {
    rims_at_random("lists of rims in turn", |file, _| expect_rim_in_turn(file));
}

#[test]
fn lists_of_the_examples() {
    rims_of_the_examples(expect_rim_in_turn);
}

/// A rim file at random, right or damaged.
fn any_file(random: &mut Random) -> Vec<u8> {
    if random.once_in(5) {
        return damage::random_records(random.between(0, 12) as usize, random).bytes();
    }
    let n = random.between(3, 9) as usize;
    let points = random.one_of(&Shape::ALL).points(n, random.one_of(&[4, 200, 1000]), random);
    let factors = [random.one_of(&[0, 1, 16, 17]), random.one_of(&[0, 1, 65_535])];
    RimFile::varied(&points, factors, random).bytes()
}

/// Nobody agrees on anything there: under any limit, over tables of any length.
#[test]
fn the_one_call_never_gives_23() {
    for seed in seeds("the one call never gives 23") {
        let mut random = Random::new(seed);
        let mut met = [0; 24];
        for _ in 0..6_000 {
            let file = any_file(&mut random);
            let [few, some] = [5, 80].map(|most| random.below(most));
            let short =
                Places { triangles: few, candidates: some, weights: some, rows: 400, work: some };
            let places = random.one_of(&[short, Places::BENCH]);
            let limited = under_test().within(random.one_of(&[2, 6, 24, 64]));
            for calls in [under_test(), &*limited] {
                let answer = calls.patch_rim(&file, &mut Tables::guarded(places));
                met[answer.number as usize] += 1;
            }
        }
        assert!([0, 2, 12, 13, 14, 20].iter().all(|&number| met[number] > 30), "{met:?}");
        assert_eq!(met[23], 0, "{met:?}");
    }
}
