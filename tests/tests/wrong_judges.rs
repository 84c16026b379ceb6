//! Judges of patches that are wrong, each in one way, and patches that tell them from the right one.

use outside_tests::calls::{Calls, Job, JudgeAnswer, Patch, Tables};
use outside_tests::damaged_jobs::{damaged, OF_JOBS};
use outside_tests::jobs::random_job;
use outside_tests::law::judge::{is_tiling, named, total};
use outside_tests::law::tests_of_jobs::{self, number_without_triangles};
use outside_tests::law::tilings::{best, walk};
use outside_tests::law::BY_SETS;
use outside_tests::patches::{all_of, least_total, worked};
use outside_tests::random::Random;
use outside_tests::told::{Told, Wrong};

/// What a judge knows of a patch, and of its job.
#[derive(Clone, Copy)]
struct Known {
    is_tiling: bool,
    total: u64,
    stated: u64,
    least: u64,
}

/// A judge in steps. A wrong one has one of them changed.
#[derive(Clone, Copy)]
struct Steps {
    /// The number of a job with so many work places, or one of its list that comes before.
    number_of_job: fn(&Job, &[u16], usize) -> Option<u32>,
    is_tiling: fn(&Job, &[u16]) -> bool,
    total: fn(&Job, &[u16]) -> u64,
    number_of_patch: fn(Known) -> Option<u32>,
    excess: fn(Known) -> u64,
    /// The work places that hold 0 after this number, by the candidates and by all places.
    cleared: fn(u32, usize, usize) -> usize,
}

const RIGHT: Steps = Steps {
    number_of_job: |job, _, work| number_without_triangles(job, work),
    is_tiling,
    total,
    number_of_patch,
    excess: |known| known.stated.wrapping_sub(known.least),
    cleared: |number, candidates, _| if number == 0 { candidates } else { 0 },
};

fn number_of_patch(known: Known) -> Option<u32> {
    match (known.is_tiling, known.total == known.stated) {
        (false, _) => Some(21),
        (true, false) => Some(22),
        (true, true) => None,
    }
}

impl Steps {
    fn answer(&self, job: &Job, patch: &Patch, least: u64, work: usize) -> JudgeAnswer {
        if let Some(number) = (self.number_of_job)(job, &patch.list, work) {
            return JudgeAnswer::refused(number);
        }
        let known = Known {
            is_tiling: (self.is_tiling)(job, &patch.list),
            total: (self.total)(job, &patch.list),
            stated: patch.stated,
            least,
        };
        match (self.number_of_patch)(known) {
            Some(number) => JudgeAnswer::refused(number),
            None => JudgeAnswer { number: 0, excess: (self.excess)(known) },
        }
    }

    /// The answer, and the tables after it.
    fn judge(&self, job: &Job, patch: &Patch, least: u64, work: usize) -> (JudgeAnswer, Tables) {
        let mut tables = Tables::of_patch(job, &patch.list, work);
        let answer = self.answer(job, patch, least, work);
        let cleared = (self.cleared)(answer.number, job.candidates.len(), work);
        tables.work.fill(&vec![0; cleared]);
        (answer, tables)
    }
}

fn names_once(job: &Job, list: &[u16]) -> bool {
    named(job, list).len() == list.len()
}

/// Each rim edge is in one triangle, and every other in as many as will do.
fn edges_fit(job: &Job, list: &[u16], will_do: fn(usize) -> bool) -> bool {
    let fits = |i: u8, j: u8| {
        let triangles = list.iter().map(|&k| job.candidates[k as usize]);
        let uses = triangles.filter(|t| t.contains(&i) && t.contains(&j)).count();
        match j == i + 1 || (j - i) as usize == job.n - 1 {
            true => uses == 1,
            false => will_do(uses),
        }
    };
    let n = job.n as u8;
    names_once(job, list) && (0..n).all(|i| (i + 1..n).all(|j| fits(i, j)))
}

fn without_repeats(job: &Job, list: &[u16]) -> bool {
    let mut list = list.to_vec();
    list.sort_unstable();
    list.dedup();
    is_tiling(job, &list)
}

fn without_numbers_past(job: &Job, list: &[u16]) -> bool {
    let mut list = list.to_vec();
    list.retain(|&k| (k as usize) < job.candidates.len());
    is_tiling(job, &list)
}

fn in_walk_order(job: &Job, list: &[u16]) -> bool {
    let last = (job.n - 1) as u8;
    is_tiling(job, list) && list == walk(&job.candidates, &named(job, list), 0, last)
}

fn without_rows(job: &Job, list: &[u16]) -> u64 {
    total(&Job { rows: Vec::new(), ..job.clone() }, list)
}

/// A row counts where its inner is in the list, and its outer need not be.
fn rows_by_the_inner(job: &Job, list: &[u16]) -> u64 {
    let set = named(job, list);
    let rows = job.rows.iter().filter(|row| set.contains(&(row[1] as usize)));
    without_rows(job, list) + rows.map(|row| row[2] as u64).sum::<u64>()
}

fn wrong_total_first(known: Known) -> Option<u32> {
    match (known.is_tiling, known.total == known.stated) {
        (_, false) => Some(22),
        (false, true) => Some(21),
        (true, true) => None,
    }
}

fn length_first(job: &Job, list: &[u16], work: usize) -> Option<u32> {
    match list.len() + 2 == job.n {
        true => number_without_triangles(job, work),
        false => Some(21),
    }
}

const WRONG: [Wrong<Steps>; 21] = [
    ("edges without their sides", |s| {
        s.is_tiling = |job, list| edges_fit(job, list, |uses| uses == 0 || uses == 2);
    }),
    ("rim edges alone", |s| s.is_tiling = |job, list| edges_fit(job, list, |_| true)),
    ("any n - 2 candidates", |s| {
        s.is_tiling = |job, list| names_once(job, list) && list.len() == job.n - 2;
    }),
    ("a repeat let through", |s| s.is_tiling = without_repeats),
    ("numbers past the candidates overlooked", |s| s.is_tiling = without_numbers_past),
    ("walk order asked for", |s| s.is_tiling = in_walk_order),
    ("an empty list for 'none'", |s| {
        s.is_tiling = |job, list| is_tiling(job, list) || (list.is_empty() && best(job).is_none());
    }),
    ("rows left out of the total", |s| s.total = without_rows),
    ("a row of a pair not in the list", |s| s.total = rows_by_the_inner),
    ("a total of 32 bits", |s| s.total = |job, list| total(job, list) as u32 as u64),
    ("a stated total of 32 bits", |s| {
        s.number_of_patch =
            |known| number_of_patch(Known { stated: known.stated as u32 as u64, ..known });
    }),
    ("a stated total above the list's", |s| {
        s.number_of_patch =
            |known| number_of_patch(Known { stated: known.stated.min(known.total), ..known });
    }),
    ("the least total asked for", |s| {
        s.number_of_patch = |known| number_of_patch(Known { total: known.least, ..known });
    }),
    ("22 before 21", |s| s.number_of_patch = wrong_total_first),
    ("21 before the numbers of the job", |s| s.number_of_job = length_first),
    ("13 for a short list", |s| {
        s.number_of_job = |job, list, work| tests_of_jobs::number_due(job, list.len(), work);
    }),
    ("excess over the list's total", |s| s.excess = |known| known.stated - known.total),
    ("excess below zero", |s| s.excess = |known| known.least.wrapping_sub(known.stated)),
    ("work cleared on 21", |s| {
        s.cleared = |number, candidates, _| if [0, 21].contains(&number) { candidates } else { 0 };
    }),
    ("work cleared to its end", |s| {
        s.cleared = |number, _, places| if number == 0 { places } else { 0 };
    }),
    ("work not cleared", |s| s.cleared = |_, _, _| 0),
];

fn by_nothing() -> Told<Steps> {
    Told::by_nothing(RIGHT, &WRONG)
}

/// One case more for each patch of a job.
fn tell(told: &mut Told<Steps>, job: &Job, patches: &[Patch], work: usize) {
    let least = number_without_triangles(job, work).map_or_else(|| least_total(job), |_| 0);
    for patch in patches {
        let mut tables = Tables::of_patch(job, &patch.list, work);
        let right = (BY_SETS.judge(job.n, patch.stated, &mut tables), tables);
        let case = || format!("{patch:?} and {job:?}");
        told.by(&right, |steps| steps.judge(job, patch, least, work), &case);
    }
}

#[test]
fn told_by_the_worked_cases() {
    let mut told = by_nothing();
    for (job, patch, _) in worked() {
        tell(&mut told, &job, &[patch], job.candidates.len() + 1);
    }
    told.expect_over(0);
}

/// Patches as those that `judge` compares by: many tell each wrong judge from the right one.
#[test]
fn told_by_patches_of_small_jobs() {
    let mut random = Random::new(1);
    let mut told = by_nothing();
    for case in 0..360 {
        let keep = random.one_of(&[100, 70]);
        let highest = random.one_of(&[0, 1, 1000, 2_000_000_000]);
        let job = random_job(3 + case % 3, keep, 70, highest, &mut random);
        let patches = all_of(&job, &mut random);
        tell(&mut told, &job, &patches, job.candidates.len() + random.below(2));
    }
    let lists: [&[u16]; 3] = [&[0, 3, 5], &[0, 3], &[]];
    let patches = lists.map(|list| Patch { list: list.to_vec(), stated: 21 });
    for damage in OF_JOBS {
        let lending = damaged(&[damage]);
        tell(&mut told, &lending.job, &patches, lending.places[1]);
    }
    told.expect_over(30);
}
