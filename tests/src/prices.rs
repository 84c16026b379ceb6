//! Agreed totals of direct jobs, right ones and wrong ones, and edits of a job between its price and
//! its patch.

use crate::calls::{Job, PatchAnswer};
use crate::interval;
use crate::jobs::{all_triples, job, p};
use crate::law::judge;
use crate::law::tests_of_jobs::HIGHEST_WEIGHT as HIGHEST;
use crate::law::tilings::Tiling;
use crate::patches::another;
use crate::random::Random;

fn with_weight(job: &Job, candidate: u16, weight: u32) -> Job {
    let mut job = job.clone();
    job.weights[candidate as usize] = weight;
    job
}

/// A tiling that can do without this triangle, where there is one: the best when it is as dear as may
/// be.
fn tiling_without(job: &Job, triangle: u16) -> Tiling {
    interval::best(&with_weight(job, triangle, HIGHEST)).expect("a tiling as before")
}

/// Totals to agree on for a job: first the least, then others, which are the same now and then. One of
/// them is that of another tiling. Any will do where there is no tiling.
pub fn figures(job: &Job) -> Vec<u64> {
    let Some(best) = interval::best(job) else { return vec![0, 1, 1 << 32, u64::MAX] };
    let least = best.total;
    let without_rows = judge::total(&Job { rows: Vec::new(), ..job.clone() }, &best.walk);
    let other = judge::total(job, &tiling_without(job, best.walk[0]).walk);
    let next = [least.wrapping_sub(1), least + 1, least + (1 << 32), least as u32 as u64];
    [&[least][..], &next, &[0, u64::MAX, without_rows, other]].concat()
}

/// A change to a job that has this best tiling.
pub type Edit = (&'static str, fn(&mut Job, &Tiling, &mut Random));

pub const EDITS: [Edit; 14] = [
    ("none", |_, _, _| {}),
    ("a triangle of the patch one dearer", |job, best, random| {
        change(job, random.one_of(&best.walk), |weight| weight + 1);
    }),
    ("a triangle of the patch one cheaper", |job, best, random| {
        change(job, random.one_of(&best.walk), |weight| weight.saturating_sub(1));
    }),
    ("a triangle of the patch as dear as may be", |job, best, random| {
        change(job, random.one_of(&best.walk), |_| HIGHEST);
    }),
    ("another triangle one dearer", |job, best, random| {
        change(job, another(job, &best.walk, random), |weight| weight + 1);
    }),
    ("another triangle as dear as may be", |job, best, random| {
        change(job, another(job, &best.walk, random), |_| HIGHEST);
    }),
    ("another triangle for nothing", |job, best, random| {
        change(job, another(job, &best.walk, random), |_| 0);
    }),
    ("two weights of the patch exchanged", |job, best, random| {
        exchange(job, [(); 2].map(|()| random.one_of(&best.walk)));
    }),
    ("a weight of the patch exchanged with another", |job, best, random| {
        exchange(job, [random.one_of(&best.walk), another(job, &best.walk, random)]);
    }),
    ("another tiling at the same total", |job, best, random| {
        let other = tiling_without(job, random.one_of(&best.walk));
        lower_to(job, best, &other);
    }),
    ("the patch dearer, another tiling at its total", |job, best, random| {
        let left_out = random.one_of(&best.walk);
        let other = tiling_without(job, left_out);
        lower_to(job, best, &other);
        change(job, left_out, |weight| weight + 1);
    }),
    ("a row as dear as may be", |job, _, random| change_row(job, HIGHEST, random)),
    ("a row for nothing", |job, _, random| change_row(job, 0, random)),
    ("a weight that is too high", |job, _, random| {
        change(job, random.below(job.candidates.len()) as u16, |_| HIGHEST + 1);
    }),
];

/// The number of a candidate, or one past them, which nothing is changed for.
fn change(job: &mut Job, candidate: u16, to: fn(u32) -> u32) {
    if (candidate as usize) < job.candidates.len() {
        let weight = &mut job.weights[candidate as usize];
        *weight = to(*weight);
    }
}

fn exchange(job: &mut Job, candidates: [u16; 2]) {
    let [one, other] = candidates.map(usize::from);
    if one.max(other) < job.candidates.len() {
        job.weights.swap(one, other);
    }
}

fn change_row(job: &mut Job, weight: u32, random: &mut Random) {
    if !job.rows.is_empty() {
        let row = random.below(job.rows.len());
        job.rows[row][2] = weight;
    }
}

/// The triangles that the other tiling has for itself become as much cheaper as it is dearer, if they
/// can.
fn lower_to(job: &mut Job, best: &Tiling, other: &Tiling) {
    let mut dearer = judge::total(job, &other.walk) - best.total;
    for &k in other.walk.iter().filter(|k| !best.walk.contains(k)) {
        let weight = &mut job.weights[k as usize];
        let less = dearer.min(*weight as u64);
        *weight -= less as u32;
        dearer -= less;
    }
}

/// A job as it is priced, the same job as it is patched, the agreed total, the number of the patch and
/// its triangles.
pub struct Case {
    pub priced: Job,
    pub job: Job,
    pub agreed: u64,
    pub answer: PatchAnswer,
    pub walk: Vec<u16>,
}

/// P with other weights for its four candidates.
fn p_with(weights: [u32; 4]) -> Job {
    Job { weights: weights.to_vec(), ..p() }
}

/// A total, and the number and the triangles at it.
type AtTotal<'a> = (u64, u32, &'a [u16]);

/// Totals and answers of P as it is priced.
const OF_P: [AtTotal; 9] = [
    (943, 0, &[1, 3]),
    (942, 23, &[]),
    (944, 23, &[]),
    (0, 23, &[]),
    (u64::MAX, 23, &[]),
    (1000, 23, &[]),
    (629, 23, &[]),
    (943 + (1 << 32), 23, &[]),
    (943 << 32, 23, &[]),
];

/// P edited after its price, 943: a triangle of its patch dearer, and cheaper; another dearer; both
/// tilings at 943; only the other one at 943, and below it; a weight that is too high.
const OF_EDITED_P: [([u32; 4], &[AtTotal]); 7] = [
    ([320, 257, 320, 373], &[(943, 23, &[]), (944, 0, &[1, 3])]),
    ([320, 256, 320, 372], &[(943, 23, &[]), (942, 0, &[1, 3])]),
    ([HIGHEST, 256, 320, 373], &[(943, 0, &[1, 3]), (944, 23, &[])]),
    ([320, 256, 263, 373], &[(943, 0, &[1, 3]), (942, 23, &[])]),
    ([320, 257, 263, 373], &[(943, 0, &[2, 0]), (944, 23, &[])]),
    ([320, 256, 262, 373], &[(943, 23, &[]), (942, 0, &[2, 0])]),
    ([320, 256, 320, HIGHEST + 1], &[(943, 17, &[]), (0, 17, &[])]),
];

/// Heavy ones: all triples of five vertices at the highest weight, and two rows.
const OF_FIVE: [AtTotal; 5] = [
    (6_000_000_000, 0, &[2, 7, 9]),
    (8_000_000_000, 23, &[]),
    (6_000_000_000 - (1 << 32), 23, &[]),
    (6_000_000_000 + (1 << 32), 23, &[]),
    (6_000_000_001, 23, &[]),
];

/// Jobs, totals and answers worked by hand.
pub fn worked() -> Vec<Case> {
    let five = job(5, &all_triples(5), &[HIGHEST; 10], &[[3, 0, HIGHEST], [4, 0, HIGHEST]]);
    let free = job(4, &all_triples(4), &[0; 4], &[[1, 3, 0]]);
    let bent = job(4, &all_triples(4), &[1; 4], &[[1, 3, 1]]);
    let open = job(5, &[[0, 1, 2], [0, 2, 4]], &[1, 1], &[]);
    let none = job(3, &[], &[], &[]);
    let wrong_row = job(4, &all_triples(4), &[1; 4], &[[1, 0, 1]]);
    let too_many = job(65, &[], &[], &[]);
    let nothing: [AtTotal; 4] = [(0, 0, &[]), (1, 0, &[]), (2, 0, &[]), (u64::MAX, 0, &[])];
    let unedited: [(Job, &[AtTotal]); 8] = [
        (p(), &OF_P),
        (five, &OF_FIVE),
        (free, &[(0, 0, &[1, 3]), (1, 23, &[]), (u64::MAX, 23, &[]), (1 << 32, 23, &[])]),
        (bent, &[(2, 0, &[2, 0]), (3, 23, &[]), (1, 23, &[])]),
        (open, &nothing),
        (none, &nothing),
        (wrong_row, &[(2, 16, &[]), (0, 16, &[]), (u64::MAX, 16, &[])]),
        (too_many, &[(0, 14, &[]), (u64::MAX, 14, &[])]),
    ];
    let edited = OF_EDITED_P.map(|(weights, totals)| (p(), p_with(weights), totals));
    let unedited = unedited.map(|(job, totals)| (job.clone(), job, totals));
    let jobs = unedited.into_iter().chain(edited);
    jobs.flat_map(|(priced, job, totals)| {
        totals.iter().map(move |total| case(&priced, &job, total))
    })
    .collect()
}

fn case(priced: &Job, job: &Job, &(agreed, number, walk): &AtTotal) -> Case {
    let total = if walk.is_empty() { 0 } else { agreed };
    let answer = PatchAnswer { number, triangles: walk.len(), total };
    Case { priced: priced.clone(), job: job.clone(), agreed, answer, walk: walk.to_vec() }
}
