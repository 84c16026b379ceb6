//! Patches of direct jobs as other programs might make them, right ones and wrong ones.

use crate::calls::{Job, JudgeAnswer, Patch, Triangle};
use crate::interval;
use crate::jobs::{all_triples, job, p, tiling};
use crate::law::judge;
use crate::random::Random;

/// The numbers of some of a job's candidates.
pub fn numbers(job: &Job, triangles: &[Triangle]) -> Vec<u16> {
    let number = |triangle| job.candidates.binary_search(triangle).expect("a candidate") as u16;
    triangles.iter().map(number).collect()
}

/// Every set of so many candidates, as a list.
pub fn every_set(candidates: usize) -> impl Iterator<Item = Vec<u16>> {
    let numbers = move |set: u64| (0..candidates as u16).filter(move |k| set >> k & 1 == 1);
    (0..1 << candidates).map(move |set| numbers(set).collect())
}

/// Totals to state for a list of a job with this least total: first its own, then others, which are
/// the same now and then.
pub fn totals(job: &Job, list: &[u16], least: u64) -> [u64; 8] {
    let own = judge::total(job, list);
    let without_rows = judge::total(&Job { rows: Vec::new(), ..job.clone() }, list);
    let next = [own.wrapping_sub(1), own + 1, own + (1 << 32)];
    [own, next[0], next[1], next[2], 0, u64::MAX, least, without_rows]
}

/// The least total of a job; any number where it has no tiling.
pub fn least_total(job: &Job) -> u64 {
    interval::best(job).map_or(0, |best| best.total)
}

/// A way to spoil the list of a tiling. What comes of it is never a tiling: two of them differ in
/// more than one triangle.
type Slip = (&'static str, fn(&Job, &mut Vec<u16>, &mut Random));

pub const SLIPS: [Slip; 11] = [
    ("one left out", |_, list, random| {
        list.swap_remove(random.below(list.len()));
    }),
    ("one twice", |_, list, random| list.push(random.one_of(list))),
    ("one in the place of another", |_, list, _| match &mut list[..] {
        [one, .., other] => *other = *one,
        _ => list.push(list[0]),
    }),
    ("another candidate in the place of one", |job, list, random| {
        let another = another(job, list, random);
        replace_one(list, another, random);
    }),
    ("another candidate too", |job, list, random| list.push(another(job, list, random))),
    ("all of them twice", |_, list, _| list.extend_from_within(..)),
    ("nothing", |_, list, _| list.clear()),
    ("the first number past the candidates", |job, list, random| {
        replace_one(list, job.candidates.len() as u16, random);
    }),
    ("the second number past them", |job, list, random| {
        replace_one(list, job.candidates.len() as u16 + 1, random);
    }),
    ("the largest number", |_, list, random| replace_one(list, u16::MAX, random)),
    ("a number past them too", |job, list, _| list.push(job.candidates.len() as u16)),
];

fn replace_one(list: &mut [u16], number: u16, random: &mut Random) {
    list[random.below(list.len())] = number;
}

/// A candidate that the list does not name, or where it names them all a number past them.
pub fn another(job: &Job, list: &[u16], random: &mut Random) -> u16 {
    let mut others: Vec<u16> = (0..job.candidates.len() as u16).collect();
    others.retain(|k| !list.contains(k));
    match others.is_empty() {
        true => job.candidates.len() as u16,
        false => random.one_of(&others),
    }
}

/// The list of a tiling after a slip, in any order.
pub fn spoilt(slip: Slip, job: &Job, list: &[u16], random: &mut Random) -> Vec<u16> {
    let mut list = list.to_vec();
    slip.1(job, &mut list, random);
    random.shuffle(&mut list);
    list
}

/// Patches of a job of few candidates: every set of them in any order, with each total where it is a
/// tiling and with one of them where not, and what comes of each tiling by a slip.
pub fn all_of(job: &Job, random: &mut Random) -> Vec<Patch> {
    let least = least_total(job);
    let mut patches = Vec::new();
    let mut add = |list: &[u16], totals: &[u64]| {
        patches.extend(totals.iter().map(|&stated| Patch { list: list.to_vec(), stated }));
    };
    for mut list in every_set(job.candidates.len()) {
        random.shuffle(&mut list);
        let totals = totals(job, &list, least);
        if !judge::is_tiling(job, &list) {
            add(&list, &[random.one_of(&totals)]);
            continue;
        }
        add(&list, &totals);
        for slip in SLIPS {
            add(&spoilt(slip, job, &list, random), &totals[..3]);
        }
    }
    patches
}

/// A list with a stated total, and the number and the excess of the answer.
type Case<'a> = (&'a [u16], u64, u32, u64);

/// The job of rim file P (rule 6.1): its tilings are 1, 3 and 0, 2.
const OF_P: [Case; 22] = [
    (&[1, 3], 943, 0, 0),
    (&[3, 1], 943, 0, 0),
    (&[0, 2], 1000, 0, 57),
    (&[2, 0], 1000, 0, 57),
    (&[0, 2], 943, 22, 0),
    (&[1, 3], 1000, 22, 0),
    (&[1, 3], 629, 22, 0),
    (&[1, 3], 1303, 22, 0),
    (&[1, 3], 0, 22, 0),
    (&[1, 1], 943, 21, 0),
    (&[1, 1], 512, 21, 0),
    (&[1, 3, 3], 943, 21, 0),
    (&[1, 3, 3], 1630, 21, 0),
    (&[1, 3, 1, 3], 943, 21, 0),
    (&[1], 256, 21, 0),
    (&[1], 943, 21, 0),
    (&[1, 4], 256, 21, 0),
    (&[1, 4], 943, 21, 0),
    (&[1, 3, 4], 943, 21, 0),
    (&[1, 2], 576, 21, 0),
    (&[0, 1, 2, 3], 1943, 21, 0),
    (&[], 0, 21, 0),
];

/// The job of one candidate (rule 6.2).
const OF_ONE: [Case; 4] = [(&[0], 5, 0, 0), (&[0], 4, 22, 0), (&[0, 0], 5, 21, 0), (&[], 0, 21, 0)];

/// All triples of five vertices at the highest weight, and two rows: 012 on 023 and on 024. The last
/// list is a band with a twist: every edge that is not of the rim is in two triangles on one side.
const OF_FIVE: [Case; 6] = [
    (&[2, 7, 9], 6_000_000_000, 0, 0),
    (&[0, 3, 5], 8_000_000_000, 0, 2_000_000_000),
    (&[0, 3, 5], 8_000_000_000 + (1 << 32), 22, 0),
    (&[0, 3, 5], 8_000_000_000 - (1 << 32), 22, 0),
    (&[0, 3, 5], 10_000_000_000, 22, 0),
    (&[1, 3, 4, 7, 8], 10_000_000_000, 21, 0),
];

/// Patches worked by hand, with their answers. In the last, a tiling and the four faces of a solid,
/// each edge is in as many triangles as in a tiling, but those of the solid are on one side.
pub fn worked() -> Vec<(Job, Patch, JudgeAnswer)> {
    let one = job(3, &[[0, 1, 2]], &[5], &[]);
    let none = job(3, &[], &[], &[]);
    let heavy = 2_000_000_000;
    let five = job(5, &all_triples(5), &[heavy; 10], &[[3, 0, heavy], [4, 0, heavy]]);
    let wrong_row = job(4, &all_triples(4), &[1; 4], &[[1, 0, 1]]);
    let too_many = job(65, &[], &[], &[]);
    let eight = job(8, &all_triples(8), &[1; 56], &[]);
    let fan = numbers(&eight, &tiling(8, |first, _| first + 1));
    let solid = numbers(&eight, &[[1, 3, 5], [1, 3, 7], [1, 5, 7], [3, 5, 7]]);
    let fan_and_solid = [&fan[..], &solid].concat();
    let cases: [(Job, &[Case]); 7] = [
        (p(), &OF_P),
        (one, &OF_ONE),
        (none, &[(&[], 0, 21, 0)]),
        (five, &OF_FIVE),
        (wrong_row, &[(&[1], 1, 16, 0), (&[1, 1], 0, 16, 0)]),
        (too_many, &[(&[], 0, 14, 0)]),
        (eight, &[(&fan, 6, 0, 0), (&fan_and_solid, 10, 21, 0)]),
    ];
    let case = |job: &Job, &(list, stated, number, excess): &Case| {
        (job.clone(), Patch { list: list.to_vec(), stated }, JudgeAnswer { number, excess })
    };
    cases.iter().flat_map(|(job, cases)| cases.iter().map(move |of| case(job, of))).collect()
}
