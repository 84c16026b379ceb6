//! Damage to a direct job, and the number due for it (rules 4.13 to 4.17).

use crate::calls::Job;
use crate::jobs::{all_triples, hanging_pairs};
use crate::random::Random;

/// A job with the places of its triangle and work tables.
#[derive(Clone, Debug)]
pub struct Lending {
    pub job: Job,
    pub places: [usize; 2],
}

pub fn undamaged() -> Lending {
    let candidates = all_triples(5);
    let rows = hanging_pairs(&candidates);
    let job = Job { n: 5, weights: vec![7; candidates.len()], candidates, rows };
    Lending { places: [3, job.candidates.len()], job }
}

/// What is wrong, by its number, and how it is done.
pub type Damage = (u32, &'static str, fn(&mut Lending));

/// Places for triangles, which are lent for a patch, and not for a price or a judgement.
const OF_TRIANGLES: [Damage; 2] = [
    (13, "no triangle place", |l| l.places[0] = 0),
    (13, "one triangle place short", |l| l.places[0] = 2),
];

/// What is wrong for all three.
pub const OF_JOBS: [Damage; 24] = [
    (14, "n 0", |l| l.job.n = 0),
    (14, "n 2", |l| l.job.n = 2),
    (14, "n 65", |l| l.job.n = 65),
    (14, "n largest", |l| l.job.n = usize::MAX),
    (13, "no work place", |l| l.places[1] = 0),
    (13, "one work place short", |l| l.places[1] -= 1),
    (13, "one weight short", |l| l.job.weights.truncate(9)),
    (13, "no weight", |l| l.job.weights.clear()),
    (15, "last vertex n", |l| l.job.candidates[9] = [2, 3, 5]),
    (15, "last vertex 255", |l| l.job.candidates[9] = [2, 3, 255]),
    (15, "equal vertices", |l| l.job.candidates[0] = [0, 0, 2]),
    (15, "vertices fall", |l| l.job.candidates[0] = [0, 2, 1]),
    (15, "candidate twice", |l| l.job.candidates[4] = l.job.candidates[3]),
    (15, "candidates fall", |l| l.job.candidates.swap(8, 9)),
    (16, "outer no candidate", |l| l.job.rows.push([10, 0, 1])),
    (16, "outer largest", |l| l.job.rows.push([u32::MAX, u32::MAX, 1])),
    (16, "inner no candidate", |l| l.job.rows[0][1] = 10),
    (16, "ends changed", |l| l.job.rows[0].swap(0, 1)),
    (16, "inner is outer", |l| l.job.rows[0][1] = l.job.rows[0][0]),
    (16, "row twice", |l| l.job.rows.insert(3, l.job.rows[3])),
    (16, "rows fall", |l| l.job.rows.swap(0, 1)),
    (17, "first weight", |l| l.job.weights[0] = 2_000_000_001),
    (17, "row weight", |l| l.job.rows.iter_mut().last().expect("rows")[2] = u32::MAX),
    (17, "last weight", |l| {
        let last = l.job.candidates.len().min(l.job.weights.len());
        l.job.weights[..last].iter_mut().rev().take(1).for_each(|weight| *weight = u32::MAX);
    }),
];

/// Each number of the job to be patched, in several ways.
pub fn all() -> Vec<Damage> {
    [&OF_JOBS[..], &OF_TRIANGLES[..]].concat()
}

/// The order of the numbers of a direct job.
fn place(number: u32) -> usize {
    [14, 13, 15, 16, 17].iter().position(|&other| other == number).expect("a job's number")
}

/// Each two of these with different numbers, that one first whose number is due.
pub fn each_pair(damages: &[Damage]) -> impl Iterator<Item = [Damage; 2]> + '_ {
    let pairs = damages.iter().flat_map(|&one| damages.iter().map(move |&two| [one, two]));
    pairs.filter(|[one, two]| place(one.0) < place(two.0))
}

/// The undamaged job with these damages. The later number is put in first, since the earlier may
/// leave fewer places.
pub fn damaged(damages: &[Damage]) -> Lending {
    let mut lending = undamaged();
    damages.iter().rev().for_each(|(_, _, damage)| damage(&mut lending));
    lending
}

/// A field changed here and there: to a neighbour's value, by one, or to anything.
pub fn disturb(lending: &mut Lending, random: &mut Random) {
    let job = &mut lending.job;
    let pick = |count: usize, random: &mut Random| random.below(count.max(1));
    let change = random.between(-2, 2) as u8;
    let t = pick(job.candidates.len(), random);
    let r = pick(job.rows.len(), random);
    let field = random.below(3);
    match random.below(9) {
        0 => job.n = random.one_of(&[0, 2, 3, job.n ^ 1, job.n + 1, 10, 65, 1 << 40]),
        1 => lending.places[random.below(2)] = random.below(12),
        2 => job.weights.truncate(random.below(30)),
        3 if !job.candidates.is_empty() => {
            job.candidates[t][field] = job.candidates[t][field].wrapping_add(change);
        }
        4 if job.candidates.len() > 1 => job.candidates.swap(t, 0),
        5 if !job.rows.is_empty() => {
            job.rows[r][field] = job.rows[r][field].wrapping_add_signed(change as i8 as i32);
        }
        6 if job.rows.len() > 1 => job.rows.swap(r, 0),
        7 if !job.weights.is_empty() => {
            let w = pick(job.weights.len(), random);
            job.weights[w] = random.one_of(&[2_000_000_000, 2_000_000_001, u32::MAX]);
        }
        8 if !job.rows.is_empty() => {
            job.rows[r][2] = random.one_of(&[2_000_000_000, 2_000_000_001, u32::MAX]);
        }
        _ => {}
    }
}
