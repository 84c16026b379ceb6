//! The tests of a direct job (rule 4.32): 14, 13, 15, 16, 17, each over the whole job before the
//! next; and what comes after them for a patch at an agreed total (rule 4.37).

use super::finder::hangs_on;
use super::tilings::Tiling;
use crate::calls::Job;

pub const HIGHEST_WEIGHT: u32 = 2_000_000_000;

fn candidates_good(job: &Job) -> bool {
    let vertices = job.candidates.iter().all(|&[a, b, c]| a < b && b < c && (c as usize) < job.n);
    vertices && job.candidates.windows(2).all(|pair| pair[0] < pair[1])
}

fn rows_good(job: &Job) -> bool {
    let named = job.rows.iter().all(|&[outer, inner, _]| {
        match (job.candidates.get(outer as usize), job.candidates.get(inner as usize)) {
            (Some(&u), Some(&t)) => hangs_on(t, u),
            _ => false,
        }
    });
    named && job.rows.windows(2).all(|pair| pair[0][..2] < pair[1][..2])
}

fn weights_good(job: &Job) -> bool {
    let own = &job.weights[..job.candidates.len()];
    let of_rows = job.rows.iter().map(|row| row[2]);
    own.iter().copied().chain(of_rows).all(|weight| weight <= HIGHEST_WEIGHT)
}

/// The first number due on a job with so many places in the triangle and work tables.
pub fn number_due(job: &Job, triangles: usize, work: usize) -> Option<u32> {
    let count = job.candidates.len();
    if !(3..=64).contains(&job.n) {
        Some(14)
    } else if triangles < job.n - 2 || job.weights.len() < count || work < count {
        Some(13)
    } else if !candidates_good(job) {
        Some(15)
    } else if !rows_good(job) {
        Some(16)
    } else if !weights_good(job) {
        Some(17)
    } else {
        None
    }
}

/// The same where no triangle table is lent, so that none is too short: for a price and a judgement.
pub fn number_without_triangles(job: &Job, work: usize) -> Option<u32> {
    number_due(job, usize::MAX, work)
}

/// 23, where the job has a tiling and its best one another total.
pub fn number_of_agreement(best: Option<&Tiling>, agreed: u64) -> Option<u32> {
    best.filter(|tiling| tiling.total != agreed).map(|_| 23)
}
