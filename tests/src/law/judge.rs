//! The judge of a patch from elsewhere (rules 3.13, 3.14, 4.21, 4.22 and 4.36).

use super::tilings::{self, Tiling};
use crate::calls::{Job, Patch};
use std::collections::BTreeSet;

/// The set of the candidates that a list names, in whatever order and however often.
pub fn named(job: &Job, list: &[u16]) -> Vec<usize> {
    let numbers: BTreeSet<usize> = list.iter().map(|&k| k as usize).collect();
    numbers.into_iter().filter(|&k| k < job.candidates.len()).collect()
}

/// Every number is a candidate's, none stands there twice, and the set is a tiling.
pub fn is_tiling(job: &Job, list: &[u16]) -> bool {
    let set = named(job, list);
    set.len() == list.len() && tilings::is_tiling(job.n, &job.candidates, &set)
}

/// The total of a list is that of its set.
pub fn total(job: &Job, list: &[u16]) -> u64 {
    tilings::total(job, &tilings::row_weights(job), &named(job, list))
}

/// 21, then 22, on the patch of an accepted job.
pub fn number_of_patch(job: &Job, patch: &Patch) -> Option<u32> {
    if !is_tiling(job, &patch.list) {
        Some(21)
    } else if total(job, &patch.list) != patch.stated {
        Some(22)
    } else {
        None
    }
}

/// The excess of a stated total over the least one, of a job that has a tiling.
pub fn excess(best: fn(&Job) -> Option<Tiling>, job: &Job, stated: u64) -> u64 {
    stated - best(job).expect("a tiling was accepted").total
}
