//! Patches from elsewhere, judged through the calls.

#![forbid(unsafe_code)]

mod common;

use common::{damaged_p, p, rim_file, wavy_edge, Job};
use patch_box::{Number, Outcome, OwnedTables};

impl Job {
    /// The judge's answer. An acceptance leaves zeros in a work place for each candidate and nothing
    /// else, a refusal nothing at all.
    fn judge(&self, list: &[u16], stated: u64) -> Result<u64, Number> {
        let Job { n, candidates, weights, rows, .. } = self;
        let mut work = self.guarded_work();
        let judged = patch_box::judge(*n, candidates, weights, rows, list, stated, &mut work);
        self.expect_work(&work, judged.is_ok());
        judged
    }
}

#[test]
fn accepted_in_any_order() {
    for (list, stated, excess) in
        [([1, 3], 943, 0), ([3, 1], 943, 0), ([0, 2], 1000, 57), ([2, 0], 1000, 57)]
    {
        assert_eq!(p().judge(&list, stated), Ok(excess));
    }
}

/// Their bends count 0, so the totals are 256 + 373 and 320 + 320.
#[test]
fn pairs_without_a_row() {
    let job = p().with(|job| job.rows.clear());
    assert_eq!(job.judge(&[1, 3], 629), Ok(0));
    assert_eq!(job.judge(&[2, 0], 640), Ok(11));
}

/// As many as there are candidates; a further weight counts for nothing.
#[test]
fn places_that_just_suffice() {
    let job = p().with(|job| job.places = 4);
    assert_eq!(job.judge(&[0, 2], 1000), Ok(57));
    let longer = p().with(|job| job.weights.push(u32::MAX));
    assert_eq!(longer.judge(&[0, 2], 1000), Ok(57));
}

/// Too few triangles, too many, the wrong ones, one twice, and numbers of no candidate, whatever the
/// total; and each list of a job without a triangulation.
#[test]
fn lists_that_are_no_triangulation() {
    let lists: [&[u16]; 16] = [
        &[],
        &[0],
        &[1],
        &[0, 1],
        &[1, 2],
        &[2, 3],
        &[0, 1, 3],
        &[0, 1, 2, 3],
        &[1, 1],
        &[1, 3, 1],
        &[3, 1, 1],
        &[1, 3, 1, 3],
        &[1, 4],
        &[1, 3, 4],
        &[65_535, 1, 3],
        &[1; 1000],
    ];
    for list in lists {
        for stated in [0, 943, 1000] {
            assert_eq!(p().judge(list, stated), Err(Number::NotATriangulation), "{list:?}");
        }
    }
    let open = p().with(|job| {
        job.candidates = vec![[0, 1, 2], [0, 1, 3]];
        job.rows.clear();
    });
    for list in [&[][..], &[0], &[1], &[0, 1]] {
        assert_eq!(open.judge(list, 576), Err(Number::NotATriangulation), "{list:?}");
    }
}

#[test]
fn totals_that_are_not_the_lists() {
    for stated in [0, 629, 942, 944, 1000, (1 << 32) + 943, u64::MAX] {
        assert_eq!(p().judge(&[1, 3], stated), Err(Number::WrongTotal), "{stated}");
    }
    for stated in [943, 999, 1001] {
        assert_eq!(p().judge(&[0, 2], stated), Err(Number::WrongTotal), "{stated}");
    }
}

/// 14, 13, 15, 16 and 17 come before 21 and 22. No length of the list gives 13.
#[test]
fn numbers_of_the_job_come_first() {
    for (job, number) in damaged_p() {
        for list in [&[][..], &[1, 3], &[3, 1, 1], &[1; 70]] {
            for stated in [943, 944] {
                assert_eq!(job.judge(list, stated), Err(number), "{list:?}");
            }
        }
    }
}

/// The patch of a rim has no excess, whichever triangle comes first; one more in its total is one too
/// many, and without a triangle it is no patch.
#[test]
fn the_box_accepts_its_own_patches() {
    for n in [3, 4, 24, 64] {
        let file = rim_file(&wavy_edge(n), None);
        let mut tables = OwnedTables::new(patch_box::sizes(&file).expect("taken"));
        let outcome = patch_box::rim(&file, tables.lend());
        let Ok(Outcome::Patch { total, .. }) = outcome else { panic!("{outcome:?}") };
        let OwnedTables { triangles: mut list, candidates, weights, rows, work } = tables;
        let job = Job { n, candidates, weights, rows, places: work.len() + 1 };
        for _ in 0..n {
            assert_eq!(job.judge(&list, total), Ok(0));
            assert_eq!(job.judge(&list, total + 1), Err(Number::WrongTotal));
            assert_eq!(job.judge(&list[1..], total), Err(Number::NotATriangulation));
            list.rotate_left(1);
        }
    }
}
