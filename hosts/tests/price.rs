//! Direct jobs priced, and patched at an agreed total, through the calls.

#![forbid(unsafe_code)]

mod common;

use common::{damaged_p, p, rim_file, wavy_edge, Job};
use patch_box::{Number, Outcome, OwnedTables, Quote};

/// No call writes it.
const GUARD: u16 = u16::MAX;

impl Job {
    /// The price, which leaves zeros in a work place for each candidate; a refusal nothing at all.
    fn price(&self) -> Result<Quote, Number> {
        let Job { n, candidates, weights, rows, .. } = self;
        let mut work = self.guarded_work();
        let price = patch_box::price(*n, candidates, weights, rows, &mut work);
        self.expect_work(&work, price.is_ok());
        price
    }

    /// The total and the triangles at an agreed total, with so many places for them, or nothing for
    /// 'none'. Of the refusals 23 alone changes a table, which is the work table.
    fn patch(&self, agreed: u64, places: usize) -> Result<Option<(u64, Vec<u16>)>, Number> {
        let Job { n, candidates, weights, rows, .. } = self;
        let mut work = self.guarded_work();
        let mut list = vec![GUARD; places];
        let outcome = patch_box::patch(*n, candidates, weights, rows, agreed, &mut list, &mut work);
        self.expect_work(&work, outcome.is_ok() || outcome == Err(Number::NotLeast));
        let (filled, total) = match outcome {
            Ok(Outcome::Patch { triangles, total }) => (triangles, total),
            _ => (0, 0),
        };
        assert!(list[filled..].iter().all(|&place| place == GUARD), "{agreed}: {list:?}");
        list.truncate(filled);
        outcome.map(|outcome| (outcome != Outcome::None).then_some((total, list)))
    }

    /// The price is this, and at it the triangles are these.
    fn expect(&self, total: u64, list: &[u16]) {
        let triangles = self.n - 2;
        assert_eq!(self.price(), Ok(Quote::Total { triangles, total }));
        for places in [triangles, triangles + 2] {
            assert_eq!(self.patch(total, places), Ok(Some((total, list.to_vec()))));
        }
    }
}

#[test]
fn patched_at_the_price() {
    p().expect(943, &[1, 3]);
    p().with(|job| job.places = 4).expect(943, &[1, 3]);
    p().with(|job| job.weights.push(u32::MAX)).expect(943, &[1, 3]);
    p().with(|job| job.rows.clear()).expect(629, &[1, 3]);
}

/// 1000 is the total of the other triangulation, 629 that of the patch without its row.
#[test]
fn other_totals_are_refused() {
    for agreed in [0, 629, 942, 944, 1000, (1 << 32) + 943, u64::MAX] {
        assert_eq!(p().patch(agreed, 2), Err(Number::NotLeast), "{agreed}");
    }
}

/// Each job is the one that is handed over: what a weight was before is nobody's.
#[test]
fn weights_changed_after_the_price() {
    let dearer = p().with(|job| job.weights[3] = 374);
    assert_eq!(dearer.patch(943, 2), Err(Number::NotLeast));
    dearer.expect(944, &[1, 3]);
    let not_used = p().with(|job| job.weights[0] = 2_000_000_000);
    not_used.expect(943, &[1, 3]);
    let cheaper = p().with(|job| job.weights[0] = 0);
    assert_eq!(cheaper.patch(943, 2), Err(Number::NotLeast));
    cheaper.expect(680, &[2, 0]);
    let other = p().with(|job| (job.weights[1], job.weights[2]) = (1000, 263));
    other.expect(943, &[2, 0]);
}

/// 'None' comes before the total is looked at.
#[test]
fn no_triangulation() {
    let open = p().with(|job| {
        job.candidates.truncate(2);
        job.rows.clear();
    });
    assert_eq!(open.price(), Ok(Quote::None));
    for agreed in [0, 1, 943, u64::MAX] {
        assert_eq!(open.patch(agreed, 3), Ok(None), "{agreed}");
    }
}

/// A total of 0 is not 'none'.
#[test]
fn a_least_total_of_0() {
    let free = p().with(|job| job.weights.fill(0)).with(|job| job.rows.clear());
    free.expect(0, &[1, 3]);
    assert_eq!(free.patch(1, 2), Err(Number::NotLeast));
}

/// The price needs no place for triangles; the patch needs n - 2 of them, whatever is agreed.
#[test]
fn places_for_triangles() {
    for places in [0, 1] {
        for agreed in [0, 943, 944] {
            assert_eq!(p().patch(agreed, places), Err(Number::TableTooShort), "{agreed}");
        }
    }
}

#[test]
fn numbers_of_the_job_come_first() {
    for (job, number) in damaged_p() {
        assert_eq!(job.price(), Err(number));
        for agreed in [0, 943, 944, u64::MAX] {
            assert_eq!(job.patch(agreed, 64), Err(number), "{agreed}");
        }
    }
}

/// The lists of a rim as a direct job have the rim's patch.
#[test]
fn rims_in_two_calls() {
    for n in [3, 4, 24, 64] {
        let file = rim_file(&wavy_edge(n), None);
        let mut tables = OwnedTables::new(patch_box::sizes(&file).expect("taken"));
        let outcome = patch_box::rim(&file, tables.lend());
        let Ok(Outcome::Patch { total, .. }) = outcome else { panic!("{outcome:?}") };
        let OwnedTables { triangles, candidates, weights, rows, work } = tables;
        let job = Job { n, candidates, weights, rows, places: work.len() + 1 };
        job.expect(total, &triangles);
        for agreed in [total - 1, total + 1] {
            assert_eq!(job.patch(agreed, n - 2), Err(Number::NotLeast));
        }
    }
}
