//! The calls with a limit, beside those without one.

#![forbid(unsafe_code)]

mod common;

use common::{rim_file, wavy_edge};
use patch_box::{Found, Number, Outcome, OwnedTables, Sizes};

/// A wavy edge of n points, without normals and with them.
fn edges(n: usize) -> [Vec<u8>; 2] {
    let points = wavy_edge(n);
    [rim_file(&points, None), rim_file(&points, Some(&vec![[300, -200, 900]; n]))]
}

/// What every call says of a file, and what it leaves in tables of guard values.
#[derive(Debug, PartialEq)]
struct Answers {
    read: Result<usize, Number>,
    sizes: Result<Sizes, Number>,
    found: Result<Found, Number>,
    closed: Result<Outcome, Number>,
    left_by_find: OwnedTables,
    left_by_rim: OwnedTables,
}

/// More places than any of the rims needs; no call writes these values.
fn guarded() -> OwnedTables {
    OwnedTables {
        triangles: vec![0xfefe; 70],
        candidates: vec![[0xfe; 3]; 1000],
        weights: vec![u32::MAX; 1001],
        rows: vec![[u32::MAX; 3]; 4000],
        work: vec![u64::MAX; 1002],
    }
}

/// By the calls with a limit, or by those without one.
fn answers(limit: Option<usize>, file: &[u8]) -> Answers {
    let [mut left_by_find, mut left_by_rim] = [guarded(), guarded()];
    let OwnedTables { candidates, weights, rows, .. } = &mut left_by_find;
    let lent = left_by_rim.lend();
    let (read, sizes, found, closed) = match limit {
        None => (
            patch_box::read(file),
            patch_box::sizes(file),
            patch_box::find(file, candidates, weights, rows),
            patch_box::rim(file, lent),
        ),
        Some(limit) => (
            patch_box::read_within(limit, file),
            patch_box::sizes_within(limit, file),
            patch_box::find_within(limit, file, candidates, weights, rows),
            patch_box::rim_within(limit, file, lent),
        ),
    };
    Answers { read, sizes, found, closed, left_by_find, left_by_rim }
}

fn within(limit: usize, file: &[u8]) -> Answers {
    answers(Some(limit), file)
}

/// A refusal of every call, with every place of every table as it was.
fn refused(number: Number) -> Answers {
    Answers {
        read: Err(number),
        sizes: Err(number),
        found: Err(number),
        closed: Err(number),
        left_by_find: guarded(),
        left_by_rim: guarded(),
    }
}

/// A rim that fits has the answers of the calls without a limit; else the number is 20, and 5 under
/// the largest limit.
#[test]
fn rims_of_many_lengths() {
    for n in [3, 4, 23, 24, 25, 26, 63, 64, 65] {
        for file in edges(n) {
            for limit in [3, 23, 24, 25, 63, 64] {
                let expected = match limit {
                    _ if n <= limit => answers(None, &file),
                    64 => refused(Number::TooManyVertices),
                    _ => refused(Number::OverLimit),
                };
                assert!(within(limit, &file) == expected, "{n} points within {limit}");
            }
        }
    }
}

#[test]
fn without_a_limit_it_is_64() {
    for n in [0, 1, 2, 3, 24, 64, 65, 100] {
        for file in edges(n) {
            let without = answers(None, &file);
            assert_eq!(without.read.is_ok(), (3..=64).contains(&n));
            assert!(without == within(64, &file), "{n} points");
        }
    }
}

/// Rims as long as the limit are closed, so that the tests see filled tables.
#[test]
fn rims_that_fit_are_closed() {
    for n in [3, 23, 24, 25, 64] {
        for file in edges(n) {
            let answers = within(n, &file);
            assert_eq!(answers.read, Ok(n));
            assert!(
                matches!(answers.closed, Ok(Outcome::Patch { triangles, .. }) if triangles == n - 2)
            );
        }
    }
}

/// 14 comes before every other number, 1 among them.
#[test]
fn limits_out_of_range() {
    for limit in [0, 1, 2, 65, 256 + 24, (1 << 32) + 24, usize::MAX] {
        for n in [0, 2, 3, 24, 65] {
            for file in edges(n) {
                assert!(within(limit, &file) == refused(Number::VertexCount), "{limit}");
                let cut = &file[..file.len() - 1];
                assert!(within(limit, cut) == refused(Number::VertexCount), "{limit}");
                assert!(within(24, cut) == refused(Number::Length));
            }
        }
    }
}
