//! The judge of a patch from elsewhere: the edges of its list counted on either side, and its total.

use super::reader::MOST;
use crate::calls::{Row, Triangle};

/// How many triangles have each edge (i, j), with the third vertex between its ends and with it
/// outside.
struct EdgeCounts {
    between: [[u8; MOST]; MOST],
    outside: [[u8; MOST]; MOST],
}

impl EdgeCounts {
    /// Of fewer triangles than a byte counts.
    fn of(triangles: impl Iterator<Item = Triangle>) -> EdgeCounts {
        let zeros = [[0; MOST]; MOST];
        let mut counts = EdgeCounts { between: zeros, outside: zeros };
        for triangle in triangles {
            let [a, b, c] = triangle.map(usize::from);
            counts.between[a][c] += 1;
            counts.outside[a][b] += 1;
            counts.outside[b][c] += 1;
        }
        counts
    }

    /// A rim edge is in one triangle, any other in none or in one on each side.
    fn fit(&self, n: usize) -> bool {
        let fits = |i: usize, j: usize| {
            let (between, outside) = (self.between[i][j], self.outside[i][j]);
            if j == i + 1 || (i == 0 && j == n - 1) {
                between + outside == 1
            } else {
                between == outside && between <= 1
            }
        };
        (0..n).all(|i| (i + 1..n).all(|j| fits(i, j)))
    }
}

fn row_weight(rows: &[Row], outer: u16, inner: u16) -> u64 {
    let pair = [outer as u32, inner as u32];
    let found = rows.binary_search_by_key(&pair, |row| [row[0], row[1]]);
    found.map_or(0, |at| rows[at][2] as u64)
}

/// The total of a tiling. What hangs on a triangle is the one beneath its edge (a, b) or (b, c).
fn total(candidates: &[Triangle], weights: &[u32], rows: &[Row], list: &[u16]) -> u64 {
    // No candidate has the largest number.
    let mut beneath = [[u16::MAX; MOST]; MOST];
    for &k in list {
        let [a, _, c] = candidates[k as usize].map(usize::from);
        beneath[a][c] = k;
    }
    let with_rows = |&k: &u16| {
        let [a, b, c] = candidates[k as usize].map(usize::from);
        let rows = [beneath[a][b], beneath[b][c]].map(|inner| row_weight(rows, k, inner));
        weights[k as usize] as u64 + rows[0] + rows[1]
    };
    list.iter().map(with_rows).sum()
}

/// The first number due of 21 and 22 on a list for an accepted job, or 0.
pub fn number_due(
    n: usize,
    candidates: &[Triangle],
    weights: &[u32],
    rows: &[Row],
    list: &[u16],
    stated: u64,
) -> u32 {
    // A tiling has n - 2 triangles, and one that stands twice has its edges twice.
    if list.len() != n - 2 || list.iter().any(|&k| k as usize >= candidates.len()) {
        return 21;
    }
    if !EdgeCounts::of(list.iter().map(|&k| candidates[k as usize])).fit(n) {
        return 21;
    }
    match total(candidates, weights, rows, list) == stated {
        true => 0,
        false => 22,
    }
}
