//! A direct job: its tests, and the dynamic programme with one total per candidate.

use crate::calls::{PatchAnswer, Row, Triangle};

const HIGHEST_WEIGHT: u32 = 2_000_000_000;

/// Above every total, and small enough that two of them can be added.
const NONE: u64 = 1 << 62;

/// The most parts that wait at once (rule 3.12).
const MOST_PARTS: usize = 31;

fn candidates_fit(n: usize, candidates: &[Triangle]) -> bool {
    let mut before = 0;
    for &[a, b, c] in candidates {
        let key = 1 + ((a as u32) << 16 | (b as u32) << 8 | c as u32);
        if !(a < b && b < c && (c as usize) < n && before < key) {
            return false;
        }
        before = key;
    }
    true
}

fn rows_fit(candidates: &[Triangle], rows: &[Row]) -> bool {
    let mut before = None;
    for &[outer, inner, _] in rows {
        let key = Some((outer as u64) << 32 | inner as u64);
        let (outer, inner) = (outer as usize, inner as usize);
        if outer >= candidates.len() || inner >= candidates.len() || key <= before {
            return false;
        }
        let ([a, b, c], [i, _, j]) = (candidates[outer], candidates[inner]);
        if (i, j) != (a, b) && (i, j) != (b, c) {
            return false;
        }
        before = key;
    }
    true
}

/// The first number due of 14, 13, 15, 16, 17, or 0.
pub fn number_due(
    n: usize,
    candidates: &[Triangle],
    weights: &[u32],
    rows: &[Row],
    triangle_places: usize,
    work_places: usize,
) -> u32 {
    if !(3..=64).contains(&n) {
        return 14;
    }
    let count = candidates.len();
    if triangle_places < n - 2 || weights.len() < count || work_places < count {
        return 13;
    }
    if !candidates_fit(n, candidates) {
        return 15;
    }
    if !rows_fit(candidates, rows) {
        return 16;
    }
    let heavy = weights[..count].iter().any(|&weight| weight > HIGHEST_WEIGHT);
    if heavy || rows.iter().any(|row| row[2] > HIGHEST_WEIGHT) {
        return 17;
    }
    0
}

/// The places in the candidates where each first vertex begins.
fn block_starts(candidates: &[Triangle]) -> [usize; 65] {
    let mut starts = [0; 65];
    for triangle in candidates {
        starts[triangle[0] as usize + 1] += 1;
    }
    for v in 0..64 {
        starts[v + 1] += starts[v];
    }
    starts
}

/// The part of the polygon from `first` to `last` under the triangle `outer`.
#[derive(Clone, Copy)]
struct Part {
    outer: u32,
    first: u8,
    last: u8,
}

struct Job<'a> {
    starts: [usize; 65],
    candidates: &'a [Triangle],
    rows: &'a [Row],
}

impl Job<'_> {
    /// The rows of an outer triangle are one run.
    fn rows_of(&self, outer: u32) -> &[Row] {
        let from = self.rows.partition_point(|row| row[0] < outer);
        &self.rows[from..]
    }

    /// The best candidate beneath the part's edge, the first of equal ones, with its total there.
    fn best_under(&self, part: Part, rows: &[Row], work: &[u64]) -> (u64, usize) {
        if part.last - part.first == 1 {
            return (0, 0);
        }
        let block = part.first as usize;
        let (start, end) = (self.starts[block], self.starts[block + 1]);
        let mut rows = rows.iter().peekable();
        let mut best = (NONE, 0);
        let beneath = self.candidates[start..end].iter().zip(&work[start..end]);
        for (u, (triangle, &cost)) in (start..end).zip(beneath) {
            if triangle[2] != part.last || cost >= best.0 {
                continue;
            }
            let before = |row: &&Row| row[0] == part.outer && (row[1] as usize) < u;
            while rows.next_if(before).is_some() {}
            let own = rows.peek().filter(|row| row[0] == part.outer && row[1] as usize == u);
            let total = cost + own.map_or(0, |row| row[2] as u64);
            if total < best.0 {
                best = (total, u);
            }
        }
        best
    }

    /// work[t] becomes the least total of a part that starts with t. What hangs on a candidate
    /// stands before it in its block or in a later block.
    fn fill(&self, weights: &[u32], work: &mut [u64]) {
        for block in (0..64).rev() {
            for t in self.starts[block]..self.starts[block + 1] {
                let [a, b, c] = self.candidates[t];
                let outer = t as u32;
                let rows = self.rows_of(outer);
                let left = self.best_under(Part { outer, first: a, last: b }, rows, work).0;
                let right = self.best_under(Part { outer, first: b, last: c }, rows, work).0;
                work[t] = NONE.min(weights[t] as u64 + left + right);
            }
        }
    }

    /// The least total of the whole polygon, with those of the parts left in the work places.
    fn least_total(&self, n: usize, weights: &[u32], work: &mut [u64]) -> u64 {
        self.fill(weights, work);
        let whole = Part { outer: u32::MAX, first: 0, last: (n - 1) as u8 };
        self.best_under(whole, &[], work).0
    }

    fn write(&self, n: usize, work: &[u64], triangles: &mut [u16]) {
        let mut stack = Vec::with_capacity(MOST_PARTS);
        stack.push(Part { outer: u32::MAX, first: 0, last: (n - 1) as u8 });
        let mut places = triangles.iter_mut();
        while let Some(part) = stack.pop() {
            let (_, u) = self.best_under(part, self.rows_of(part.outer), work);
            let middle = self.candidates[u][1];
            *places.next().expect("n - 2 places") = u as u16;
            for (first, last) in [(middle, part.last), (part.first, middle)] {
                if last - first > 1 {
                    stack.push(Part { outer: u as u32, first, last });
                }
            }
        }
    }
}

fn answer_of(n: usize, total: u64) -> PatchAnswer {
    match total {
        NONE => PatchAnswer::NONE,
        _ => PatchAnswer { number: 0, triangles: n - 2, total },
    }
}

/// The price of an accepted job, with as many work places as candidates.
pub fn price(
    n: usize,
    candidates: &[Triangle],
    weights: &[u32],
    rows: &[Row],
    work: &mut [u64],
) -> PatchAnswer {
    let job = Job { starts: block_starts(candidates), candidates, rows };
    let total = job.least_total(n, weights, work);
    work.fill(0);
    answer_of(n, total)
}

/// The best patch of the same, at the agreed total where there is one.
pub fn tile(
    n: usize,
    candidates: &[Triangle],
    weights: &[u32],
    rows: &[Row],
    agreed: Option<u64>,
    triangles: &mut [u16],
    work: &mut [u64],
) -> PatchAnswer {
    let job = Job { starts: block_starts(candidates), candidates, rows };
    let total = job.least_total(n, weights, work);
    let is_agreed = total == NONE || agreed.is_none_or(|agreed| agreed == total);
    if total != NONE && is_agreed {
        job.write(n, work, triangles);
    }
    work.fill(0);
    match is_agreed {
        true => answer_of(n, total),
        false => PatchAnswer::refused(23),
    }
}
