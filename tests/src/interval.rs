//! The best tiling by a programme over intervals of the polygon, for polygons too large for sets.
//! It carries whole lists in walk order and compares them, so nothing rests on the order of a scan.

use crate::calls::Job;
use crate::law::tilings::Tiling;
use std::collections::HashMap;

struct Programme {
    /// The candidates with edge (a, c) on an interval.
    on: HashMap<(u8, u8), Vec<usize>>,
    rows: HashMap<(u32, u32), u64>,
    /// The best part that starts with a candidate.
    parts: HashMap<usize, Tiling>,
}

impl Programme {
    /// The best part from i to j under a triangle, or under nothing.
    fn best_under(&self, outer: Option<usize>, i: u8, j: u8) -> Option<Tiling> {
        if j == i + 1 {
            return Some(Tiling { total: 0, walk: Vec::new() });
        }
        let mut best: Option<(u64, &Tiling)> = None;
        for inner in self.on.get(&(i, j)).into_iter().flatten() {
            let Some(part) = self.parts.get(inner) else { continue };
            let row = outer.and_then(|outer| self.rows.get(&(outer as u32, *inner as u32)));
            let total = part.total + row.copied().unwrap_or(0);
            let better =
                |(least, other): (u64, &Tiling)| (total, &part.walk) < (least, &other.walk);
            if best.is_none_or(better) {
                best = Some((total, part));
            }
        }
        best.map(|(total, part)| Tiling { total, walk: part.walk.clone() })
    }

    fn part_from(&self, job: &Job, t: usize) -> Option<Tiling> {
        let [a, b, c] = job.candidates[t];
        let left = self.best_under(Some(t), a, b)?;
        let right = self.best_under(Some(t), b, c)?;
        let walk = [vec![t as u16], left.walk, right.walk].concat();
        Some(Tiling { total: job.weights[t] as u64 + left.total + right.total, walk })
    }
}

pub fn best(job: &Job) -> Option<Tiling> {
    let mut on: HashMap<(u8, u8), Vec<usize>> = HashMap::new();
    for (t, &[a, _, c]) in job.candidates.iter().enumerate() {
        on.entry((a, c)).or_default().push(t);
    }
    let row = |&[outer, inner, weight]: &[u32; 3]| ((outer, inner), weight as u64);
    let rows = job.rows.iter().map(row).collect();
    let mut programme = Programme { on, rows, parts: HashMap::new() };
    let mut by_span: Vec<usize> = (0..job.candidates.len()).collect();
    by_span.sort_by_key(|&t| job.candidates[t][2] - job.candidates[t][0]);
    for t in by_span {
        if let Some(part) = programme.part_from(job, t) {
            programme.parts.insert(t, part);
        }
    }
    programme.best_under(None, 0, (job.n - 1) as u8)
}
