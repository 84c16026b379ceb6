//! Direct jobs.

use crate::calls::{Calls, Job, PatchAnswer, Row, Tables, Triangle};
use crate::law::finder::hangs_on;
use crate::random::Random;
use std::collections::HashMap;

pub fn job(n: usize, candidates: &[Triangle], weights: &[u32], rows: &[Row]) -> Job {
    Job { n, candidates: candidates.to_vec(), weights: weights.to_vec(), rows: rows.to_vec() }
}

/// The job of rim file P (rule 6.1), whose tilings 1, 3 and 2, 0 cost 943 and 1000.
pub fn p() -> Job {
    job(4, &all_triples(4), &[320, 256, 320, 373], &[[1, 3, 314], [2, 0, 360]])
}

/// Every triple of n vertices.
pub fn all_triples(n: usize) -> Vec<Triangle> {
    let n = n as u8;
    let pairs = (0..n).flat_map(move |a| (a + 1..n).map(move |b| (a, b)));
    pairs.flat_map(move |(a, b)| (b + 1..n).map(move |c| [a, b, c])).collect()
}

/// Every four of n vertices.
pub fn all_fours(n: usize) -> Vec<[u8; 4]> {
    let threes = all_triples(n).into_iter();
    threes.flat_map(|[a, b, c]| (c + 1..n as u8).map(move |d| [a, b, c, d])).collect()
}

/// The job that the finder makes of a rim, which it accepts, in tables that are long enough.
pub fn job_of(calls: &dyn Calls, file: &[u8], tables: &mut Tables) -> Job {
    let found = calls.find_candidates(file, tables);
    assert_eq!(found.number, 0, "{}", calls.name());
    Job {
        n: calls.read_rim(file).vertices,
        candidates: tables.candidates.view()[..found.candidates].to_vec(),
        weights: tables.weights.view()[..found.candidates].to_vec(),
        rows: tables.rows.view()[..found.rows].to_vec(),
    }
}

/// Price and patch in turn, over the same tables. Nothing is agreed on where there is no price.
pub fn price_and_patch(calls: &dyn Calls, n: usize, tables: &mut Tables) -> PatchAnswer {
    let price = calls.price(n, tables);
    calls.patch(n, price.total, tables)
}

/// Every hanging pair (outer, inner) in order, with weight 0.
pub fn hanging_pairs(candidates: &[Triangle]) -> Vec<Row> {
    let mut on_edge: HashMap<(u8, u8), Vec<u32>> = HashMap::new();
    for (inner, &[a, _, c]) in candidates.iter().enumerate() {
        on_edge.entry((a, c)).or_default().push(inner as u32);
    }
    let mut rows = Vec::new();
    for (outer, &[a, b, c]) in candidates.iter().enumerate() {
        let beneath = [(a, b), (b, c)].into_iter().filter_map(|edge| on_edge.get(&edge));
        for &inner in beneath.flatten() {
            debug_assert!(hangs_on(candidates[inner as usize], candidates[outer]));
            rows.push([outer as u32, inner, 0]);
        }
    }
    rows
}

/// The triangles of a tiling of n vertices, in the order of a job: `middle` picks the third vertex
/// of the triangle on an edge.
pub fn tiling(n: usize, mut middle: impl FnMut(u8, u8) -> u8) -> Vec<Triangle> {
    let mut triangles = Vec::new();
    let mut edges = vec![(0, (n - 1) as u8)];
    while let Some((first, last)) = edges.pop() {
        if last - first > 1 {
            let b = middle(first, last);
            triangles.push([first, b, last]);
            edges.extend([(first, b), (b, last)]);
        }
    }
    triangles.sort_unstable();
    triangles
}

/// A tiling at random: triangles of any shape, or long ones towards either end.
pub fn random_tiling(n: usize, random: &mut Random) -> Vec<Triangle> {
    let (left, right) = (random.between(1, 6), random.between(1, 6));
    tiling(n, |first, last| {
        let (low, high) = (i64::from(first) + 1, i64::from(last) - 1);
        let near = [(low + left).min(high), (high - right).max(low)];
        let spread = random.between(low, high);
        random.one_of(&[spread, near[0], near[1], near[1]]) as u8
    })
}

/// A job over a random part of the triples: of `keep` in 100 candidates and `rows` in 100 rows,
/// with weights up to `highest`.
pub fn random_job(n: usize, keep: usize, rows: usize, highest: u32, random: &mut Random) -> Job {
    let mut candidates = all_triples(n);
    candidates.retain(|_| random.below(100) < keep);
    job_over(n, candidates, rows, highest, random)
}

/// A job over these candidates, with `rows` in 100 rows and weights up to `highest`.
pub fn job_over(
    n: usize,
    candidates: Vec<Triangle>,
    rows: usize,
    highest: u32,
    random: &mut Random,
) -> Job {
    let weights = candidates.iter().map(|_| random.below(highest as usize + 1) as u32).collect();
    let mut pairs = hanging_pairs(&candidates);
    pairs.retain(|_| random.below(100) < rows);
    for row in &mut pairs {
        row[2] = random.below(highest as usize + 1) as u32;
    }
    Job { n, candidates, weights, rows: pairs }
}
