//! Tilings as sets of candidates, judged by edge counts (rules 3.2 to 3.7).

use super::finder::hangs_on;
use crate::calls::{Job, Triangle};
use std::collections::HashMap;

/// A tiling in walk order (preorder), with its total.
#[derive(Clone, Debug, PartialEq, Eq)]
pub struct Tiling {
    pub walk: Vec<u16>,
    pub total: u64,
}

/// How often each edge is used, with the third vertex between its ends and with it outside.
struct EdgeCounts {
    n: usize,
    between: Vec<u32>,
    outside: Vec<u32>,
}

impl EdgeCounts {
    fn new(n: usize) -> EdgeCounts {
        EdgeCounts { n, between: vec![0; n * n], outside: vec![0; n * n] }
    }

    fn at(&self, i: usize, j: usize) -> usize {
        i * self.n + j
    }

    /// (a, c) has the third vertex b between its ends; (a, b) and (b, c) have it outside.
    fn add(&mut self, triangle: Triangle) {
        let [a, b, c] = triangle.map(usize::from);
        let places = [self.at(a, c), self.at(a, b), self.at(b, c)];
        self.between[places[0]] += 1;
        self.outside[places[1]] += 1;
        self.outside[places[2]] += 1;
    }

    fn remove(&mut self, triangle: Triangle) {
        let [a, b, c] = triangle.map(usize::from);
        let places = [self.at(a, c), self.at(a, b), self.at(b, c)];
        self.between[places[0]] -= 1;
        self.outside[places[1]] -= 1;
        self.outside[places[2]] -= 1;
    }

    fn is_rim_edge(&self, i: usize, j: usize) -> bool {
        j == i + 1 || (i == 0 && j == self.n - 1)
    }

    fn of(&self, i: usize, j: usize) -> (u32, u32) {
        (self.between[self.at(i, j)], self.outside[self.at(i, j)])
    }

    /// Rule 3.3 of one edge.
    fn edge_good(&self, i: usize, j: usize) -> bool {
        let (between, outside) = self.of(i, j);
        if self.is_rim_edge(i, j) {
            between + outside == 1
        } else {
            (between, outside) == (0, 0) || (between, outside) == (1, 1)
        }
    }

    /// The first edge that is not as a tiling has it.
    fn first_bad(&self) -> Option<(usize, usize)> {
        let edges = (0..self.n).flat_map(|i| (i + 1..self.n).map(move |j| (i, j)));
        edges.into_iter().find(|&(i, j)| !self.edge_good(i, j))
    }

    /// No edge of the triangle is used more often than a tiling uses it.
    fn not_over(&self, triangle: Triangle) -> bool {
        let [a, b, c] = triangle.map(usize::from);
        [(a, b), (b, c), (a, c)].into_iter().all(|(i, j)| {
            let (between, outside) = self.of(i, j);
            let both = between + outside;
            between <= 1 && outside <= 1 && (both <= 1 || !self.is_rim_edge(i, j))
        })
    }
}

pub fn is_tiling(n: usize, candidates: &[Triangle], set: &[usize]) -> bool {
    let mut counts = EdgeCounts::new(n);
    set.iter().for_each(|&k| counts.add(candidates[k]));
    counts.first_bad().is_none()
}

/// Every set of candidates that is a tiling, by a look at every set.
pub fn from_all_sets(n: usize, candidates: &[Triangle]) -> Vec<Vec<usize>> {
    let sets = 0..1u64 << candidates.len();
    let members = |set: u64| (0..candidates.len()).filter(|k| set >> k & 1 == 1).collect();
    sets.map(members).filter(|set: &Vec<usize>| is_tiling(n, candidates, set)).collect()
}

/// Every tiling again, for lists too long to look at every set. A set with a bad edge is made
/// larger by each candidate that uses this edge in turn, since a tiling has exactly one triangle
/// that mends it, and is given up where an edge is used too often.
///
/// No tiling holds another: of the triangles in one and not in the other, that of the widest span
/// would need a wider one on its edge (a, c), as the rim edges are already used.
pub fn from_bad_edges(n: usize, candidates: &[Triangle]) -> Vec<Vec<usize>> {
    let mut found = Vec::new();
    grow(candidates, &mut EdgeCounts::new(n), &mut Vec::new(), &mut found);
    found.iter_mut().for_each(|set| set.sort_unstable());
    assert!(found.iter().all(|set| is_tiling(n, candidates, set)));
    found
}

fn grow(
    candidates: &[Triangle],
    counts: &mut EdgeCounts,
    set: &mut Vec<usize>,
    found: &mut Vec<Vec<usize>>,
) {
    let Some((i, j)) = counts.first_bad() else {
        found.push(set.clone());
        return;
    };
    for (k, &triangle) in candidates.iter().enumerate() {
        let uses = triangle.contains(&(i as u8)) && triangle.contains(&(j as u8));
        if !uses || set.contains(&k) {
            continue;
        }
        counts.add(triangle);
        if counts.not_over(triangle) {
            set.push(k);
            grow(candidates, counts, set, found);
            set.pop();
        }
        counts.remove(triangle);
    }
}

/// The weights of the rows, by outer and inner.
pub fn row_weights(job: &Job) -> HashMap<[u32; 2], u32> {
    job.rows.iter().map(|&[outer, inner, weight]| ([outer, inner], weight)).collect()
}

/// Rule 3.4.
pub fn total(job: &Job, rows: &HashMap<[u32; 2], u32>, set: &[usize]) -> u64 {
    let own: u64 = set.iter().map(|&k| job.weights[k] as u64).sum();
    let mut bends = 0;
    for &outer in set {
        for &inner in set {
            if hangs_on(job.candidates[inner], job.candidates[outer]) {
                let weight = rows.get(&[outer as u32, inner as u32]);
                bends += weight.copied().unwrap_or(0) as u64;
            }
        }
    }
    own + bends
}

/// The triangle on (first, last), then the part before its middle vertex, then the part after it.
pub fn walk(candidates: &[Triangle], set: &[usize], first: u8, last: u8) -> Vec<u16> {
    if last == first + 1 {
        return Vec::new();
    }
    let on_edge = |&&k: &&usize| (candidates[k][0], candidates[k][2]) == (first, last);
    let top = *set.iter().find(on_edge).expect("a tiling has a triangle beneath each edge");
    let middle = candidates[top][1];
    let mut list = vec![top as u16];
    list.extend(walk(candidates, set, first, middle));
    list.extend(walk(candidates, set, middle, last));
    list
}

/// Up to this many candidates every set is looked at.
const ALL_SETS: usize = 10;

/// The tiling of least total, of equal ones the earliest in walk order.
pub fn best(job: &Job) -> Option<Tiling> {
    let sets = match job.candidates.len() {
        ..=ALL_SETS => from_all_sets(job.n, &job.candidates),
        _ => from_bad_edges(job.n, &job.candidates),
    };
    let rows = row_weights(job);
    let tiling = |set: &Vec<usize>| Tiling {
        total: total(job, &rows, set),
        walk: walk(&job.candidates, set, 0, (job.n - 1) as u8),
    };
    let mut tilings: Vec<Tiling> = sets.iter().map(tiling).collect();
    tilings.sort_by(|x, y| (x.total, &x.walk).cmp(&(y.total, &y.walk)));
    tilings.into_iter().next()
}
