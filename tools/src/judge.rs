//! A patch from elsewhere, judged by the library. It decides; this only says where to look.

use crate::geometry::rim_edges;
use crate::job::Job;
use crate::patch_text::{parse, StatedPatch, StatedTriangle};
use patch_box::{Number, OwnedTables};

/// What the library says of a rim and a patch.
#[derive(Clone, Debug, PartialEq, Eq)]
pub enum Judgement {
    /// By so much is the total of the patch above the least of the rim.
    Accepted(u64),
    RimRefused(Number),
    /// With the refusal in one line.
    PatchRefused(Number, String),
}

/// The judgement, or why the text cannot be read as a patch of the rim.
pub fn judge(file: &[u8], text: &[u8]) -> Result<Judgement, String> {
    let mut job = match Job::of(file) {
        Ok(job) => job,
        Err(number) => return Ok(Judgement::RimRefused(number)),
    };
    let patch = parse(text)?;
    if patch.vertices != job.n as u64 {
        let StatedPatch { line, vertices, .. } = patch;
        return Err(format!("line {line}: it says {vertices} vertices, the rim has {}", job.n));
    }
    let list = job.numbers(&patch.triangles);
    Ok(match job.judge(&list, patch.total) {
        Ok(excess) => Judgement::Accepted(excess),
        Err(number) => Judgement::PatchRefused(number, job.refusal(number, &patch, &list)),
    })
}

/// No candidate's number: no rim has so many.
const NO_CANDIDATE: u16 = u16::MAX;

impl Job {
    /// The candidate numbers of triangles. Candidates stand in rising order.
    fn numbers(&self, triangles: &[StatedTriangle]) -> Vec<u16> {
        let candidates: Vec<[u64; 3]> =
            self.tables.candidates.iter().map(|candidate| candidate.map(u64::from)).collect();
        let number = |triangle: &StatedTriangle| candidates.binary_search(&triangle.vertices);
        triangles.iter().map(|t| number(t).map_or(NO_CANDIDATE, |k| k as u16)).collect()
    }

    fn judge(&mut self, list: &[u16], total: u64) -> Result<u64, Number> {
        let OwnedTables { candidates, weights, rows, work, .. } = &mut self.tables;
        patch_box::judge(self.n, candidates, weights, rows, list, total, work)
    }

    /// A refusal in one line, with its place where that is known.
    fn refusal(&self, number: Number, patch: &StatedPatch, list: &[u16]) -> String {
        let place = match number {
            Number::NotATriangulation => wrong_triangle(&patch.triangles, list)
                .or_else(|| wrong_edge(&patch.triangles, self.n)),
            Number::WrongTotal => {
                let (line, stated, own) = (patch.line, patch.total, self.total(list));
                Some(format!("line {line}: it says {stated}, the triangles have {own}"))
            }
            _ => None,
        };
        place.map_or(number.to_string(), |place| format!("{number}: {place}"))
    }

    /// Of a triangulation, by rule 3.4.
    fn total(&self, list: &[u16]) -> u64 {
        let listed = |number: u32| list.iter().any(|&k| k as u32 == number);
        let own = list.iter().map(|&k| self.tables.weights[k as usize]);
        let pairs = self.tables.rows.iter().filter(|row| listed(row[0]) && listed(row[1]));
        own.chain(pairs.map(|row| row[2])).map(u64::from).sum()
    }
}

/// The first triangle that is no candidate, or that an earlier line has too.
fn wrong_triangle(triangles: &[StatedTriangle], list: &[u16]) -> Option<String> {
    (0..list.len()).find_map(|k| {
        let StatedTriangle { line, vertices: [a, b, c] } = triangles[k];
        if list[k] == NO_CANDIDATE {
            return Some(format!("line {line}: {a} {b} {c} is no candidate of the rim"));
        }
        let earlier = list[..k].iter().position(|&number| number == list[k])?;
        Some(format!("line {line}: {a} {b} {c} is on line {} too", triangles[earlier].line))
    })
}

/// The first edge that is not in the triangles that rule 3.3 asks for, rim edges before others.
fn wrong_edge(triangles: &[StatedTriangle], n: usize) -> Option<String> {
    wrong_rim_edge(triangles, n).or_else(|| wrong_inner_edge(triangles, n))
}

fn wrong_rim_edge(triangles: &[StatedTriangle], n: usize) -> Option<String> {
    rim_edges(n).find_map(|[i, j]| match sides(triangles, [i, j]).iter().sum::<usize>() {
        1 => None,
        count => Some(format!("the rim edge from {i} to {j} is in {count} triangles, not in one")),
    })
}

fn wrong_inner_edge(triangles: &[StatedTriangle], n: usize) -> Option<String> {
    let each = "does not have one triangle on each side, but";
    let pairs = (0..n).flat_map(|i| (i + 2..n).map(move |j| [i, j]));
    let mut edges = pairs.filter(|&pair| pair != [0, n - 1]);
    edges.find_map(|[i, j]| match sides(triangles, [i, j]) {
        [0, 0] | [1, 1] => None,
        [one, other] => Some(format!("the edge from {i} to {j} {each} {one} and {other}")),
    })
}

/// How many triangles with this edge have their third vertex between its ends, and how many do not.
fn sides(triangles: &[StatedTriangle], edge: [usize; 2]) -> [usize; 2] {
    let edge = edge.map(|end| end as u64);
    let with = triangles.iter().filter(|t| edge.iter().all(|end| t.vertices.contains(end)));
    let (between, beside): (Vec<&StatedTriangle>, Vec<&StatedTriangle>) =
        with.partition(|t| !edge.contains(&t.vertices[1]));
    [between.len(), beside.len()]
}
