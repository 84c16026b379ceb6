//! The patch of a rim file, by the library.

use crate::diagnosis::diagnose;
use crate::geometry::{meeting_edges, rim_edges};
use patch_box::{Candidate, Number, Outcome, OwnedTables, Row};

/// A triangle of the patch.
#[derive(Clone, Copy, Debug, PartialEq, Eq)]
pub struct Triangle {
    pub vertices: Candidate,
    /// The area, and in edition 2 the bends at its rim edges to the surface outside (rule 2.15).
    pub own_weight: u32,
    /// Of the row to the triangle that it hangs on; the first hangs on none, and has 0.
    pub bend_weight: u32,
}

/// A closed rim: its vertices on the grid, and the triangles in walk order. 'None' has none.
#[derive(Clone, Debug, PartialEq, Eq)]
pub struct Patch {
    pub vertices: Vec<[i64; 3]>,
    /// Of the surface at the edge to the next vertex, for each; zeros where there is none.
    pub normals: Vec<[i64; 3]>,
    pub triangles: Vec<Triangle>,
    pub total: u64,
    /// Why there is nothing to mill, where that is so.
    pub none: Option<String>,
}

/// Why the answer is 'none'. A rim has no candidates when one line holds it (rules 2.5 and 2.17). A rim
/// edge that is in no candidate cannot be closed (rule 3.3). Candidates do not cross, so of two edges
/// that meet one is in none of them, and no further point helps.
fn why_none(points: &[[i64; 3]], candidates: &[Candidate]) -> String {
    if candidates.is_empty() {
        return "none: all vertices are on one line, so there are no candidates".into();
    }
    if let Some([[i, j], [k, l]]) = meeting_edges(points) {
        return format!("none: the rim edges from {i} to {j} and from {k} to {l} meet");
    }
    let open = rim_edges(points.len()).find(|edge| {
        !candidates.iter().any(|t| edge.iter().all(|&vertex| t.contains(&(vertex as u8))))
    });
    match open {
        Some([i, j]) => format!(
            "none: no candidate has the rim edge from {i} to {j}; a further point on it can help"
        ),
        None => "none: the candidates hold no triangulation of the rim".into(),
    }
}

/// The i-th triangle of the patch. Its row is the one whose outer is in the patch too.
fn triangle(tables: &OwnedTables, i: usize) -> Triangle {
    let number = tables.triangles[i];
    let earlier = &tables.triangles[..i];
    let of_patch =
        |row: &&Row| row[1] == number as u32 && earlier.iter().any(|&outer| outer as u32 == row[0]);
    Triangle {
        vertices: tables.candidates[number as usize],
        own_weight: tables.weights[number as usize],
        bend_weight: tables.rows.iter().find(of_patch).map_or(0, |row| row[2]),
    }
}

pub fn close(file: &[u8]) -> Result<Patch, Number> {
    let mut tables = OwnedTables::new(patch_box::sizes(file)?);
    let (count, total) = match patch_box::rim(file, tables.lend())? {
        Outcome::None => (0, 0),
        Outcome::Patch { triangles, total } => (triangles, total),
    };
    let chain = diagnose(file).vertices;
    let vertices: Vec<[i64; 3]> = chain.iter().map(|vertex| vertex.point).collect();
    Ok(Patch {
        triangles: (0..count).map(|i| triangle(&tables, i)).collect(),
        total,
        none: (count == 0).then(|| why_none(&vertices, &tables.candidates)),
        vertices,
        normals: chain.iter().map(|vertex| vertex.normal).collect(),
    })
}
