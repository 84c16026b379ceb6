//! The price of a rim's patch, by the library: its total, its triangles and its plain area.

use crate::diagnosis::diagnose;
use crate::job::Job;
use crate::vectors::length_in_quarters;
use patch_box::{Number, Outcome, OwnedTables, Quote};

/// The lengths of normals, in quarters, that make up a square millimetre: a normal is as long as twice
/// the area of its triangle, and a millimetre has eight steps of the grid.
const SQUARE_MILLIMETRE: u64 = 4 * 2 * 8 * 8;

/// What a patch costs.
#[derive(Clone, Copy, Debug, PartialEq, Eq)]
pub struct Priced {
    pub total: u64,
    pub triangles: usize,
    /// The lengths of the triangles' normals, in quarters (rule 2.7).
    pub area: u64,
}

/// The price of a rim's patch, or nothing for 'none'. The patch itself is made for the area alone.
pub fn price(file: &[u8]) -> Result<Option<Priced>, Number> {
    let mut job = Job::of(file)?;
    let Some(total) = job.price()? else { return Ok(None) };
    let points = diagnose(file).vertices;
    let patch = job.patch(total)?;
    let corners = patch.iter().map(|&number| job.tables.candidates[number as usize]);
    let lengths =
        corners.map(|t| length_in_quarters(t.map(|vertex| points[vertex as usize].point)));
    Ok(Some(Priced { total, triangles: patch.len(), area: lengths.sum() }))
}

impl Job {
    fn price(&mut self) -> Result<Option<u64>, Number> {
        let OwnedTables { candidates, weights, rows, work, .. } = &mut self.tables;
        Ok(match patch_box::price(self.n, candidates, weights, rows, work)? {
            Quote::None => None,
            Quote::Total { total, .. } => Some(total),
        })
    }

    /// The candidate numbers of the patch at this total.
    fn patch(&mut self, agreed: u64) -> Result<Vec<u16>, Number> {
        let OwnedTables { triangles, candidates, weights, rows, work } = &mut self.tables;
        let outcome = patch_box::patch(self.n, candidates, weights, rows, agreed, triangles, work)?;
        Ok(match outcome {
            Outcome::None => Vec::new(),
            Outcome::Patch { triangles: count, .. } => triangles[..count].to_vec(),
        })
    }
}

impl Priced {
    /// In lines, with the area in square millimetres.
    pub fn text(&self) -> String {
        let Priced { total, triangles, area } = self;
        format!("total {total}\ntriangles {triangles}\narea {}\n", square_millimetres(*area))
    }
}

/// To three decimals, an exact half up.
fn square_millimetres(quarters: u64) -> String {
    let thousandths = (quarters * 1000 + SQUARE_MILLIMETRE / 2) / SQUARE_MILLIMETRE;
    format!("{}.{:03}", thousandths / 1000, thousandths % 1000)
}
