//! The library's own method in plain Rust made for speed, to measure the library against.

mod conversion;
mod finder;
mod judge;
mod reader;
mod tiler;
mod vectors;
mod weights;

use crate::calls::{
    Calls, ConvertAnswer, FindAnswer, JudgeAnswer, Lent, PatchAnswer, Places, ReadAnswer, Tables,
};
use finder::Faces;
use reader::Polygon;

/// The calls for rims of so many vertices at most.
pub struct Fast {
    limit: usize,
}

pub const FAST: Fast = Fast { limit: reader::MOST };

impl Fast {
    /// The polygon and its faces, or the number due.
    fn faces_of(&self, file: &[u8]) -> Result<(Polygon, Faces), u32> {
        let polygon = reader::read_up_to(self.limit, file)?;
        let faces = Faces::of(&polygon)?;
        Ok((polygon, faces))
    }
}

fn lists_fit(faces: &Faces, tables: &Tables) -> bool {
    faces.candidates() <= tables.candidates.view().len()
        && faces.candidates() <= tables.weights.view().len()
        && faces.rows() <= tables.rows.view().len()
}

fn write_lists(polygon: &Polygon, faces: &Faces, tables: &mut Tables) {
    let (count, rows) = (faces.candidates(), faces.rows());
    faces.write_candidates(&mut tables.candidates.table()[..count]);
    let candidates = &tables.candidates.view()[..count];
    let weights = &mut tables.weights.table()[..count];
    faces.write_weights_and_rows(polygon, candidates, weights, &mut tables.rows.table()[..rows]);
}

/// The number of the direct job in the tables, with so many places for triangles, or 0.
fn number_of_job(n: usize, tables: &Tables, triangles: usize) -> u32 {
    tiler::number_due(
        n,
        tables.candidates.view(),
        tables.weights.view(),
        tables.rows.view(),
        triangles,
        tables.work.view().len(),
    )
}

/// The same where no triangle table is lent: n places are enough for every list.
fn number_without_triangles(n: usize, tables: &Tables) -> u32 {
    number_of_job(n, tables, n)
}

/// The price of the accepted direct job in the tables.
fn price_of(n: usize, tables: &mut Tables) -> PatchAnswer {
    let candidates = tables.candidates.view();
    let count = candidates.len();
    let weights = &tables.weights.view()[..count];
    let work = &mut tables.work.table()[..count];
    tiler::price(n, candidates, weights, tables.rows.view(), work)
}

impl Calls for Fast {
    fn name(&self) -> String {
        format!("fast reference within {}", self.limit)
    }

    fn within(&self, limit: usize) -> Box<dyn Calls> {
        Box::new(Fast { limit })
    }

    fn patch_rim(&self, file: &[u8], tables: &mut Tables) -> PatchAnswer {
        let (polygon, faces) = match self.faces_of(file) {
            Err(number) => return PatchAnswer::refused(number),
            Ok(found) => found,
        };
        let (count, rows) = (faces.candidates(), faces.rows());
        let short = tables.triangles.view().len() < polygon.n - 2
            || tables.work.view().len() < count
            || !lists_fit(&faces, tables);
        if short {
            return PatchAnswer::refused(13);
        }
        write_lists(&polygon, &faces, tables);
        tiler::tile(
            polygon.n,
            &tables.candidates.view()[..count],
            &tables.weights.view()[..count],
            &tables.rows.view()[..rows],
            None,
            tables.triangles.table(),
            &mut tables.work.table()[..count],
        )
    }

    fn price(&self, n: usize, tables: &mut Tables) -> PatchAnswer {
        let number = number_without_triangles(n, tables);
        if number != 0 {
            return PatchAnswer::refused(number);
        }
        price_of(n, tables)
    }

    fn patch(&self, n: usize, agreed: u64, tables: &mut Tables) -> PatchAnswer {
        let number = number_of_job(n, tables, tables.triangles.view().len());
        if number != 0 {
            return PatchAnswer::refused(number);
        }
        let candidates = tables.candidates.view();
        let count = candidates.len();
        tiler::tile(
            n,
            candidates,
            &tables.weights.view()[..count],
            tables.rows.view(),
            Some(agreed),
            tables.triangles.table(),
            &mut tables.work.table()[..count],
        )
    }

    fn judge(&self, n: usize, stated: u64, tables: &mut Tables) -> JudgeAnswer {
        let number = number_without_triangles(n, tables);
        if number != 0 {
            return JudgeAnswer::refused(number);
        }
        let candidates = tables.candidates.view();
        let weights = tables.weights.view();
        let (rows, list) = (tables.rows.view(), tables.triangles.view());
        let number = judge::number_due(n, candidates, weights, rows, list, stated);
        if number != 0 {
            return JudgeAnswer::refused(number);
        }
        JudgeAnswer { number: 0, excess: stated - price_of(n, tables).total }
    }

    fn read_rim(&self, file: &[u8]) -> ReadAnswer {
        match reader::read_up_to(self.limit, file) {
            Err(number) => ReadAnswer { number, vertices: 0 },
            Ok(polygon) => ReadAnswer { number: 0, vertices: polygon.n },
        }
    }

    fn find_candidates(&self, file: &[u8], tables: &mut Tables) -> FindAnswer {
        let refused = |number| FindAnswer { number, candidates: 0, rows: 0 };
        let (polygon, faces) = match self.faces_of(file) {
            Err(number) => return refused(number),
            Ok(found) => found,
        };
        if !lists_fit(&faces, tables) {
            return refused(13);
        }
        write_lists(&polygon, &faces, tables);
        FindAnswer { number: 0, candidates: faces.candidates(), rows: faces.rows() }
    }

    fn sizes(&self, file: &[u8]) -> Result<Places, u32> {
        let (polygon, faces) = self.faces_of(file)?;
        let (candidates, rows) = (faces.candidates(), faces.rows());
        let triangles = polygon.n - 2;
        Ok(Places { triangles, candidates, weights: candidates, rows, work: candidates })
    }

    fn convert(&self, file: &[u8], out: &mut Lent<u8>) -> ConvertAnswer {
        match conversion::convert(file, out.table()) {
            Err(number) => ConvertAnswer::refused(number),
            Ok((edition, length)) => ConvertAnswer { number: 0, edition, length },
        }
    }
}
