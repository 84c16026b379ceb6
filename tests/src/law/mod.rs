//! A plain reference written from the rules of docs/SPECIFICATION.md, with nothing of the library's
//! method: exact values of floats, spheres and circles by their rational centres, triangulations as
//! sets of candidates judged by edge counts.

pub mod conversion;
pub mod crossing;
pub mod finder;
pub mod grid;
pub mod judge;
pub mod program;
pub mod reader;
pub mod tests_of_jobs;
pub mod tilings;

use crate::calls::{
    Calls, ConvertAnswer, FindAnswer, Job, JudgeAnswer, Lent, Patch, PatchAnswer, Places,
    ReadAnswer, Tables,
};
use crate::interval;
use conversion::Converted;
use finder::Lists;
use tilings::Tiling;

/// The reference: what the rules say of a call, with a choice of how the best tiling is found.
#[derive(Clone, Copy)]
pub struct Law {
    name: &'static str,
    best: fn(&Job) -> Option<Tiling>,
    limit: usize,
}

/// Every set of candidates is looked at: for small polygons.
pub const BY_SETS: Law =
    Law { name: "law by sets", best: tilings::best, limit: reader::LARGEST_LIMIT };

/// For polygons too large for sets.
pub const BY_INTERVALS: Law = Law { name: "law by intervals", best: interval::best, ..BY_SETS };

impl Law {
    /// The vertices and the lists of a file, or the number due of 1 to 12, 14, 18 and 20 (rule 4.31).
    fn lists_of(&self, file: &[u8]) -> Result<(usize, Lists), u32> {
        let rim = reader::read_within(self.limit, file)?;
        Ok((rim.points.len(), finder::find(&rim)?))
    }
}

/// Rule 4.13: the candidate, weight and row tables have a place for each element of the lists.
fn lists_fit(lists: &Lists, tables: &Tables) -> bool {
    lists.candidates.len() <= tables.candidates.view().len()
        && lists.candidates.len() <= tables.weights.view().len()
        && lists.rows.len() <= tables.rows.view().len()
}

fn write_lists(lists: &Lists, tables: &mut Tables) {
    tables.candidates.fill(&lists.candidates);
    tables.weights.fill(&lists.weights);
    tables.rows.fill(&lists.rows);
}

/// Rule 5.2: the numbers of a patch or 'none'.
fn answer_of(best: Option<&Tiling>) -> PatchAnswer {
    best.map_or(PatchAnswer::NONE, |tiling| PatchAnswer {
        number: 0,
        triangles: tiling.walk.len(),
        total: tiling.total,
    })
}

/// Rule 3.8: the triangles of a patch.
fn write_patch(best: Option<&Tiling>, tables: &mut Tables) -> PatchAnswer {
    best.into_iter().for_each(|tiling| tables.triangles.fill(&tiling.walk));
    answer_of(best)
}

/// The direct job that stands in the tables.
fn job_in(n: usize, tables: &Tables) -> Job {
    Job {
        n,
        candidates: tables.candidates.view().to_vec(),
        weights: tables.weights.view().to_vec(),
        rows: tables.rows.view().to_vec(),
    }
}

impl Calls for Law {
    fn name(&self) -> String {
        format!("{} within {}", self.name, self.limit)
    }

    fn within(&self, limit: usize) -> Box<dyn Calls> {
        Box::new(Law { limit, ..*self })
    }

    fn patch_rim(&self, file: &[u8], tables: &mut Tables) -> PatchAnswer {
        let (n, lists) = match self.lists_of(file) {
            Err(number) => return PatchAnswer::refused(number),
            Ok(found) => found,
        };
        let candidates = lists.candidates.len();
        let short = tables.triangles.view().len() < n - 2
            || tables.work.view().len() < candidates
            || !lists_fit(&lists, tables);
        if short {
            return PatchAnswer::refused(13);
        }
        write_lists(&lists, tables);
        let Lists { candidates: triples, weights, rows } = lists;
        let job = Job { n, candidates: triples, weights, rows };
        tables.work.table()[..candidates].fill(0);
        write_patch((self.best)(&job).as_ref(), tables)
    }

    fn price(&self, n: usize, tables: &mut Tables) -> PatchAnswer {
        let job = job_in(n, tables);
        let work = tables.work.view().len();
        if let Some(number) = tests_of_jobs::number_without_triangles(&job, work) {
            return PatchAnswer::refused(number);
        }
        tables.clear_work();
        answer_of((self.best)(&job).as_ref())
    }

    fn patch(&self, n: usize, agreed: u64, tables: &mut Tables) -> PatchAnswer {
        let job = job_in(n, tables);
        let places = (tables.triangles.view().len(), tables.work.view().len());
        if let Some(number) = tests_of_jobs::number_due(&job, places.0, places.1) {
            return PatchAnswer::refused(number);
        }
        // Rule 4.30: 23 is the one refusal that changes a table.
        tables.clear_work();
        let best = (self.best)(&job);
        match tests_of_jobs::number_of_agreement(best.as_ref(), agreed) {
            Some(number) => PatchAnswer::refused(number),
            None => write_patch(best.as_ref(), tables),
        }
    }

    fn judge(&self, n: usize, stated: u64, tables: &mut Tables) -> JudgeAnswer {
        let job = job_in(n, tables);
        let patch = Patch { list: tables.triangles.view().to_vec(), stated };
        let number = tests_of_jobs::number_without_triangles(&job, tables.work.view().len());
        if let Some(number) = number.or_else(|| judge::number_of_patch(&job, &patch)) {
            return JudgeAnswer::refused(number);
        }
        tables.clear_work();
        JudgeAnswer { number: 0, excess: judge::excess(self.best, &job, stated) }
    }

    fn read_rim(&self, file: &[u8]) -> ReadAnswer {
        match reader::read_within(self.limit, file) {
            Err(number) => ReadAnswer { number, vertices: 0 },
            Ok(rim) => ReadAnswer { number: 0, vertices: rim.points.len() },
        }
    }

    fn find_candidates(&self, file: &[u8], tables: &mut Tables) -> FindAnswer {
        let refused = |number| FindAnswer { number, candidates: 0, rows: 0 };
        let lists = match self.lists_of(file) {
            Err(number) => return refused(number),
            Ok((_, lists)) => lists,
        };
        if !lists_fit(&lists, tables) {
            return refused(13);
        }
        write_lists(&lists, tables);
        FindAnswer { number: 0, candidates: lists.candidates.len(), rows: lists.rows.len() }
    }

    fn sizes(&self, file: &[u8]) -> Result<Places, u32> {
        let (n, lists) = self.lists_of(file)?;
        let candidates = lists.candidates.len();
        Ok(Places {
            triangles: n - 2,
            candidates,
            weights: candidates,
            rows: lists.rows.len(),
            work: candidates,
        })
    }

    fn convert(&self, file: &[u8], out: &mut Lent<u8>) -> ConvertAnswer {
        match conversion::convert(file, out.view().len()) {
            Err(number) => ConvertAnswer::refused(number),
            Ok(Converted { edition, bytes }) => {
                out.fill(&bytes);
                ConvertAnswer { number: 0, edition, length: bytes.len() }
            }
        }
    }
}
