//! A rim as a direct job (rule 3.1).

use patch_box::{Number, OwnedTables};

/// The lists of a rim stand in the tables, whose lengths are those that it needs.
pub struct Job {
    pub n: usize,
    pub tables: OwnedTables,
}

impl Job {
    pub fn of(file: &[u8]) -> Result<Job, Number> {
        let mut tables = OwnedTables::new(patch_box::sizes(file)?);
        let OwnedTables { candidates, weights, rows, .. } = &mut tables;
        patch_box::find(file, candidates, weights, rows)?;
        Ok(Job { n: patch_box::read(file)?, tables })
    }
}
