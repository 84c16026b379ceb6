//! The file in the other edition, record by record from one slice to the other.

use super::reader::{self, Layout, NORMAL};

fn loses_a_normal(mut records: std::slice::Chunks<u8>) -> bool {
    records.any(|record| record[NORMAL..].iter().any(|&byte| byte != 0))
}

/// Fills the first places of the output: the edition and the length, or the number due.
pub fn convert(file: &[u8], out: &mut [u8]) -> Result<(u32, usize), u32> {
    reader::read(file)?;
    let from = Layout::of(file);
    let (edition, to) = if from.has_normals() { (1, Layout::FIRST) } else { (2, Layout::SECOND) };
    let (start, records) = file.split_at(from.records());
    let records = records.chunks(from.record);
    let length = to.records() + to.record * records.len();
    let filled = out.get_mut(..length).ok_or(13u32)?;
    if loses_a_normal(records.clone()) {
        return Err(19);
    }
    let (opening, places) = filled.split_at_mut(to.records());
    opening[..to.header].fill(0xff);
    opening[to.header..].copy_from_slice(&start[from.header..]);
    for (record, place) in records.zip(places.chunks_mut(to.record)) {
        let (bytes, normal) = place.split_at_mut(NORMAL);
        bytes.copy_from_slice(&record[..NORMAL]);
        normal.fill(0);
    }
    Ok((edition, length))
}
