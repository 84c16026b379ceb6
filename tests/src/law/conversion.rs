//! Conversion between editions (rule 1.15): the file in the other one, or the first number due of 1
//! to 11, 18, 13 and 19 (rule 4.35).

use super::reader::{cut, read, Parts, NORMAL, RECORD};

/// A file in the edition that it was not in.
pub struct Converted {
    pub edition: u32,
    pub bytes: Vec<u8>,
}

/// Every record stays at its place, also one that the chain does not reach, and keeps its bytes.
fn written(parts: &Parts) -> Converted {
    let (edition, mark, normal): (u32, &[u8], &[u8]) = match parts.edition {
        1 => (2, &[255, 255], &[0; NORMAL]),
        _ => (1, &[], &[]),
    };
    let mut bytes = [mark, parts.header].concat();
    for record in &parts.records {
        bytes.extend(&record[..RECORD]);
        bytes.extend(normal);
    }
    Converted { edition, bytes }
}

/// Rule 4.19: a record, whether or not it is on the chain, has a normal that is not three zeros.
fn loses_a_normal(parts: &Parts) -> bool {
    parts.records.iter().any(|record| record[RECORD..].iter().any(|&byte| byte != 0))
}

/// The converted file, for a table of so many places.
pub fn convert(file: &[u8], places: usize) -> Result<Converted, u32> {
    read(file)?;
    let parts = cut(file)?;
    let converted = written(&parts);
    if places < converted.bytes.len() {
        return Err(13);
    }
    if loses_a_normal(&parts) {
        return Err(19);
    }
    Ok(converted)
}
