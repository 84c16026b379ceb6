//! A rim file as a list of points, which makes it again.

use crate::diagnosis::{diagnose, float};
use crate::points::NORMAL;
use crate::rim_file::{header, records, Edition, Record, LEVEL_POINT};

/// The chain of a file that the reader takes. In edition 2 each line has its normal, three zeros too,
/// so that the list makes a file of that edition.
pub fn list(file: &[u8]) -> String {
    let records = records(file);
    let edition = Edition::of(file);
    let factors = header(file).map_or(String::new(), |header| {
        format!("# --area {} --bend {}\n", header.area_factor, header.bend_factor)
    });
    let chain = diagnose(file).vertices;
    let lines = chain.iter().map(|vertex| line(&records[vertex.record as usize - 1], edition));
    factors + &lines.collect::<String>()
}

fn line(record: &Record, edition: Edition) -> String {
    let used = if record.kind == LEVEL_POINT { 2 } else { 3 };
    let mut words: Vec<String> = record.floats[..used].iter().map(|&value| float(value)).collect();
    if edition == Edition::Two {
        words.push(NORMAL.into());
        words.extend(record.normal.iter().map(i16::to_string));
    }
    words.join(" ") + "\n"
}
