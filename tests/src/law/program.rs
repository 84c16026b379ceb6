//! What the programs write for a file: the bench program (rules 5.3 and 5.4), the trim program, which
//! has a limit of its own (rule 5.9), and `convert` (rule 5.8).

use super::{conversion, BY_INTERVALS};
use crate::calls::{Calls, Places, Tables, MOST_BYTES};
use std::fmt::Write;

fn refusal(number: u32) -> String {
    format!("refused {number}\n")
}

/// The convert program has places for every converted file.
pub fn converted(file: &[u8]) -> Vec<u8> {
    match conversion::convert(file, MOST_BYTES) {
        Ok(converted) => converted.bytes,
        Err(number) => refusal(number).into_bytes(),
    }
}

/// The limit of the trim program.
pub const TRIM_LIMIT: usize = 24;

pub fn bench(file: &[u8]) -> String {
    output(&BY_INTERVALS, file)
}

pub fn trim(file: &[u8]) -> String {
    output(&*BY_INTERVALS.within(TRIM_LIMIT), file)
}

fn output(law: &dyn Calls, file: &[u8]) -> String {
    let mut tables = Tables::guarded(Places::BENCH);
    let answer = law.patch_rim(file, &mut tables);
    if answer.number != 0 {
        return refusal(answer.number);
    }
    if answer.triangles == 0 {
        return String::from("none\n");
    }
    let patch = &tables.triangles.view()[..answer.triangles];
    let found = law.find_candidates(file, &mut Tables::guarded(Places::BENCH));
    let rows = &tables.rows.view()[..found.rows];
    let (vertices, total) = (answer.triangles + 2, answer.total);
    let mut text = format!("patch {vertices} {} {total}\n", answer.triangles);
    for &inner in patch {
        let [a, b, c] = tables.candidates.view()[inner as usize];
        let weight = tables.weights.view()[inner as usize];
        // The one row of the patch in which this triangle is inner; the first triangle has none.
        let mut of_patch = rows.iter().filter(|row| patch.contains(&(row[0] as u16)));
        let row = of_patch.find(|row| row[1] == inner as u32).map_or(0, |row| row[2]);
        writeln!(text, "{a} {b} {c} {weight} {row}").expect("a string takes any text");
    }
    text
}
