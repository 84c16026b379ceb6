//! A rim file as text: header, records, vertices, and the outcome.

use crate::diagnosis::{diagnose, float, Diagnosis, Vertex};
use crate::patch::{close, Patch};
use crate::rim_file::{header, millimetres, records, Edition, Record};
use crate::rim_file::{LEVEL_POINT, MAX_RECORDS, POINT};
use patch_box::Number;
use std::fmt::Write;

/// The text, and whether the library takes the file.
pub fn show(file: &[u8]) -> (String, bool) {
    let diagnosis = diagnose(file);
    let outcome = close(file);
    let mut text = shown_header(file);
    // What a file of another kind holds are no records.
    if header(file).is_some_and(|header| header.records <= MAX_RECORDS) {
        text += &shown_records(&records(file), Edition::of(file));
    }
    text += &shown_vertices(&diagnosis.vertices);
    text += &match &outcome {
        Ok(patch) => shown_patch(patch),
        Err(number) => refusal(*number, &diagnosis) + "\n",
    };
    (text, outcome.is_ok())
}

/// A refusal in one line, with its place where that is known.
pub fn refusal(number: Number, diagnosis: &Diagnosis) -> String {
    match &diagnosis.due {
        Some(due) if due.number == number => format!("{number}: {}", due.place),
        _ => number.to_string(),
    }
}

fn shown_header(file: &[u8]) -> String {
    let length = file.len();
    let bytes = if length > patch_box::MAX_FILE {
        format!("more than {} bytes", patch_box::MAX_FILE)
    } else {
        format!("{length} bytes")
    };
    let edition = Edition::of(file).number();
    match header(file) {
        None => format!("rim file of {bytes}, without a header\n\n"),
        Some(header) => format!(
            "rim file of {bytes}, edition {edition}: first record {}, records {}, area factor {}, \
             bend factor {}\n\n",
            header.first, header.records, header.area_factor, header.bend_factor
        ),
    }
}

fn shown_records(records: &[Record], edition: Edition) -> String {
    if records.is_empty() {
        return String::new();
    }
    let normals = edition == Edition::Two;
    let more = if normals { "  normal: x      y      z" } else { "" };
    let mut text = format!("record   next   kind         x mm         y mm         z mm{more}\n");
    for (record, number) in records.iter().zip(1..) {
        let kind = match record.kind {
            POINT => "point".to_string(),
            LEVEL_POINT => "level".to_string(),
            kind => kind.to_string(),
        };
        let [x, y, z] = record.floats.map(float);
        let level = record.kind == LEVEL_POINT && record.floats[2].to_bits() == 0;
        let z = if level { "-" } else { &z };
        let [u, v, w] = record.normal;
        let more = if normals { format!(" {u:>10} {v:>6} {w:>6}") } else { String::new() };
        line(
            &mut text,
            format_args!("{number:>6} {:>6} {kind:>6} {x:>12} {y:>12} {z:>12}{more}", record.next),
        );
    }
    text + "\n"
}

fn shown_vertices(vertices: &[Vertex]) -> String {
    if vertices.is_empty() {
        return String::new();
    }
    let mut text = String::from(
        "vertex record  grid: x      y      z         x mm         y mm         z mm\n",
    );
    for (number, vertex) in vertices.iter().enumerate() {
        let [x, y, z] = vertex.point;
        let [u, v, w] = vertex.point.map(millimetres);
        let record = vertex.record;
        line(
            &mut text,
            format_args!("{number:>6} {record:>6} {x:>8} {y:>6} {z:>6} {u:>12} {v:>12} {w:>12}"),
        );
    }
    text + "\n"
}

fn shown_patch(patch: &Patch) -> String {
    if let Some(why) = &patch.none {
        return format!("{why}\n");
    }
    let mut text = format!(
        "patch of {} triangles, total {}\n\n     a      b      c   own weight  bend weight\n",
        patch.triangles.len(),
        patch.total
    );
    for triangle in &patch.triangles {
        let [a, b, c] = triangle.vertices;
        let (own, bend) = (triangle.own_weight, triangle.bend_weight);
        line(&mut text, format_args!("{a:>6} {b:>6} {c:>6} {own:>12} {bend:>12}"));
    }
    text
}

fn line(text: &mut String, words: std::fmt::Arguments) {
    writeln!(text, "{words}").expect("a string takes any text");
}
