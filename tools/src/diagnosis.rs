//! Where a rim file is wrong: the first number due of 1 to 12 and 18, in the order of rule 4.31, and
//! the place it is due at. The library decides the number; this only says where to look.

use crate::geometry::cospherical;
use crate::rim_file::{grid_number, header, records, Edition, Header, Record};
use crate::rim_file::{LEVEL_POINT, LIMIT, MAX_AREA_FACTOR, MAX_RECORDS, POINT};
use crate::rim_file::{NORMAL_AXES, NORMAL_LIMIT};
use patch_box::{Number, MAX_VERTICES};

/// A vertex of the rim.
#[derive(Clone, Copy, Debug, PartialEq, Eq)]
pub struct Vertex {
    /// The number of its record.
    pub record: u16,
    pub point: [i64; 3],
    /// Of the surface at the edge to the next vertex; zeros where there is none.
    pub normal: [i64; 3],
}

/// A number and the place it is due at.
#[derive(Clone, Debug, PartialEq, Eq)]
pub struct Due {
    pub number: Number,
    pub place: String,
}

/// The vertices up to where the file goes wrong, if it does.
pub struct Diagnosis {
    pub vertices: Vec<Vertex>,
    pub due: Option<Due>,
}

fn due(number: Number, place: String) -> Result<(), Due> {
    Err(Due { number, place })
}

pub fn diagnose(file: &[u8]) -> Diagnosis {
    let mut vertices = Vec::new();
    let judged = judge(file, &mut vertices);
    Diagnosis { vertices, due: judged.err() }
}

fn judge(file: &[u8], vertices: &mut Vec<Vertex>) -> Result<(), Due> {
    let header = check_length(file)?;
    if header.area_factor > MAX_AREA_FACTOR {
        due(Number::AreaFactor, format!("the area factor is {}", header.area_factor))?;
    }
    follow_chain(header, &records(file), vertices)?;
    if vertices.len() < 3 {
        due(Number::TooFewVertices, format!("the chain has {} records", vertices.len()))?;
    }
    check_distinct(vertices)?;
    check_cospherical(vertices)
}

fn check_length(file: &[u8]) -> Result<Header, Due> {
    let length = file.len();
    let edition = Edition::of(file);
    let wrong = |place: String| {
        // A rim file has small bytes in its header; text has none.
        let text = length > 0 && file.iter().all(|&byte| byte >= b'\t');
        let hint = match edition {
            Edition::One if text => "; this looks like text, ./rim make takes a list of points",
            Edition::One => "",
            Edition::Two => "; the file begins with 65535, so it is of edition 2",
        };
        Due { number: Number::Length, place: place + hint }
    };
    let Some(header) = header(file) else {
        let needed = edition.header();
        return Err(wrong(format!("{length} bytes are too few for a header of {needed}")));
    };
    let records = header.records;
    if records > MAX_RECORDS {
        return Err(wrong(format!("the header says {records} records")));
    }
    let needed = edition.length(records);
    if length != needed {
        return Err(wrong(if length > patch_box::MAX_FILE {
            format!("{records} records make {needed} bytes, the file has more")
        } else {
            format!("{records} records make {needed} bytes, the file has {length}")
        }));
    }
    Ok(header)
}

fn follow_chain(header: Header, records: &[Record], chain: &mut Vec<Vertex>) -> Result<(), Due> {
    let mut height = None;
    let mut link = header.first;
    while link != 0 {
        check_link(link, header.records, chain)?;
        let record = records[link as usize - 1];
        let vertex = chain.len();
        let point = check_record(record, height).map_err(|(number, what)| Due {
            number,
            place: format!("record {link}, vertex {vertex}: {what}"),
        })?;
        height = Some(point[2]);
        chain.push(Vertex { record: link, point, normal: record.normal.map(i64::from) });
        link = record.next;
    }
    Ok(())
}

fn check_link(link: u16, records: u16, chain: &[Vertex]) -> Result<(), Due> {
    let from = match chain.last() {
        None => "the header".to_string(),
        Some(vertex) => format!("record {}", vertex.record),
    };
    if link > records {
        due(Number::Link, format!("{from} leads to record {link} of {records}"))?;
    }
    if let Some(vertex) = chain.iter().position(|vertex| vertex.record == link) {
        let place = format!("{from} leads back to record {link}, which is vertex {vertex}");
        due(Number::RecordRepeated, place)?;
    }
    if chain.len() == MAX_VERTICES {
        due(Number::TooManyVertices, format!("{from} leads to a 65th record, {link}"))?;
    }
    Ok(())
}

/// The grid point of a record, or what is wrong with it.
fn check_record(record: Record, height: Option<i64>) -> Result<[i64; 3], (Number, String)> {
    let [x, y, z] = record.floats;
    let named: &[(&str, f32)] = match record.kind {
        POINT => &[("x", x), ("y", y), ("z", z)],
        LEVEL_POINT => &[("x", x), ("y", y)],
        kind => return Err((Number::Kind, format!("the kind is {kind}"))),
    };
    if record.kind == LEVEL_POINT && height.is_none() {
        return Err((Number::NoHeight, "a level point starts the chain".into()));
    }
    if let Some((axis, value)) = named.iter().find(|(_, value)| !value.is_finite()) {
        return Err((Number::NotFinite, format!("{axis} is {value}")));
    }
    if record.kind == LEVEL_POINT && z.to_bits() != 0 {
        return Err((Number::NotFinite, "a level point with a third number".into()));
    }
    if let Some((axis, value)) = named.iter().find(|(_, value)| value.abs() > LIMIT) {
        return Err((Number::OutOfRange, format!("{axis} = {}", float(*value))));
    }
    let inside = -NORMAL_LIMIT..=NORMAL_LIMIT;
    if let Some(k) = record.normal.iter().position(|number| !inside.contains(number)) {
        return Err((Number::Normal, format!("{} = {}", NORMAL_AXES[k], record.normal[k])));
    }
    let own = grid_number(z);
    let z = if record.kind == POINT { own } else { height.unwrap_or(own) };
    Ok([grid_number(x), grid_number(y), z])
}

/// A float as people write it, or with a power of ten where that is shorter.
pub fn float(value: f32) -> String {
    let size = value.abs();
    if size == 0.0 || (1e-4..1e7).contains(&size) || !value.is_finite() {
        format!("{value}")
    } else {
        format!("{value:e}")
    }
}

fn check_distinct(vertices: &[Vertex]) -> Result<(), Due> {
    for (later, vertex) in vertices.iter().enumerate() {
        let same = |other: &Vertex| other.point == vertex.point;
        if let Some(earlier) = vertices[..later].iter().position(same) {
            let [x, y, z] = vertex.point;
            let records = [vertices[earlier].record, vertex.record];
            let place = format!(
                "vertices {earlier} and {later} (records {} and {}) are at ({x}, {y}, {z})",
                records[0], records[1]
            );
            due(Number::VertexRepeated, place)?;
        }
    }
    Ok(())
}

/// Five vertices on a sphere or, in a flat rim, four on a circle (rule 4.12).
fn check_cospherical(vertices: &[Vertex]) -> Result<(), Due> {
    let points: Vec<[i64; 3]> = vertices.iter().map(|vertex| vertex.point).collect();
    let Some(met) = cospherical(&points) else { return Ok(()) };
    let numbers: Vec<String> = met.iter().map(usize::to_string).collect();
    let (last, others) = numbers.split_last().expect("corners and another");
    let flat = if met.len() == 4 { " of a flat rim" } else { "" };
    let others = others.join(", ");
    let place =
        format!("vertices {others} and {last}{flat}; moving one of them by 0.125 mm can help");
    due(Number::Cospherical, place)
}
