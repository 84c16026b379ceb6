//! The bytes of a rim file of either edition (rules 1.1 to 1.13).

/// Rule 1.12: a file that begins with this number is of edition 2, any other of edition 1.
pub const EDITION_MARK: u16 = 65_535;

pub const MAX_RECORDS: u16 = 256;

/// Rule 1.9: a coordinate is from -LIMIT to LIMIT, in millimetres.
pub const LIMIT: f32 = 125.0;

/// Rule 1.13: a number of a normal is from -NORMAL_LIMIT to NORMAL_LIMIT.
pub const NORMAL_LIMIT: i16 = 1000;

/// What the numbers of a normal are called.
pub const NORMAL_AXES: [&str; 3] = ["nx", "ny", "nz"];

pub const MAX_AREA_FACTOR: u16 = 16;

/// The layout of a file: in edition 2 a mark comes first, and a record ends in a normal.
#[derive(Clone, Copy, Debug, PartialEq, Eq)]
pub enum Edition {
    One,
    Two,
}

impl Edition {
    /// The first number alone decides.
    pub fn of(file: &[u8]) -> Edition {
        if file.starts_with(&EDITION_MARK.to_le_bytes()) {
            Edition::Two
        } else {
            Edition::One
        }
    }

    pub fn number(self) -> u8 {
        match self {
            Edition::One => 1,
            Edition::Two => 2,
        }
    }

    /// Bytes before the four numbers of the header.
    fn mark(self) -> usize {
        match self {
            Edition::One => 0,
            Edition::Two => 2,
        }
    }

    /// Bytes before the first record.
    pub fn header(self) -> usize {
        self.mark() + 8
    }

    /// Bytes of a record.
    pub fn record(self) -> usize {
        match self {
            Edition::One => NORMAL,
            Edition::Two => NORMAL + 6,
        }
    }

    /// Bytes of a file.
    pub fn length(self, records: u16) -> usize {
        self.header() + self.record() * records as usize
    }
}

/// Where the normal of a record begins, after the fields that both editions have.
const NORMAL: usize = 16;

/// A point, or a level point, which has no height of its own.
#[derive(Clone, Copy, Debug, PartialEq)]
pub struct Point {
    pub x: f32,
    pub y: f32,
    pub height: Option<f32>,
    /// Of the surface at the edge to the next point, where that is given.
    pub normal: Option<[i16; 3]>,
}

#[derive(Clone, Copy, Debug, PartialEq, Eq)]
pub struct Header {
    pub first: u16,
    pub records: u16,
    pub area_factor: u16,
    pub bend_factor: u16,
}

/// A record as it stands in the file, whatever it holds.
#[derive(Clone, Copy, Debug, PartialEq)]
pub struct Record {
    pub next: u16,
    pub kind: u16,
    pub floats: [f32; 3],
    /// Three zeros, for no surface, in a file of edition 1.
    pub normal: [i16; 3],
}

pub const POINT: u16 = 1;
pub const LEVEL_POINT: u16 = 2;

/// The file whose chain is these points in order: of edition 2 where a normal is given.
pub fn encode(points: &[Point], area_factor: u16, bend_factor: u16) -> Vec<u8> {
    let normals = points.iter().any(|point| point.normal.is_some());
    let mark: &[u16] = if normals { &[EDITION_MARK] } else { &[] };
    let count = points.len() as u16;
    let header = [1, count, area_factor, bend_factor];
    let mut bytes: Vec<u8> =
        mark.iter().chain(&header).flat_map(|number| number.to_le_bytes()).collect();
    for (point, number) in points.iter().zip(1..) {
        let next: u16 = if number == count { 0 } else { number + 1 };
        let kind = if point.height.is_some() { POINT } else { LEVEL_POINT };
        bytes.extend(next.to_le_bytes());
        bytes.extend(kind.to_le_bytes());
        let floats = [point.x, point.y, point.height.unwrap_or(0.0)];
        bytes.extend(floats.iter().flat_map(|float| float.to_le_bytes()));
        if normals {
            let normal = point.normal.unwrap_or_default();
            bytes.extend(normal.iter().flat_map(|number| number.to_le_bytes()));
        }
    }
    bytes
}

fn u16_at(bytes: &[u8], at: usize) -> u16 {
    u16::from_le_bytes([bytes[at], bytes[at + 1]])
}

fn i16_at(bytes: &[u8], at: usize) -> i16 {
    i16::from_le_bytes([bytes[at], bytes[at + 1]])
}

fn f32_at(bytes: &[u8], at: usize) -> f32 {
    f32::from_le_bytes([bytes[at], bytes[at + 1], bytes[at + 2], bytes[at + 3]])
}

/// None where the file has no complete header.
pub fn header(file: &[u8]) -> Option<Header> {
    let edition = Edition::of(file);
    let numbers = file.get(edition.mark()..edition.header())?;
    Some(Header {
        first: u16_at(numbers, 0),
        records: u16_at(numbers, 2),
        area_factor: u16_at(numbers, 4),
        bend_factor: u16_at(numbers, 6),
    })
}

/// The complete records that the file has, however many its header says.
pub fn records(file: &[u8]) -> Vec<Record> {
    let edition = Edition::of(file);
    let bytes = file.get(edition.header()..).unwrap_or(&[]);
    let normal = |bytes: &[u8]| match edition {
        Edition::One => [0; 3],
        Edition::Two => [0, 2, 4].map(|at| i16_at(bytes, NORMAL + at)),
    };
    let record = |bytes: &[u8]| Record {
        next: u16_at(bytes, 0),
        kind: u16_at(bytes, 2),
        floats: [4, 8, 12].map(|at| f32_at(bytes, at)),
        normal: normal(bytes),
    };
    bytes.chunks_exact(edition.record()).map(record).collect()
}

/// Rule 1.10: the whole number nearest to 8v, at a half the even one. A double holds 8v exactly.
pub fn grid_number(v: f32) -> i64 {
    (v as f64 * 8.0).round_ties_even() as i64
}

/// Millimetres of a grid number.
pub fn millimetres(grid_number: i64) -> f64 {
    grid_number as f64 / 8.0
}
