//! The rim file (rules 1.1 to 1.8 and 1.12 to 1.14): its polygon, of no more vertices than a limit,
//! or the first number due of 1 to 11, 18 and 20, and before them 14.

use super::grid::{grid_number, GridNumber};

/// A grid point.
pub type Point = [i64; 3];

#[derive(Clone, Debug, PartialEq, Eq)]
pub struct Rim {
    pub area_factor: u64,
    pub bend_factor: u64,
    pub points: Vec<Point>,
    /// The normal outside each rim edge, where there is a surface. Edge i starts at vertex i.
    pub surfaces: Vec<Option<Point>>,
}

/// A file of either edition, cut up: the eight bytes of its header, and its records.
pub struct Parts<'a> {
    pub edition: u32,
    pub header: &'a [u8],
    pub records: Vec<&'a [u8]>,
}

/// The vertices of the longest rim.
pub const LARGEST_LIMIT: usize = 64;

/// Bytes of a record up to its normal, and of the normal.
pub const RECORD: usize = 16;
pub const NORMAL: usize = 6;

fn u16_at(file: &[u8], at: usize) -> usize {
    u16::from_le_bytes([file[at], file[at + 1]]) as usize
}

fn u32_at(file: &[u8], at: usize) -> u32 {
    u32::from_le_bytes([file[at], file[at + 1], file[at + 2], file[at + 3]])
}

/// Numbers 8 and 9 of the used numbers of one record: 8 on any of them comes before 9.
fn coordinates(bits: &[u32]) -> Result<Vec<i64>, u32> {
    let numbers: Vec<GridNumber> = bits.iter().map(|&b| grid_number(b)).collect();
    if numbers.contains(&GridNumber::NotFinite) {
        return Err(8);
    }
    let at = numbers.iter().map(|number| match number {
        GridNumber::At(value) => Ok(*value),
        _ => Err(9),
    });
    at.collect()
}

/// The point of a record (rules 1.6 and 1.7), with the grid height of the last point before it: 6,
/// 7, 8, 9.
fn point_of(record: &[u8], height: Option<i64>) -> Result<(Point, i64), u32> {
    let bits = [u32_at(record, 4), u32_at(record, 8), u32_at(record, 12)];
    match u16_at(record, 2) {
        1 => {
            let at = coordinates(&bits)?;
            Ok(([at[0], at[1], at[2]], at[2]))
        }
        2 => {
            let height = height.ok_or(7u32)?;
            if bits[2] != 0 {
                return Err(8);
            }
            let at = coordinates(&bits[..2])?;
            Ok(([at[0], at[1], height], height))
        }
        _ => Err(6),
    }
}

/// Rule 1.13: the normal that a record of edition 2 ends with, none where it is three zeros, and in
/// edition 1; or 18.
fn surface_of(record: &[u8]) -> Result<Option<Point>, u32> {
    let mut normal = [0; 3];
    for (number, at) in normal.iter_mut().zip((RECORD..record.len()).step_by(2)) {
        let unsigned = u16_at(record, at) as i64;
        *number = if unsigned < 32_768 { unsigned } else { unsigned - 65_536 };
    }
    if normal.iter().any(|number| number.abs() > 1000) {
        return Err(18);
    }
    Ok(Some(normal).filter(|normal| *normal != [0; 3]))
}

/// Rules 1.2 to 1.4 and 1.12: the first u16 alone tells the edition; or 1.
pub fn cut(file: &[u8]) -> Result<Parts<'_>, u32> {
    let (edition, file, record) = match file {
        [255, 255, rest @ ..] => (2, rest, RECORD + NORMAL),
        _ => (1, file, RECORD),
    };
    let (header, records) = file.split_at_checked(8).ok_or(1u32)?;
    let count = u16_at(header, 2);
    if count > 256 || records.len() != record * count {
        return Err(1);
    }
    Ok(Parts { edition, header, records: records.chunks(record).collect() })
}

/// The records that the links lead to, whatever they hold, and what the last link says: nothing
/// where it is 0, else 3 or 4.
fn linked<'a>(file: &Parts<'a>) -> (Vec<&'a [u8]>, Result<(), u32>) {
    let mut met = vec![0];
    let mut records = Vec::new();
    let mut link = u16_at(file.header, 0);
    while !met.contains(&link) {
        let Some(&record) = file.records.get(link - 1) else {
            return (records, Err(3));
        };
        met.push(link);
        records.push(record);
        link = u16_at(record, 0);
    }
    (records, if link == 0 { Ok(()) } else { Err(4) })
}

/// The points and surfaces along the chain (rule 4.31): each record within the limit in turn, then
/// that there is one more, 5 or 20, then the link that ends the chain.
fn chain(file: &Parts, limit: usize) -> Result<(Vec<Point>, Vec<Option<Point>>), u32> {
    let (records, end) = linked(file);
    let mut points = Vec::new();
    let mut surfaces = Vec::new();
    let mut height = None;
    for record in records.iter().take(limit) {
        let (point, its_height) = point_of(record, height)?;
        points.push(point);
        height = Some(its_height);
        surfaces.push(surface_of(record)?);
    }
    if records.len() > limit {
        return Err(if limit == LARGEST_LIMIT { 5 } else { 20 });
    }
    end?;
    Ok((points, surfaces))
}

/// The rim of a file, with the largest limit.
pub fn read(file: &[u8]) -> Result<Rim, u32> {
    read_within(LARGEST_LIMIT, file)
}

pub fn read_within(limit: usize, file: &[u8]) -> Result<Rim, u32> {
    if !(3..=LARGEST_LIMIT).contains(&limit) {
        return Err(14);
    }
    let parts = cut(file)?;
    let [area_factor, bend_factor] = [4, 6].map(|at| u16_at(parts.header, at) as u64);
    if area_factor > 16 {
        return Err(2);
    }
    let (points, surfaces) = chain(&parts, limit)?;
    if points.len() < 3 {
        return Err(10);
    }
    for (i, point) in points.iter().enumerate() {
        if points[..i].contains(point) {
            return Err(11);
        }
    }
    Ok(Rim { area_factor, bend_factor, points, surfaces })
}
