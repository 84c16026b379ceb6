//! From the bytes of a rim file to its polygon.

use super::vectors::Vector;

/// The most vertices of a polygon, and the fewest.
pub const MOST: usize = 64;
const FEWEST: usize = 3;

pub struct Polygon {
    pub n: usize,
    pub area_factor: u32,
    pub bend_factor: u32,
    pub vertices: [Vector; MOST],
    /// The normals outside the edges that start at the vertices, zeros where there is no surface.
    /// Edition 1 has no list.
    pub outside: Vec<Vector>,
}

/// Where the parts of a file stand, by its edition.
#[derive(Clone, Copy)]
pub struct Layout {
    pub header: usize,
    pub record: usize,
}

impl Layout {
    pub const FIRST: Layout = Layout { header: 0, record: NORMAL };
    pub const SECOND: Layout = Layout { header: 2, record: NORMAL + 6 };

    pub fn of(file: &[u8]) -> Layout {
        match file.first_chunk() {
            Some(&[0xff, 0xff]) => Layout::SECOND,
            _ => Layout::FIRST,
        }
    }

    pub fn records(self) -> usize {
        self.header + 8
    }

    pub fn has_normals(self) -> bool {
        self.record > NORMAL
    }
}

/// Where the normal stands in a record that has one.
pub const NORMAL: usize = 16;

fn u16_at(file: &[u8], at: usize) -> usize {
    u16::from_le_bytes([file[at], file[at + 1]]) as usize
}

fn f32_at(file: &[u8], at: usize) -> f32 {
    f32::from_le_bytes([file[at], file[at + 1], file[at + 2], file[at + 3]])
}

/// 8v is exact in f32 for |v| up to 125.
fn grid(v: f32) -> Result<i64, u32> {
    if v.abs() > 125.0 {
        return Err(9);
    }
    Ok((v * 8.0).round_ties_even() as i64)
}

fn vertex(file: &[u8], at: usize, height: &mut Option<i64>) -> Result<Vector, u32> {
    let [x, y, z] = [4, 8, 12].map(|offset| f32_at(file, at + offset));
    match u16_at(file, at + 2) {
        1 => {
            if !(x.is_finite() && y.is_finite() && z.is_finite()) {
                return Err(8);
            }
            let point = [grid(x)?, grid(y)?, grid(z)?];
            *height = Some(point[2]);
            Ok(point)
        }
        2 => {
            let height = height.ok_or(7u32)?;
            if !(x.is_finite() && y.is_finite() && z.to_bits() == 0) {
                return Err(8);
            }
            Ok([grid(x)?, grid(y)?, height])
        }
        _ => Err(6),
    }
}

fn normal(file: &[u8], at: usize) -> Result<Vector, u32> {
    let number = |k: usize| i16::from_le_bytes([file[at + 2 * k], file[at + 2 * k + 1]]);
    let normal = [number(0), number(1), number(2)];
    if normal.iter().any(|number| !(-1000..=1000).contains(number)) {
        return Err(18);
    }
    Ok(normal.map(i64::from))
}

/// The vertices of the chain, with the normals of their edges, into as many places as are left free.
fn walk(
    file: &[u8],
    layout: Layout,
    records: usize,
    mut free: usize,
    polygon: &mut Polygon,
) -> Result<(), u32> {
    let past = if free == MOST { 5u32 } else { 20 };
    let mut met = [false; 257];
    let mut height = None;
    let mut link = u16_at(file, layout.header);
    while link != 0 {
        if link > records {
            return Err(3);
        }
        if met[link] {
            return Err(4);
        }
        free = free.checked_sub(1).ok_or(past)?;
        met[link] = true;
        let at = layout.records() + layout.record * (link - 1);
        polygon.vertices[polygon.n] = vertex(file, at, &mut height)?;
        if layout.has_normals() {
            polygon.outside.push(normal(file, at + NORMAL)?);
        }
        polygon.n += 1;
        link = u16_at(file, at);
    }
    Ok(())
}

pub fn read(file: &[u8]) -> Result<Polygon, u32> {
    read_up_to(MOST, file)
}

/// The polygon of a file, where it has no more vertices than the limit.
pub fn read_up_to(limit: usize, file: &[u8]) -> Result<Polygon, u32> {
    // One comparison: a limit below the fewest wraps around.
    if limit.wrapping_sub(FEWEST) > MOST - FEWEST {
        return Err(14);
    }
    let layout = Layout::of(file);
    if file.len() < layout.records() {
        return Err(1);
    }
    let records = u16_at(file, layout.header + 2);
    if records > 256 || file.len() != layout.records() + layout.record * records {
        return Err(1);
    }
    let area_factor = u16_at(file, layout.header + 4) as u32;
    if area_factor > 16 {
        return Err(2);
    }
    let bend_factor = u16_at(file, layout.header + 6) as u32;
    let vertices = [[0; 3]; MOST];
    let mut polygon = Polygon { n: 0, area_factor, bend_factor, vertices, outside: Vec::new() };
    walk(file, layout, records, limit, &mut polygon)?;
    if polygon.n < FEWEST {
        return Err(10);
    }
    for i in 1..polygon.n {
        if polygon.vertices[..i].contains(&polygon.vertices[i]) {
            return Err(11);
        }
    }
    Ok(polygon)
}
