//! Rim files and polygons of several shapes.

use crate::normals::{self, Normal};
use crate::random::Random;
use std::f64::consts::TAU;

/// A grid point.
pub type Point = [i64; 3];

/// Rim file P (rule 6.1).
pub const P: [Point; 4] = [[0, 0, 0], [8, 0, 0], [8, 8, 6], [0, 8, 0]];

/// Five corners of a cube, which are on one sphere.
pub const FIVE_CORNERS: [Point; 5] = [[0, 0, 0], [40, 0, 0], [40, 40, 0], [0, 40, 0], [0, 0, 40]];

/// A flat rim.
pub const FLAT: [Point; 5] = [[0, 0, 0], [90, 0, 0], [120, 70, 0], [40, 110, 0], [-30, 60, 0]];

/// The corners of a square, which are on one circle.
pub const SQUARE: [Point; 4] = [[0, 0, 5], [8, 0, 5], [8, 8, 5], [0, 8, 5]];

/// A rim on one line, so without a candidate.
pub const LINE: [Point; 5] = [[0, 0, 1], [6, 3, -2], [2, 1, 0], [-4, -2, 3], [10, 5, -4]];

/// A record of a rim file; the three floats as bits. Edition 1 leaves the normal out.
#[derive(Clone, Copy, Debug)]
pub struct Record {
    pub next: u16,
    pub kind: u16,
    pub bits: [u32; 3],
    pub normal: Normal,
}

/// The editions of the rim file.
#[derive(Clone, Copy, Debug, PartialEq, Eq)]
pub enum Edition {
    First,
    Second,
}

impl Edition {
    pub const BOTH: [Edition; 2] = [Edition::First, Edition::Second];
}

/// A rim file before it is written. `declared` is the record count in the header.
#[derive(Clone, Debug)]
pub struct RimFile {
    pub edition: Edition,
    pub first: u16,
    pub declared: u16,
    pub area_factor: u16,
    pub bend_factor: u16,
    pub records: Vec<Record>,
}

impl RimFile {
    pub fn bytes(&self) -> Vec<u8> {
        let second = self.edition == Edition::Second;
        let mut bytes = if second { vec![0xff, 0xff] } else { Vec::new() };
        let header = [self.first, self.declared, self.area_factor, self.bend_factor];
        bytes.extend(header.iter().flat_map(|x| x.to_le_bytes()));
        for record in &self.records {
            bytes.extend(record.next.to_le_bytes());
            bytes.extend(record.kind.to_le_bytes());
            bytes.extend(record.bits.iter().flat_map(|x| x.to_le_bytes()));
            if second {
                bytes.extend(record.normal.iter().flat_map(|x| x.to_le_bytes()));
            }
        }
        bytes
    }

    /// Edition 1, with the records in chain order, of kind 1 and on their grid points exactly.
    pub fn plain(points: &[Point], area_factor: u16, bend_factor: u16) -> RimFile {
        let count = points.len();
        let record = |(k, point): (usize, &Point)| Record {
            next: if k + 1 == count { 0 } else { k as u16 + 2 },
            kind: 1,
            bits: point.map(|g| (g as f32 / 8.0).to_bits()),
            normal: normals::NONE,
        };
        RimFile {
            edition: Edition::First,
            first: (count > 0) as u16,
            declared: count as u16,
            area_factor,
            bend_factor,
            records: points.iter().enumerate().map(record).collect(),
        }
    }

    /// The file in edition 2, with these normals along its chain.
    pub fn with_normals(mut self, normals: &[Normal]) -> RimFile {
        self.edition = Edition::Second;
        let mut link = self.first;
        for &normal in normals {
            let record = &mut self.records[link as usize - 1];
            record.normal = normal;
            link = record.next;
        }
        self
    }

    /// The file of n vertices in an edition, with a normal on every edge in edition 2.
    pub fn in_edition(self, edition: Edition, n: usize, random: &mut Random) -> RimFile {
        match edition {
            Edition::First => RimFile { edition, ..self },
            Edition::Second => self.with_normals(&normals::on_all(n, random)),
        }
    }

    /// The same vertices in a less plain file, of either edition: records in any order between
    /// spare ones that hold anything, level points where they will do, floats that are not on the
    /// grid.
    pub fn varied(points: &[Point], factors: [u16; 2], random: &mut Random) -> RimFile {
        let mut file = RimFile::plain(points, factors[0], factors[1]);
        let mut height = None;
        for (record, point) in file.records.iter_mut().zip(points) {
            let level = height == Some(point[2]) && random.once_in(2);
            record.bits = point.map(|g| near(g, random));
            if level {
                record.kind = 2;
                record.bits[2] = 0;
            }
            height = Some(point[2]);
        }
        let spare = random.below(4);
        let file = file.among_spare_records(spare, random);
        match random.one_of(&Edition::BOTH) {
            Edition::First => file,
            Edition::Second => file.with_normals(&normals::along(points, random)),
        }
    }

    /// A file whose records are its chain, in order: in any order, between so many spare ones.
    pub fn among_spare_records(mut self, spare: usize, random: &mut Random) -> RimFile {
        let chain = self.records.len();
        let mut order: Vec<u16> = (1..=(chain + spare) as u16).collect();
        random.shuffle(&mut order);
        let number = |k: usize| if k < chain { order[k] } else { 0 };
        let mut records: Vec<Record> = order.iter().map(|_| Record::anything(random)).collect();
        for (k, record) in self.records.iter().enumerate() {
            records[number(k) as usize - 1] = Record { next: number(k + 1), ..*record };
        }
        self.first = number(0);
        self.declared = records.len() as u16;
        self.records = records;
        self
    }

    /// The same header and records in the other edition, without any normal.
    pub fn converted(mut self) -> RimFile {
        self.edition = match self.edition {
            Edition::First => Edition::Second,
            Edition::Second => Edition::First,
        };
        self.records.iter_mut().for_each(|record| record.normal = normals::NONE);
        self
    }
}

impl Record {
    pub fn anything(random: &mut Random) -> Record {
        let mut any = |usual: usize| match random.below(2) {
            0 => random.below(usual) as u16,
            _ => random.next_u64() as u16,
        };
        Record {
            next: any(12),
            kind: any(4),
            bits: [0; 3].map(|_| any_float(random)),
            normal: [0; 3].map(|_| random.next_u64() as i16),
        }
    }
}

/// The bits of any float, of those that are rare among all bits too.
fn any_float(random: &mut Random) -> u32 {
    let any = random.next_u64() as u32;
    match random.below(6) {
        0 => any & 0x8000_0000,               // a zero
        1 => any & 0x807f_ffff,               // a subnormal number
        2 => any & 0x8000_0000 | 0x7f80_0000, // an infinity
        3 => any | 0x7fc0_0000,               // a quiet NaN
        4 => any & !0x40_0000 | 0x7f80_0001,  // a signalling NaN
        _ => any,
    }
}

/// The bits of a float whose grid number is g: on the grid, a half away where that is rounded to g
/// (g even), or somewhere nearer; minus zero and a subnormal number among those of 0.
fn near(g: i64, random: &mut Random) -> u32 {
    let g = g as f64;
    let half = if random.once_in(2) { 0.5 } else { -0.5 };
    let inside = |eighths: f64| eighths.abs() <= 1000.0;
    let eighths = match random.below(4) {
        0 if g % 2.0 == 0.0 && inside(g + half) => g + half,
        1 => g + (random.fraction() - 0.5) * 0.99,
        2 if g == 0.0 => random.one_of(&[-0.0, 1e-40, -1e-40]),
        _ => g,
    };
    let value = if inside(eighths) { eighths / 8.0 } else { g / 8.0 };
    (value as f32).to_bits()
}

/// The shapes of polygons. A strip and a spiral run along one side of a ribbon and back along the
/// other. Two skew lines give the most candidates.
#[derive(Clone, Copy, Debug, PartialEq, Eq)]
pub enum Shape {
    NoisyCircle,
    Saddle,
    Strip,
    Spiral,
    Scattered,
    SkewLines,
    /// Scattered in the plane z = x. Other planes are in `planes`.
    Flat,
    Collinear,
    CubeCorners,
    Duplicates,
}

impl Shape {
    /// Polygons that are accepted as a rule.
    pub const GENERAL: [Shape; 6] = [
        Shape::NoisyCircle,
        Shape::Saddle,
        Shape::Strip,
        Shape::Spiral,
        Shape::Scattered,
        Shape::SkewLines,
    ];

    pub const ALL: [Shape; 10] = [
        Shape::NoisyCircle,
        Shape::Saddle,
        Shape::Strip,
        Shape::Spiral,
        Shape::Scattered,
        Shape::SkewLines,
        Shape::Flat,
        Shape::Collinear,
        Shape::CubeCorners,
        Shape::Duplicates,
    ];

    /// A polygon of n vertices within `size` of the origin.
    pub fn points(self, n: usize, size: i64, random: &mut Random) -> Vec<Point> {
        let offset = random.fraction() * TAU;
        let turns = 1.5 + random.fraction();
        let mut points: Vec<Point> = Vec::with_capacity(n);
        for k in 0..n {
            let repeats = self == Shape::Duplicates && k > 0 && random.once_in(n);
            let point = self.point(k, n, size, [offset, turns], random);
            points.push(if repeats { random.one_of(&points) } else { point });
        }
        points
    }

    fn point(self, k: usize, n: usize, size: i64, own: [f64; 2], random: &mut Random) -> Point {
        let part = k as f64 / n as f64;
        let angle = TAU * part + own[0];
        let circle =
            |radius: f64, height: f64| [radius * angle.cos(), radius * angle.sin(), height];
        let at = match self {
            Shape::NoisyCircle => circle(0.8, 0.0),
            Shape::Saddle => circle(0.8, 0.5 * (2.0 * angle).cos()),
            Shape::Strip => {
                let (along, side) =
                    if part < 0.5 { (4.0 * part - 1.0, 0.08) } else { (3.0 - 4.0 * part, -0.08) };
                [0.9 * along, side, 0.3 * (3.0 * along + own[0]).sin()]
            }
            Shape::Spiral => {
                let (along, side) =
                    if part < 0.5 { (2.0 * part, 0.1) } else { (2.0 - 2.0 * part, -0.1) };
                let turn = own[1] * TAU * along;
                let radius = 0.25 + 0.55 * along;
                [radius * turn.cos(), radius * turn.sin(), side + 0.3 * along]
            }
            Shape::Scattered | Shape::Duplicates | Shape::Flat => {
                [random.fraction(), random.fraction(), random.fraction()].map(|x| 2.0 * x - 1.0)
            }
            Shape::SkewLines if part < 0.5 => [3.8 * part - 0.95, 0.0, 0.0],
            Shape::SkewLines => [0.0, 3.8 * part - 2.85, 0.4],
            Shape::Collinear | Shape::CubeCorners => [0.0; 3],
        };
        let noise = match self {
            Shape::NoisyCircle => 0.15,
            Shape::Scattered | Shape::Flat | Shape::Duplicates => 0.0,
            Shape::Strip | Shape::Spiral | Shape::SkewLines => 0.01,
            _ => 0.03,
        };
        let size = size as f64;
        let jitter = [random.fraction(), random.fraction(), random.fraction()];
        let [x, y, z] =
            [0, 1, 2].map(|i| ((at[i] + noise * (2.0 * jitter[i] - 1.0)) * size).round() as i64);
        match self {
            Shape::SkewLines if part < 0.5 => [x, 0, 0],
            Shape::SkewLines => [0, y, z],
            Shape::Flat => [x, y, x],
            Shape::Collinear => [k as i64 - n as i64 / 2, 2 * (k as i64 - n as i64 / 2), 3],
            Shape::CubeCorners => cube_corner(random, size as i64),
            _ => [x, y, z].map(|g| g.clamp(-1000, 1000)),
        }
    }
}

fn cube_corner(random: &mut Random, size: i64) -> Point {
    let corner = random.below(8) as i64;
    [corner & 1, corner >> 1 & 1, corner >> 2].map(|bit| bit * size)
}

/// Points on a small lattice, where spheres with a fifth vertex on them are frequent.
pub fn lattice(n: usize, size: i64, random: &mut Random) -> Vec<Point> {
    (0..n).map(|_| [0; 3].map(|_| random.between(-size, size))).collect()
}
