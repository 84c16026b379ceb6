//! Damage to a rim file, and the number due for it (rules 4.1 to 4.11, 4.18 and 4.20).

use crate::law::reader::LARGEST_LIMIT;
use crate::normals;
use crate::random::Random;
use crate::rims::{Edition, Record, RimFile, Shape};

/// The records of an undamaged file.
const RECORDS: usize = 6;

/// A file of six records in chain order, with a normal on every edge in edition 2.
pub fn undamaged(edition: Edition, seed: u64) -> RimFile {
    let mut random = Random::new(seed);
    let points = Shape::NoisyCircle.points(RECORDS, 500, &mut random);
    RimFile::plain(&points, 2, 1).in_edition(edition, points.len(), &mut random)
}

/// One thing wrong with a file. Chain positions count from 0; the records of the undamaged file
/// stand in chain order, so position p is record p + 1.
#[derive(Clone, Copy, Debug, PartialEq, Eq)]
pub enum Damage {
    /// One record fewer than the header says.
    Length,
    /// 257 records, and a length that fits them.
    Records257,
    AreaFactor(u16),
    /// The link to this position leads past the last record.
    Link(usize, u16),
    /// The link to the first position leads to the second.
    Repeat(usize, usize),
    /// A chain of 66 records, more than any limit.
    TooMany,
    Kind(usize, u16),
    /// The first record is a level point.
    NoHeight,
    /// One of the three numbers has these bits, which are not finite.
    NotFinite(usize, usize, u32),
    /// A level point with these bits in its last four bytes.
    Tail(usize, u32),
    /// One of the three numbers has these bits, with 8v out of range.
    OutOfRange(usize, usize, u32),
    /// One of the three numbers of a normal is this.
    Normal(usize, usize, i16),
    /// The chain ends after this many records.
    TooFew(usize),
    /// The second position has the numbers of the first.
    SamePoint(usize, usize),
}

use Damage::*;

pub const NAN: u32 = 0x7fc0_0000;
const SIGNALLING_NAN: u32 = 0xff80_0001;
const INFINITY: u32 = 0x7f80_0000;
const MINUS_INFINITY: u32 = 0xff80_0000;
const MINUS_ZERO: u32 = 0x8000_0000;
pub const ABOVE_125: u32 = 0x42fa_0001;
const BELOW_MINUS_125: u32 = 0xc2fa_0001;
const LARGEST: u32 = 0x7f7f_ffff;

/// Each number of a file in several ways, for a chain of at least 6 records.
pub fn all(edition: Edition) -> Vec<Damage> {
    match edition {
        Edition::First => EITHER.to_vec(),
        Edition::Second => [&EITHER[..], &NORMALS[..]].concat(),
    }
}

/// 1 to 11, in files of either edition.
const EITHER: [Damage; 41] = [
    Length,
    Records257,
    AreaFactor(17),
    AreaFactor(0xffff),
    Link(0, 0),
    Link(0, 0xfe00),
    Link(1, 0),
    Link(3, 0),
    Link(5, 0xfe00),
    Repeat(1, 0),
    Repeat(3, 1),
    Repeat(5, 4),
    Repeat(4, 0),
    TooMany,
    Kind(0, 0),
    Kind(0, 3),
    Kind(2, 257),
    Kind(3, 258),
    Kind(5, 0xffff),
    NoHeight,
    NotFinite(0, 0, NAN),
    NotFinite(1, 1, INFINITY),
    NotFinite(3, 2, MINUS_INFINITY),
    NotFinite(5, 0, SIGNALLING_NAN),
    Tail(1, MINUS_ZERO),
    Tail(3, 1),
    Tail(4, NAN),
    Tail(5, 0x3f80_0000),
    OutOfRange(0, 2, ABOVE_125),
    OutOfRange(1, 0, BELOW_MINUS_125),
    OutOfRange(2, 1, LARGEST),
    OutOfRange(3, 0, LARGEST | MINUS_ZERO),
    OutOfRange(4, 2, 0x42fa_8000),
    OutOfRange(5, 1, ABOVE_125),
    TooFew(0),
    TooFew(1),
    TooFew(2),
    SamePoint(0, 1),
    SamePoint(0, 5),
    SamePoint(2, 3),
    SamePoint(1, 4),
];

/// 18, in files of edition 2.
const NORMALS: [Damage; 9] = [
    Normal(0, 0, 1001),
    Normal(0, 2, i16::MIN),
    Normal(1, 1, -1001),
    Normal(2, 0, i16::MAX),
    Normal(3, 2, 1001),
    Normal(3, 0, -1001),
    Normal(4, 1, 1024),
    Normal(5, 0, -1001),
    Normal(5, 2, 1001),
];

impl Damage {
    /// The number with the largest limit.
    pub fn number(self) -> u32 {
        match self {
            Length | Records257 => 1,
            AreaFactor(_) => 2,
            Link(..) => 3,
            Repeat(..) => 4,
            TooMany => 5,
            Kind(..) => 6,
            NoHeight => 7,
            NotFinite(..) | Tail(..) => 8,
            OutOfRange(..) => 9,
            Normal(..) => 18,
            TooFew(_) => 10,
            SamePoint(..) => 11,
        }
    }

    /// When the damage is met: before the chain, at a position along it, after it. A chain that
    /// ends early ends before whatever is wrong at the next position, and one that is too long is so
    /// at the position after the limit, where 20 has the place of 5.
    fn when(self, limit: usize) -> (u32, usize, u32) {
        match self {
            Length | Records257 | AreaFactor(_) => (0, 0, self.number()),
            Link(p, _) | Repeat(p, _) | Kind(p, _) => (1, p, self.number()),
            NotFinite(p, ..) | Tail(p, _) | OutOfRange(p, ..) => (1, p, self.number()),
            Normal(p, ..) => (1, p, self.number()),
            NoHeight => (1, 0, self.number()),
            TooMany => (1, limit, self.number()),
            TooFew(p) => (1, p, 0),
            SamePoint(..) => (2, 0, self.number()),
        }
    }

    /// The two write the same bytes, or one undoes the other.
    fn conflicts(self, other: Damage) -> bool {
        let touched = [self.touched(), other.touched()];
        touched[0].iter().any(|field| touched[1].contains(field))
    }

    /// The fields written: the header's, then for each record its link in, kind, numbers, normal.
    fn touched(self) -> Vec<(usize, usize)> {
        const HEADER: usize = usize::MAX;
        match self {
            Length | Records257 => vec![(HEADER, 0)],
            AreaFactor(_) => vec![(HEADER, 1)],
            Link(p, _) | Repeat(p, _) | TooFew(p) => vec![(p, 0)],
            TooMany => vec![],
            Kind(p, _) => vec![(p, 1)],
            NoHeight => vec![(0, 1), (0, 4)],
            NotFinite(p, k, _) | OutOfRange(p, k, _) => vec![(p, 2 + k)],
            Normal(p, k, _) => vec![(p, 5 + k)],
            Tail(p, _) => vec![(p, 1), (p, 4)],
            SamePoint(p, q) => [p, q].iter().flat_map(|&p| (1..5).map(move |k| (p, k))).collect(),
        }
    }

    fn set_link(file: &mut RimFile, p: usize, link: u16) {
        match p {
            0 => file.first = link,
            _ => file.records[p - 1].next = link,
        }
    }

    /// A chain of 66 records, with all that follow in order.
    fn lengthen(file: &mut RimFile) {
        let last = file.records.len();
        file.records[last - 1].next = last as u16 + 1;
        for k in last..66 {
            let bits = [k as f32, -(k as f32), 1.0].map(f32::to_bits);
            file.records.push(Record { next: k as u16 + 2, kind: 1, bits, normal: normals::NONE });
        }
        file.records[65].next = 0;
        file.declared = file.records.len() as u16;
    }

    pub fn apply(self, file: &mut RimFile) {
        match self {
            Length => {
                file.declared += 1;
            }
            Records257 => {
                let any = file.records[0];
                file.records.resize(257, any);
                file.declared = 257;
            }
            AreaFactor(factor) => file.area_factor = factor,
            Link(p, more) => Damage::set_link(file, p, file.declared + 1 + more),
            Repeat(p, q) => Damage::set_link(file, p, q as u16 + 1),
            TooMany => Damage::lengthen(file),
            Kind(p, kind) => file.records[p].kind = kind,
            NoHeight => {
                file.records[0].kind = 2;
                file.records[0].bits[2] = 0;
            }
            NotFinite(p, k, bits) | OutOfRange(p, k, bits) => file.records[p].bits[k] = bits,
            Normal(p, k, number) => file.records[p].normal[k] = number,
            Tail(p, bits) => {
                file.records[p].kind = 2;
                file.records[p].bits[2] = bits;
            }
            TooFew(p) => Damage::set_link(file, p, 0),
            SamePoint(p, q) => file.records[q].bits = file.records[p].bits,
        }
    }
}

/// An undamaged file with these damages.
pub fn damaged(edition: Edition, seed: u64, damages: &[Damage]) -> RimFile {
    let mut file = undamaged(edition, seed);
    let mut damages = damages.to_vec();
    // The longer chain comes first, so that the others find its records.
    damages.sort_by_key(|&damage| damage != TooMany);
    damages.iter().for_each(|damage| damage.apply(&mut file));
    file
}

/// The number due on such a file within a limit. A limit below its six records makes it too long.
pub fn number_due(damages: &[Damage], limit: usize) -> u32 {
    let too_long = (limit < RECORDS).then_some(TooMany);
    let met = damages.iter().copied().chain(too_long);
    let first = met.min_by_key(|damage| damage.when(limit)).expect("a damage");
    match first {
        TooMany if limit != LARGEST_LIMIT => 20,
        _ => first.number(),
    }
}

/// Each damage in each edition.
pub fn each_alone() -> impl Iterator<Item = (Edition, Damage)> {
    Edition::BOTH
        .into_iter()
        .flat_map(|edition| all(edition).into_iter().map(move |d| (edition, d)))
}

/// Each two that a file of the edition can have at once.
pub fn each_pair(edition: Edition) -> impl Iterator<Item = [Damage; 2]> {
    let ones = all(edition).into_iter();
    let pairs = ones.flat_map(move |one| all(edition).into_iter().map(move |two| [one, two]));
    pairs.filter(|[one, two]| one != two && !one.conflicts(*two))
}

/// Record k of so many: linked to the next as a rule, and wrong now and then.
fn random_record(k: usize, count: usize, random: &mut Random) -> Record {
    let rarely = 8 + 8 * count;
    if random.once_in(rarely) {
        return Record::anything(random);
    }
    let next = match random.below(rarely) {
        0 => random.below(count + 2) as u16,
        _ => (k as u16 + 2) % (count as u16 + 1),
    };
    let kind = if random.once_in(rarely) { random.below(4) as u16 } else { 1 };
    let value = |random: &mut Random| match random.below(3 * rarely) {
        0 => random.next_u64() as u32,
        1 => random.one_of(&[f32::NAN, f32::INFINITY, 126.0, -125.1]).to_bits(),
        _ => (random.between(-2000, 2000) as f32 / 16.0).to_bits(),
    };
    let bits = [0; 3].map(|_| value(random));
    let normal = match random.below(rarely) {
        0 => [0; 3].map(|_| random.between(-1002, 1002) as i16),
        1 => [0, random.next_u64() as i16, 0],
        _ => normals::NONE,
    };
    Record { next, kind, bits, normal }
}

/// A file of so many records, whose header is right for its length.
pub fn random_records(count: usize, random: &mut Random) -> RimFile {
    let mut records: Vec<Record> = (0..count).map(|k| random_record(k, count, random)).collect();
    if count > 1 && random.once_in(20) {
        let from = records[0].bits;
        records[count - 1].bits = from;
    }
    if count > 0 && random.once_in(20) {
        records[0].kind = 2;
    }
    let factors = if random.once_in(20) { 20 } else { 3 };
    RimFile {
        edition: random.one_of(&Edition::BOTH),
        first: if random.once_in(20) { random.below(count + 3) as u16 } else { 1 },
        declared: count as u16,
        area_factor: random.below(factors) as u16,
        bend_factor: random.below(3) as u16,
        records,
    }
}
