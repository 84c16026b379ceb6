//! The patch box for hosts in Rust: its calls over slices. Tables that overlap, dangle or are not
//! aligned do not compile. patch_box.h says what each call does to the tables; README.md and
//! docs/SPECIFICATION.md describe the rules and the rim file. A call that takes a rim file takes both
//! editions. The calls whose names end in `_within` take rims of no more vertices than a limit, from
//! [`MIN_VERTICES`] to [`MAX_VERTICES`]; the others take the largest one.
//!
//! ```no_run
//! use patch_box::{Number, Outcome, OwnedTables};
//!
//! fn close(file: &[u8]) -> Result<(), Number> {
//!     let mut tables = OwnedTables::new(patch_box::sizes(file)?);
//!     match patch_box::rim(file, tables.lend())? {
//!         Outcome::None => println!("no triangulation"),
//!         Outcome::Patch { triangles, total } => {
//!             println!("total {total}");
//!             for &number in &tables.triangles[..triangles] {
//!                 println!("{:?}", tables.candidates[number as usize]);
//!             }
//!         }
//!     }
//!     Ok(())
//! }
//! ```
//!
//! This is the one file of a Rust host with `unsafe`: the calls of the archive are declared here.

#![no_std]

#[cfg(feature = "alloc")]
extern crate alloc;

use core::error::Error;
use core::fmt;

#[cfg(feature = "alloc")]
pub use owned::OwnedTables;

/// Bytes of the longest rim file, which is of edition 2.
pub const MAX_FILE: usize = 10 + 22 * 256;

/// Vertices of the longest rim: the largest limit.
pub const MAX_VERTICES: usize = 64;

/// Vertices of the shortest rim: the smallest limit.
pub const MIN_VERTICES: usize = 3;

/// The limit of the trim program.
pub const TRIM_VERTICES: usize = 24;

/// Places that suffice for the triangles of every rim.
pub const MAX_TRIANGLES: usize = MAX_VERTICES - 2;

/// Places that suffice for the candidates, weights and work of every rim: the triples of 64.
pub const MAX_CANDIDATES: usize = 64 * 63 * 62 / 6;

/// Places that suffice for the rows of every rim: two for each four of 64 vertices.
pub const MAX_ROWS: usize = 2 * (64 * 63 * 62 * 61 / 24);

/// Vertices a < b < c. Candidates stand in rising order, and a candidate's number is its place.
pub type Candidate = [u8; 3];

/// (outer, inner, weight): the weight of the pair in which candidate `inner` hangs on `outer`.
pub type Row = [u32; 3];

/// The tables lent to [`rim`].
pub struct Tables<'a> {
    /// The candidate numbers of the patch, in walk order.
    pub triangles: &'a mut [u16],
    pub candidates: &'a mut [Candidate],
    /// The weight of the candidate of the same number. In edition 2 it has the bends at the candidate's
    /// rim edges added, to the normals of the surface outside.
    pub weights: &'a mut [u32],
    pub rows: &'a mut [Row],
    /// Scratch, one place for each candidate.
    pub work: &'a mut [u64],
}

/// The places that each table needs.
#[derive(Clone, Copy, Debug, PartialEq, Eq)]
pub struct Sizes {
    pub triangles: usize,
    pub candidates: usize,
    pub weights: usize,
    pub rows: usize,
    pub work: usize,
}

/// The price of an accepted job.
#[derive(Clone, Copy, Debug, PartialEq, Eq)]
pub enum Quote {
    /// The least total, and the triangles of a patch that has it: the places that [`patch`] needs for
    /// them.
    Total { triangles: usize, total: u64 },
    /// The candidates hold no triangulation.
    None,
}

/// What an accepted rim or job ends in.
#[derive(Clone, Copy, Debug, PartialEq, Eq)]
pub enum Outcome {
    /// The first `triangles` places of the triangle table hold the patch.
    Patch { triangles: usize, total: u64 },
    /// The candidates hold no triangulation.
    None,
}

/// The lists of a rim: how many first places of their tables they fill.
#[derive(Clone, Copy, Debug, PartialEq, Eq)]
pub struct Found {
    pub candidates: usize,
    pub rows: usize,
}

/// A converted file: its edition, and how many first places of the output table it fills.
#[derive(Clone, Copy, Debug, PartialEq, Eq)]
pub struct Converted {
    pub edition: u32,
    pub length: usize,
}

/// Defines the enum of the numbers, from the number and its line.
macro_rules! numbers {
    ($($name:ident = $number:literal, $line:literal;)*) => {
        /// Why a call refused. A refusal changes no table, but for the work table after 23.
        #[derive(Clone, Copy, Debug, PartialEq, Eq, PartialOrd, Ord, Hash)]
        #[repr(u32)]
        pub enum Number {
            $(#[doc = $line] $name = $number,)*
        }

        impl Number {
            /// All of them, in ascending order.
            pub const ALL: &'static [Number] = &[$(Number::$name,)*];

            /// The reason, in one line.
            pub fn reason(self) -> &'static str {
                match self {
                    $(Number::$name => $line,)*
                }
            }
        }
    };
}

numbers! {
    Length = 1,
        "the length of the file is not that of a header and its records, or these are over 256";
    AreaFactor = 2, "the area factor is more than 16";
    Link = 3, "a link leads past the last record";
    RecordRepeated = 4, "a link leads back to a record of the chain";
    TooManyVertices = 5, "the limit is 64, and the chain has more records";
    Kind = 6, "a record of the chain is neither a point nor a level point";
    NoHeight = 7, "a level point has no point before it on the chain";
    NotFinite = 8, "a coordinate is not finite, or the unused bytes of a level point are not zero";
    OutOfRange = 9, "a coordinate is not from -125 to 125 mm";
    TooFewVertices = 10, "the rim has fewer than 3 vertices";
    VertexRepeated = 11, "two vertices are at one grid point";
    Cospherical = 12,
        "five vertices, not all in one plane, are on a sphere that has no vertex inside; \
         in a flat rim, four on such a circle";
    TableTooShort = 13, "a lent table is too short";
    VertexCount = 14, "the n of a direct job, or the limit asked for, is not from 3 to 64";
    Candidate = 15, "the candidates of a direct job are not vertices a < b < c < n in rising order";
    Row = 16, "the rows of a direct job are not hanging pairs in rising order";
    Weight = 17, "a weight of a direct job is more than 2,000,000,000";
    Normal = 18, "a number of the normal of a vertex is not from -1000 to 1000";
    NormalLost = 19, "a normal would be lost: a record of the file to convert has one that is not zero";
    OverLimit = 20, "the limit is below 64, and the chain has more records";
    NotATriangulation = 21, "the list to judge is not a triangulation, or names a candidate twice";
    WrongTotal = 22, "the total stated for the list to judge is not its own";
    NotLeast = 23, "the agreed total is not the least total of the direct job";
}

impl Number {
    /// The number itself, 1 to 23.
    pub fn code(self) -> u32 {
        self as u32
    }

    /// The number of this value, where there is one.
    pub fn of_code(code: u32) -> Option<Number> {
        Number::ALL.iter().copied().find(|number| number.code() == code)
    }
}

impl fmt::Display for Number {
    fn fmt(&self, out: &mut fmt::Formatter) -> fmt::Result {
        write!(out, "refused {}: {}", self.code(), self.reason())
    }
}

impl Error for Number {}

/// A call of the archive: numbers as they are, and each slice as its pointer and its length, those
/// that are only read first. A number may stand before them, and another between.
macro_rules! call {
    ($name:ident($($number:ident)?; $($read:ident),* $(with $other:ident)?; $($lent:ident),*)) => {
        // SAFETY: each pointer is a slice's own, with that slice's length; mutable slices are disjoint.
        unsafe {
            archive::$name(
                $($number,)?
                $($read.as_ptr(), $read.len(),)*
                $($other,)?
                $($lent.as_mut_ptr(), $lent.len(),)*
            )
        }
    };
}

/// The places that the tables of a rim file need, or a number of 1 to 12 or 18.
pub fn sizes(file: &[u8]) -> Result<Sizes, Number> {
    call!(patch_box_sizes(; file;)).sizes()
}

/// The same within a limit: below 64 the number 20 is in the place of 5. A limit that is not from 3
/// to 64 is refused with 14, whatever the file.
pub fn sizes_within(limit: usize, file: &[u8]) -> Result<Sizes, Number> {
    call!(patch_box_sizes_within(limit; file;)).sizes()
}

/// The one call: closes the rim of a rim file. A number of 1 to 13 or 18 where it is refused. The
/// file alone fixes the patch: it does not depend on what the tables held, nor on their lengths
/// where these suffice.
pub fn rim(file: &[u8], tables: Tables) -> Result<Outcome, Number> {
    let Tables { triangles, candidates, weights, rows, work } = tables;
    call!(patch_box_rim(; file; triangles, candidates, weights, rows, work)).outcome()
}

/// The same within a limit, with the numbers 14 and 20 as in [`sizes_within`]. A rim that fits into
/// several limits has one answer under all of them.
pub fn rim_within(limit: usize, file: &[u8], tables: Tables) -> Result<Outcome, Number> {
    let Tables { triangles, candidates, weights, rows, work } = tables;
    call!(patch_box_rim_within(limit; file; triangles, candidates, weights, rows, work)).outcome()
}

/// The price of a direct job: its least total, without a patch. A number of 13 to 17 where it is
/// refused.
pub fn price(
    n: usize,
    candidates: &[Candidate],
    weights: &[u32],
    rows: &[Row],
    work: &mut [u64],
) -> Result<Quote, Number> {
    call!(patch_box_price(n; candidates, weights, rows; work)).price()
}

/// The patch of a direct job at an agreed total, that of [`price`] as a rule. A number of 13 to 17
/// where the job is refused, and 23 where it has a patch and another least total; then no triangle is
/// written, and the work table is left as after 'none'.
pub fn patch(
    n: usize,
    candidates: &[Candidate],
    weights: &[u32],
    rows: &[Row],
    agreed: u64,
    triangles: &mut [u16],
    work: &mut [u64],
) -> Result<Outcome, Number> {
    call!(patch_box_patch(n; candidates, weights, rows with agreed; triangles, work)).outcome()
}

/// The judge of a patch that another program made for a direct job: by how much its stated total
/// exceeds the least one. The list has the numbers of its candidates, in any order. A number of 13 to
/// 17, 21 or 22 where it is refused.
pub fn judge(
    n: usize,
    candidates: &[Candidate],
    weights: &[u32],
    rows: &[Row],
    list: &[u16],
    stated: u64,
    work: &mut [u64],
) -> Result<u64, Number> {
    let archive::Judge { number, excess } =
        call!(patch_box_judge(n; candidates, weights, rows, list with stated; work));
    accepted(number, [excess as usize])?;
    Ok(excess)
}

/// The reader alone: how many vertices the rim has, or a number of 1 to 11 or 18.
pub fn read(file: &[u8]) -> Result<usize, Number> {
    call!(patch_box_read(; file;)).vertices()
}

/// The same within a limit, with the numbers 14 and 20 as in [`sizes_within`].
pub fn read_within(limit: usize, file: &[u8]) -> Result<usize, Number> {
    call!(patch_box_read_within(limit; file;)).vertices()
}

/// The reader, then the candidate finder: a number of 1 to 13 or 18 where it is refused.
pub fn find(
    file: &[u8],
    candidates: &mut [Candidate],
    weights: &mut [u32],
    rows: &mut [Row],
) -> Result<Found, Number> {
    call!(patch_box_find(; file; candidates, weights, rows)).found()
}

/// The same within a limit, with the numbers 14 and 20 as in [`sizes_within`].
pub fn find_within(
    limit: usize,
    file: &[u8],
    candidates: &mut [Candidate],
    weights: &mut [u32],
    rows: &mut [Row],
) -> Result<Found, Number> {
    call!(patch_box_find_within(limit; file; candidates, weights, rows)).found()
}

/// Conversion between editions: the file in the other one, in the first places of the table. One of
/// edition 1 gets zero normals. A number of 1 to 11, 13, 18 or 19 where it is refused. [`MAX_FILE`]
/// places suffice for every converted file.
pub fn convert(file: &[u8], out: &mut [u8]) -> Result<Converted, Number> {
    let archive::Convert { number, edition, length } = call!(patch_box_convert(; file; out));
    accepted(number, [edition as usize, length])?;
    if !matches!(edition, 1 | 2) || length > out.len() {
        panic!("the archive and patch_box.rs differ: edition {edition}, length {length}");
    }
    Ok(Converted { edition, length })
}

/// The number of an answer as an error. A refusal has no counts.
fn accepted<const N: usize>(number: u32, counts: [usize; N]) -> Result<(), Number> {
    match Number::of_code(number) {
        None if number == 0 => Ok(()),
        Some(refusal) if counts == [0; N] => Err(refusal),
        _ => panic!("the archive and patch_box.rs differ: number {number}, counts {counts:?}"),
    }
}

impl archive::Sizes {
    fn sizes(self) -> Result<Sizes, Number> {
        let archive::Sizes { number, triangles, candidates, weights, rows, work } = self;
        accepted(number, [triangles, candidates, weights, rows, work])?;
        Ok(Sizes { triangles, candidates, weights, rows, work })
    }
}

impl archive::Read {
    fn vertices(self) -> Result<usize, Number> {
        accepted(self.number, [self.vertices])?;
        Ok(self.vertices)
    }
}

impl archive::Find {
    fn found(self) -> Result<Found, Number> {
        let archive::Find { number, candidates, rows } = self;
        accepted(number, [candidates, rows])?;
        Ok(Found { candidates, rows })
    }
}

/// The triangle count and the total of an answer, or nothing for 'none'.
fn settled(number: u32, triangles: usize, total: u64) -> Result<Option<(usize, u64)>, Number> {
    accepted(number, [triangles, total as usize])?;
    match (triangles, total) {
        (0, 0) => Ok(None),
        (0, _) => panic!("the archive and patch_box.rs differ: none with total {total}"),
        counts => Ok(Some(counts)),
    }
}

impl archive::Patch {
    fn outcome(self) -> Result<Outcome, Number> {
        let settled = settled(self.number, self.triangles, self.total)?;
        Ok(settled.map_or(Outcome::None, |(triangles, total)| Outcome::Patch { triangles, total }))
    }
}

impl archive::Price {
    fn price(self) -> Result<Quote, Number> {
        let settled = settled(self.number, self.triangles, self.total)?;
        Ok(settled.map_or(Quote::None, |(triangles, total)| Quote::Total { triangles, total }))
    }
}

#[cfg(feature = "alloc")]
mod owned {
    use super::{Candidate, Row, Sizes, Tables};
    use alloc::{vec, vec::Vec};

    /// Tables of a host's own, as long as a rim needs.
    #[derive(Clone, Debug, PartialEq, Eq)]
    pub struct OwnedTables {
        pub triangles: Vec<u16>,
        pub candidates: Vec<Candidate>,
        pub weights: Vec<u32>,
        pub rows: Vec<Row>,
        pub work: Vec<u64>,
    }

    impl OwnedTables {
        pub fn new(sizes: Sizes) -> OwnedTables {
            OwnedTables {
                triangles: vec![0; sizes.triangles],
                candidates: vec![[0; 3]; sizes.candidates],
                weights: vec![0; sizes.weights],
                rows: vec![[0; 3]; sizes.rows],
                work: vec![0; sizes.work],
            }
        }

        pub fn lend(&mut self) -> Tables<'_> {
            Tables {
                triangles: &mut self.triangles,
                candidates: &mut self.candidates,
                weights: &mut self.weights,
                rows: &mut self.rows,
                work: &mut self.work,
            }
        }
    }
}

/// The archive's calls and answers, as patch_box.h declares them.
mod archive {
    use super::{Candidate, Row};

    #[repr(C)]
    pub struct Patch {
        pub number: u32,
        pub triangles: usize,
        pub total: u64,
    }

    #[repr(C)]
    pub struct Price {
        pub number: u32,
        pub triangles: usize,
        pub total: u64,
    }

    #[repr(C)]
    pub struct Judge {
        pub number: u32,
        pub excess: u64,
    }

    #[repr(C)]
    pub struct Read {
        pub number: u32,
        pub vertices: usize,
    }

    #[repr(C)]
    pub struct Find {
        pub number: u32,
        pub candidates: usize,
        pub rows: usize,
    }

    #[repr(C)]
    pub struct Sizes {
        pub number: u32,
        pub triangles: usize,
        pub candidates: usize,
        pub weights: usize,
        pub rows: usize,
        pub work: usize,
    }

    #[repr(C)]
    pub struct Convert {
        pub number: u32,
        pub edition: u32,
        pub length: usize,
    }

    extern "C" {
        pub fn patch_box_sizes(file: *const u8, file_len: usize) -> Sizes;

        pub fn patch_box_sizes_within(limit: usize, file: *const u8, file_len: usize) -> Sizes;

        pub fn patch_box_rim(
            file: *const u8,
            file_len: usize,
            triangles: *mut u16,
            triangles_len: usize,
            candidates: *mut Candidate,
            candidates_len: usize,
            weights: *mut u32,
            weights_len: usize,
            rows: *mut Row,
            rows_len: usize,
            work: *mut u64,
            work_len: usize,
        ) -> Patch;

        pub fn patch_box_rim_within(
            limit: usize,
            file: *const u8,
            file_len: usize,
            triangles: *mut u16,
            triangles_len: usize,
            candidates: *mut Candidate,
            candidates_len: usize,
            weights: *mut u32,
            weights_len: usize,
            rows: *mut Row,
            rows_len: usize,
            work: *mut u64,
            work_len: usize,
        ) -> Patch;

        pub fn patch_box_price(
            n: usize,
            candidates: *const Candidate,
            candidates_len: usize,
            weights: *const u32,
            weights_len: usize,
            rows: *const Row,
            rows_len: usize,
            work: *mut u64,
            work_len: usize,
        ) -> Price;

        pub fn patch_box_patch(
            n: usize,
            candidates: *const Candidate,
            candidates_len: usize,
            weights: *const u32,
            weights_len: usize,
            rows: *const Row,
            rows_len: usize,
            agreed: u64,
            triangles: *mut u16,
            triangles_len: usize,
            work: *mut u64,
            work_len: usize,
        ) -> Patch;

        pub fn patch_box_judge(
            n: usize,
            candidates: *const Candidate,
            candidates_len: usize,
            weights: *const u32,
            weights_len: usize,
            rows: *const Row,
            rows_len: usize,
            list: *const u16,
            list_len: usize,
            stated: u64,
            work: *mut u64,
            work_len: usize,
        ) -> Judge;

        pub fn patch_box_read(file: *const u8, file_len: usize) -> Read;

        pub fn patch_box_read_within(limit: usize, file: *const u8, file_len: usize) -> Read;

        pub fn patch_box_find(
            file: *const u8,
            file_len: usize,
            candidates: *mut Candidate,
            candidates_len: usize,
            weights: *mut u32,
            weights_len: usize,
            rows: *mut Row,
            rows_len: usize,
        ) -> Find;

        pub fn patch_box_find_within(
            limit: usize,
            file: *const u8,
            file_len: usize,
            candidates: *mut Candidate,
            candidates_len: usize,
            weights: *mut u32,
            weights_len: usize,
            rows: *mut Row,
            rows_len: usize,
        ) -> Find;

        pub fn patch_box_convert(
            file: *const u8,
            file_len: usize,
            out: *mut u8,
            out_len: usize,
        ) -> Convert;
    }
}
