//! The calls of the library, and the tables lent to them.

/// A candidate (a, b, c).
pub type Triangle = [u8; 3];

/// A row (outer, inner, weight).
pub type Row = [u32; 3];

/// Bytes of the longest rim file (rule 1.4), and so places for every converted one.
pub const MOST_BYTES: usize = 10 + 22 * 256;

/// Rule 5.2: number 0 with triangles is a patch, without triangles it is 'none'. The price of a patch
/// has the same numbers (rule 5.11).
#[derive(Clone, Copy, Debug, PartialEq, Eq)]
pub struct PatchAnswer {
    pub number: u32,
    pub triangles: usize,
    pub total: u64,
}

#[derive(Clone, Copy, Debug, PartialEq, Eq)]
pub struct ReadAnswer {
    pub number: u32,
    pub vertices: usize,
}

#[derive(Clone, Copy, Debug, PartialEq, Eq)]
pub struct FindAnswer {
    pub number: u32,
    pub candidates: usize,
    pub rows: usize,
}

/// Rule 5.10: accepted where the number is 0, with the excess over the least total.
#[derive(Clone, Copy, Debug, PartialEq, Eq)]
pub struct JudgeAnswer {
    pub number: u32,
    pub excess: u64,
}

/// The edition of the converted file and its bytes.
#[derive(Clone, Copy, Debug, PartialEq, Eq)]
pub struct ConvertAnswer {
    pub number: u32,
    pub edition: u32,
    pub length: usize,
}

impl PatchAnswer {
    pub const NONE: PatchAnswer = PatchAnswer { number: 0, triangles: 0, total: 0 };

    pub fn refused(number: u32) -> PatchAnswer {
        PatchAnswer { number, ..PatchAnswer::NONE }
    }
}

impl JudgeAnswer {
    pub fn refused(number: u32) -> JudgeAnswer {
        JudgeAnswer { number, excess: 0 }
    }
}

impl ConvertAnswer {
    pub fn refused(number: u32) -> ConvertAnswer {
        ConvertAnswer { number, edition: 0, length: 0 }
    }
}

/// A value that no call writes, different from place to place.
pub trait Guard: Copy + PartialEq + std::fmt::Debug {
    fn guard(place: usize) -> Self;
}

/// A converted file may hold any byte, but these are neither those of its mark nor of a zero normal.
impl Guard for u8 {
    fn guard(place: usize) -> u8 {
        1 + (place % 251) as u8
    }
}

impl Guard for u16 {
    fn guard(place: usize) -> u16 {
        0xc000 + (place % 0x3fff) as u16
    }
}

impl Guard for u32 {
    fn guard(place: usize) -> u32 {
        0xdead_0000 + (place % 0xffff) as u32
    }
}

impl Guard for u64 {
    fn guard(place: usize) -> u64 {
        0xdead_beef_0000_0000 + place as u64
    }
}

impl Guard for Triangle {
    fn guard(place: usize) -> Triangle {
        [200 + (place % 55) as u8, 199, 100 + (place % 99) as u8]
    }
}

impl Guard for Row {
    fn guard(place: usize) -> Row {
        [u32::guard(place), u32::guard(place + 1), u32::guard(place + 2)]
    }
}

/// A table lent to a call, between guarded places that the call must not reach.
#[derive(Clone, PartialEq, Eq, Debug)]
pub struct Lent<T> {
    held: Vec<T>,
    places: usize,
}

impl<T: Guard> Lent<T> {
    const MARGIN: usize = 16;

    /// A table of so many places, each with its guard value.
    pub fn guarded(places: usize) -> Lent<T> {
        let held = (0..places + 2 * Self::MARGIN).map(T::guard).collect();
        Lent { held, places }
    }

    /// A table that holds a list and no more.
    pub fn holding(list: &[T]) -> Lent<T> {
        let mut lent = Lent::guarded(list.len());
        lent.fill(list);
        lent
    }

    pub fn table(&mut self) -> &mut [T] {
        &mut self.held[Self::MARGIN..Self::MARGIN + self.places]
    }

    pub fn view(&self) -> &[T] {
        &self.held[Self::MARGIN..Self::MARGIN + self.places]
    }

    /// The list in the first places.
    pub fn fill(&mut self, list: &[T]) {
        self.table()[..list.len()].copy_from_slice(list);
    }

    /// The first place that differs, counted from the table's first (negative: before it), in
    /// words.
    pub fn difference(&self, other: &Lent<T>) -> Option<String> {
        assert_eq!(self.held.len(), other.held.len());
        let mut pairs = self.held.iter().zip(&other.held);
        let at = pairs.position(|(x, y)| x != y)?;
        let place = at as isize - Self::MARGIN as isize;
        Some(format!("place {place}: {:?} and {:?}", self.held[at], other.held[at]))
    }
}

/// How many places each table has.
#[derive(Clone, Copy, Debug, PartialEq, Eq)]
pub struct Places {
    pub triangles: usize,
    pub candidates: usize,
    pub weights: usize,
    pub rows: usize,
    pub work: usize,
}

impl Places {
    /// The tables of the bench program (rule 5.3) and of the trim program.
    pub const BENCH: Places =
        Places { triangles: 62, candidates: 1024, weights: 1024, rows: 4096, work: 1024 };

    /// More than any rim of the tests needs.
    pub const ENOUGH: Places =
        Places { triangles: 62, candidates: 41_664, weights: 41_664, rows: 83_328, work: 41_664 };
}

/// The five tables of a call.
#[derive(Clone, PartialEq, Eq, Debug)]
pub struct Tables {
    pub triangles: Lent<u16>,
    pub candidates: Lent<Triangle>,
    pub weights: Lent<u32>,
    pub rows: Lent<Row>,
    pub work: Lent<u64>,
}

impl Tables {
    pub fn guarded(places: Places) -> Tables {
        Tables {
            triangles: Lent::guarded(places.triangles),
            candidates: Lent::guarded(places.candidates),
            weights: Lent::guarded(places.weights),
            rows: Lent::guarded(places.rows),
            work: Lent::guarded(places.work),
        }
    }

    /// The tables of a direct job.
    pub fn of_job(job: &Job, triangles: usize, work: usize) -> Tables {
        Tables {
            triangles: Lent::guarded(triangles),
            candidates: Lent::holding(&job.candidates),
            weights: Lent::holding(&job.weights),
            rows: Lent::holding(&job.rows),
            work: Lent::guarded(work),
        }
    }

    /// The tables of a direct job and of a patch to judge, whose list is the whole triangle table.
    pub fn of_patch(job: &Job, list: &[u16], work: usize) -> Tables {
        Tables { triangles: Lent::holding(list), ..Tables::of_job(job, 0, work) }
    }

    /// Zeros in a work place for each candidate: what a call on a direct job leaves there.
    pub fn clear_work(&mut self) {
        let candidates = self.candidates.view().len();
        self.work.table()[..candidates].fill(0);
    }

    /// The tables after a rim that has these lists and this patch (rules 3.8 and 3.9).
    pub fn after(mut self, lists: &Job, walk: &[u16]) -> Tables {
        self.triangles.fill(walk);
        self.candidates.fill(&lists.candidates);
        self.weights.fill(&lists.weights);
        self.rows.fill(&lists.rows);
        self.work.fill(&vec![0; lists.candidates.len()]);
        self
    }

    /// What differs first, in words.
    pub fn difference(&self, other: &Tables) -> Option<String> {
        fn said<T: Guard>(name: &str, one: &Lent<T>, two: &Lent<T>) -> Option<String> {
            Some(format!("{name} {}", one.difference(two)?))
        }
        said("triangles", &self.triangles, &other.triangles)
            .or_else(|| said("candidates", &self.candidates, &other.candidates))
            .or_else(|| said("weights", &self.weights, &other.weights))
            .or_else(|| said("rows", &self.rows, &other.rows))
            .or_else(|| said("work", &self.work, &other.work))
    }
}

/// A direct job. The weight table may be longer or shorter than the list of candidates.
#[derive(Clone, Debug, PartialEq, Eq)]
pub struct Job {
    pub n: usize,
    pub candidates: Vec<Triangle>,
    pub weights: Vec<u32>,
    pub rows: Vec<Row>,
}

/// A patch of a direct job, made by another program: candidate numbers in any order, and the total
/// stated for them. Both may be wrong.
#[derive(Clone, Debug, PartialEq, Eq)]
pub struct Patch {
    pub list: Vec<u16>,
    pub stated: u64,
}

/// What the library does, and each reference too.
pub trait Calls {
    fn name(&self) -> String;

    /// The same calls with a limit asked for, which a direct job, a patch to judge and a conversion do
    /// not have.
    fn within(&self, limit: usize) -> Box<dyn Calls>;

    /// The one call over all three stages.
    fn patch_rim(&self, file: &[u8], tables: &mut Tables) -> PatchAnswer;

    /// The price of a direct job, which stands in the candidate, weight and row tables; the triangle
    /// table is not lent.
    fn price(&self, n: usize, tables: &mut Tables) -> PatchAnswer;

    /// The patch of a direct job at an agreed total.
    fn patch(&self, n: usize, agreed: u64, tables: &mut Tables) -> PatchAnswer;

    /// The judge of a patch from elsewhere: a direct job, the list in the triangle table, which is
    /// only read, and the stated total.
    fn judge(&self, n: usize, stated: u64, tables: &mut Tables) -> JudgeAnswer;

    /// The reader alone.
    fn read_rim(&self, file: &[u8]) -> ReadAnswer;

    /// The reader and the finder; the triangle and work tables are not lent.
    fn find_candidates(&self, file: &[u8], tables: &mut Tables) -> FindAnswer;

    /// The places that the tables of a file need, or the number due, which is never 13.
    fn sizes(&self, file: &[u8]) -> Result<Places, u32>;

    /// Conversion between editions: the file in the other one, in the first places of a table.
    fn convert(&self, file: &[u8], out: &mut Lent<u8>) -> ConvertAnswer;
}
