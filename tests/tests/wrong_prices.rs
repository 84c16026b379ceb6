//! Programs that price and patch direct jobs wrongly, each in one way, and jobs, edits and agreed
//! totals that tell them from the right one.

use outside_tests::calls::{Calls, Job, PatchAnswer, Tables};
use outside_tests::damaged_jobs::{all, damaged};
use outside_tests::jobs::random_job;
use outside_tests::law::tests_of_jobs::{
    number_due, number_of_agreement, number_without_triangles, HIGHEST_WEIGHT,
};
use outside_tests::law::tilings::{best, from_bad_edges, row_weights, total, walk, Tiling};
use outside_tests::law::{judge, BY_SETS};
use outside_tests::prices::{figures, worked, EDITS};
use outside_tests::random::Random;
use outside_tests::told::{Told, Wrong};

/// A job as it is priced and as it is patched, the agreed total, and the places for triangles and for
/// work.
struct Deal {
    priced: Job,
    job: Job,
    agreed: u64,
    places: [usize; 2],
}

/// What a program knows when it patches: the deal, the best tiling of the job, and that of the job as
/// it was priced. Where a number of the job is due it has no tiling.
struct Known<'a> {
    deal: &'a Deal,
    best: Option<Tiling>,
    before: Option<Tiling>,
}

impl Known<'_> {
    fn number_of_job(&self) -> Option<u32> {
        let [triangles, work] = self.deal.places;
        number_due(&self.deal.job, triangles, work)
    }

    fn least(&self) -> u64 {
        self.best.as_ref().map_or(0, |best| best.total)
    }

    /// The least total where the agreed one is taken for it, else the agreed one.
    fn taken_where(&self, is_taken: fn(u64, u64) -> bool) -> u64 {
        let (agreed, least) = (self.deal.agreed, self.least());
        if is_taken(agreed, least) {
            least
        } else {
            agreed
        }
    }
}

/// A program in steps. A wrong one has one of them changed.
#[derive(Clone, Copy)]
struct Steps {
    number_of_price: fn(&Job, [usize; 2]) -> Option<u32>,
    price: fn(&Job) -> Option<u64>,
    /// The number of a patch at this total.
    number_of_patch: fn(&Known, u64) -> Option<u32>,
    agreed: fn(&Known) -> u64,
    patch: fn(&Known) -> Option<Tiling>,
    refusal: fn(u32, u64) -> PatchAnswer,
    /// How many of a patch's triangles are written with this number.
    written: fn(u32, usize) -> usize,
    /// The work places that are filled after this number, by the candidates and by all places, and
    /// with what: those of the price, and of the patch.
    left: [fn(u32, usize, usize) -> (usize, u64); 2],
}

fn cleared(number: u32, candidates: usize, _: usize) -> (usize, u64) {
    (if [0, 23].contains(&number) { candidates } else { 0 }, 0)
}

fn number_of_patch(known: &Known, agreed: u64) -> Option<u32> {
    known.number_of_job().or_else(|| number_of_agreement(known.best.as_ref(), agreed))
}

const RIGHT: Steps = Steps {
    number_of_price: |job, [_, work]| number_without_triangles(job, work),
    price: |job| best(job).map(|best| best.total),
    number_of_patch,
    agreed: |known| known.deal.agreed,
    patch: |known| known.best.clone(),
    refusal: |number, _| PatchAnswer::refused(number),
    written: |number, triangles| if number == 0 { triangles } else { 0 },
    left: [cleared; 2],
};

/// The answers of both calls, and the tables after each.
type Outcome = [(PatchAnswer, Tables); 2];

fn tables_of(job: &Job, places: [usize; 2]) -> Tables {
    Tables::of_job(job, places[0], places[1])
}

impl Steps {
    fn leave(&self, call: usize, number: u32, job: &Job, tables: &mut Tables) {
        let places = tables.work.view().len();
        let (filled, held) = self.left[call](number, job.candidates.len(), places);
        tables.work.fill(&vec![held; filled.min(places)]);
    }

    fn priced(&self, Deal { priced: job, places, .. }: &Deal) -> (PatchAnswer, Tables) {
        let mut tables = tables_of(job, *places);
        let answer = match (self.number_of_price)(job, *places) {
            Some(number) => PatchAnswer::refused(number),
            None => (self.price)(job).map_or(PatchAnswer::NONE, |total| PatchAnswer {
                number: 0,
                triangles: job.n - 2,
                total,
            }),
        };
        self.leave(0, answer.number, job, &mut tables);
        (answer, tables)
    }

    fn patched(&self, known: &Known) -> (PatchAnswer, Tables) {
        let job = &known.deal.job;
        let mut tables = tables_of(job, known.deal.places);
        let number = (self.number_of_patch)(known, (self.agreed)(known)).unwrap_or(0);
        let list = (self.patch)(known).map_or(Vec::new(), |patch| patch.walk);
        let answer = match number {
            0 if list.is_empty() => PatchAnswer::NONE,
            0 => PatchAnswer { number, triangles: list.len(), total: known.deal.agreed },
            _ => (self.refusal)(number, known.least()),
        };
        tables.triangles.fill(&list[..(self.written)(number, list.len())]);
        self.leave(1, number, job, &mut tables);
        (answer, tables)
    }

    fn outcome(&self, known: &Known) -> Outcome {
        [self.priced(known.deal), self.patched(known)]
    }
}

fn without_rows(job: &Job) -> Job {
    Job { rows: Vec::new(), ..job.clone() }
}

/// The last of the tilings of least total.
fn latest(job: &Job) -> Option<Tiling> {
    let least = best(job)?.total;
    let rows = row_weights(job);
    let mut sets = from_bad_edges(job.n, &job.candidates);
    sets.retain(|set| total(job, &rows, set) == least);
    let walks = sets.iter().map(|set| walk(&job.candidates, set, 0, (job.n - 1) as u8));
    Some(Tiling { walk: walks.max()?, total: least })
}

/// The total is looked at where it is 'none' too.
fn agreement_before_none(known: &Known, agreed: u64) -> Option<u32> {
    known.number_of_job().or_else(|| (known.least() != agreed).then_some(23))
}

/// The places for triangles are asked for when there is something to write.
fn agreement_before_triangles(known: &Known, agreed: u64) -> Option<u32> {
    let job = &known.deal.job;
    number_without_triangles(job, known.deal.places[1])
        .or_else(|| number_of_agreement(best(job).as_ref(), agreed))
        .or_else(|| known.number_of_job())
}

/// No job has a total of more than n - 2 weights and n - 3 rows.
fn too_high_first(known: &Known, agreed: u64) -> Option<u32> {
    let most = 123 * HIGHEST_WEIGHT as u64;
    if agreed > most {
        Some(23)
    } else {
        number_of_patch(known, agreed)
    }
}

const WRONG: [Wrong<Steps>; 29] = [
    ("23 before 'none'", |s| s.number_of_patch = agreement_before_none),
    ("23 before the places for triangles", |s| s.number_of_patch = agreement_before_triangles),
    ("23 before the numbers of the job", |s| s.number_of_patch = too_high_first),
    ("one too high taken", |s| {
        s.agreed = |known| known.taken_where(|agreed, least| agreed == least + 1);
    }),
    ("one too low taken", |s| {
        s.agreed = |known| known.taken_where(|agreed, least| agreed == least.wrapping_sub(1));
    }),
    ("any higher total taken", |s| {
        s.agreed = |known| known.taken_where(|agreed, least| agreed > least);
    }),
    ("any lower total taken", |s| {
        s.agreed = |known| known.taken_where(|agreed, least| agreed < least);
    }),
    ("0 taken for any total", |s| s.agreed = |known| known.taken_where(|agreed, _| agreed == 0)),
    ("totals of 32 bits", |s| {
        s.agreed = |known| known.taken_where(|agreed, least| agreed as u32 == least as u32);
    }),
    ("the total of the job as it was priced", |s| {
        s.number_of_patch = |known, agreed| {
            let number = || number_of_agreement(known.before.as_ref(), agreed);
            known.number_of_job().or_else(number)
        };
    }),
    ("the patch of the job as it was priced", |s| s.patch = |known| known.before.clone()),
    ("a patch listed without rows", |s| {
        s.patch = |known| known.best.as_ref().and_then(|_| best(&without_rows(&known.deal.job)));
    }),
    ("the last of equal patches", |s| {
        s.patch = |known| known.best.as_ref().and_then(|_| latest(&known.deal.job));
    }),
    ("'none' for a patch of total 0", |s| {
        s.patch = |known| known.best.clone().filter(|best| best.total > 0);
    }),
    ("'none' for a price of 0", |s| {
        s.price = |job| best(job).map(|best| best.total).filter(|&total| total > 0);
    }),
    ("a price of 0 for 'none'", |s| s.price = |job| Some(best(job).map_or(0, |best| best.total))),
    ("a price without rows", |s| s.price = |job| Some(best(&without_rows(job))?.total)),
    ("the price of the least weights", |s| {
        s.price = |job| Some(judge::total(job, &best(&without_rows(job))?.walk));
    }),
    ("a price of 32 bits", |s| s.price = |job| Some(best(job)?.total as u32 as u64)),
    ("places for triangles asked of the price", |s| {
        s.number_of_price = |job, [triangles, work]| number_due(job, triangles, work);
    }),
    ("the least total told with 23", |s| {
        s.refusal = |number, least| {
            let total = if number == 23 { least } else { 0 };
            PatchAnswer { total, ..PatchAnswer::refused(number) }
        };
    }),
    ("a triangle written with 23", |s| {
        s.written =
            |number, triangles| (RIGHT.written)(number, triangles) + (number == 23) as usize;
    }),
    ("the patch written with 23", |s| {
        s.written = |number, triangles| if [0, 23].contains(&number) { triangles } else { 0 };
    }),
    ("work as it was after 23", |s| {
        s.left[1] = |number, candidates, _| (if number == 0 { candidates } else { 0 }, 0);
    }),
    ("totals left in the work table by 23", |s| {
        s.left[1] = |number, candidates, places| {
            (cleared(number, candidates, places).0, if number == 23 { 7 } else { 0 })
        };
    }),
    ("work cleared to its end", |s| {
        s.left[1] = |number, _, places| cleared(number, places, places);
    }),
    ("work cleared by every refusal", |s| s.left[1] = |_, candidates, _| (candidates, 0)),
    ("work as it was after a price", |s| s.left[0] = |_, _, _| (0, 0)),
    ("totals left in the work table by a price", |s| {
        s.left[0] = |number, candidates, places| (cleared(number, candidates, places).0, 7);
    }),
];

fn by_nothing() -> Told<Steps> {
    Told::by_nothing(RIGHT, &WRONG)
}

/// One deal more.
fn tell(told: &mut Told<Steps>, deal: &Deal) {
    let mut tables = [&deal.priced, &deal.job].map(|job| tables_of(job, deal.places));
    let price = BY_SETS.price(deal.priced.n, &mut tables[0]);
    let patch = BY_SETS.patch(deal.job.n, deal.agreed, &mut tables[1]);
    let [priced, patched] = tables;
    let best_of = |job: &Job| if [0, 23].contains(&patch.number) { best(job) } else { None };
    let known = Known { deal, best: best_of(&deal.job), before: best_of(&deal.priced) };
    let case = || format!("{} for {:?}", deal.agreed, deal.job);
    told.by(&[(price, priced), (patch, patched)], |steps| steps.outcome(&known), &case);
}

#[test]
fn told_by_the_worked_cases() {
    let mut told = by_nothing();
    for case in worked() {
        let [n, candidates] = [case.job.n, case.job.candidates.len()];
        for places in [[n, candidates + 1], [n - 3, candidates]] {
            let (priced, job) = (case.priced.clone(), case.job.clone());
            tell(&mut told, &Deal { priced, job, agreed: case.agreed, places });
        }
    }
    told.expect_over(0);
}

/// Deals as those that `agreed_totals` and `edited_jobs` compare by: many tell each wrong program from
/// the right one.
#[test]
fn told_by_small_jobs() {
    let mut random = Random::new(1);
    let mut told = by_nothing();
    for case in 0..300 {
        let keep = random.one_of(&[100, 70]);
        let highest = random.one_of(&[0, 1, 3, 1000, 1_999_999_999]);
        let job = random_job(3 + case % 4, keep, 70, highest, &mut random);
        let places = [job.n - 2 - random.below(2), job.candidates.len() + random.below(2)];
        for agreed in figures(&job) {
            tell(&mut told, &Deal { priced: job.clone(), job: job.clone(), agreed, places });
        }
        let Some(best) = best(&job) else { continue };
        for (_, edit) in EDITS {
            let mut edited = job.clone();
            edit(&mut edited, &best, &mut random);
            let agreed = best.total;
            tell(&mut told, &Deal { priced: job.clone(), job: edited, agreed, places });
        }
    }
    for damage in all() {
        let lending = damaged(&[damage]);
        for agreed in [21, 22, 0, u64::MAX] {
            let (priced, job) = (lending.job.clone(), lending.job.clone());
            tell(&mut told, &Deal { priced, job, agreed, places: lending.places });
        }
    }
    told.expect_over(20);
}
