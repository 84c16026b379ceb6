//! Times of the reader, the finder, the price, the patch, the whole call and the judge beside the fast
//! reference in the same run, over changing rims and jobs. Each figure is the least mean of several
//! rounds, in microseconds per call: library, reference, and library / reference. The time is the
//! clock's: the machine should be quiet, and the least round is the one that other work disturbed
//! least. The finder's call reads the file too. The patch is at the least total. The first table is of
//! rim files of edition 1, at its end of flat rims; the next has direct jobs, with the price, the patch
//! and the judge of that patch on the same job, and the one after it the same three on the lists of
//! those rims of the first table that have a patch. Another has the whole call on the same rims but the flat ones in both editions, and the
//! last the conversion of files, spare records and all. Without the library only the reference is
//! timed.

#![forbid(unsafe_code)]

use outside_tests::calls::{Calls, Job, Lent, Patch, Places, Tables, MOST_BYTES};
use outside_tests::comparison::{compare_conversion, compare_judge};
use outside_tests::fast::FAST;
use outside_tests::jobs::{job_of, price_and_patch, random_job};
use outside_tests::library::library;
use outside_tests::normals;
use outside_tests::planes::{Outline, Plane};
use outside_tests::random::Random;
use outside_tests::rims::{Point, RimFile, Shape};
use std::hint::black_box;
use std::time::Instant;

const SIZES: [usize; 6] = [8, 16, 24, 32, 48, 64];
const ROUNDS: usize = 5;

/// A round takes about so many microseconds.
const ROUND: f64 = 15_000.0;

/// Microseconds per call over all cases, by each of the two in turn.
struct Times {
    library: Option<f64>,
    reference: f64,
}

impl Times {
    fn shown(&self) -> String {
        match self.library {
            None => format!("{:>30.2}", self.reference),
            Some(own) => {
                format!("{own:>11.2} {:>11.2} {:>6.2}", self.reference, own / self.reference)
            }
        }
    }
}

/// One pass over the cases, as often as fills a round.
fn round(calls: &dyn Calls, cases: usize, times: usize, call: &mut Call) -> f64 {
    let start = Instant::now();
    for _ in 0..times {
        (0..cases).for_each(|case| call(calls, case));
    }
    start.elapsed().as_secs_f64() * 1e6 / (times * cases) as f64
}

type Call<'a> = dyn FnMut(&dyn Calls, usize) + 'a;

fn measure(cases: usize, call: &mut Call) -> Times {
    let one_pass = round(&FAST, cases, 1, call) * cases as f64;
    let times = (ROUND / one_pass).ceil().clamp(1.0, 10_000.0) as usize;
    let mut least = Times { library: None, reference: f64::INFINITY };
    for _ in 0..ROUNDS {
        if let Some(library) = library() {
            let own = round(library, cases, times, call);
            least.library = Some(least.library.map_or(own, |before| before.min(own)));
        }
        least.reference = least.reference.min(round(&FAST, cases, times, call));
    }
    least
}

/// Each implementation gives the same answer and the same tables.
fn check(cases: usize, mut call: impl FnMut(&dyn Calls, usize) -> Tables) {
    if let Some(library) = library() {
        for case in 0..cases {
            let difference = call(library, case).difference(&call(&FAST, case));
            assert_eq!(difference, None, "library and reference differ");
        }
    }
}

fn tables_of(job: &Job) -> Tables {
    Tables::of_job(job, 62, job.candidates.len())
}

fn price_times(jobs: &[Job]) -> Times {
    let mut tables: Vec<Tables> = jobs.iter().map(tables_of).collect();
    measure(jobs.len(), &mut |calls, case| {
        black_box(calls.price(jobs[case].n, &mut tables[case]));
    })
}

/// The patches at the least totals.
fn patch_times(jobs: &[Job]) -> Times {
    let mut tables: Vec<Tables> = jobs.iter().map(tables_of).collect();
    let prices = jobs.iter().zip(&mut tables).map(|(job, tables)| FAST.price(job.n, tables).total);
    let prices: Vec<u64> = prices.collect();
    measure(jobs.len(), &mut |calls, case| {
        black_box(calls.patch(jobs[case].n, prices[case], &mut tables[case]));
    })
}

/// The patch of a job, or an empty list.
fn patch_of(job: &Job) -> Patch {
    let mut tables = tables_of(job);
    let answer = price_and_patch(&FAST, job.n, &mut tables);
    Patch { list: tables.triangles.view()[..answer.triangles].to_vec(), stated: answer.total }
}

/// The judge of those patches.
fn judge_times(jobs: &[Job]) -> Times {
    let patches: Vec<Patch> = jobs.iter().map(patch_of).collect();
    let both = || jobs.iter().zip(&patches);
    for (job, patch) in both() {
        compare_judge(&FAST, library().unwrap_or(&FAST), job, patch, job.candidates.len());
    }
    let tables =
        both().map(|(job, patch)| Tables::of_patch(job, &patch.list, job.candidates.len()));
    let mut tables: Vec<Tables> = tables.collect();
    measure(jobs.len(), &mut |calls, case| {
        black_box(calls.judge(jobs[case].n, patches[case].stated, &mut tables[case]));
    })
}

/// The rims of one line of a table, by a maker of points.
fn rim_files(n: usize, mut points: impl FnMut() -> Vec<Point>) -> Vec<RimFile> {
    (0..256 / n).map(|_| RimFile::plain(&points(), 1, 1)).collect()
}

/// A flat rim with dents, in any plane.
fn flat_rim(n: usize, random: &mut Random) -> Vec<Point> {
    let steps = Outline::Star.steps(n, 500, random);
    let points = Plane::any(500, random).points(&steps);
    match FAST.sizes(&RimFile::plain(&points, 1, 1).bytes()) {
        Ok(_) => points,
        Err(_) => flat_rim(n, random),
    }
}

fn check_rims(files: &[Vec<u8>]) {
    check(files.len(), |calls, case| {
        let mut left = Tables::guarded(Places::ENOUGH);
        calls.patch_rim(&files[case], &mut left);
        left
    });
}

fn rims(shape: &str, n: usize, files: Vec<RimFile>) {
    let mut tables = Tables::guarded(Places::ENOUGH);
    let files: Vec<Vec<u8>> = files.iter().map(RimFile::bytes).collect();
    let count = files.len();
    let jobs: Vec<Job> = files.iter().map(|file| job_of(&FAST, file, &mut tables)).collect();
    check_rims(&files);
    let reader = measure(count, &mut |calls, case| {
        black_box(calls.read_rim(black_box(&files[case])));
    });
    let finder = measure(count, &mut |calls, case| {
        black_box(calls.find_candidates(black_box(&files[case]), &mut tables));
    });
    let [price, patch] = [price_times(&jobs), patch_times(&jobs)];
    let whole = measure(count, &mut |calls, case| {
        black_box(calls.patch_rim(black_box(&files[case]), &mut tables));
    });
    let mean = |of: fn(&Job) -> usize| jobs.iter().map(of).sum::<usize>() / count;
    println!(
        "{shape:<12} {n:>2} {:>5} {:>5} {} {} {} {} {}",
        mean(|job| job.candidates.len()),
        mean(|job| job.rows.len()),
        reader.shown(),
        finder.shown(),
        price.shown(),
        patch.shown(),
        whole.shown()
    );
}

/// The whole call in edition 1, and in edition 2 with a normal on every edge.
fn editions(shape: Shape, n: usize, random: &mut Random, of_normals: &mut Random) {
    let mut tables = Tables::guarded(Places::ENOUGH);
    let first = rim_files(n, || shape.points(n, 1000, random));
    let second =
        first.iter().map(|file| file.clone().with_normals(&normals::on_all(n, of_normals)));
    let second: Vec<RimFile> = second.collect();
    let [one, two] = [first, second].map(|files| {
        let files: Vec<Vec<u8>> = files.iter().map(RimFile::bytes).collect();
        check_rims(&files);
        measure(files.len(), &mut |calls, case| {
            black_box(calls.patch_rim(black_box(&files[case]), &mut tables));
        })
    });
    println!("{:<12} {n:>2} {} {}", format!("{shape:?}"), one.shown(), two.shown());
}

/// Files of n vertices and so many spare records to edition 2, and back to edition 1.
fn conversions(n: usize, spare: usize, random: &mut Random) {
    let mut out = Lent::guarded(MOST_BYTES);
    let files: Vec<RimFile> = rim_files(n, || Shape::NoisyCircle.points(n, 1000, random))
        .into_iter()
        .map(|file| file.among_spare_records(spare, random))
        .collect();
    let converted: Vec<RimFile> = files.iter().map(|file| file.clone().converted()).collect();
    let [up, down] = [files, converted].map(|files| {
        let files: Vec<Vec<u8>> = files.iter().map(RimFile::bytes).collect();
        if let Some(library) = library() {
            files.iter().for_each(|file| {
                compare_conversion(&FAST, library, file, MOST_BYTES);
            });
        }
        measure(files.len(), &mut |calls, case| {
            black_box(calls.convert(black_box(&files[case]), &mut out));
        })
    });
    println!("{n:>2} {:>7} {} {}", n + spare, up.shown(), down.shown());
}

fn jobs(n: usize, rows: usize, random: &mut Random) {
    let count = if n > 32 { 2 } else { 8 };
    let jobs: Vec<Job> = (0..count).map(|_| random_job(n, 100, rows, 1000, random)).collect();
    check(count, |calls, case| {
        let mut left = tables_of(&jobs[case]);
        price_and_patch(calls, n, &mut left);
        left
    });
    let [candidates, rows] = [jobs[0].candidates.len(), jobs[0].rows.len()];
    println!("{n:>2} {candidates:>6} {rows:>8} {}", times_of_jobs(&jobs));
}

/// The calls on direct jobs, under the heads that OF_JOBS names.
fn times_of_jobs(jobs: &[Job]) -> String {
    [price_times(jobs), patch_times(jobs), judge_times(jobs)].map(|times| times.shown()).join(" ")
}

const OF_JOBS: [&str; 3] = ["price", "patch", "judge"];

/// The calls on the lists of rims, where they have a patch.
fn patches_of_rims(shape: Shape, n: usize, random: &mut Random) {
    let mut tables = Tables::guarded(Places::ENOUGH);
    let files = rim_files(n, || shape.points(n, 1000, random)).into_iter();
    let mut jobs: Vec<Job> = files.map(|file| job_of(&FAST, &file.bytes(), &mut tables)).collect();
    let rims = jobs.len();
    jobs.retain(|job| !patch_of(job).list.is_empty());
    if !jobs.is_empty() {
        let patches = format!("{} of {rims}", jobs.len());
        let shape = format!("{shape:?}");
        println!("{shape:<12} {n:>2} {patches:>8} {}", times_of_jobs(&jobs));
    }
}

/// The heads of a table: its title, its first columns, and one for each time with its ratio.
fn heads(title: &str, first: &str, times: &[&str]) {
    let times: Vec<String> = times.iter().map(|time| format!("{time:>30}")).collect();
    println!("\n{title}\n{first} {}", times.join(" "));
}

/// A part of the table for each shape of rims and each size.
fn each_rim(mut part: impl FnMut(Shape, usize)) {
    for shape in Shape::GENERAL {
        SIZES.iter().for_each(|&n| part(shape, n));
    }
}

fn all_rims(random: &mut Random) {
    let stages = ["reader", "reader and finder", "price", "patch", "whole call"];
    heads("rims", &format!("{:<12} {:>2} {:>5} {:>5}", "shape", "n", "cand", "rows"), &stages);
    each_rim(|shape, n| {
        rims(&format!("{shape:?}"), n, rim_files(n, || shape.points(n, 1000, random)));
    });
    let mut of_planes = Random::new(3);
    for n in SIZES {
        rims("Flat", n, rim_files(n, || flat_rim(n, &mut of_planes)));
    }
}

fn all_jobs(random: &mut Random) {
    let first = format!("{:>2} {:>6} {:>8}", "n", "cand", "rows");
    heads("direct jobs over all triples", &first, &OF_JOBS);
    for n in SIZES {
        for rows in [0, 10, 100] {
            jobs(n, rows, random);
        }
    }
}

fn all_patches() {
    let first = format!("{:<12} {:>2} {:>8}", "shape", "n", "patches");
    heads("patches of rims", &first, &OF_JOBS);
    let mut random = Random::new(1);
    each_rim(|shape, n| patches_of_rims(shape, n, &mut random));
}

fn all_editions(random: &mut Random) {
    let title = "whole call by edition, with normals on all edges in edition 2";
    heads(title, &format!("{:<12} {:>2}", "shape", "n"), &["edition 1", "edition 2"]);
    let mut of_normals = Random::new(2);
    each_rim(|shape, n| editions(shape, n, random, &mut of_normals));
}

fn all_conversions(random: &mut Random) {
    let first = format!("{:>2} {:>7}", "n", "records");
    heads("conversion, with spare records", &first, &["to edition 2", "to edition 1"]);
    for (n, spare) in [(8, 0), (8, 56), (8, 248), (64, 0), (64, 192)] {
        conversions(n, spare, random);
    }
}

fn main() {
    let not_linked = "not linked (build with --features library)";
    let under = library().map_or(not_linked.into(), |own| own.name());
    println!("library: {under}; microseconds per call: library, {}, ratio", FAST.name());
    let mut random = Random::new(1);
    all_rims(&mut random);
    all_jobs(&mut random);
    all_patches();
    let mut random = Random::new(1);
    all_editions(&mut random);
    all_conversions(&mut random);
}
