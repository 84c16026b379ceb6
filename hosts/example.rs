//! A host in Rust: closes the rim of a rim file of either edition and prints what the bench program
//! prints. Its tables are as long as the rim needs. Then it takes the rim's lists for a direct job:
//! prices it, patches it at that total and at a wrong one, and judges the patch as if another program
//! had made it, with its own total and with a wrong one. With --limit N it takes rims of at most N
//! vertices. With --convert it writes the file in the other edition instead. Status 0 where the file
//! is accepted, 1 where it is refused, 2 with one line on standard error where it could not run.

#![forbid(unsafe_code)]

use patch_box::{Number, Outcome, OwnedTables, Quote};
use std::ffi::{OsStr, OsString};
use std::fmt::Write as _;
use std::io::{Read, Write as _};
use std::process::ExitCode;

const USAGE: &str = "example [--limit N | --convert] RIM-FILE";

/// What to do with the file. Without a limit the calls that have none are made.
enum Task {
    Close { limit: Option<usize> },
    Convert,
}

/// The weight of the row to the triangle, earlier in walk order, that the i-th triangle of the patch
/// hangs on.
fn bend_weight(tables: &OwnedTables, i: usize) -> u32 {
    let inner = tables.triangles[i] as u32;
    let earlier = &tables.triangles[..i];
    let mut rows = tables.rows.iter();
    let row = rows.find(|row| row[1] == inner && earlier.iter().any(|&t| t as u32 == row[0]));
    row.map_or(0, |row| row[2])
}

fn shown(tables: &OwnedTables, triangles: usize, total: u64) -> String {
    let mut text = patch_line(triangles, total);
    for (i, &number) in tables.triangles[..triangles].iter().enumerate() {
        let [a, b, c] = tables.candidates[number as usize];
        let weight = tables.weights[number as usize];
        let bend = bend_weight(tables, i);
        writeln!(text, "{a} {b} {c} {weight} {bend}").expect("a string takes any text");
    }
    text
}

fn refused(number: Number) -> String {
    format!("refused {}\n", number.code())
}

fn patch_line(triangles: usize, total: u64) -> String {
    format!("patch {} {triangles} {total}\n", triangles + 2)
}

/// The price of the rim's lists as a direct job, which is that of its patch.
fn priced(tables: &mut OwnedTables, n: usize) -> Result<u64, Number> {
    let OwnedTables { candidates, weights, rows, work, .. } = tables;
    Ok(match patch_box::price(n, candidates, weights, rows, work)? {
        Quote::None => 0,
        Quote::Total { total, .. } => total,
    })
}

/// How the job is patched at a total that was agreed on.
fn patched(tables: &mut OwnedTables, n: usize, agreed: u64) -> String {
    let OwnedTables { triangles, candidates, weights, rows, work } = tables;
    let answer = match patch_box::patch(n, candidates, weights, rows, agreed, triangles, work) {
        Ok(Outcome::Patch { triangles, total }) => patch_line(triangles, total),
        Ok(Outcome::None) => String::from("none\n"),
        Err(number) => refused(number),
    };
    format!("patched at {agreed}: {answer}")
}

/// How the patch is judged as one from elsewhere, which may have its triangles in any order, here in
/// the reverse one, and with this total.
fn judged(tables: &mut OwnedTables, triangles: usize, stated: u64) -> String {
    let list: Vec<u16> = tables.triangles[..triangles].iter().rev().copied().collect();
    let OwnedTables { candidates, weights, rows, work, .. } = tables;
    let judgement =
        match patch_box::judge(triangles + 2, candidates, weights, rows, &list, stated, work) {
            Ok(excess) => format!("accepted {excess}\n"),
            Err(number) => refused(number),
        };
    format!("judged with total {stated}: {judgement}")
}

/// The calls on a direct job: its price, and its patch at that total and at one more, and judged with
/// both.
fn as_job(tables: &mut OwnedTables, triangles: usize) -> Result<String, Number> {
    let n = triangles + 2;
    let total = priced(tables, n)?;
    Ok(format!("priced: total {total}\n")
        + &patched(tables, n, total)
        + &patched(tables, n, total + 1)
        + &judged(tables, triangles, total)
        + &judged(tables, triangles, total + 1))
}

/// What the bench program prints for a patch or 'none', and for a patch the calls on the rim's lists.
fn close(file: &[u8], limit: Option<usize>) -> Result<Vec<u8>, Number> {
    let sizes = match limit {
        None => patch_box::sizes(file),
        Some(limit) => patch_box::sizes_within(limit, file),
    };
    let mut tables = OwnedTables::new(sizes?);
    let outcome = match limit {
        None => patch_box::rim(file, tables.lend()),
        Some(limit) => patch_box::rim_within(limit, file, tables.lend()),
    };
    let text = match outcome? {
        Outcome::None => String::from("none\n"),
        Outcome::Patch { triangles, total } => {
            shown(&tables, triangles, total) + &as_job(&mut tables, triangles)?
        }
    };
    Ok(text.into_bytes())
}

/// The file in the other edition.
fn convert(file: &[u8]) -> Result<Vec<u8>, Number> {
    let mut bytes = vec![0; patch_box::MAX_FILE];
    let converted = patch_box::convert(file, &mut bytes)?;
    bytes.truncate(converted.length);
    Ok(bytes)
}

/// One byte more than the longest rim file is enough to see that it is too long.
fn read_file(name: &OsStr) -> std::io::Result<Vec<u8>> {
    let mut bytes = Vec::new();
    std::fs::File::open(name)?.take(patch_box::MAX_FILE as u64 + 1).read_to_end(&mut bytes)?;
    Ok(bytes)
}

/// A limit in digits. The library refuses one that is not from 3 to 64; one that is too high for a
/// usize becomes the highest.
fn parse_limit(word: &OsStr) -> Result<usize, &'static str> {
    let is_number = |text: &&str| !text.is_empty() && text.bytes().all(|c| c.is_ascii_digit());
    let digits = word.to_str().filter(is_number).ok_or("the limit is no number")?;
    Ok(digits.parse().unwrap_or(usize::MAX))
}

/// The task and the file's name, or what is wrong with the words.
fn arguments() -> Result<(Task, OsString), &'static str> {
    const MISSING: &str = "one rim file is expected";
    let mut words = std::env::args_os().skip(1);
    let mut first = words.next().ok_or(MISSING)?;
    let mut task = Task::Close { limit: None };
    if first == "--convert" {
        task = Task::Convert;
        first = words.next().ok_or(MISSING)?;
    } else if first == "--limit" {
        task = Task::Close { limit: Some(parse_limit(&words.next().ok_or(MISSING)?)?) };
        first = words.next().ok_or(MISSING)?;
    }
    words.next().map_or(Ok((task, first)), |_| Err(MISSING))
}

/// Standard output keeps what follows the last line break until it is flushed.
fn write_out(bytes: &[u8]) -> std::io::Result<()> {
    let mut out = std::io::stdout();
    out.write_all(bytes)?;
    out.flush()
}

fn run() -> Result<ExitCode, String> {
    let (task, name) = arguments().map_err(|wrong| format!("{wrong}: {USAGE}"))?;
    let file = read_file(&name).map_err(|error| format!("{}: {error}", name.display()))?;
    let answer = match task {
        Task::Close { limit } => close(&file, limit),
        Task::Convert => convert(&file),
    };
    let (bytes, status) = match answer {
        Ok(bytes) => (bytes, ExitCode::SUCCESS),
        Err(number) => (refused(number).into_bytes(), ExitCode::FAILURE),
    };
    write_out(&bytes).map_err(|error| format!("the answer cannot be written: {error}"))?;
    Ok(status)
}

fn main() -> ExitCode {
    run().unwrap_or_else(|reason| {
        eprintln!("example: {reason}");
        ExitCode::from(2)
    })
}
