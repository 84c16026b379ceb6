//! One call made by two, with the answers and every place of every table compared.

use crate::calls::{
    Calls, ConvertAnswer, FindAnswer, Job, JudgeAnswer, Lent, Patch, PatchAnswer, Places,
    ReadAnswer, Tables, MOST_BYTES,
};
use crate::library::{each, each_within};

/// Bytes in hexadecimal.
pub fn hexadecimal(bytes: &[u8]) -> String {
    bytes.iter().map(|byte| format!("{byte:02x}")).collect()
}

fn same<A: PartialEq + std::fmt::Debug>(
    calls: [&dyn Calls; 2],
    answers: [A; 2],
    difference: Option<String>,
    case: &dyn Fn() -> String,
) {
    let names = [calls[0].name(), calls[1].name()];
    assert!(answers[0] == answers[1], "{names:?} differ: {answers:?} on {}", case());
    if let Some(difference) = difference {
        panic!("{names:?} differ: {difference} on {}", case());
    }
}

/// The one call on a file, with the same tables lent to both.
pub fn compare_rim(
    expected: &dyn Calls,
    tested: &dyn Calls,
    file: &[u8],
    tables: &Tables,
) -> PatchAnswer {
    let case = || format!("file {}", hexadecimal(file));
    let mut left = [tables.clone(), tables.clone()];
    let answers = [expected.patch_rim(file, &mut left[0]), tested.patch_rim(file, &mut left[1])];
    same([expected, tested], answers, left[0].difference(&left[1]), &case);
    answers[0]
}

/// The finder's call on a file.
pub fn compare_finder(
    expected: &dyn Calls,
    tested: &dyn Calls,
    file: &[u8],
    tables: &Tables,
) -> FindAnswer {
    let case = || format!("file {}", hexadecimal(file));
    let mut left = [tables.clone(), tables.clone()];
    let answers =
        [expected.find_candidates(file, &mut left[0]), tested.find_candidates(file, &mut left[1])];
    same([expected, tested], answers, left[0].difference(&left[1]), &case);
    answers[0]
}

/// The reader's call on a file.
pub fn compare_reader(expected: &dyn Calls, tested: &dyn Calls, file: &[u8]) -> u32 {
    let answers = [expected.read_rim(file), tested.read_rim(file)];
    let names = [expected.name(), tested.name()];
    assert!(answers[0] == answers[1], "{names:?}: {answers:?} on file {}", hexadecimal(file));
    answers[0].number
}

/// The sizing call on a file.
pub fn compare_sizes(expected: &dyn Calls, tested: &dyn Calls, file: &[u8]) -> Result<Places, u32> {
    let answers = [expected.sizes(file), tested.sizes(file)];
    same([expected, tested], answers, None, &|| format!("file {}", hexadecimal(file)));
    answers[0]
}

/// Every call that takes a rim to close; the answer of the one call.
pub fn compare_calls(
    expected: &dyn Calls,
    tested: &dyn Calls,
    file: &[u8],
    tables: &Tables,
) -> PatchAnswer {
    compare_reader(expected, tested, file);
    let _ = compare_sizes(expected, tested, file);
    compare_finder(expected, tested, file, tables);
    compare_rim(expected, tested, file, tables)
}

/// The conversion of a file, with a table of so many places; a refusal changes none of them.
pub fn compare_conversion(
    expected: &dyn Calls,
    tested: &dyn Calls,
    file: &[u8],
    places: usize,
) -> ConvertAnswer {
    let case = || format!("{places} places and file {}", hexadecimal(file));
    let before = Lent::guarded(places);
    let mut left = [before.clone(), before.clone()];
    let answers = [expected.convert(file, &mut left[0]), tested.convert(file, &mut left[1])];
    same([expected, tested], answers, left[0].difference(&left[1]), &case);
    assert!(answers[0].number == 0 || left[0] == before, "a refusal writes on {}", case());
    answers[0]
}

/// What a call on a direct job leaves: zeros in a work place for each candidate, after 23 too, and the
/// triangles that it filled in. After any other refusal all is as before.
fn expect_left(
    answer: PatchAnswer,
    filled: usize,
    [before, left]: [&Tables; 2],
    case: &dyn Fn() -> String,
) {
    let mut expected = before.clone();
    if answer.number != 0 {
        assert_eq!(answer, PatchAnswer::refused(answer.number), "{}", case());
    }
    if [0, 23].contains(&answer.number) {
        expected.clear_work();
    }
    expected.triangles.fill(&left.triangles.view()[..filled]);
    assert_eq!(left.difference(&expected), None, "{}", case());
}

/// The price of the direct job in the tables, and what it leaves in them.
pub fn compare_price(
    expected: &dyn Calls,
    tested: &dyn Calls,
    n: usize,
    tables: &Tables,
) -> (PatchAnswer, Tables) {
    let case = || format!("the price of {n} vertices in {tables:?}");
    let mut left = [tables.clone(), tables.clone()];
    let answers = [expected.price(n, &mut left[0]), tested.price(n, &mut left[1])];
    same([expected, tested], answers, left[0].difference(&left[1]), &case);
    let [left, _] = left;
    expect_left(answers[0], 0, [tables, &left], &case);
    (answers[0], left)
}

/// The patch of the direct job in the tables at an agreed total, and what it leaves in them.
pub fn compare_patch(
    expected: &dyn Calls,
    tested: &dyn Calls,
    n: usize,
    agreed: u64,
    tables: &Tables,
) -> (PatchAnswer, Tables) {
    let case = || format!("the patch at {agreed} of {n} vertices in {tables:?}");
    let mut left = [tables.clone(), tables.clone()];
    let answers = [expected.patch(n, agreed, &mut left[0]), tested.patch(n, agreed, &mut left[1])];
    same([expected, tested], answers, left[0].difference(&left[1]), &case);
    let [left, _] = left;
    expect_left(answers[0], answers[0].triangles, [tables, &left], &case);
    (answers[0], left)
}

/// A direct job, with so many places in the triangle and work tables: its price, and then its patch at
/// that total over the same tables, which is the answer. What is tested gives the same patch without a
/// price before, and 23 at one more.
pub fn compare_job(
    expected: &dyn Calls,
    tested: &dyn Calls,
    job: &Job,
    places: [usize; 2],
) -> PatchAnswer {
    let case = || format!("{places:?} places and {job:?}");
    let before = Tables::of_job(job, places[0], places[1]);
    let (price, priced) = compare_price(expected, tested, job.n, &before);
    let (answer, patched) = compare_patch(expected, tested, job.n, price.total, &priced);
    let short = price.number != 14 && places[0] < job.n - 2;
    assert_eq!(answer, if short { PatchAnswer::refused(13) } else { price }, "{}", case());
    let mut alone = before.clone();
    assert_eq!(tested.patch(job.n, price.total, &mut alone), answer, "{}", case());
    let left = if answer.number == 0 { &patched } else { &before };
    assert_eq!(alone.difference(left), None, "{}", case());
    let mut dearer = before.clone();
    let other = tested.patch(job.n, price.total + 1, &mut dearer);
    let of_other = if answer.triangles > 0 { PatchAnswer::refused(23) } else { answer };
    assert_eq!(other, of_other, "{}", case());
    expect_left(other, 0, [&before, &dearer], &case);
    answer
}

/// The judge on a patch of a direct job, with so many places in the work table. An acceptance leaves
/// 0 in one for each candidate, a refusal has no excess, and no other place changes.
pub fn compare_judge(
    expected: &dyn Calls,
    tested: &dyn Calls,
    job: &Job,
    patch: &Patch,
    work: usize,
) -> JudgeAnswer {
    let case = || format!("{work} places, {patch:?} and {job:?}");
    let mut before = Tables::of_patch(job, &patch.list, work);
    let mut left = [before.clone(), before.clone()];
    let answers = [
        expected.judge(job.n, patch.stated, &mut left[0]),
        tested.judge(job.n, patch.stated, &mut left[1]),
    ];
    same([expected, tested], answers, left[0].difference(&left[1]), &case);
    match answers[0].number {
        0 => before.work.fill(&vec![0; job.candidates.len()]),
        number => assert_eq!(answers[0], JudgeAnswer::refused(number), "{}", case()),
    }
    assert_eq!(left[0].difference(&before), None, "{}", case());
    answers[0]
}

/// A file is refused with this number by every call of each, and no table changes.
pub fn expect_number(file: &[u8], number: u32, case: &dyn std::fmt::Debug) {
    for calls in each() {
        expect_refusal(calls, file, number, case);
    }
    for places in [0, MOST_BYTES] {
        expect_no_conversion(file, places, number, case);
    }
}

/// The same of the calls with a limit, which a conversion does not have.
pub fn expect_number_within(limit: usize, file: &[u8], number: u32, case: &dyn std::fmt::Debug) {
    for calls in each_within(limit) {
        expect_refusal(&*calls, file, number, case);
    }
}

/// The calls that take a rim to close refuse the file, and leave tables of any length as they were.
fn expect_refusal(calls: &dyn Calls, file: &[u8], number: u32, case: &dyn std::fmt::Debug) {
    const SOME: Places = Places { triangles: 6, candidates: 30, weights: 30, rows: 60, work: 30 };
    const NONE: Places = Places { triangles: 0, candidates: 0, weights: 0, rows: 0, work: 0 };
    let name = calls.name();
    for places in [SOME, NONE] {
        let before = Tables::guarded(places);
        let mut left = before.clone();
        let answer = calls.patch_rim(file, &mut left);
        assert_eq!(answer, PatchAnswer::refused(number), "{name}, {case:?}");
        let found = calls.find_candidates(file, &mut left);
        assert_eq!(found, FindAnswer { number, candidates: 0, rows: 0 }, "{name}, {case:?}");
        assert_eq!(left.difference(&before), None, "{name}, {case:?}");
    }
    assert_eq!(calls.read_rim(file), ReadAnswer { number, vertices: 0 }, "{name}, {case:?}");
    assert_eq!(calls.sizes(file), Err(number), "{name}, {case:?}");
}

/// Each refuses to convert a file, with this number, and leaves a table of so many places as it was.
pub fn expect_no_conversion(file: &[u8], places: usize, number: u32, case: &dyn std::fmt::Debug) {
    let before = Lent::guarded(places);
    for calls in each() {
        let mut left = before.clone();
        let answer = calls.convert(file, &mut left);
        let name = calls.name();
        assert_eq!(answer, ConvertAnswer::refused(number), "{name}, {places} places, {case:?}");
        assert_eq!(left.difference(&before), None, "{name}, {places} places, {case:?}");
    }
}
