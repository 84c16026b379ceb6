//! patch_box.h, patch_box.rs and README.md say the same.

#![forbid(unsafe_code)]

use patch_box::{Number, Outcome, Quote, MAX_CANDIDATES, MAX_FILE, MAX_ROWS, MAX_TRIANGLES};
use patch_box::{MAX_VERTICES, MIN_VERTICES, TRIM_VERTICES};

const HEADER: &str = include_str!("../patch_box.h");
const README: &str = include_str!("../../README.md");

/// The value and the comment of a constant of the header.
fn constant(name: &str) -> (usize, &'static str) {
    let start = format!("    PATCH_BOX_{name} = ");
    let line = HEADER.lines().find_map(|line| line.strip_prefix(&start)).expect(name);
    let (value, comment) = line.split_once("/*").unwrap_or((line, "*/"));
    let value = value.trim().trim_end_matches(',').parse().expect(name);
    (value, comment.trim().trim_end_matches("*/").trim())
}

/// SHOUTING_CASE of a name.
fn shouted(name: &str) -> String {
    let mut shouted = String::new();
    for letter in name.chars() {
        if letter.is_uppercase() && !shouted.is_empty() {
            shouted.push('_');
        }
        shouted.extend(letter.to_uppercase());
    }
    shouted
}

#[test]
fn numbers() {
    let codes: Vec<u32> = Number::ALL.iter().map(|number| number.code()).collect();
    assert_eq!(codes, (1..=23).collect::<Vec<u32>>());
    for number in Number::ALL {
        let name = shouted(&format!("{number:?}"));
        assert_eq!(constant(&name), (number.code() as usize, number.reason()));
        assert!(README.contains(&format!("| {} | {} |\n", number.code(), number.reason())));
        assert_eq!(Number::of_code(number.code()), Some(*number));
        assert_eq!(number.to_string(), format!("refused {}: {}", number.code(), number.reason()));
    }
    assert_eq!([0, 24, u32::MAX].map(Number::of_code), [None; 3]);
}

#[test]
fn places_that_suffice() {
    assert_eq!(constant("MAX_FILE").0, MAX_FILE);
    assert_eq!(constant("MAX_TRIANGLES").0, MAX_TRIANGLES);
    assert_eq!(constant("MAX_CANDIDATES").0, MAX_CANDIDATES);
    assert_eq!(constant("MAX_ROWS").0, MAX_ROWS);
}

#[test]
fn limits() {
    assert_eq!(constant("MIN_VERTICES").0, MIN_VERTICES);
    assert_eq!(constant("TRIM_VERTICES").0, TRIM_VERTICES);
    assert_eq!(constant("MAX_VERTICES").0, MAX_VERTICES);
}

/// The names of the calls that a text declares, in order.
fn calls(text: &'static str) -> Vec<&'static str> {
    let words = text.split_whitespace().filter(|word| word.starts_with("patch_box_"));
    let names = words.filter_map(|word| Some(word.split_once('(')?.0));
    names.filter(|name| !name.contains('[')).collect()
}

#[test]
fn same_calls() {
    let declared = calls(include_str!("../patch_box.rs"));
    assert_eq!(calls(HEADER), declared);
    assert_eq!(declared.len(), 12);
}

/// The bound on rows, counted: every pair of triples of 64 in which one hangs on the other.
#[test]
fn rows_of_all_triples() {
    let n = MAX_VERTICES;
    let inners = |a: usize, c: usize| c - a - 1;
    let outers = |a: usize, c: usize| a + (n - 1 - c);
    let edges = (0..n).flat_map(|a| (a + 1..n).map(move |c| (a, c)));
    assert_eq!(edges.map(|(a, c)| inners(a, c) * outers(a, c)).sum::<usize>(), MAX_ROWS);
}

fn no_places<'a>() -> patch_box::Tables<'a> {
    patch_box::Tables {
        triangles: &mut [],
        candidates: &mut [],
        weights: &mut [],
        rows: &mut [],
        work: &mut [],
    }
}

#[test]
fn empty_tables_are_lent() {
    assert_eq!(patch_box::rim(&[], no_places()), Err(Number::Length));
    assert_eq!(patch_box::rim_within(3, &[], no_places()), Err(Number::Length));
    assert_eq!(patch_box::find(&[], &mut [], &mut [], &mut []), Err(Number::Length));
    assert_eq!(patch_box::find_within(3, &[], &mut [], &mut [], &mut []), Err(Number::Length));
    assert_eq!(patch_box::convert(&[], &mut []), Err(Number::Length));
    assert_eq!(patch_box::price(3, &[], &[], &[], &mut []), Ok(Quote::None));
    let patched = |places: &mut [u16]| patch_box::patch(3, &[], &[], &[], 0, places, &mut []);
    assert_eq!(patched(&mut []), Err(Number::TableTooShort));
    assert_eq!(patched(&mut [0]), Ok(Outcome::None));
    let judged = patch_box::judge(3, &[], &[], &[], &[], 0, &mut []);
    assert_eq!(judged, Err(Number::NotATriangulation));
}
