//! Both editions of the rim file, through the calls.

#![forbid(unsafe_code)]

mod common;

use common::rim_file;
use patch_box::{Converted, Number, Outcome, OwnedTables, MAX_FILE};

/// Rim file P (rule 6.1), of edition 2 where it has normals.
fn p(normals: Option<[[i16; 3]; 4]>) -> Vec<u8> {
    let points = [[0.0, 0.0, 0.0], [1.0, 0.0, 0.0], [1.0, 1.0, 0.75], [0.0, 1.0, 0.0]];
    rim_file(&points, normals.as_ref().map(|normals| &normals[..]))
}

/// The outcome, the patch and the weights of the four candidates 012, 013, 023, 123.
fn closed(file: &[u8]) -> Result<(Outcome, Vec<u16>, Vec<u32>), Number> {
    let mut tables = OwnedTables::new(patch_box::sizes(file)?);
    let outcome = patch_box::rim(file, tables.lend())?;
    Ok((outcome, tables.triangles, tables.weights))
}

/// By hand: the candidates have the normals (0, -48, 64), (0, 0, 64), (-48, 0, 64), (-48, -48, 64) and
/// the lengths 320, 256, 320, 373; their bends to (0, -600, 800) are 0, 200, 360 and 143.
#[test]
fn weights_have_the_bends_at_rim_edges() {
    let patch = |total: u64| Outcome::Patch { triangles: 2, total };
    let plain = (patch(943), vec![1, 3], vec![320, 256, 320, 373]);
    assert_eq!(closed(&p(None)), Ok(plain.clone()));
    let none = [0; 3];
    assert_eq!(closed(&p(Some([none; 4]))), Ok(plain));
    let wall = [0, -600, 800];
    let cases = [
        ([wall, none, none, none], patch(1000), vec![2, 0], vec![320, 456, 320, 373]),
        ([none, wall, none, none], patch(1000), vec![2, 0], vec![320, 256, 320, 516]),
        ([none, none, wall, none], patch(1086), vec![1, 3], vec![320, 256, 680, 516]),
        ([none, none, none, wall], patch(1143), vec![1, 3], vec![320, 456, 680, 373]),
        ([wall; 4], patch(1629), vec![1, 3], vec![320, 656, 1040, 659]),
    ];
    for (normals, outcome, triangles, weights) in cases {
        assert_eq!(closed(&p(Some(normals))), Ok((outcome, triangles, weights)), "{normals:?}");
    }
}

#[test]
fn numbers_of_edition_2() {
    let [low, high] = [[-1000; 3], [1000; 3]];
    assert!(closed(&p(Some([low, high, low, high]))).is_ok());
    for beyond in [[1001, 0, 0], [0, -1001, 0], [0, 0, i16::MIN]] {
        assert_eq!(closed(&p(Some([low, low, low, beyond]))), Err(Number::Normal));
    }
    let file = p(Some([high; 4]));
    assert_eq!(file.len(), 10 + 22 * 4);
    for length in 0..file.len() {
        assert_eq!(patch_box::read(&file[..length]), Err(Number::Length));
    }
    // The longest file, with spare records of any content.
    let mut longest = file.clone();
    longest[4..6].copy_from_slice(&256u16.to_le_bytes());
    longest.resize(MAX_FILE, 0xff);
    assert_eq!(patch_box::read(&longest), Ok(4));
    longest.push(0);
    assert_eq!(patch_box::read(&longest), Err(Number::Length));
}

/// What a table of so many sevens holds after the conversion, and the answer.
fn converted(file: &[u8], places: usize) -> (Vec<u8>, Result<Converted, Number>) {
    let mut out = vec![7; places];
    let answer = patch_box::convert(file, &mut out);
    (out, answer)
}

#[test]
fn conversion_of_p() {
    let [one, two] = [p(None), p(Some([[0; 3]; 4]))];
    assert_eq!([one.len(), two.len()], [72, 98]);
    for (file, other, edition) in [(&one, &two, 2), (&two, &one, 1)] {
        let length = other.len();
        for places in 0..length {
            let short = (vec![7; places], Err(Number::TableTooShort));
            assert_eq!(converted(file, places), short, "{places} places");
        }
        for more in [0, 1, 100] {
            let filled = [&other[..], &vec![7; more]].concat();
            assert_eq!(converted(file, length + more), (filled, Ok(Converted { edition, length })));
        }
    }
}

#[test]
fn normals_that_would_be_lost() {
    for k in 0..4 {
        let with = |number: i16| {
            let mut normals = [[0; 3]; 4];
            normals[k][2] = number;
            p(Some(normals))
        };
        assert_eq!(converted(&with(-1), 72), (vec![7; 72], Err(Number::NormalLost)));
        assert_eq!(converted(&with(-1), 71), (vec![7; 71], Err(Number::TableTooShort)));
        assert_eq!(converted(&with(1001), 72), (vec![7; 72], Err(Number::Normal)));
    }
}

/// 256 records, the spare ones of any content: MAX_FILE places are just enough.
#[test]
fn conversion_of_the_longest_file() {
    let mut one = p(None);
    one[2..4].copy_from_slice(&256u16.to_le_bytes());
    one.resize(8 + 16 * 256, 0xff);
    let (two, answer) = converted(&one, MAX_FILE);
    assert_eq!(answer, Ok(Converted { edition: 2, length: MAX_FILE }));
    assert_eq!(two[MAX_FILE - 22..], [[0xff; 16].as_slice(), &[0; 6]].concat());
    let back = (one.clone(), Ok(Converted { edition: 1, length: one.len() }));
    assert_eq!(converted(&two, one.len()), back);
}
