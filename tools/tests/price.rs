//! Prices of patches: total, triangles and area.

mod common;

use common::{bytes_of, example, made, run, run_in, Folder, RIMS};
use patch_box::Number;
use rim::patch::{close, Patch};
use rim::vectors::{cross, minus};
use std::fs;

/// The lines for a rim file.
fn priced(file: &[u8]) -> String {
    run(&["price", "-"], file).done().text()
}

/// The lines for a list of points.
fn priced_list(list: &str) -> String {
    priced(&made(list))
}

/// What stands after a word in the lines.
fn number<T: std::str::FromStr>(text: &str, word: &str) -> T {
    let line = text.lines().find_map(|line| line.strip_prefix(word)).expect(word);
    line.trim().parse().ok().expect(text)
}

#[test]
fn rim_file_p() {
    let p = example("p.rim").display().to_string();
    let lines = run(&["price", &p], b"").done().text();
    assert_eq!(lines, "total 943\ntriangles 2\narea 1.229\n");
    assert_eq!(priced(&bytes_of("p.rim")), lines);
}

/// The area of a patch in square millimetres.
fn area(patch: &Patch) -> f64 {
    let of_triangle = |vertices: [u8; 3]| {
        let [a, b, c] = vertices.map(|k| patch.vertices[k as usize].map(|x| x as f64 / 8.0));
        let normal = cross(minus(b, a), minus(c, a));
        normal.iter().map(|x| x * x).sum::<f64>().sqrt() / 2.0
    };
    patch.triangles.iter().map(|triangle| of_triangle(triangle.vertices)).sum()
}

/// Each triangle's length is cut down to quarters, 512 of which are a square millimetre.
#[test]
fn prices_of_the_patches() {
    for name in RIMS {
        let patch = close(&bytes_of(name)).expect("accepted");
        let lines = priced(&bytes_of(name));
        assert_eq!(number::<u64>(&lines, "total"), patch.total, "{name}");
        assert_eq!(number::<usize>(&lines, "triangles"), patch.triangles.len(), "{name}");
        let missing = area(&patch) - number::<f64>(&lines, "area");
        let most = patch.triangles.len() as f64 / 512.0;
        assert!((-0.000_501..most + 0.000_501).contains(&missing), "{name}: {missing}");
        assert_eq!(lines.lines().count(), 3, "{name}");
    }
}

/// By hand, right angles with legs of so many eighths of a millimetre: 32 and 96 quarters are 62.5 and
/// 187.5 thousandths, which go up; 4 are 7.8, 8 are 15.6, 12 are 23.4; the largest triangle of the grid
/// has half of 250 mm squared.
#[test]
fn areas_to_three_decimals() {
    for (legs, area) in [
        ([2, 4], "0.063"),
        ([2, 12], "0.188"),
        ([1, 1], "0.008"),
        ([1, 2], "0.016"),
        ([1, 3], "0.023"),
        ([8, 16], "1.000"),
        ([8, 8], "0.500"),
        ([2000, 2000], "31250.000"),
    ] {
        let [x, y] = legs.map(|leg| leg as f64 / 8.0 - 125.0);
        let lines = priced_list(&format!("-125 -125 0\n{x} -125\n-125 {y}\n"));
        assert_eq!(number::<String>(&lines, "area"), area, "{legs:?}: {lines}");
    }
}

/// The area is that of the patch, plain: it does not count the factors.
#[test]
fn areas_without_factors() {
    let list = String::from_utf8(bytes_of("triangle.txt")).expect("text");
    let area: String = number(&priced_list(&list), "area");
    for words in [["--area", "0"], ["--area", "16"], ["--bend", "65535"]] {
        let file = run(&[&["make", "-"][..], &words].concat(), list.as_bytes()).done().out;
        assert_eq!(number::<String>(&priced(&file), "area"), area, "{words:?}");
    }
    let plain = priced(&bytes_of("ridge.rim"));
    let with_normals = priced(&bytes_of("ridge-normals.rim"));
    assert_ne!(number::<String>(&plain, "area"), number::<String>(&with_normals, "area"));
}

/// A patch of total 0 is none the less one.
#[test]
fn totals_of_0() {
    let file = run(&["make", "--area", "0", "-"], &bytes_of("triangle.txt")).done().out;
    let lines = priced(&file);
    assert!(lines.starts_with("total 0\ntriangles 1\narea "), "{lines}");
}

#[test]
fn rims_without_a_patch() {
    assert_eq!(priced(&bytes_of("line.rim")), "none\n");
    let open = "-55 -65 30\n30 -8 31\n72 43 -53\n14 6 88\n34 95 -6\n51 -9 -7\n14 -58 93\n";
    assert_eq!(priced_list(open), "none\n");
}

#[test]
fn rims_that_are_refused() {
    let of_cube = "vertices 0, 1, 2, 4 and 3; moving one of them by 0.125 mm can help";
    for (file, number, place) in [
        (bytes_of("cube5.rim"), Number::Cospherical, of_cube),
        (bytes_of("out-of-range.rim"), Number::OutOfRange, "record 4, vertex 3: y = 126"),
        (Vec::new(), Number::Length, "0 bytes are too few for a header of 8"),
    ] {
        let run = run(&["price", "-"], &file);
        assert_eq!((run.status, run.text()), (1, format!("refused {}\n", number.code())));
        assert_eq!(run.errors, format!("rim: standard input: {number}: {place}\n"));
    }
}

/// A refusal is an answer too, which is written.
#[test]
fn into_a_file() {
    let folder = Folder::new("priced");
    let priced = |name: &str| run_in(&folder.0, &["price", "-o", "out", "-"], &bytes_of(name));
    let written = || fs::read_to_string(folder.0.join("out")).expect("written");
    assert_eq!(priced("p.rim").done().text(), "");
    assert_eq!(written(), "total 943\ntriangles 2\narea 1.229\n");
    assert_eq!(priced("cube5.rim").status, 1);
    assert_eq!(written(), "refused 12\n");
    assert_eq!(folder.names(), ["out"]);
}

#[test]
fn wrong_arguments() {
    for (words, count) in [(&["price"][..], 0), (&["price", "-", "a"], 2)] {
        let line = format!("price takes one file, or - for standard input; {count} are given");
        run(words, b"").refused(2, &line);
    }
    run(&["price", "--list", "-"], b"").refused(2, "price has no option --list (./rim --help)");
    run(&["price", "gone"], b"").refused(2, "gone: No such file or directory");
}
