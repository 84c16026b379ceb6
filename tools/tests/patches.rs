//! Meshes and pictures of patches, and the files in examples/.

mod common;

use common::{bytes_of, example, made, run, RIMS};
use patch_box::{Number, Outcome, OwnedTables, TRIM_VERTICES};
use rim::patch::{close, Triangle};
use std::collections::HashMap;

/// Each example is what the tool makes today. `./rim` with the words writes it again.
#[test]
fn examples_are_up_to_date() {
    let cases: [(&[&str], &str, &str); 21] = [
        (&["make"], "cut24.txt", "cut24.rim"),
        (&["draw"], "cut24.rim", "cut24.svg"),
        (&["make"], "cut25.txt", "cut25.rim"),
        (&["draw"], "cut25.rim", "cut25.svg"),
        (&["make"], "dent.txt", "dent.rim"),
        (&["draw"], "dent.rim", "dent.svg"),
        (&["make"], "gap.txt", "gap.rim"),
        (&["draw"], "gap.rim", "gap.svg"),
        (&["stl"], "gap.rim", "gap.stl"),
        (&["obj"], "gap.rim", "gap.obj"),
        (&["make"], "halves.txt", "halves.rim"),
        (&["make"], "line.txt", "line.rim"),
        (&["make", "--bend", "64"], "ridge.txt", "ridge.rim"),
        (&["draw"], "ridge.rim", "ridge.svg"),
        (&["make", "--bend", "64"], "ridge-normals.txt", "ridge-normals.rim"),
        (&["draw"], "ridge-normals.rim", "ridge-normals.svg"),
        (&["make"], "skew64.txt", "skew64.rim"),
        (&["make"], "tilted.txt", "tilted.rim"),
        (&["draw", "--from", "1,1,1"], "tilted.rim", "tilted.svg"),
        (&["make"], "triangle.txt", "triangle.rim"),
        (&["draw"], "triangle.rim", "triangle.svg"),
    ];
    for (words, from, name) in cases {
        let input = example(from).display().to_string();
        let made = run(&[words, &[&input]].concat(), b"").done().out;
        assert!(made == bytes_of(name), "examples/{name} is not what ./rim {words:?} writes");
    }
}

/// The first line that the trim program prints, by the library.
fn first_line_within_24(file: &[u8]) -> Result<String, Number> {
    let mut tables = OwnedTables::new(patch_box::sizes_within(TRIM_VERTICES, file)?);
    Ok(match patch_box::rim_within(TRIM_VERTICES, file, tables.lend())? {
        Outcome::None => "none".into(),
        Outcome::Patch { triangles, total } => {
            format!("patch {} {triangles} {total}", triangles + 2)
        }
    })
}

/// The last column of the table in examples/README.md.
#[test]
fn examples_with_the_limit_of_trim() {
    let readme = String::from_utf8(bytes_of("README.md")).expect("text");
    let mut refused = Vec::new();
    for line in readme.lines().filter(|line| line.contains(".rim |")) {
        let cells: Vec<&str> = line.split('|').map(str::trim).collect();
        if let [_, name, _, of_bench, of_trim, _] = cells[..] {
            let answer = first_line_within_24(&bytes_of(name));
            let line = answer.unwrap_or_else(|number| format!("refused {}", number.code()));
            let expected = if of_trim == "the same" { of_bench } else { of_trim };
            assert_eq!(line, expected.trim_matches('`'), "{name}");
            if line == "refused 20" {
                refused.push(name);
            }
        }
    }
    assert_eq!(refused, ["cut25.rim", "ring64.rim", "skew64.rim"]);
}

/// In a patch a rim edge is in one triangle, another in two, which run along it in turn.
#[test]
fn meshes_close_the_rim() {
    for name in RIMS {
        let patch = close(&bytes_of(name)).expect("accepted");
        let n = patch.vertices.len() as i64;
        let mut steps: HashMap<[i64; 2], i64> = HashMap::new();
        for face in faces(&run(&["obj", "-"], &bytes_of(name)).done().text()) {
            let [a, b, c] = face;
            for step in [[a, b], [b, c], [c, a]] {
                *steps.entry(step).or_default() += 1;
            }
        }
        assert!(steps.values().all(|&count| count == 1), "{name}");
        let rim = (0..n).all(|k| {
            let (from, to) = (k, (k + 1) % n);
            steps.contains_key(&[from, to]) && !steps.contains_key(&[to, from])
        });
        assert!(rim, "{name}");
        let inner = steps.keys().filter(|step| steps.contains_key(&[step[1], step[0]])).count();
        assert_eq!(inner + n as usize, steps.len(), "{name}");
    }
}

fn faces(obj: &str) -> Vec<[i64; 3]> {
    let face = |line: &str| {
        let words = line.strip_prefix("f ")?.split(' ');
        let numbers: Vec<i64> =
            words.map(|word| word.parse::<i64>().expect("a number") - 1).collect();
        Some([numbers[0], numbers[1], numbers[2]])
    };
    obj.lines().filter_map(face).collect()
}

/// The vertices of the STL are those of the triangles, and its normals are at right angles to them.
#[test]
fn stl_is_the_same_surface() {
    for name in RIMS {
        let patch = close(&bytes_of(name)).expect("accepted");
        let stl = run(&["stl", "-"], &bytes_of(name)).done().text();
        let numbers = |start: &str| -> Vec<[f64; 3]> {
            let of_line = |line: &str| {
                let words = line.trim().strip_prefix(start)?.split(' ');
                let numbers: Vec<f64> = words.map(|word| word.parse().expect("a number")).collect();
                Some([numbers[0], numbers[1], numbers[2]])
            };
            stl.lines().filter_map(of_line).collect()
        };
        let (normals, corners) = (numbers("facet normal "), numbers("vertex "));
        assert_eq!(
            (normals.len(), corners.len()),
            (patch.triangles.len(), 3 * patch.triangles.len())
        );
        for (t, triangle) in patch.triangles.iter().enumerate() {
            for (corner, vertex) in corners[3 * t..].iter().zip(triangle.vertices) {
                assert_eq!(*corner, patch.vertices[vertex as usize].map(|g| g as f64 / 8.0));
            }
            let along = |k: usize| [0, 1, 2].map(|i| corners[3 * t + k][i] - corners[3 * t][i]);
            for side in [along(1), along(2)] {
                let dot: f64 = (0..3).map(|i| side[i] * normals[t][i]).sum();
                assert!(dot.abs() < 1e-3, "{name}: {dot}");
            }
        }
    }
}

/// Every element is closed, every number is finite, each vertex has its number.
#[test]
fn pictures_from_every_side() {
    for name in RIMS.into_iter().chain(["line.rim"]) {
        for view in ["top", "front", "side", "corner", "0,0,-1", "-3,2,0.5", "1e-5,0,0"] {
            let svg = run(&["draw", "--from", view, "-"], &bytes_of(name)).done().text();
            assert!(svg.starts_with("<svg ") && svg.ends_with("</svg>\n"), "{name} {view}");
            assert!(!svg.contains("NaN") && !svg.contains("inf"), "{name} {view}");
            let open = svg.matches('<').count();
            let (closed, closing) = (svg.matches("/>").count(), svg.matches("</").count());
            assert_eq!(open, closed + 2 * closing, "{name} {view}");
            let patch = close(&bytes_of(name)).expect("accepted");
            assert_eq!(svg.matches("<polygon").count(), patch.triangles.len());
            let labelled = |k: usize| svg.contains(&format!(">{k}</text>"));
            assert!((0..patch.vertices.len()).all(labelled), "{name} {view}");
        }
    }
}

/// Where the block has its edge, the patch with normals has one too; without, it cuts the edge off.
#[test]
fn normals_lead_the_patch() {
    let patches =
        ["ridge.rim", "ridge-normals.rim"].map(|name| close(&bytes_of(name)).expect("accepted"));
    let [without, with] = &patches;
    assert_eq!(without.vertices, with.vertices);
    assert_eq!([without.total, with.total], [668_804, 768_342]);
    let on_the_edge = |triangle: &&Triangle| [0, 4].iter().all(|k| triangle.vertices.contains(k));
    let counts = patches.each_ref().map(|patch| patch.triangles.iter().filter(on_the_edge).count());
    assert_eq!(counts, [0, 2]);
    let strokes = |name: &str| {
        let svg = run(&["draw", "-"], &bytes_of(name)).done().text();
        (svg.matches("#1f6f3f\" stroke-width").count(), svg.contains("normals outside"))
    };
    assert_eq!(["ridge.rim", "ridge-normals.rim"].map(strokes), [(0, false), (8, true)]);
}

/// A rim seen edge on has no width, and is drawn all the same.
#[test]
fn flat_rim_edge_on() {
    let svg = run(&["draw", "--from", "front", "-"], &bytes_of("flat5.rim")).done().text();
    assert!(svg.contains("seen from the front"));
    assert_eq!(svg.matches("<polygon").count(), 3);
}

/// Without --from, the rims of these lists are seen so.
fn expect_views(cases: &[(&str, &str)]) {
    for (list, view) in cases {
        let svg = run(&["draw", "-"], &made(list)).done().text();
        assert!(svg.contains(&format!("seen from the {view}")), "{list}");
    }
}

/// A flat rim is seen from where it looks largest, and any other from the top.
#[test]
fn flat_rims_show_their_face() {
    expect_views(&[
        ("0 0 2\n4 0 2\n5 3 2\n2 5 2\n", "top"),
        ("0 2 0\n4 2 0\n5 2 3\n2 2 5\n", "front"),
        ("2 0 0\n2 4 0\n2 5 3\n2 2 5\n", "side"),
        ("0 0 0\n4 0 0\n0 3 2\n", "top"),
        ("0 0 0\n4 0 0\n0 2 3\n", "front"),
        ("0 0 0\n0 4 0\n2 0 3\n", "side"),
        ("1 0 0\n0 1 0\n0 0 1\n", "top"),
        ("2 0 0\n2 4 0\n2 5 3\n2.125 2 5\n", "top"),
    ]);
}

/// A rim on one line is seen from where it looks longest, so an upright one from the front.
#[test]
fn rims_on_one_line_show_their_length() {
    expect_views(&[
        ("0 0 0\n0 0 4\n0 0 9\n", "front"),
        ("0 0 0\n4 0 0\n9 0 0\n", "top"),
        ("0 0 0\n0 4 0\n0 9 0\n", "top"),
        ("0 0 0\n3 2 1\n-3 -2 -1\n6 4 2\n", "top"),
        ("0 0 0\n-2 1 -3\n2 -1 3\n4 -2 6\n", "front"),
        ("0 0 0\n1 -2 3\n-1 2 -3\n2 -4 6\n", "side"),
        ("0 0 0\n1 1 1\n3 3 3\n", "top"),
    ]);
}
