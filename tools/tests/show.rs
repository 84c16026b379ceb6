//! Rim files as text, and the place of what is wrong with them.

mod common;

use common::{bytes_of, made, run, with_normals, Numbers};
use patch_box::Number;
use rim::diagnosis::diagnose;
use rim::patch::close;
use rim::rim_file::{encode, Point};

#[test]
fn rim_file_p() {
    let text = "\
rim file of 72 bytes, edition 1: first record 1, records 4, area factor 1, bend factor 1

record   next   kind         x mm         y mm         z mm
     1      2  point            0            0            0
     2      3  point            1            0            0
     3      4  point            1            1         0.75
     4      0  point            0            1            0

vertex record  grid: x      y      z         x mm         y mm         z mm
     0      1        0      0      0            0            0            0
     1      2        8      0      0            1            0            0
     2      3        8      8      6            1            1         0.75
     3      4        0      8      0            0            1            0

patch of 2 triangles, total 943

     a      b      c   own weight  bend weight
     0      1      3          256            0
     1      2      3          373          314
";
    assert_eq!(run(&["show", "-"], &bytes_of("p.rim")).done().text(), text);
}

/// By hand: the triangles of the patch have the normals (0, 0, 64) of length 256 and (-48, -48, 64) of
/// length 373, so the bends to (0, -600, 800) are 1000 - 800 and 1000 - 857.
#[test]
fn rim_file_p_with_normals() {
    let list = "0 0 0 normal 0 -600 800\n1 0 0\n1 1 0.75 normal 0 -600 800\n0 1 0 normal 0 0 0\n";
    let text = "\
rim file of 98 bytes, edition 2: first record 1, records 4, area factor 1, bend factor 1

record   next   kind         x mm         y mm         z mm  normal: x      y      z
     1      2  point            0            0            0          0   -600    800
     2      3  point            1            0            0          0      0      0
     3      4  point            1            1         0.75          0   -600    800
     4      0  point            0            1            0          0      0      0

vertex record  grid: x      y      z         x mm         y mm         z mm
     0      1        0      0      0            0            0            0
     1      2        8      0      0            1            0            0
     2      3        8      8      6            1            1         0.75
     3      4        0      8      0            0            1            0

patch of 2 triangles, total 1286

     a      b      c   own weight  bend weight
     0      1      3          456            0
     1      2      3          516          314
";
    let file = run(&["make", "-"], list.as_bytes()).done().out;
    assert_eq!(run(&["show", "-"], &file).done().text(), text);
}

/// By hand: 5.5, 10 and 5.5 square millimetres, at 512 each, and no bends. The circle of 0, 1, 2 and 4
/// has vertex 3 inside, so 12 is not due.
#[test]
fn rim_file_flat5() {
    let text = "
patch of 3 triangles, total 10752

     a      b      c   own weight  bend weight
     0      3      4         2816            0
     0      1      3         5120            0
     1      2      3         2816            0
";
    let shown = run(&["show", "-"], &bytes_of("flat5.rim")).done().text();
    assert!(shown.ends_with(text), "{shown}");
}

/// P with some bytes changed.
fn damaged(at: usize, bytes: &[u8]) -> Vec<u8> {
    let mut file = bytes_of("p.rim");
    file[at..at + bytes.len()].copy_from_slice(bytes);
    file
}

#[test]
fn every_number_of_a_file_with_its_place() {
    let p = bytes_of("p.rim");
    let longest: Vec<u8> = [vec![1, 0, 0, 1, 1, 0, 1, 0], vec![0; 16 * 256 + 1]].concat();
    let endless: Vec<u8> = [vec![1, 0, 0, 1, 1, 0, 1, 0], vec![0; 6000]].concat();
    let mut long_chain = [1u16, 65, 1, 1].iter().flat_map(|x| x.to_le_bytes()).collect::<Vec<u8>>();
    for k in 0..65u16 {
        long_chain.extend((k + 2).to_le_bytes());
        long_chain.extend([1, 0]);
        long_chain.extend([k as f32, 0.0, (k * k % 7) as f32].iter().flat_map(|x| x.to_le_bytes()));
    }
    let cases: [(Vec<u8>, Number, &str); 19] = [
        (vec![1, 0, 4], Number::Length, "3 bytes are too few for a header of 8"),
        (p[..71].to_vec(), Number::Length, "4 records make 72 bytes, the file has 71"),
        (longest, Number::Length, "256 records make 4104 bytes, the file has 4105"),
        (endless, Number::Length, "256 records make 4104 bytes, the file has more"),
        (damaged(2, &[1, 1]), Number::Length, "the header says 257 records"),
        (damaged(4, &[17]), Number::AreaFactor, "the area factor is 17"),
        (damaged(0, &[5]), Number::Link, "the header leads to record 5 of 4"),
        (damaged(24, &[9]), Number::Link, "record 2 leads to record 9 of 4"),
        (
            damaged(24, &[1]),
            Number::RecordRepeated,
            "record 2 leads back to record 1, which is vertex 0",
        ),
        (long_chain, Number::TooManyVertices, "record 64 leads to a 65th record, 65"),
        (damaged(26, &[3]), Number::Kind, "record 2, vertex 1: the kind is 3"),
        (damaged(10, &[2]), Number::NoHeight, "record 1, vertex 0: a level point starts the chain"),
        (damaged(28, &f32::NAN.to_le_bytes()), Number::NotFinite, "record 2, vertex 1: x is NaN"),
        (
            damaged(36, &f32::NEG_INFINITY.to_le_bytes()),
            Number::NotFinite,
            "record 2, vertex 1: z is -inf",
        ),
        (
            damaged(42, &[2]),
            Number::NotFinite,
            "record 3, vertex 2: a level point with a third number",
        ),
        (
            damaged(32, &(-125.5f32).to_le_bytes()),
            Number::OutOfRange,
            "record 2, vertex 1: y = -125.5",
        ),
        (damaged(32, &1e30f32.to_le_bytes()), Number::OutOfRange, "record 2, vertex 1: y = 1e30"),
        (damaged(24, &[0]), Number::TooFewVertices, "the chain has 2 records"),
        (
            damaged(28, &[0; 12]),
            Number::VertexRepeated,
            "vertices 0 and 1 (records 1 and 2) are at (0, 0, 0)",
        ),
    ];
    for (file, number, place) in cases {
        last_line(&file, number, place);
    }
    let list = run(&["show", "-"], &bytes_of("gap.txt")).text();
    let hint = "this looks like text, ./rim make takes a list of points";
    assert!(list.ends_with(&format!("the header says 8257 records; {hint}\n")), "{list}");
    assert_eq!(list.lines().count(), 3, "{list}");
    let cube = run(&["show", "-"], &bytes_of("cube5.rim")).text();
    let place = "vertices 0, 1, 2, 4 and 3; moving one of them by 0.125 mm can help";
    assert!(cube.ends_with(&format!("{}: {place}\n", Number::Cospherical)), "{cube}");
}

/// A level square, one after another vertex, and one that is no square as seen along any axis.
#[test]
fn four_on_a_circle() {
    for (list, vertices) in [
        ("0 0 5\n4 0\n4 4\n0 4\n", "0, 1, 2 and 3"),
        ("9 2 5\n4 4\n0 4\n0 0\n4 0\n", "1, 2, 3 and 4"),
        ("0 0 0\n1 2 2\n3 3 0\n2 1 -2\n", "0, 1, 2 and 3"),
    ] {
        let help = "moving one of them by 0.125 mm can help";
        let place = format!("vertices {vertices} of a flat rim; {help}");
        last_line(&made(list), Number::Cospherical, &place);
    }
    // On one circle as seen from the top, but not in its own plane.
    run(&["show", "-"], &made("5 0 5\n0 5 0\n-5 0 -5\n3 -4 3\n")).done();
}

/// A place of a file, and the two bytes put there.
type Change = (usize, [u8; 2]);

/// In edition 2 the header's numbers stand two bytes later, and records of 22 bytes end in normals.
#[test]
fn every_place_in_edition_2() {
    let p = with_normals(&bytes_of("p.rim"), [0, -1000, 1000]);
    let damaged = |changes: &[Change]| {
        let mut file = p.clone();
        changes.iter().for_each(|&(at, bytes)| file[at..at + 2].copy_from_slice(&bytes));
        file
    };
    let [high, low, lowest] = [1001, -1001, i16::MIN].map(i16::to_le_bytes);
    let infinite = (38, [128, 127]);
    let far = (38, [252, 66]);
    let longest: Vec<u8> = [vec![255, 255, 1, 0, 0, 1, 1, 0, 1, 0], vec![0; 22 * 256 + 1]].concat();
    // As a file of edition 1, 120 bytes are the seven records that its next number says.
    let other: Vec<u8> = [vec![255, 255, 7, 0, 6, 0, 1, 0, 1, 0], vec![0; 110]].concat();
    let lengths = [
        (vec![255, 255], "2 bytes are too few for a header of 10"),
        (p[..9].to_vec(), "9 bytes are too few for a header of 10"),
        (p[..97].to_vec(), "4 records make 98 bytes, the file has 97"),
        (longest, "256 records make 5642 bytes, the file has more"),
        (other, "6 records make 142 bytes, the file has 120"),
        (damaged(&[(4, [1, 1])]), "the header says 257 records"),
    ];
    for (file, place) in lengths {
        let mark = "the file begins with 65535, so it is of edition 2";
        last_line(&file, Number::Length, &format!("{place}; {mark}"));
    }
    let cases: [(&[Change], Number, &str); 13] = [
        (&[(6, [17, 0])], Number::AreaFactor, "the area factor is 17"),
        (&[(2, [5, 0])], Number::Link, "the header leads to record 5 of 4"),
        (&[(32, [9, 0])], Number::Link, "record 2 leads to record 9 of 4"),
        (&[(34, [3, 0])], Number::Kind, "record 2, vertex 1: the kind is 3"),
        (&[infinite], Number::NotFinite, "record 2, vertex 1: x is inf"),
        (&[far], Number::OutOfRange, "record 2, vertex 1: x = 126"),
        (&[(26, high)], Number::Normal, "record 1, vertex 0: nx = 1001"),
        (&[(28, low)], Number::Normal, "record 1, vertex 0: ny = -1001"),
        (&[(96, lowest)], Number::Normal, "record 4, vertex 3: nz = -32768"),
        // After 9 of its record, before the link that leads on, and before the record there.
        (&[far, (48, high)], Number::OutOfRange, "record 2, vertex 1: x = 126"),
        (&[(32, [9, 0]), (48, high)], Number::Normal, "record 2, vertex 1: nx = 1001"),
        (&[(34, [3, 0]), (30, low)], Number::Normal, "record 1, vertex 0: nz = -1001"),
        // A record that the chain does not reach may hold anything.
        (&[(32, [0, 0]), (92, high)], Number::TooFewVertices, "the chain has 2 records"),
    ];
    for (changes, number, place) in cases {
        last_line(&damaged(changes), number, place);
    }
}

/// `show` ends with this number and place.
fn last_line(file: &[u8], number: Number, place: &str) {
    let shown = run(&["show", "-"], file);
    assert_eq!((shown.status, shown.errors.as_str()), (1, ""), "{place}");
    let text = shown.text();
    assert_eq!(text.lines().last(), Some(format!("{number}: {place}").as_str()));
}

/// The tool finds the number that the library gives, on files damaged anywhere.
#[test]
fn the_diagnosis_is_the_librarys() {
    let mut numbers = Numbers(1);
    let mut met = [0; 19];
    let names = [
        "p.rim",
        "flat5.rim",
        "line.rim",
        "cube5.rim",
        "saddle12.rim",
        "gap.rim",
        "ridge-normals.rim",
    ];
    let mut files = names.map(bytes_of).to_vec();
    files.push(with_normals(&bytes_of("saddle12.rim"), [-1000, 3, 1000]));
    for case in 0..50_000 {
        let mut file = files[case % files.len()].clone();
        for _ in 0..numbers.below(3) + 1 {
            let at = numbers.below(file.len());
            file[at] = match numbers.below(3) {
                0 => numbers.below(256) as u8,
                1 => file[at] ^ 1 << numbers.below(8),
                _ => numbers.below(6) as u8,
            };
        }
        if numbers.below(20) == 0 {
            file.truncate(numbers.below(file.len() + 1));
        }
        let expected = patch_box::sizes(&file).err();
        let diagnosis = diagnose(&file);
        assert_eq!(diagnosis.due.map(|due| due.number), expected, "{file:?}");
        met[expected.map_or(0, |number| number.code() as usize)] += 1;
        if let Ok(vertices) = patch_box::read(&file) {
            assert_eq!(diagnosis.vertices.len(), vertices);
        }
    }
    let all = [0, 1, 2, 3, 4, 6, 7, 8, 9, 10, 11, 12, 18];
    assert!(all.iter().all(|&number| met[number] > 0), "{met:?}");
}

/// A rim of points that small numbers of steps along two vectors lead to, in whole millimetres.
fn flat_rim(numbers: &mut Numbers) -> Vec<u8> {
    let mut vector = || [(); 3].map(|()| numbers.below(9) as f32 - 4.0);
    let [u, v] = [vector(), vector()];
    let count = numbers.below(6) + 3;
    let mut point = || {
        let [s, t] = [(); 2].map(|()| numbers.below(6) as f32);
        let [x, y, z] = [0, 1, 2].map(|k| s * u[k] + t * v[k]);
        Point { x, y, height: Some(z), normal: None }
    };
    encode(&(0..count).map(|_| point()).collect::<Vec<_>>(), 1, 1)
}

/// The tool finds the library's number on flat rims too, in planes of every tilt. A flat rim whose edges
/// are all in candidates is closed, so the reason of 'none' is an edge, or that all is on one line.
#[test]
fn flat_rims_in_many_planes() {
    let mut numbers = Numbers(2);
    let mut met = [0; 13];
    let mut reasons = ["on one line", "meet", "can help"].map(|reason| (reason, 0));
    for _ in 0..20_000 {
        let file = flat_rim(&mut numbers);
        let expected = patch_box::sizes(&file).err();
        let found = diagnose(&file).due.map(|due| due.number);
        assert_eq!(found, expected, "{file:?}");
        met[expected.map_or(0, |number| number.code() as usize)] += 1;
        if let Some(why) = close(&file).ok().and_then(|patch| patch.none) {
            let reason = reasons.iter_mut().find(|(reason, _)| why.contains(*reason));
            reason.unwrap_or_else(|| panic!("{why}: {file:?}")).1 += 1;
        }
    }
    assert!([0, 11, 12].iter().all(|&number| met[number] > 100), "{met:?}");
    assert!(reasons.iter().all(|&(_, count)| count > 100), "{reasons:?}");
}
