//! Lists of points, good and bad.

mod common;

use common::{bytes_of, example, made, refused, run, P};

#[test]
fn rim_file_p_from_its_points() {
    assert_eq!(made(P), bytes_of("p.rim"));
}

#[test]
fn separators_comments_and_line_ends() {
    let lists = [
        "0,0,0\n1,0,0\n1,1,0.75\n0,1,0",
        "0, 0, 0\n1 , 0 , 0\n 1,1, 0.75 \n0,1,0,\n",
        "0;0;0\n1;0;0\n1; 1; .75\n0;1;0;\n",
        "0\t0\t0\n1\t0\t0\n1\t1\t7.5e-1\n0\t1\t0\n",
        "0 0 0\r\n1 0 0\r\n\r\n1 1 0.75\r\n0 1 0\r\n",
        "\u{feff}0 0 0\n1 0 0\n1 1 0.75\n0 1 0\n",
        "# P\n\n0 0 0 # first\n   \n1 0 0\n#\n1 1 0.75#\n  0   1 +0.0\n",
        "0\u{a0}0\u{a0}0\n1 0 0\n1 1 0.75\n0 1 0\n",
    ];
    for list in lists {
        assert_eq!(made(list), bytes_of("p.rim"), "{list:?}");
    }
    let latin = [b"# 20 \xb0C\n".as_slice(), P.as_bytes()].concat();
    assert_eq!(run(&["make", "-"], &latin).done().out, bytes_of("p.rim"));
}

#[test]
fn decimal_commas() {
    let list = "0 0 0\n1,0 0 0\n1,0;1,0;0,75\n0\t1\t0,0\n";
    let out = run(&["make", "--decimal-comma", "-"], list.as_bytes()).done().out;
    assert_eq!(out, bytes_of("p.rim"));
    let hint = "; where commas are decimal marks, use --decimal-comma";
    refused("1,5 2\n", &format!("line 1: numbers are separated in two ways{hint}"));
    refused("1,5 2,5 3,5\n", &format!("line 1: numbers are separated in two ways{hint}"));
    refused("1,5;2,5;3,5\n", &format!("line 1: numbers are separated in two ways{hint}"));
    let count = "a point has 3 numbers (x y z) and a level point 2 (x y), this line has";
    refused("1,5,2,5\n", &format!("line 1: {count} 4{hint}"));
    let both = run(&["make", "--decimal-comma", "-"], b"1.000,5 2 3\n");
    both.refused(1, "standard input: line 1: '1.000,5' is not a number (a comment starts with #)");
}

#[test]
fn level_points_and_factors() {
    let flat = "0 0 2\n4 0\n5 3\n2 5\n-1 3\n";
    assert_eq!(made(flat), bytes_of("flat5.rim"));
    assert_eq!(made(&flat.replace('-', "\u{2212}")), bytes_of("flat5.rim"));
    let out = run(&["make", "--area", "16", "-", "--bend", "65535"], P.as_bytes()).done().out;
    assert_eq!(out[..8], [1, 0, 4, 0, 16, 0, 255, 255]);
    refused("1 2\n3 4 5\n", "line 1: a level point has the height of the point before it; the first point needs x, y and z");
}

#[test]
fn lines_that_are_no_points() {
    let not = |word: &str| format!("line 2: '{word}' is not a number (a comment starts with #)");
    for word in [
        "x", "nan", "NaN", "inf", "-inf", "infinity", "12mm", "1e", "--1", "1..2", "e5", "0x10",
        "\u{fffd}",
    ] {
        refused(format!("0 0 0\n{word} 0 0\n"), &not(word));
    }
    refused("0 0 0\n1,,2\n", "line 2: a number is missing beside a ','");
    refused("0 0 0\n;1;2\n", "line 2: a number is missing beside a ';'");
    let count = "a point has 3 numbers (x y z) and a level point 2 (x y), this line has";
    refused("0 0 0\n5\n", &format!("line 2: {count} 1"));
    refused("0 0 0 0\n", &format!("line 1: {count} 4"));
}

#[test]
fn coordinates_out_of_range() {
    for (line, axis, word) in
        [("126 0 0", "x", "126"), ("0 -125.001 0", "y", "-125.001"), ("0 0 1e40", "z", "1e40")]
    {
        let said =
            format!("line 1: {axis} = {word} is out of range: a coordinate is from -125 to 125 mm");
        refused(line, &said);
    }
    // The nearest float is what counts, as in the file.
    made("125.0000001 0 0\n-125 0 0\n0 125 9\n");
}

#[test]
fn too_few_and_too_many() {
    refused("", "there is no point in the list");
    refused("# nothing\n\n", "there is no point in the list");
    refused("1 2 3\n", "a rim has at least 3 points, the list has 1");
    refused("1 2 3\n4 5 6\n", "a rim has at least 3 points, the list has 2");
    let list: Vec<String> = (0..65).map(|k| format!("{k} {} 0\n", k * k % 61)).collect();
    assert_eq!(made(&list[..64].concat()).len(), 8 + 16 * 64);
    refused(list.concat(), "line 65: a rim has at most 64 points");
}

#[test]
fn points_on_one_grid_point() {
    let said = |lines: &str, hint: &str| format!("lines {lines} fall on one grid point: {hint}");
    let close = "points closer than 0.125 mm can fall together";
    let closing = "the last point joins the first by itself, so the first is not repeated";
    refused("0 0 0\n# one\n1 0 0\n1.05 0 0\n2 2 2\n", &said("3 and 4", close));
    refused("0 0 1\n1 0\n5 5 5\n1 0 1\n2 2 2\n", &said("2 and 4", close));
    refused("0 0 0\n1 0 0\n1 1 0.75\n0 1 0\n0 0 0\n", &said("1 and 5", closing));
    // At a half the even one: 0.0625 goes to 0, 0.1875 to 2 eighths.
    made("0 0 0\n0.1875 0 0\n1 1 1\n");
    refused("0 0 0\n0.0625 0 0\n1 1 1\n", &said("1 and 2", close));
}

#[test]
fn files_that_are_no_text() {
    let utf16: Vec<u8> =
        "\u{feff}0 0 0".encode_utf16().flat_map(|unit| unit.to_le_bytes()).collect();
    refused(&utf16, "the list of points is UTF-16 text: save it as UTF-8 or plain text");
    refused(bytes_of("p.rim"), "this is no list of points: it has bytes that are no text");
    refused(vec![b' '; (1 << 20) + 1], "a list of points has at most 1048576 bytes");
    let name = example("p.rim").display().to_string();
    let line = format!("{name}: this is no list of points: it has bytes that are no text");
    run(&["make", &name], b"").refused(1, &line);
}
