//! Normals in lists of points, and lists of rims that have them.

mod common;

use common::{bytes_of, made, refused, run, with_normals, P};

/// P with normals at two points: the bytes by hand.
#[test]
fn normals_make_edition_2() {
    let list = "0 0 0\n1 0 0 normal 0 -600 800\n1 1 0.75\n0 1 0 normal 1000 -1000 1\n";
    let bytes = "
        ff ff  01 00  04 00  01 00  01 00
        02 00  01 00  00 00 00 00  00 00 00 00  00 00 00 00  00 00  00 00  00 00
        03 00  01 00  00 00 80 3f  00 00 00 00  00 00 00 00  00 00  a8 fd  20 03
        04 00  01 00  00 00 80 3f  00 00 80 3f  00 00 40 3f  00 00  00 00  00 00
        00 00  01 00  00 00 00 00  00 00 80 3f  00 00 00 00  e8 03  18 fc  01 00";
    let byte = |word: &str| u8::from_str_radix(word, 16).expect("a byte");
    assert_eq!(made(list), bytes.split_whitespace().map(byte).collect::<Vec<u8>>());
}

/// One normal is enough for edition 2, three zeros too; without any the file is of edition 1.
#[test]
fn the_list_decides_the_edition() {
    assert_eq!(made(&P.replace("1 0 0\n", "1 0 0 normal 0 0 0\n")), with_normals(&made(P), [0; 3]));
    assert_eq!(made(&P.replace('\n', " normal 1 -2 3\n")), with_normals(&made(P), [1, -2, 3]));
    let flat = "0 0 2 normal 0 0 9\n4 0 normal 0 0 9\n5 3 normal 0 0 9\n2 5 normal 0 0 9\n-1 3 normal 0 0 9\n";
    assert_eq!(made(flat), with_normals(&bytes_of("flat5.rim"), [0, 0, 9]));
}

#[test]
fn normals_are_separated_as_the_line_is() {
    let file = with_normals(&made(P), [0, -600, 800]);
    for normal in [
        " normal 0 -600 800\n",
        "\tnormal\t0\t-600\t800 # outside\r\n",
        " normal \u{2212}0 \u{2212}600 +800\n",
    ] {
        assert_eq!(made(&P.replace('\n', normal)), file, "{normal:?}");
    }
    for separator in [",", ", ", " ; "] {
        let list = P.replace('\n', " normal 0 -600 800\n").replace(' ', separator);
        assert_eq!(made(&list), file, "{list}");
    }
    let both = "line 1: numbers are separated in two ways";
    let hint = "; where commas are decimal marks, use --decimal-comma";
    refused("0;0;0 normal 0 0 1\n", both);
    refused("0,0,0 normal 0 0 1\n", &format!("{both}{hint}"));
    let list = P.replace('\n', " normal 0 -0,6 0,8\n");
    assert_eq!(run(&["make", "--decimal-comma", "-"], list.as_bytes()).done().out, file);
}

/// A decimal mark makes a direction of the three numbers, whatever its length.
#[test]
fn directions_have_full_length() {
    for (direction, normal) in [
        ("0 0 1.0", [0, 0, 1000]),
        ("3.0 -4 0", [600, -800, 0]),
        ("1.0 0 1.0", [707, 0, 707]),
        ("-2e3 -2e3 -2e3", [-577, -577, -577]),
        ("1e300 0 -1e300", [707, 0, -707]),
        ("1e-300 0 0", [1000, 0, 0]),
        ("5000.0 0.1 0", [1000, 0, 0]),
        ("0.0 -0.0 0.0", [0, 0, 0]),
        ("0 0 1", [0, 0, 1]),
    ] {
        let list = P.replace('\n', &format!(" normal {direction}\n"));
        assert_eq!(made(&list), with_normals(&made(P), normal), "{direction}");
    }
}

#[test]
fn lines_that_are_no_normals() {
    let count = |count: usize| {
        format!("line 1: a normal has 3 numbers (normal nx ny nz), this line has {count} after the word")
    };
    refused("0 0 0 normal\n", &count(0));
    refused("0 0 0 normal 0 1\n", &count(2));
    refused("0 0 0 normal 0 1 2 3\n", &count(4));
    refused("0 0 0 normal 0 0 1 normal 0 0 1\n", &count(7));
    let hint = "; where commas are decimal marks, use --decimal-comma";
    refused("0,0,0,normal,0,6,0,0,8\n", &format!("{}{hint}", count(5)));
    for (numbers, named) in [
        ("0 0 1001", "nz = 1001"),
        ("-1001 0 2000", "nx = -1001"),
        ("0 99999999999999999999 0", "ny = 99999999999999999999"),
        ("0 1e400 0", "ny = 1e400"),
    ] {
        let range = "is out of range: a whole number of a normal is from -1000 to 1000";
        refused(format!("0 0 0 normal {numbers}\n"), &format!("line 1: {named} {range}"));
    }
    for word in ["x", "nan", "-inf", "1/2"] {
        let said = format!("line 2: '{word}' is not a number (a comment starts with #)");
        refused(format!("0 0 0\n0 1 0 normal 0 {word} 1.5\n"), &said);
    }
    let point = "line 1: a point has 3 numbers (x y z) and a level point 2 (x y), this line has";
    refused("normal 0 0 1\n", &format!("{point} 0 before the word normal"));
    refused("0 0 0 0 normal 0 0 1\n", &format!("{point} 4 before the word normal"));
    for list in ["0 0 0 0 0 1\n", "0 0 0 0 1\n"] {
        let numbers = list.split_whitespace().count();
        refused(list, &format!("{point} {numbers}; a normal comes after the word normal"));
    }
    refused("0,5,0,5,0,5\n", &format!("{point} 6{hint}"));
    refused(
        "0 0 0\n1 0 0 Normal 0 0 1\n",
        "line 2: a point has 3 numbers (x y z) and a level point 2 (x y), this line has 7",
    );
}

/// What `show --list` writes makes the file again.
#[test]
fn a_list_of_a_rim_makes_it_again() {
    let zeros = with_normals(&bytes_of("gap.rim"), [0; 3]);
    let names = [
        "p.rim",
        "gap.rim",
        "flat5.rim",
        "cube5.rim",
        "skew64.rim",
        "ridge.rim",
        "ridge-normals.rim",
    ];
    for file in names.map(bytes_of).into_iter().chain([zeros]) {
        let list = run(&["show", "--list", "-"], &file).done().text();
        let options =
            list.lines().next().and_then(|line| line.strip_prefix("# ")).expect("factors");
        let words: Vec<&str> = ["make", "-"].into_iter().chain(options.split(' ')).collect();
        assert!(run(&words, list.as_bytes()).done().out == file, "{list}");
    }
    let list = "# --area 1 --bend 1\n0 0 2 normal 0 0 -9\n4 0 normal 0 0 -9\n5 3 normal 0 0 -9\n2 5 normal 0 0 -9\n-1 3 normal 0 0 -9\n";
    let file = with_normals(&bytes_of("flat5.rim"), [0, 0, -9]);
    assert_eq!(run(&["show", "--list", "-"], &file).done().text(), list);
    let line = "standard input: refused 9: a coordinate is not from -125 to 125 mm: record 4, vertex 3: y = 126";
    run(&["show", "--list", "-"], &bytes_of("out-of-range.rim")).refused(1, line);
}
