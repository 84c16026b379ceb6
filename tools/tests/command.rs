//! Arguments, files and statuses.

mod common;

use common::{bytes_of, example, made, run, run_in, Folder};
use std::fs;
use std::process::{Command, Stdio};

#[test]
fn help() {
    for words in [&["--help"][..], &["-h"], &["make", "--help"], &["draw", "x", "-h"]] {
        let help = run(words, b"").done().text();
        assert!(help.starts_with("usage: ./rim make"), "{help}");
        assert!(help.lines().all(|line| line.len() <= 105), "{help}");
    }
}

#[test]
fn wrong_arguments() {
    let commands = "make, show, draw, stl, obj, price or judge";
    run(&[], b"").refused(2, &format!("a command is expected: {commands} (./rim --help)"));
    run(&["close", "x"], b"").refused(2, &format!("there is no command 'close': {commands}"));
    let files = |name: &str, count: usize| {
        format!("{name} takes one file, or - for standard input; {count} are given")
    };
    run(&["make"], b"").refused(2, &files("make", 0));
    run(&["show", "a", "b"], b"").refused(2, &files("show", 2));
    run(&["stl", "--area", "1", "x"], b"").refused(2, "stl has no option --area (./rim --help)");
    run(&["make", "--from", "top", "x"], b"")
        .refused(2, "make has no option --from (./rim --help)");
    run(&["make", "x", "-o"], b"").refused(2, "-o needs a value after it");
    for (word, highest) in [("--area", 16), ("--bend", 65535)] {
        for value in ["17000000", "-1", "", "1.5", "x"] {
            let line = format!("{word} takes a whole number from 0 to {highest}, not '{value}'");
            run(&["make", word, value, "x"], b"").refused(2, &line);
        }
    }
    for view in ["up", "", "1,2", "0,0,0", "1,2,3,4", "nan,0,1", "inf,0,1", "1,x,2"] {
        let line =
            format!("--from takes top, front, side, corner or a direction X,Y,Z, not '{view}'");
        run(&["draw", "--from", view, "x"], b"").refused(2, &line);
    }
}

#[test]
fn files_that_cannot_be_read() {
    let folder = Folder::new("unreadable");
    for command in ["make", "show", "draw", "stl", "obj", "price"] {
        run_in(&folder.0, &[command, "gone"], b"").refused(2, "gone: No such file or directory");
        run_in(&folder.0, &[command, "."], b"").refused(2, ".: Is a directory");
    }
}

#[test]
fn a_name_with_a_line_end_stays_on_one_line() {
    run(&["show", "a\nb"], b"").refused(2, "a?b: No such file or directory");
}

/// A refusal leaves the old file as it was, and no other.
#[test]
fn output_is_complete_or_untouched() {
    let folder = Folder::new("output");
    let run = |words: &[&str], input: &[u8]| run_in(&folder.0, words, input);
    run(&["make", "-", "-o", "gap.rim"], &bytes_of("gap.txt")).done();
    assert_eq!(fs::read(folder.0.join("gap.rim")).expect("made"), bytes_of("gap.rim"));
    let failed = run(&["make", "-", "-o", "gap.rim"], b"1 2 3\n");
    failed.refused(1, "standard input: a rim has at least 3 points, the list has 1");
    run(&["stl", "-", "-o", "gap.rim"], &bytes_of("cube5.rim"));
    assert_eq!(fs::read(folder.0.join("gap.rim")).expect("kept"), bytes_of("gap.rim"));
    run(&["stl", "gap.rim", "-o", "gap.rim"], b"").done();
    assert_eq!(fs::read(folder.0.join("gap.rim")).expect("replaced"), bytes_of("gap.stl"));
    assert_eq!(folder.names(), ["gap.rim"]);
}

#[test]
fn output_that_cannot_be_written() {
    let folder = Folder::new("unwritable");
    let p = bytes_of("p.rim");
    let run = |words: &[&str]| run_in(&folder.0, words, &p);
    run(&["show", "-", "-o", "gone/x"]).refused(2, "gone/x: No such file or directory");
    run(&["show", "-", "-o", "."]).refused(2, ".: Is a directory");
    run(&["show", "-", "-o", "/dev/full"]).refused(2, "/dev/full: No space left on device");
    // A device is written to, not replaced.
    run(&["show", "-", "-o", "/dev/null"]).done();
    assert!(!fs::metadata("/dev/null").expect("a device").is_file());
    assert!(folder.names().is_empty());
}

/// A link's target is replaced, not the link; the permissions stay.
#[cfg(unix)]
#[test]
fn links_and_permissions() {
    use std::os::unix::fs::{symlink, PermissionsExt};
    let folder = Folder::new("links");
    let [file, link] = ["file", "link"].map(|name| folder.0.join(name));
    fs::write(&file, "old").expect("written");
    fs::set_permissions(&file, fs::Permissions::from_mode(0o600)).expect("set");
    symlink("file", &link).expect("linked");
    run_in(&folder.0, &["obj", "-", "-o", "link"], &bytes_of("gap.rim")).done();
    assert!(fs::symlink_metadata(&link).expect("there").is_symlink());
    assert_eq!(fs::read(&file).expect("there"), bytes_of("gap.obj"));
    assert_eq!(fs::metadata(&file).expect("there").permissions().mode() & 0o777, 0o600);
}

#[test]
fn a_closed_pipe_is_a_failure() {
    let mut command = Command::new(env!("CARGO_BIN_EXE_rim"));
    command.arg("show").arg(example("p.rim")).stdout(Stdio::piped()).stderr(Stdio::piped());
    let (reader, writer) = std::io::pipe().expect("a pipe");
    drop(reader);
    let output = command.stdout(writer).output().expect("the tool runs");
    assert_eq!(output.status.code(), Some(2));
    assert_eq!(output.stderr, b"rim: standard output: Broken pipe\n");
}

#[test]
fn rims_without_a_patch() {
    let none = "none: all vertices are on one line, so there are no candidates";
    for command in ["stl", "obj"] {
        let line = format!("standard input: {none}");
        run(&[command, "-"], &bytes_of("line.rim")).refused(1, &line);
    }
    let picture = run(&["draw", "-"], &bytes_of("line.rim")).done().text();
    assert!(picture.contains(&format!("5 vertices; {none}")));
    ends_in("1 2 3\n5 4 3\n-1 1 3\n", none);
    let list = "-55 -65 30\n30 -8 31\n72 43 -53\n14 6 88\n34 95 -6\n51 -9 -7\n14 -58 93\n";
    let open = "none: no candidate has the rim edge from 1 to 2; a further point on it can help";
    ends_in(list, open);
    run(&["stl", "-"], &made(list)).refused(1, &format!("standard input: {open}"));
    for command in ["draw", "stl", "obj"] {
        let line = "standard input: refused 9: a coordinate is not from -125 to 125 mm: record 4, vertex 3: y = 126";
        run(&[command, "-"], &bytes_of("out-of-range.rim")).refused(1, line);
    }
}

/// `show` takes the rim of a list, and says this of its patch.
fn ends_in(list: &str, last: &str) {
    let shown = run(&["show", "-"], &made(list)).done().text();
    assert_eq!(shown.lines().last(), Some(last), "{list}");
}

/// The rim edge from 0 to 1 runs between two vertices that are nearer to each other than its ends are.
#[test]
fn a_further_point_helps() {
    let open = "none: no candidate has the rim edge from 0 to 1; a further point on it can help";
    ends_in("0 0 0\n20 0\n10 2\n30 0\n10 -2\n", open);
    run(&["stl", "-"], &made("0 0 0\n10 0\n20 0\n10 2\n30 0\n10 -2\n")).done();
}

/// Level, in a tilted plane, there and back on one line, and not flat.
#[test]
fn rims_that_meet_themselves() {
    for list in [
        "0 0 0\n10 10\n10 0\n0 9\n",
        "0 0 0\n10 5 5\n10 0 10\n0 4 -4\n",
        "0 0 0\n10 0\n5 0\n5 7\n",
        "0 0 0\n10 10\n10 0\n0 9\n-8 4 7\n",
    ] {
        ends_in(list, "none: the rim edges from 0 to 1 and from 2 to 3 meet");
    }
}
