//! The tool as a user runs it.

#![allow(dead_code)]

use std::io::Write;
use std::path::{Path, PathBuf};
use std::process::{Command, Stdio};

/// What a run left: its status, and what it wrote.
#[derive(Debug, PartialEq, Eq)]
pub struct Run {
    pub status: i32,
    pub out: Vec<u8>,
    pub errors: String,
}

impl Run {
    pub fn text(&self) -> String {
        String::from_utf8(self.out.clone()).expect("text")
    }

    /// It ended with this status, one line of this text on standard error, and no output.
    pub fn refused(&self, status: i32, line: &str) {
        assert_eq!((self.status, self.out.len()), (status, 0), "{self:?}");
        assert_eq!(self.errors, format!("rim: {line}\n"));
    }

    pub fn done(self) -> Run {
        assert_eq!((self.status, self.errors.as_str()), (0, ""), "{self:?}");
        self
    }
}

pub fn run(words: &[&str], input: &[u8]) -> Run {
    run_in(Path::new("."), words, input)
}

pub fn run_in(folder: &Path, words: &[&str], input: &[u8]) -> Run {
    let mut command = Command::new(env!("CARGO_BIN_EXE_rim"));
    command.current_dir(folder).args(words);
    command.stdin(Stdio::piped()).stdout(Stdio::piped()).stderr(Stdio::piped());
    let mut child = command.spawn().expect("the tool runs");
    // The tool may end before it has read all.
    let _ = child.stdin.take().expect("piped").write_all(input);
    let output = child.wait_with_output().expect("the tool ends");
    Run {
        status: output.status.code().expect("a status"),
        out: output.stdout,
        errors: String::from_utf8(output.stderr).expect("text"),
    }
}

/// The points of examples/p.rim.
pub const P: &str = "0 0 0\n1 0 0\n1 1 0.75\n0 1 0\n";

/// The rim file of a list.
pub fn made(list: &str) -> Vec<u8> {
    run(&["make", "-"], list.as_bytes()).done().out
}

/// The list is refused with this line, after the name of the input.
pub fn refused(list: impl AsRef<[u8]>, line: &str) {
    run(&["make", "-"], list.as_ref()).refused(1, &format!("standard input: {line}"));
}

/// The rims of examples/ that have a patch.
pub const RIMS: [&str; 14] = [
    "p.rim",
    "triangle.rim",
    "flat5.rim",
    "dent.rim",
    "tilted.rim",
    "cut24.rim",
    "cut25.rim",
    "saddle12.rim",
    "ring64.rim",
    "gap.rim",
    "halves.rim",
    "ridge.rim",
    "ridge-normals.rim",
    "skew64.rim",
];

/// A file of examples/.
pub fn example(name: &str) -> PathBuf {
    Path::new(env!("CARGO_MANIFEST_DIR")).join("../examples").join(name)
}

pub fn bytes_of(name: &str) -> Vec<u8> {
    std::fs::read(example(name)).expect("an example")
}

/// A file of edition 1 in edition 2, with this normal in each record.
pub fn with_normals(file: &[u8], normal: [i16; 3]) -> Vec<u8> {
    let mut bytes = [&[255, 255], &file[..8]].concat();
    for record in file[8..].chunks(16) {
        bytes.extend(record);
        bytes.extend(normal.iter().flat_map(|number| number.to_le_bytes()));
    }
    bytes
}

/// A small generator of numbers, the same in every run.
pub struct Numbers(pub u64);

impl Numbers {
    pub fn below(&mut self, limit: usize) -> usize {
        self.0 = self.0.wrapping_mul(6364136223846793005).wrapping_add(1442695040888963407);
        (self.0 >> 33) as usize % limit
    }
}

/// An empty folder that goes with its value.
pub struct Folder(pub PathBuf);

impl Folder {
    pub fn new(name: &str) -> Folder {
        let path = std::env::temp_dir().join(format!("rim-{name}-{}", std::process::id()));
        std::fs::create_dir_all(&path).expect("a folder for the test");
        Folder(path)
    }

    pub fn names(&self) -> Vec<String> {
        let files = std::fs::read_dir(&self.0).expect("the folder");
        let name = |file: std::fs::DirEntry| file.file_name().to_string_lossy().into_owned();
        let mut names: Vec<String> = files.map(|file| name(file.expect("a file"))).collect();
        names.sort();
        names
    }
}

impl Drop for Folder {
    fn drop(&mut self) {
        let _ = std::fs::remove_dir_all(&self.0);
    }
}
