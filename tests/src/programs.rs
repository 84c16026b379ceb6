//! Programs that take a rim file on standard input, where a variable of the environment names them.

use crate::comparison::hexadecimal;
use crate::law::program;
use std::io::Write;
use std::process::{Command, Stdio};

/// A program by its variable, and what the law expects it to write for a file.
pub struct Program {
    variable: &'static str,
    expected: fn(&[u8]) -> Vec<u8>,
}

pub const BENCH: Program =
    Program { variable: "BENCH_PROGRAM", expected: |file| program::bench(file).into_bytes() };

pub const TRIM: Program =
    Program { variable: "TRIM_PROGRAM", expected: |file| program::trim(file).into_bytes() };

pub const CONVERT: Program = Program { variable: "CONVERT_PROGRAM", expected: program::converted };

impl Program {
    /// What the program writes, or nothing where the variable names none.
    pub fn written(&self, file: &[u8]) -> Option<Vec<u8>> {
        let program = std::env::var_os(self.variable)?;
        let mut command = Command::new(program);
        command.stdin(Stdio::piped()).stdout(Stdio::piped());
        let mut child =
            command.spawn().unwrap_or_else(|error| panic!("{}: {error}", self.variable));
        // The program may stop reading once it knows its answer.
        let _ = child.stdin.take().expect("piped").write_all(file);
        Some(child.wait_with_output().expect("the program ends").stdout)
    }

    /// The program, where there is one, writes what is expected for the file and no more; what that is.
    pub fn compare(&self, file: &[u8]) -> Vec<u8> {
        let expected = (self.expected)(file);
        if let Some(written) = self.written(file) {
            self.same(file, &written, &expected);
        }
        expected
    }

    /// The law expects these bytes, and the program, where there is one, writes them.
    pub fn expect(&self, file: &[u8], expected: &[u8]) {
        self.same(file, &(self.expected)(file), expected);
        if let Some(written) = self.written(file) {
            self.same(file, &written, expected);
        }
    }

    /// The same of the one line of a refusal.
    pub fn expect_refusal(&self, file: &[u8], number: u32) {
        self.expect(file, format!("refused {number}\n").as_bytes());
    }

    fn same(&self, file: &[u8], bytes: &[u8], expected: &[u8]) {
        let [one, two] = [bytes, expected].map(|bytes| bytes.escape_ascii());
        let name = self.variable;
        assert!(bytes == expected, "{name}: {one} for {two} on file {}", hexadecimal(file));
    }
}
