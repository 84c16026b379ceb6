//! Rim files for people: made from a list of points, shown as text, their patches as meshes and
//! pictures, priced, and patches from elsewhere judged. Rules are those of docs/SPECIFICATION.md.

#![forbid(unsafe_code)]

pub mod arguments;
pub mod diagnosis;
pub mod geometry;
pub mod job;
pub mod judge;
pub mod list;
pub mod mesh;
pub mod output;
pub mod patch;
pub mod patch_text;
pub mod picture;
pub mod points;
pub mod price;
pub mod rim_file;
pub mod show;
pub mod text;
pub mod vectors;
pub mod view;

/// Why a command ended without what was asked for, in one line.
#[derive(Clone, Debug, PartialEq, Eq)]
pub enum Failure {
    /// The list, the rim or the patch is refused, or the rim has no patch.
    Refused(String),
    /// Arguments, files, a text that is no patch of the rim.
    CannotRun(String),
}

impl Failure {
    pub fn status(&self) -> u8 {
        match self {
            Failure::Refused(_) => 1,
            Failure::CannotRun(_) => 2,
        }
    }

    pub fn line(&self) -> &str {
        match self {
            Failure::Refused(line) | Failure::CannotRun(line) => line,
        }
    }
}
