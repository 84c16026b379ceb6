//! Input and output as a whole: what is written is complete, or it is not written.

use std::fs::{self, File, OpenOptions};
use std::io::{self, IsTerminal, Read, Write};
use std::path::{Path, PathBuf};

/// A file, or for `-` the standard stream.
#[derive(Clone, Debug, PartialEq, Eq)]
pub enum Place {
    Standard,
    File(PathBuf),
}

impl Place {
    /// The name for messages.
    pub fn name(&self) -> String {
        match self {
            Place::Standard => "standard input".into(),
            Place::File(path) => path.display().to_string(),
        }
    }
}

/// An error without the number that the operating system gives it.
pub fn reason(error: &io::Error) -> String {
    let text = error.to_string();
    text.split(" (os error").next().unwrap_or(&text).to_string()
}

/// The first bytes of an input, up to a limit.
pub fn read(place: &Place, limit: u64) -> io::Result<Vec<u8>> {
    let mut bytes = Vec::new();
    match place {
        Place::Standard => io::stdin().lock().take(limit).read_to_end(&mut bytes)?,
        Place::File(path) => File::open(path)?.take(limit).read_to_end(&mut bytes)?,
    };
    Ok(bytes)
}

/// Where bytes that are no text would go to a screen.
pub fn is_screen(place: &Place) -> bool {
    *place == Place::Standard && io::stdout().is_terminal()
}

pub fn write(place: &Place, bytes: &[u8]) -> io::Result<()> {
    match place {
        Place::Standard => {
            let mut out = io::stdout().lock();
            out.write_all(bytes)?;
            out.flush()
        }
        // A device or a pipe cannot be replaced; a directory is refused by the system.
        Place::File(path) if fs::metadata(path).is_ok_and(|data| !data.is_file()) => {
            OpenOptions::new().write(true).open(path)?.write_all(bytes)
        }
        Place::File(path) => replace(&fs::canonicalize(path).unwrap_or(path.clone()), bytes),
    }
}

/// Writes a new file beside the old one and puts it in its place.
fn replace(path: &Path, bytes: &[u8]) -> io::Result<()> {
    let name = path.file_name().ok_or(io::ErrorKind::InvalidFilename)?;
    let beside =
        path.with_file_name(format!(".{}.{}.tmp", name.to_string_lossy(), std::process::id()));
    let written = write_new(&beside, bytes).and_then(|()| {
        if let Ok(old) = fs::metadata(path) {
            fs::set_permissions(&beside, old.permissions())?;
        }
        fs::rename(&beside, path)
    });
    if written.is_err() {
        let _ = fs::remove_file(&beside);
    }
    written
}

fn write_new(path: &Path, bytes: &[u8]) -> io::Result<()> {
    let mut file = OpenOptions::new().write(true).create_new(true).open(path)?;
    file.write_all(bytes)?;
    file.sync_all()
}
