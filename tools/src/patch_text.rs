//! A patch from elsewhere, as text in the form that the bench program prints (rule 5.4): a line
//! `patch N T TOTAL`, then a line for each triangle, which begins with its vertices. What follows them
//! is not read. Lines, and vertices in a line, may have any order.

use crate::text::{lines, text};

/// A triangle and the line it stands on, counted from 1.
#[derive(Clone, Copy, Debug, PartialEq, Eq)]
pub struct StatedTriangle {
    pub line: usize,
    /// In rising order. The rim need not have them.
    pub vertices: [u64; 3],
}

/// What the text says.
#[derive(Clone, Debug, PartialEq, Eq)]
pub struct StatedPatch {
    /// The line that states the next two, counted from 1.
    pub line: usize,
    /// How many vertices the rim has.
    pub vertices: u64,
    pub total: u64,
    pub triangles: Vec<StatedTriangle>,
}

/// The patch, or the first thing that keeps the text from being read.
pub fn parse(bytes: &[u8]) -> Result<StatedPatch, String> {
    let text = text(bytes, "patch")?;
    let mut lines = lines(&text);
    let (line, first) = lines.next().ok_or("there is no line in the text")?;
    let [vertices, count, total] = header(first).map_err(|why| at(line, why))?;
    let triangles = lines.map(stated_triangle).collect::<Result<Vec<StatedTriangle>, String>>()?;
    let listed = triangles.len();
    if listed as u64 != count {
        return Err(at(line, format!("it says {count} triangles, the text has {listed}")));
    }
    Ok(StatedPatch { line, vertices, total, triangles })
}

fn at(line: usize, why: String) -> String {
    format!("line {line}: {why}")
}

/// N, T and TOTAL of the first line.
fn header(words: &str) -> Result<[u64; 3], String> {
    let words: Vec<&str> = words.split_whitespace().collect();
    let ["patch", n, t, total] = words[..] else {
        return Err("a patch begins with the line patch N T TOTAL".into());
    };
    Ok([number(n)?, number(t)?, number(total)?])
}

fn stated_triangle((line, words): (usize, &str)) -> Result<StatedTriangle, String> {
    let vertices = vertices(words).map_err(|why| at(line, why))?;
    Ok(StatedTriangle { line, vertices })
}

fn vertices(words: &str) -> Result<[u64; 3], String> {
    let words: Vec<&str> = words.split_whitespace().take(3).collect();
    let [a, b, c] = words[..] else {
        return Err(format!("a triangle has 3 vertices, this line has {}", words.len()));
    };
    let mut vertices = [number(a)?, number(b)?, number(c)?];
    vertices.sort_unstable();
    Ok(vertices)
}

fn number(word: &str) -> Result<u64, String> {
    word.parse().map_err(|_| format!("'{word}' is not a whole number (a comment starts with #)"))
}
