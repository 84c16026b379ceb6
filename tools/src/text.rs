//! Texts that people and programs write: a line for each thing, and `#` starts a comment.

/// Bytes of the longest text.
pub const MAX_BYTES: usize = 1 << 20;

/// The text of a file of this kind. Bytes that are not UTF-8 can do no harm in a comment, and are no
/// number elsewhere.
pub fn text(bytes: &[u8], kind: &str) -> Result<String, String> {
    if bytes.len() > MAX_BYTES {
        return Err(format!("a {kind} has at most {MAX_BYTES} bytes"));
    }
    if bytes.starts_with(&[0xff, 0xfe]) || bytes.starts_with(&[0xfe, 0xff]) {
        return Err(format!("the {kind} is UTF-16 text: save it as UTF-8 or plain text"));
    }
    if bytes.contains(&0) {
        return Err(format!("this is no {kind}: it has bytes that are no text"));
    }
    let text = String::from_utf8_lossy(bytes);
    Ok(text.strip_prefix('\u{feff}').unwrap_or(&text).to_string())
}

/// The lines that are more than a comment, each with its number, counted from 1.
pub fn lines(text: &str) -> impl Iterator<Item = (usize, &str)> {
    let words = text.lines().map(|line| line.split('#').next().unwrap_or("").trim());
    (1..).zip(words).filter(|(_, words)| !words.is_empty())
}
