//! A list of points as people have it: a line `x y z` in millimetres for each, or `x y` for a level
//! point, which takes the height of the point before it. After either, `normal nx ny nz` is the normal
//! of the existing surface at the edge to the next point. The word keeps apart a normal and
//! coordinates with decimal commas, which would be as many numbers.

use crate::rim_file::{grid_number, Point, LIMIT, NORMAL_AXES, NORMAL_LIMIT};
use crate::text::{lines, text};
use crate::vectors::unit;
use patch_box::MAX_VERTICES;
use std::str::FromStr;

/// The word between a point and its normal.
pub const NORMAL: &str = "normal";

/// A point and the line it stands on, counted from 1.
#[derive(Clone, Copy, Debug, PartialEq)]
pub struct Listed {
    pub line: usize,
    pub point: Point,
}

/// What a comma is in the list.
#[derive(Clone, Copy, Debug, PartialEq, Eq)]
pub enum Comma {
    Separator,
    DecimalMark,
}

/// The points of a list that makes an accepted file (rules 4.5, 4.7 to 4.11, 4.18), or the first thing
/// wrong with it.
pub fn points(bytes: &[u8], comma: Comma) -> Result<Vec<Point>, String> {
    let listed = parse(&text(bytes, "list of points")?, comma)?;
    check_count(&listed)?;
    check_distinct(&listed)?;
    Ok(listed.iter().map(|listed| listed.point).collect())
}

fn parse(text: &str, comma: Comma) -> Result<Vec<Listed>, String> {
    let mut listed = Vec::new();
    for (line, words) in lines(text) {
        let point = point(words, comma).and_then(|point| match (point.height, listed.len()) {
            (_, MAX_VERTICES) => Err(format!("a rim has at most {MAX_VERTICES} points")),
            (None, 0) => Err("a level point has the height of the point before it; the first point needs x, y and z".into()),
            _ => Ok(point),
        });
        listed.push(Listed { line, point: point.map_err(|why| format!("line {line}: {why}"))? });
    }
    Ok(listed)
}

fn point(words: &str, comma: Comma) -> Result<Point, String> {
    let fields = fields(words, comma)?;
    let mut parts = fields.splitn(2, |&field| field == NORMAL);
    let place = parts.next().unwrap_or_default();
    let after = parts.next();
    let (x, y, z) = match *place {
        [x, y] => (x, y, None),
        [x, y, z] => (x, y, Some(z)),
        _ => return Err(wrong_count(place.len(), after.is_some(), hint(words, comma))),
    };
    Ok(Point {
        x: coordinate("x", x)?,
        y: coordinate("y", y)?,
        height: z.map(|z| coordinate("z", z)).transpose()?,
        normal: after.map(|fields| normal(fields, hint(words, comma))).transpose()?,
    })
}

fn wrong_count(count: usize, has_normal: bool, hint: &str) -> String {
    let more = match count {
        _ if has_normal => " before the word normal",
        5 | 6 if hint.is_empty() => "; a normal comes after the word normal",
        _ => hint,
    };
    format!("a point has 3 numbers (x y z) and a level point 2 (x y), this line has {count}{more}")
}

/// Rule 1.13. Whole numbers are taken as they are. With a decimal mark among them the three are a
/// direction, which is brought to full length.
fn normal(fields: &[&str], hint: &str) -> Result<[i16; 3], String> {
    let &[x, y, z] = fields else {
        let count = fields.len();
        return Err(format!(
            "a normal has 3 numbers (normal nx ny nz), this line has {count} after the word{hint}"
        ));
    };
    let numbers = [number::<f64>(x)?, number(y)?, number(z)?];
    let whole = !fields.iter().any(|field| field.contains(['.', ',', 'e', 'E']));
    let limit = if whole { NORMAL_LIMIT as f64 } else { f64::MAX };
    if let Some(k) = numbers.iter().position(|number| number.abs() > limit) {
        let (axis, field) = (NORMAL_AXES[k], fields[k]);
        return Err(format!("{axis} = {field} is out of range: a whole number of a normal is from -{NORMAL_LIMIT} to {NORMAL_LIMIT}"));
    }
    let numbers = if whole { numbers } else { full_length(numbers) };
    Ok(numbers.map(|number| number.round() as i16))
}

/// Three zeros stay so: they are no direction, but mean that there is no surface.
fn full_length(direction: [f64; 3]) -> [f64; 3] {
    let longest = direction.iter().fold(0.0, |longest: f64, part| longest.max(part.abs()));
    if longest == 0.0 {
        return direction;
    }
    // Divided first, so that no square is too large or too small for a double.
    unit(direction.map(|part| part / longest)).map(|part| part * NORMAL_LIMIT as f64)
}

fn hint(words: &str, comma: Comma) -> &'static str {
    let unclear = comma == Comma::Separator && words.contains(',');
    if unclear {
        "; where commas are decimal marks, use --decimal-comma"
    } else {
        ""
    }
}

/// A line has one separator: semicolons, commas, or blanks and tabs. Blanks may stand beside the
/// others, and a last separator may end the line.
fn fields(words: &str, comma: Comma) -> Result<Vec<&str>, String> {
    let separator = [';', ',']
        .into_iter()
        .find(|&mark| words.contains(mark) && (mark == ';' || comma == Comma::Separator));
    let Some(separator) = separator else {
        return Ok(words.split_whitespace().collect());
    };
    let words = words.strip_suffix(separator).unwrap_or(words);
    let fields: Vec<&str> = words.split(separator).map(str::trim).collect();
    if fields.contains(&"") {
        return Err(format!("a number is missing beside a '{separator}'"));
    }
    let mixed = |field: &&str| {
        field.contains(char::is_whitespace) || (comma == Comma::Separator && field.contains(','))
    };
    if fields.iter().any(mixed) {
        return Err(format!("numbers are separated in two ways{}", hint(words, comma)));
    }
    Ok(fields)
}

/// The words inf and nan have no digit.
fn number<T: FromStr>(field: &str) -> Result<T, String> {
    let plain = field.replace('\u{2212}', "-").replace(',', ".");
    match plain.parse() {
        Ok(value) if field.contains(|c: char| c.is_ascii_digit()) => Ok(value),
        _ => Err(format!("'{field}' is not a number (a comment starts with #)")),
    }
}

/// A coordinate in range (rules 4.8 and 4.9).
fn coordinate(axis: &str, field: &str) -> Result<f32, String> {
    let value: f32 = number(field)?;
    if value.abs() <= LIMIT {
        Ok(value)
    } else {
        Err(format!(
            "{axis} = {field} is out of range: a coordinate is from -{LIMIT} to {LIMIT} mm"
        ))
    }
}

fn check_count(listed: &[Listed]) -> Result<(), String> {
    match listed.len() {
        0 => Err("there is no point in the list".into()),
        count @ 1..=2 => Err(format!("a rim has at least 3 points, the list has {count}")),
        _ => Ok(()),
    }
}

/// The grid points, with the heights of level points filled in.
fn grid_points(listed: &[Listed]) -> Vec<[i64; 3]> {
    let mut height = 0.0;
    let grid = listed.iter().map(|&Listed { point, .. }| {
        height = point.height.unwrap_or(height);
        [point.x, point.y, height].map(grid_number)
    });
    grid.collect()
}

fn check_distinct(listed: &[Listed]) -> Result<(), String> {
    let grid = grid_points(listed);
    let last = grid.len() - 1;
    for (later, point) in grid.iter().enumerate() {
        if let Some(earlier) = grid[..later].iter().position(|other| other == point) {
            let hint = if (earlier, later) == (0, last) {
                "the last point joins the first by itself, so the first is not repeated"
            } else {
                "points closer than 0.125 mm can fall together"
            };
            let [one, other] = [earlier, later].map(|k| listed[k].line);
            return Err(format!("lines {one} and {other} fall on one grid point: {hint}"));
        }
    }
    Ok(())
}
