//! Where a picture is seen from, and how its millimetres become pixels.

use crate::geometry::plane_normal;
use crate::vectors::{cross, dot, minus, unit};

pub type Vector = [f64; 3];
pub type Flat = [f64; 2];

/// Where the patch is looked at from.
#[derive(Clone, Copy, Debug, PartialEq)]
pub struct View {
    /// None is a direction without a name.
    name: Option<&'static str>,
    direction: Vector,
}

const TOP: View = View { name: Some("top"), direction: [0.0, 0.0, 1.0] };
const FRONT: View = View { name: Some("front"), direction: [0.0, -1.0, 0.0] };
const SIDE: View = View { name: Some("side"), direction: [1.0, 0.0, 0.0] };
const CORNER: View = View { name: Some("corner"), direction: [1.0, -1.0, 1.0] };
const NAMED: [View; 4] = [TOP, FRONT, SIDE, CORNER];

impl View {
    /// From the top; but a flat rim, which can be a line from there, from where it looks largest, and a
    /// rim on one line, which can be a dot, from where it looks longest.
    pub fn showing(points: &[[i64; 3]]) -> View {
        // How well the rim shows as seen along each axis.
        let [x, y, z] = match plane_normal(points) {
            None => [0; 3],
            Some([0, 0, 0]) => minus(points[1], points[0]).map(|along| -along.abs()),
            Some(normal) => normal.map(i64::abs),
        };
        if z >= x.max(y) {
            TOP
        } else if y >= x {
            FRONT
        } else {
            SIDE
        }
    }

    /// The view of a name, or of a direction X,Y,Z.
    pub fn named(word: &str) -> Result<View, String> {
        if let Some(view) = NAMED.iter().find(|view| view.name == Some(word)) {
            return Ok(*view);
        }
        let numbers: Result<Vec<f64>, _> =
            word.split(',').map(|part| part.trim().parse()).collect();
        match numbers.as_deref() {
            Ok(&[x, y, z]) if is_direction([x, y, z]) => {
                Ok(View { name: None, direction: [x, y, z] })
            }
            _ => Err(format!(
                "--from takes top, front, side, corner or a direction X,Y,Z, not '{word}'"
            )),
        }
    }

    pub fn shown(&self) -> String {
        match self.name {
            Some(name) => format!("seen from the {name}"),
            None => {
                let [x, y, z] = self.direction;
                format!("seen from ({x}, {y}, {z})")
            }
        }
    }
}

/// Neither zero, nor so large or small that its square is lost; no NaN compares so.
fn is_direction(p: Vector) -> bool {
    (1e-12..1e12).contains(&dot(p, p))
}

/// The axes of the picture: to the right, up, and towards the viewer.
pub struct Camera {
    right: Vector,
    up: Vector,
    pub towards: Vector,
}

impl Camera {
    /// The height goes up, or, seen from above or below, y.
    pub fn new(view: View) -> Camera {
        let towards = unit(view.direction);
        let above = towards[0].abs().max(towards[1].abs()) < 1e-6;
        let right = unit(cross(if above { [0.0, 1.0, 0.0] } else { [0.0, 0.0, 1.0] }, towards));
        Camera { right, up: cross(towards, right), towards }
    }

    pub fn flat(&self, p: Vector) -> Flat {
        [dot(self.right, p), dot(self.up, p)]
    }

    pub fn depth(&self, p: Vector) -> f64 {
        dot(self.towards, p)
    }
}

/// From millimetres of the view to pixels; up goes down there.
pub struct Scale {
    pub pixels: f64,
    lowest: Flat,
    highest: Flat,
}

pub const WIDTH: f64 = 640.0;
const HEIGHT: f64 = 520.0;
pub const MARGIN: f64 = 44.0;

impl Scale {
    pub fn fitting(points: &[Flat]) -> Scale {
        let ends = |k: usize| {
            let numbers = points.iter().map(|p| p[k]);
            (
                numbers.clone().fold(f64::INFINITY, f64::min),
                numbers.fold(f64::NEG_INFINITY, f64::max),
            )
        };
        let [(left, right), (bottom, top)] = [ends(0), ends(1)];
        let step = 0.125;
        let pixels = (WIDTH / (right - left).max(step)).min(HEIGHT / (top - bottom).max(step));
        // Every picture has one width; a narrower rim stands in the middle.
        let spare = (WIDTH / pixels - (right - left)) / 2.0;
        Scale { pixels, lowest: [left - spare, bottom], highest: [right + spare, top] }
    }

    pub fn height(&self) -> f64 {
        (self.highest[1] - self.lowest[1]) * self.pixels
    }

    pub fn origin(&self) -> Flat {
        [MARGIN - self.lowest[0] * self.pixels, MARGIN + self.highest[1] * self.pixels]
    }

    pub fn pixel(&self, p: Flat) -> Flat {
        let [x, y] = self.origin();
        [x + p[0] * self.pixels, y - p[1] * self.pixels]
    }
}
