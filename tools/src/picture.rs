//! A patch as a picture (SVG): rim edges strong, inner edges thin, vertices numbered, triangles shaded
//! by how they face the viewer, and a stroke for each normal of the surface outside. Lines and areas are
//! in millimetres of the view; letters and strokes are in pixels.

use crate::patch::Patch;
use crate::rim_file::millimetres;
use crate::vectors::{dot, unit, unit_normal};
use crate::view::{Camera, Flat, Scale, Vector, View, MARGIN, WIDTH};
use std::fmt::Write;

/// Pixels below the rim, for the scale and the caption.
const CAPTION: f64 = 78.0;

/// Pixels of a normal that is seen in its full length.
const STROKE: f64 = 26.0;

/// A number to at most so many decimals, without idle zeros.
fn decimals(value: f64, places: usize) -> String {
    let text = format!("{value:.places$}");
    let text =
        if text.contains('.') { text.trim_end_matches('0').trim_end_matches('.') } else { &text };
    if text == "-0" {
        "0".into()
    } else {
        text.into()
    }
}

fn pair([x, y]: Flat, places: usize) -> String {
    format!("{},{}", decimals(x, places), decimals(y, places))
}

struct Drawing<'a> {
    patch: &'a Patch,
    points: Vec<Vector>,
    flat: Vec<Flat>,
    camera: Camera,
    scale: Scale,
    text: String,
}

/// The picture of a patch; of 'none', the rim alone.
pub fn svg(patch: &Patch, view: Option<View>) -> String {
    let view = view.unwrap_or_else(|| View::showing(&patch.vertices));
    let points: Vec<Vector> = patch.vertices.iter().map(|point| point.map(millimetres)).collect();
    let camera = Camera::new(view);
    let flat: Vec<Flat> = points.iter().map(|&p| camera.flat(p)).collect();
    let scale = Scale::fitting(&flat);
    let mut drawing = Drawing { patch, points, flat, camera, scale, text: String::new() };
    drawing.head();
    drawing.surface();
    drawing.normals();
    drawing.vertices();
    drawing.caption(view);
    drawing.text + "</svg>\n"
}

impl Drawing<'_> {
    fn line(&mut self, words: std::fmt::Arguments) {
        writeln!(self.text, "{words}").expect("a string takes any text");
    }

    fn head(&mut self) {
        let width = WIDTH + 2.0 * MARGIN;
        let height = decimals((self.scale.height() + 2.0 * MARGIN + CAPTION).ceil(), 0);
        self.line(format_args!(
            "<svg xmlns=\"http://www.w3.org/2000/svg\" width=\"{width}\" height=\"{height}\" \
             viewBox=\"0 0 {width} {height}\" font-family=\"sans-serif\" font-size=\"12\">"
        ));
        self.line(format_args!("<rect width=\"100%\" height=\"100%\" fill=\"white\"/>"));
    }

    /// Triangles from the farthest to the nearest, each with its edges; or the rim alone.
    fn surface(&mut self) {
        let pixels = self.scale.pixels;
        let [x, y] = self.scale.origin();
        let (matrix_scale, origin) =
            (decimals(pixels, 6), format!("{} {}", decimals(x, 3), decimals(y, 3)));
        self.line(format_args!(
            "<g transform=\"matrix({matrix_scale} 0 0 -{matrix_scale} {origin})\" stroke=\"black\" \
             stroke-linejoin=\"round\" stroke-linecap=\"round\">"
        ));
        let mut order: Vec<usize> = (0..self.patch.triangles.len()).collect();
        order.sort_by(|&s, &t| self.middle_depth(s).total_cmp(&self.middle_depth(t)));
        for t in order {
            self.triangle(t);
        }
        if self.patch.triangles.is_empty() {
            let n = self.flat.len();
            (0..n).for_each(|i| self.edge(i, (i + 1) % n));
        }
        self.hidden_edges();
        self.line(format_args!("</g>"));
    }

    /// The whole rim once more, dashed: this shows where a nearer triangle has covered it.
    fn hidden_edges(&mut self) {
        let points: Vec<String> = self.flat.iter().map(|&p| pair(p, 4)).collect();
        let [width, dash] = [1.0, 4.0].map(|pixels| decimals(pixels / self.scale.pixels, 6));
        self.line(format_args!(
            "<path d=\"M{} Z\" fill=\"none\" stroke-width=\"{width}\" stroke-dasharray=\"{dash}\"/>",
            points.join(" ")
        ));
    }

    fn corners(&self, t: usize) -> [usize; 3] {
        self.patch.triangles[t].vertices.map(usize::from)
    }

    fn middle_depth(&self, t: usize) -> f64 {
        self.corners(t).iter().map(|&k| self.camera.depth(self.points[k])).sum()
    }

    /// The cosine between the normal (rule 2.6) and the viewer: below zero the back is seen.
    fn facing(&self, t: usize) -> f64 {
        dot(unit_normal(self.corners(t).map(|k| self.patch.vertices[k])), self.camera.towards)
    }

    /// Sand in front, blue behind; darker where it is steep.
    fn colour(&self, t: usize) -> String {
        let facing = self.facing(t);
        let colour = if facing >= 0.0 { [240.0, 212.0, 158.0] } else { [160.0, 188.0, 218.0] };
        let [red, green, blue] =
            colour.map(|part: f64| (part * (0.6 + 0.4 * facing.abs())).round() as u8);
        format!("#{red:02x}{green:02x}{blue:02x}")
    }

    fn triangle(&mut self, t: usize) {
        let corners @ [a, b, c] = self.corners(t);
        let points = corners.map(|k| pair(self.flat[k], 4)).join(" ");
        let colour = self.colour(t);
        self.line(format_args!("<polygon points=\"{points}\" fill=\"{colour}\" stroke=\"none\"/>"));
        // Thin edges first, so that strong ones stay whole.
        let mut edges = [(a, b), (b, c), (a, c)];
        edges.sort_by_key(|&(i, j)| self.is_rim_edge(i, j));
        edges.iter().for_each(|&(i, j)| self.edge(i, j));
    }

    fn is_rim_edge(&self, i: usize, j: usize) -> bool {
        let (low, high) = (i.min(j), i.max(j));
        high == low + 1 || (low == 0 && high + 1 == self.flat.len())
    }

    fn edge(&mut self, i: usize, j: usize) {
        let width = if self.is_rim_edge(i, j) { 2.6 } else { 0.8 };
        let width = decimals(width / self.scale.pixels, 6);
        let [p, q] = [i, j].map(|k| pair(self.flat[k], 4));
        self.line(format_args!("<path d=\"M{p} {q}\" stroke-width=\"{width}\"/>"));
    }

    /// Away from the rim at a vertex, by the edges beside it; onwards where the rim turns back.
    fn outward(&self, k: usize) -> Flat {
        let n = self.flat.len();
        let [before, at, after] = [(k + n - 1) % n, k, (k + 1) % n].map(|i| self.flat[i]);
        let step = |p: Flat, q: Flat| direction([q[0] - p[0], q[1] - p[1]]);
        let [u, v] = [step(before, at), step(at, after)];
        let along = [u[0] + v[0], u[1] + v[1]];
        let turn = self.doubled_area().signum();
        match direction(along) {
            [0.0, 0.0] => u,
            [x, y] => [y * turn, -x * turn],
        }
    }

    fn doubled_area(&self) -> f64 {
        let n = self.flat.len();
        let part = |i: usize| {
            let [p, q] = [self.flat[i], self.flat[(i + 1) % n]];
            p[0] * q[1] - p[1] * q[0]
        };
        (0..n).map(part).sum()
    }

    /// From the middle of a rim edge, the normal of the surface outside it.
    fn normals(&mut self) {
        let n = self.flat.len();
        for k in 0..n {
            let normal = self.patch.normals[k];
            if normal == [0; 3] {
                continue;
            }
            let [p, q] = [k, (k + 1) % n].map(|i| self.scale.pixel(self.flat[i]));
            let [x, y] = [0, 1].map(|i| (p[i] + q[i]) / 2.0);
            let [u, v] = self.camera.flat(unit(normal.map(|part| part as f64)));
            let [from, to] = [pair([x, y], 1), pair([x + STROKE * u, y - STROKE * v], 1)];
            self.line(format_args!(
                "<path d=\"M{from} {to}\" stroke=\"#1f6f3f\" stroke-width=\"2\"/>"
            ));
            let centre = [x, y].map(|z| decimals(z, 1));
            self.line(format_args!(
                "<circle cx=\"{}\" cy=\"{}\" r=\"2.5\" fill=\"#1f6f3f\"/>",
                centre[0], centre[1]
            ));
        }
    }

    fn vertices(&mut self) {
        for k in 0..self.flat.len() {
            let [x, y] = self.scale.pixel(self.flat[k]);
            let [u, v] = self.outward(k);
            let radius = if k == 0 { 5 } else { 3 };
            let centre = [x, y].map(|z| decimals(z, 1));
            self.line(format_args!(
                "<circle cx=\"{}\" cy=\"{}\" r=\"{radius}\"/>",
                centre[0], centre[1]
            ));
            let label = [x + 14.0 * u, y - 14.0 * v + 4.0].map(|z| decimals(z, 1));
            self.line(format_args!(
                "<text x=\"{}\" y=\"{}\" text-anchor=\"middle\" stroke=\"white\" stroke-width=\"3\" \
                 paint-order=\"stroke\">{k}</text>",
                label[0], label[1]
            ));
        }
    }

    fn caption(&mut self, view: View) {
        let top = self.scale.height() + 2.0 * MARGIN + 10.0;
        self.scale_bar(top);
        self.axes(top + 22.0);
        let (vertices, triangles) = (self.points.len(), self.patch.triangles.len());
        let outcome = match &self.patch.none {
            Some(why) => format!("{vertices} vertices; {why}"),
            None => {
                format!("{vertices} vertices, {triangles} triangles, total {}", self.patch.total)
            }
        };
        let back = (0..triangles).any(|t| self.facing(t) < 0.0);
        let back = if back { "; blue is the back" } else { "" };
        let normals = self.patch.normals.iter().any(|&normal| normal != [0; 3]);
        let normals = if normals { "; green are the normals outside" } else { "" };
        let lines = [outcome, format!("{}; {}{back}{normals}", self.extent(), view.shown())];
        for (line, place) in lines.iter().zip([32.0, 50.0]) {
            let y = decimals(top + place, 1);
            self.line(format_args!("<text x=\"{MARGIN}\" y=\"{y}\">{line}</text>"));
        }
    }

    fn extent(&self) -> String {
        let along = |k: usize| {
            let numbers = self.patch.vertices.iter().map(|p| p[k]);
            let (low, high) = (numbers.clone().min().unwrap_or(0), numbers.max().unwrap_or(0));
            millimetres(high - low)
        };
        format!("{} mm in x, {} mm in y, {} mm in z", along(0), along(1), along(2))
    }

    /// A bar of 1, 2 or 5 times a power of ten millimetres, at most a third of the width.
    fn scale_bar(&mut self, top: f64) {
        let most = WIDTH / 3.0 / self.scale.pixels;
        let lengths = [0.01, 0.1, 1.0, 10.0, 100.0]
            .into_iter()
            .flat_map(|power| [power, 2.0 * power, 5.0 * power]);
        let length = lengths.filter(|&length| length <= most).fold(0.01, f64::max);
        let [left, right] = [MARGIN, MARGIN + length * self.scale.pixels].map(|x| decimals(x, 1));
        let (high, low) = (decimals(top - 4.0, 1), decimals(top + 4.0, 1));
        let middle = decimals(top, 1);
        self.line(format_args!(
            "<path d=\"M{left},{high} V{low} M{left},{middle} H{right} M{right},{high} V{low}\" stroke=\"black\" fill=\"none\"/>"
        ));
        let words = MARGIN + length * self.scale.pixels + 8.0;
        let length = decimals(length, 2);
        self.line(format_args!(
            "<text x=\"{}\" y=\"{}\">{length} mm</text>",
            decimals(words, 1),
            decimals(top + 4.0, 1)
        ));
    }

    /// The axes of space, those that are seen.
    fn axes(&mut self, y: f64) {
        let x = MARGIN + WIDTH - 40.0;
        for (axis, name) in ["x", "y", "z"].into_iter().enumerate() {
            let mut end = [0.0; 3];
            end[axis] = 1.0;
            let [u, v] = self.camera.flat(end);
            if u.abs().max(v.abs()) < 0.05 {
                continue;
            }
            let [from, to] = [pair([x, y], 1), pair([x + 28.0 * u, y - 28.0 * v], 1)];
            self.line(format_args!(
                "<path d=\"M{from} {to}\" stroke=\"#a02020\" stroke-width=\"1.5\"/>"
            ));
            let letter = [x + 37.0 * u, y - 37.0 * v + 4.0].map(|z| decimals(z, 1));
            self.line(format_args!(
                "<text x=\"{}\" y=\"{}\" text-anchor=\"middle\" fill=\"#a02020\">{name}</text>",
                letter[0], letter[1]
            ));
        }
    }
}

/// Of length 1, or zero where there is no direction.
fn direction([x, y]: Flat) -> Flat {
    let length = (x * x + y * y).sqrt();
    if length < 1e-9 {
        [0.0, 0.0]
    } else {
        [x / length, y / length]
    }
}
