//! A patch as a mesh in millimetres: ASCII STL, OBJ.

use crate::patch::{Patch, Triangle};
use crate::rim_file::millimetres;
use crate::vectors::unit_normal;
use std::fmt::Write;

fn words(numbers: [f64; 3]) -> String {
    let [x, y, z] = numbers;
    format!("{x} {y} {z}")
}

fn place(point: [i64; 3]) -> String {
    words(point.map(millimetres))
}

/// To six decimals, without minus zeros. No candidate is on one line.
fn shown_normal(corners: [[i64; 3]; 3]) -> String {
    words(unit_normal(corners).map(|x| (x * 1e6).round() / 1e6 + 0.0))
}

fn corners(patch: &Patch, triangle: &Triangle) -> [[i64; 3]; 3] {
    triangle.vertices.map(|vertex| patch.vertices[vertex as usize])
}

pub fn stl(patch: &Patch) -> String {
    let mut text = String::from("solid patch\n");
    for triangle in &patch.triangles {
        let corners = corners(patch, triangle);
        let [a, b, c] = corners.map(place);
        let normal = shown_normal(corners);
        write!(
            text,
            "facet normal {normal}\n  outer loop\n    vertex {a}\n    vertex {b}\n    vertex {c}\n  endloop\nendfacet\n"
        )
        .expect("a string takes any text");
    }
    text + "endsolid patch\n"
}

/// OBJ counts vertices from 1.
pub fn obj(patch: &Patch) -> String {
    let vertices = patch.vertices.iter().map(|&point| format!("v {}\n", place(point)));
    let faces = patch.triangles.iter().map(|triangle| {
        let [a, b, c] = triangle.vertices.map(|vertex| vertex + 1);
        format!("f {a} {b} {c}\n")
    });
    let parts = ["# a patch, in millimetres\no patch\n".to_string()];
    parts.into_iter().chain(vertices).chain(faces).collect()
}
