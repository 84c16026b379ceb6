//! The Delaunay faces of a polygon, or the Delaunay triangles of a flat one, as masks, and the lists
//! made from them.

use super::reader::{Polygon, MOST};
use super::vectors::{cross, dot, minus, Vector};
use super::weights::{Normal, Weights};
use crate::calls::{Row, Triangle};

/// A vector from the first corner, with its squared length.
#[derive(Clone, Copy)]
struct Lifted {
    at: Vector,
    square: i64,
}

/// The vertices as seen from vertex a.
fn lift(vertices: &[Vector], a: usize) -> [Lifted; MOST] {
    let mut lifted = [Lifted { at: [0; 3], square: 0 }; MOST];
    for (place, &vertex) in lifted.iter_mut().zip(vertices) {
        let at = minus(vertex, vertices[a]);
        *place = Lifted { at, square: dot(at, at) };
    }
    lifted
}

/// Are all vertices in one plane? They are where every two more are in one plane with vertices 0 and
/// 1, which are two points.
fn is_flat(vertices: &[Vector]) -> bool {
    let lifted = &lift(vertices, 0)[..vertices.len()];
    (2..lifted.len()).all(|c| {
        let normal = cross(lifted[1].at, lifted[c].at);
        lifted[c + 1..].iter().all(|d| dot(normal, d.at) == 0)
    })
}

/// A sphere through the origin: q is inside where orient · (orient |q|² - bound · q) is negative.
/// The sign of `orient` is already taken into both.
struct Sphere {
    orient: i64,
    bound: Vector,
}

/// What the vertices say of a sphere.
enum Scan {
    Inside(usize),
    /// None is inside, and so many are on it, the corners among them.
    Empty {
        on: usize,
    },
}

impl Sphere {
    fn side(&self, q: &Lifted) -> i64 {
        self.orient * q.square - dot(self.bound, q.at)
    }

    /// Looks at one vertex first, then at all.
    #[inline(always)]
    fn scan(&self, lifted: &[Lifted], first: usize) -> Scan {
        if self.side(&lifted[first]) < 0 {
            return Scan::Inside(first);
        }
        let mut on = 0;
        for (v, q) in lifted.iter().enumerate() {
            let side = self.side(q);
            if side < 0 {
                return Scan::Inside(v);
            }
            on += (side == 0) as usize;
        }
        Scan::Empty { on }
    }
}

/// What two corners alone decide of the sphere.
struct Pencil {
    normal: Vector,
    u: Lifted,
    v: Lifted,
    /// |u|² v - |v|² u.
    mixed: Vector,
}

impl Pencil {
    fn new(u: Lifted, v: Lifted) -> Pencil {
        let mixed = [0, 1, 2].map(|k| u.square * v.at[k] - v.square * u.at[k]);
        Pencil { normal: cross(u.at, v.at), u, v, mixed }
    }

    /// |u|² (v × t) + |v|² (t × u) + |t|² (u × v), and u · (v × t).
    fn sphere(&self, t: &Lifted) -> Option<Sphere> {
        let orient = dot(self.normal, t.at);
        if orient == 0 {
            return None;
        }
        let turned = cross(self.mixed, t.at);
        let bound = [0, 1, 2].map(|k| turned[k] + t.square * self.normal[k]);
        debug_assert_eq!(orient, dot(self.u.at, cross(self.v.at, t.at)));
        if orient < 0 {
            Some(Sphere { orient: -orient, bound: bound.map(|x| -x) })
        } else {
            Some(Sphere { orient, bound })
        }
    }

    /// The circle through the three, which says where a vertex of their plane is; none where they are
    /// on one line. It is seen along the first axis that is not in the plane, with squared lengths in
    /// space: the sphere whose fourth corner is that direction.
    fn circle(&self) -> Option<Sphere> {
        let across = self.normal.iter().position(|&x| x != 0)?;
        let mut axis = Lifted { at: [0; 3], square: 0 };
        axis.at[across] = 1;
        self.sphere(&axis)
    }

    /// Is s off the plane of the three, and w in it or on its other side?
    fn separates(&self, s: &Lifted, w: &Lifted) -> bool {
        let [i, j] = [s, w].map(|q| dot(self.normal, q.at));
        if i < 0 {
            0 <= j
        } else {
            0 < i && j <= 0
        }
    }

    /// With w separated from s and inside the sphere through s, each sphere through the three has
    /// s or w inside.
    fn refuted_by(&self, s: &Lifted, w: &Lifted) -> bool {
        self.separates(s, w) && self.sphere(s).is_some_and(|sphere| sphere.side(w) < 0)
    }
}

/// The remembered pair is tried on a three that has more vertices after it than these.
const FEW: usize = 5;

/// What is known of the faces on a pair of vertices i < j.
#[derive(Clone, Copy, Default)]
struct Pair {
    /// The mask of c in the faces (i, j, c).
    last: u64,
    /// The mask of b in the faces (i, b, j).
    middle: u64,
    /// How many faces stand before those of (i, j).
    before: u32,
}

pub struct Faces {
    n: usize,
    pairs: Vec<Pair>,
    candidates: usize,
    rows: usize,
}

impl Faces {
    /// The faces of the fours that count, of a flat polygon the threes that do, or 12.
    pub fn of(polygon: &Polygon) -> Result<Faces, u32> {
        let mut faces = Faces {
            n: polygon.n,
            pairs: vec![Pair::default(); polygon.n * polygon.n],
            candidates: 0,
            rows: 0,
        };
        let vertices = &polygon.vertices[..polygon.n];
        if is_flat(vertices) {
            faces.mark_threes(vertices)?;
        } else {
            faces.mark_fours(vertices)?;
        }
        faces.count();
        Ok(faces)
    }

    fn pair(&self, i: usize, j: usize) -> &Pair {
        &self.pairs[i * self.n + j]
    }

    fn insert(&mut self, a: usize, b: usize, c: usize) {
        self.pairs[a * self.n + b].last |= 1 << c;
        self.pairs[a * self.n + c].middle |= 1 << b;
    }

    fn insert_faces(&mut self, [a, b, c, d]: [usize; 4]) {
        self.insert(a, b, c);
        self.insert(a, b, d);
        self.insert(a, c, d);
        self.insert(b, c, d);
    }

    fn mark_threes(&mut self, vertices: &[Vector]) -> Result<(), u32> {
        let n = vertices.len();
        // What dropped the last three.
        let mut dropper = 0;
        for a in 0..n - 2 {
            let lifted = &lift(vertices, a)[..n];
            for b in a + 1..n - 1 {
                for c in b + 1..n {
                    let pencil = Pencil::new(lifted[b], lifted[c]);
                    let Some(circle) = pencil.circle() else { continue };
                    match circle.scan(lifted, dropper) {
                        Scan::Inside(v) => dropper = v,
                        Scan::Empty { on } if on > 3 => return Err(12),
                        Scan::Empty { .. } => self.insert(a, b, c),
                    }
                }
            }
        }
        Ok(())
    }

    fn mark_fours(&mut self, vertices: &[Vector]) -> Result<(), u32> {
        let n = vertices.len();
        // What dropped the last four, and the fourth corner of the last three that was left.
        let mut dropper = 0;
        let mut apex = 0;
        for a in 0..n - 3 {
            let lifted = &lift(vertices, a)[..n];
            for b in a + 1..n - 2 {
                'three: for c in b + 1..n - 1 {
                    let pencil = Pencil::new(lifted[b], lifted[c]);
                    if n - 1 - c > FEW && pencil.refuted_by(&lifted[apex], &lifted[dropper]) {
                        continue 'three;
                    }
                    for d in c + 1..n {
                        let Some(sphere) = pencil.sphere(&lifted[d]) else { continue };
                        match sphere.scan(lifted, dropper) {
                            Scan::Inside(v) => {
                                dropper = v;
                                if pencil.separates(&lifted[d], &lifted[v]) {
                                    apex = d;
                                    continue 'three;
                                }
                            }
                            Scan::Empty { on } if on > 4 => return Err(12),
                            Scan::Empty { .. } => self.insert_faces([a, b, c, d]),
                        }
                    }
                }
            }
        }
        Ok(())
    }

    fn count(&mut self) {
        for a in 0..self.n {
            for b in a + 1..self.n {
                self.pairs[a * self.n + b].before = self.candidates as u32;
                let &Pair { last: mut rest, middle, .. } = self.pair(a, b);
                let faces = rest.count_ones();
                self.candidates += faces as usize;
                self.rows += (faces * middle.count_ones()) as usize;
                while rest != 0 {
                    let c = rest.trailing_zeros() as usize;
                    rest &= rest - 1;
                    self.rows += self.pair(b, c).middle.count_ones() as usize;
                }
            }
        }
    }

    pub fn candidates(&self) -> usize {
        self.candidates
    }

    pub fn rows(&self) -> usize {
        self.rows
    }

    fn number(&self, a: usize, b: usize, c: usize) -> u32 {
        let pair = self.pair(a, b);
        pair.before + (pair.last & ((1 << c) - 1)).count_ones()
    }

    pub fn write_candidates(&self, candidates: &mut [Triangle]) {
        let mut places = candidates.iter_mut();
        for a in 0..self.n {
            for b in a + 1..self.n {
                let mut rest = self.pair(a, b).last;
                while rest != 0 {
                    let c = rest.trailing_zeros();
                    rest &= rest - 1;
                    *places.next().expect("counted") = [a as u8, b as u8, c as u8];
                }
            }
        }
    }

    pub fn write_weights_and_rows(
        &self,
        polygon: &Polygon,
        candidates: &[Triangle],
        weights: &mut [u32],
        rows: &mut [Row],
    ) {
        let mut normals = Vec::with_capacity(candidates.len());
        let own = Weights::new(polygon);
        for (place, &triangle) in weights.iter_mut().zip(candidates) {
            let normal = Normal::of(polygon, triangle);
            *place = own.own(triangle, &normal);
            normals.push(normal);
        }
        let mut places = rows.iter_mut();
        for (outer, &triangle) in candidates.iter().enumerate() {
            let [a, b, c] = triangle.map(usize::from);
            for (i, j) in [(a, b), (b, c)] {
                let mut rest = self.pair(i, j).middle;
                while rest != 0 {
                    let x = rest.trailing_zeros() as usize;
                    rest &= rest - 1;
                    let inner = self.number(i, x, j);
                    let bend = normals[inner as usize].bend(&normals[outer]);
                    let place = places.next().expect("counted");
                    *place = [outer as u32, inner, polygon.bend_factor * bend];
                }
            }
        }
    }
}
