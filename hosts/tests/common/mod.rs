//! Rim files and direct jobs.

#![allow(dead_code)]

use patch_box::{Candidate, Number, Row};

/// The file whose chain is these points in order, both factors 1, of edition 2 where it has normals.
pub fn rim_file(points: &[[f32; 3]], normals: Option<&[[i16; 3]]>) -> Vec<u8> {
    let count = points.len() as u16;
    let mark: &[u16] = if normals.is_some() { &[65_535] } else { &[] };
    let mut file = words(mark.iter().chain(&[1, count, 1, 1]).copied());
    for (k, point) in points.iter().enumerate() {
        let next = (k as u16 + 2) % (count + 1);
        file.extend(words([next, 1]));
        file.extend(point.iter().flat_map(|x| x.to_le_bytes()));
        let normal = normals.iter().flat_map(|normals| normals[k]);
        file.extend(normal.flat_map(|x| x.to_le_bytes()));
    }
    file
}

/// The points of a wavy edge.
pub fn wavy_edge(n: usize) -> Vec<[f32; 3]> {
    let point = |k: usize| {
        let (sin, cos) = (std::f32::consts::TAU * k as f32 / n as f32).sin_cos();
        [60.0 * cos + (k % 5) as f32, 50.0 * sin, (k * k % 19) as f32 / 2.0]
    };
    (0..n).map(point).collect()
}

fn words(numbers: impl IntoIterator<Item = u16>) -> Vec<u8> {
    numbers.into_iter().flat_map(|number| number.to_le_bytes()).collect()
}

/// A direct job, and how many places are lent for work.
#[derive(Clone)]
pub struct Job {
    pub n: usize,
    pub candidates: Vec<Candidate>,
    pub weights: Vec<u32>,
    pub rows: Vec<Row>,
    pub places: usize,
}

/// The job of rim file P (rule 6.1): its two triangulations cost 943 and 1000.
pub fn p() -> Job {
    Job {
        n: 4,
        candidates: vec![[0, 1, 2], [0, 1, 3], [0, 2, 3], [1, 2, 3]],
        weights: vec![320, 256, 320, 373],
        rows: vec![[1, 3, 314], [2, 0, 360]],
        places: 6,
    }
}

/// No call writes it.
const GUARD: u64 = u64::MAX;

impl Job {
    pub fn with(mut self, change: impl FnOnce(&mut Job)) -> Job {
        change(&mut self);
        self
    }

    pub fn guarded_work(&self) -> Vec<u64> {
        vec![GUARD; self.places]
    }

    /// A cleared work table has zeros in a place for each candidate; no other place is written.
    pub fn expect_work(&self, work: &[u64], is_cleared: bool) {
        let cleared = if is_cleared { self.candidates.len() } else { 0 };
        assert!(work[..cleared].iter().all(|&place| place == 0), "{work:?}");
        assert!(work[cleared..].iter().all(|&place| place == GUARD), "{work:?}");
    }
}

/// P refused with 17, 16, 15, 13 and 14: each job has the faults of those before it too, and gets the
/// number that comes first.
pub fn damaged_p() -> [(Job, Number); 7] {
    let heavy = p().with(|job| job.weights[2] = 2_000_000_001);
    let row = heavy.clone().with(|job| job.rows.swap(0, 1));
    let candidate = row.clone().with(|job| job.candidates.swap(0, 1));
    let short_weights = candidate.clone().with(|job| job.weights.truncate(3));
    let short_work = candidate.clone().with(|job| job.places = 3);
    let count = short_work.clone().with(|job| job.n = 65);
    [
        (heavy, Number::Weight),
        (row, Number::Row),
        (candidate, Number::Candidate),
        (short_weights, Number::TableTooShort),
        (short_work, Number::TableTooShort),
        (count.clone(), Number::VertexCount),
        (count.with(|job| job.n = 2), Number::VertexCount),
    ]
}
