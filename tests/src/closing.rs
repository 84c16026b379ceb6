//! Rims to be closed by a test that goes on from there: `closes` says whether one has a patch.

use crate::planes;
use crate::random::{seeds, Random};
use crate::rims::{RimFile, Shape};
use std::path::Path;

/// Rim files at random, of up to 16 points and some of up to 64, flat ones among them. Enough of them
/// have a patch.
pub fn rims_at_random(what: &str, mut closes: impl FnMut(&[u8], &mut Random) -> bool) {
    for seed in seeds(what) {
        let mut random = Random::new(seed);
        let mut patches = 0;
        for case in 0..400 {
            let n = random.between(3, if case % 10 == 0 { 64 } else { 16 }) as usize;
            let points = match random.once_in(3) {
                true => planes::any_rim_or_one_off(n, &mut random),
                false => random.one_of(&Shape::GENERAL).points(n, 1000, &mut random),
            };
            let file = RimFile::varied(&points, [1, 1], &mut random).bytes();
            patches += closes(&file, &mut random) as usize;
        }
        assert!(patches > 60, "{patches} patches");
    }
}

/// The rim files of the examples.
pub fn rims_of_the_examples(mut closes: impl FnMut(&[u8]) -> bool) {
    let folder = Path::new(env!("CARGO_MANIFEST_DIR")).join("../examples");
    let mut patches = 0;
    for file in std::fs::read_dir(folder).expect("examples") {
        let path = file.expect("a file").path();
        if path.extension().is_some_and(|end| end == "rim") {
            patches += closes(&std::fs::read(path).expect("a rim file")) as usize;
        }
    }
    assert!(patches >= 15, "{patches} patches");
}
