//! Every call on a stack of 64 KiB, as patch_box.h promises.

#![cfg(feature = "library")]

use outside_tests::calls::{Lent, Places, Tables, MOST_BYTES};
use outside_tests::jobs::{price_and_patch, random_job, random_tiling};
use outside_tests::law::judge;
use outside_tests::library::under_test;
use outside_tests::patches::numbers;
use outside_tests::random::Random;
use outside_tests::rims::{Edition, RimFile, Shape};

/// The whole stack of the thread: what the thread itself needs is within it.
const STACK: usize = 64 * 1024;

fn on_a_small_stack(call: impl FnOnce() + Send + 'static) {
    let thread = std::thread::Builder::new().stack_size(STACK).spawn(call);
    thread.expect("a thread").join().expect("no panic");
}

#[test]
fn every_call() {
    let mut random = Random::new(3);
    for shape in [Shape::SkewLines, Shape::Saddle, Shape::Flat] {
        let points = shape.points(64, 1000, &mut random);
        for edition in Edition::BOTH {
            let file = RimFile::plain(&points, 1, 1).in_edition(edition, points.len(), &mut random);
            let file = file.bytes();
            let mut tables = Tables::guarded(Places::ENOUGH);
            on_a_small_stack(move || {
                let library = under_test();
                let within = [24, 64].map(|limit| library.within(limit));
                for calls in [library, &*within[0], &*within[1]] {
                    calls.read_rim(&file);
                    let _ = calls.sizes(&file);
                    calls.find_candidates(&file, &mut tables);
                    calls.patch_rim(&file, &mut tables);
                }
                let mut other = Lent::guarded(MOST_BYTES);
                let length = library.convert(&file, &mut other).length;
                library.convert(&other.view()[..length], &mut Lent::guarded(MOST_BYTES));
            });
        }
    }
    let job = random_job(64, 100, 10, 1000, &mut random);
    let mut tables = Tables::of_job(&job, 62, job.candidates.len());
    let list = numbers(&job, &random_tiling(64, &mut random));
    let stated = judge::total(&job, &list);
    let mut to_judge = Tables::of_patch(&job, &list, job.candidates.len());
    on_a_small_stack(move || {
        assert_eq!(price_and_patch(under_test(), 64, &mut tables).number, 0);
        assert_eq!(under_test().patch(64, u64::MAX, &mut tables).number, 23);
        assert_eq!(under_test().judge(64, stated, &mut to_judge).number, 0);
    });
}
