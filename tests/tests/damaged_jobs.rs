//! Direct jobs with something wrong: 14, 13, 15, 16, 17 alone and in pairs, and by chance.

use outside_tests::calls::PatchAnswer;
use outside_tests::comparison::compare_job;
use outside_tests::damaged_jobs::{all, damaged, disturb, each_pair, undamaged, Lending};
use outside_tests::jobs::random_job;
use outside_tests::law::BY_SETS;
use outside_tests::library::under_test;
use outside_tests::random::{seeds, Random};

fn expect(lending: &Lending, number: u32, case: &dyn std::fmt::Debug) {
    let answer = compare_job(&BY_SETS, under_test(), &lending.job, lending.places);
    assert_eq!(answer, PatchAnswer::refused(number), "{case:?}");
}

#[test]
fn every_number_alone() {
    let good = undamaged();
    assert_eq!(compare_job(&BY_SETS, under_test(), &good.job, good.places).triangles, 3);
    for damage in all() {
        let (number, name, _) = damage;
        expect(&damaged(&[damage]), number, &name);
    }
}

#[test]
fn every_number_in_pairs() {
    for [one, two] in each_pair(&all()) {
        expect(&damaged(&[one, two]), one.0, &(one.1, two.1));
    }
}

#[test]
fn highest_weights_are_taken() {
    let mut good = undamaged();
    good.job.weights.fill(2_000_000_000);
    good.job.rows.iter_mut().for_each(|row| row[2] = 2_000_000_000);
    good.job.weights.push(u32::MAX);
    let answer = compare_job(&BY_SETS, under_test(), &good.job, good.places);
    assert_eq!(answer.total, 10_000_000_000);
}

#[test]
fn jobs_disturbed_by_chance() {
    for seed in seeds("jobs disturbed by chance") {
        let mut random = Random::new(seed);
        let mut numbers = [0; 18];
        for _ in 0..12_000 {
            let n = random.between(3, 7) as usize;
            let job = random_job(n, random.one_of(&[100, 50]), 60, 2, &mut random);
            let mut lending = Lending { places: [62, job.candidates.len()], job };
            for _ in 0..random.between(1, 3) {
                disturb(&mut lending, &mut random);
            }
            let answer = compare_job(&BY_SETS, under_test(), &lending.job, lending.places);
            numbers[answer.number as usize] += 1;
        }
        let met = |number: &usize| numbers[*number] > 100;
        assert!([0, 13, 14, 15, 16, 17].iter().all(met), "{numbers:?}");
    }
}
