//! Searches that let in triangles that are no candidates, each in one way: the crossing test tells them
//! from the right one, since candidates fill the hull of the vertices and leave no room for another.

use outside_tests::calls::{Places, Tables, Triangle};
use outside_tests::crossings::{crossed_by, crossing_pair};
use outside_tests::jobs::{all_fours, all_triples, job_of};
use outside_tests::law::finder::{
    candidates, centre_of_circle, centre_of_sphere, is_flat, normal, squared_distance, Centre,
};
use outside_tests::law::reader;
use outside_tests::library::under_test;
use outside_tests::planes;
use outside_tests::random::{seeds, Random};
use outside_tests::rims::{lattice, Point, RimFile, Shape};

/// Says of a vertex whether it drops corners, by its number, its distance from the centre and theirs.
type Drops = fn(usize, i128, i128) -> bool;

/// The threes of a flat rim, or the faces of the fours of another, that no vertex drops.
fn kept(points: &[Point], drops: Drops) -> Vec<Triangle> {
    let counts = |corner: u8, centre: Option<Centre>| {
        centre.is_some_and(|centre| {
            let distances: Vec<i128> =
                points.iter().map(|&p| squared_distance(&centre, p)).collect();
            let radius = distances[corner as usize];
            !distances.iter().enumerate().any(|(k, &distance)| drops(k, distance, radius))
        })
    };
    let at = |k: u8| points[k as usize];
    let mut found = all_triples(points.len());
    if is_flat(points) {
        found.retain(|&three| counts(three[0], centre_of_circle(three.map(at))));
        return found;
    }
    let mut fours = all_fours(points.len());
    fours.retain(|&four| counts(four[0], centre_of_sphere(four.map(at))));
    found.retain(|three| fours.iter().any(|four| three.iter().all(|k| four.contains(k))));
    found
}

/// A vertex drops corners whose circle or sphere it is inside. Without 12 this is all that there is.
const INSIDE: Drops = |_, distance, radius| distance < radius;

const WRONG: [(&str, Drops); 2] = [
    ("the first vertex is not asked", |k, distance, radius| k > 0 && distance < radius),
    ("a hundredth is no matter", |_, distance, radius| distance < radius - radius / 100),
];

/// A rim of any kind that has no two vertices at one point.
fn any_rim(random: &mut Random) -> Vec<Point> {
    loop {
        let n = random.between(4, 9) as usize;
        let size = random.one_of(&[2, 4, 30]);
        let points = match random.below(3) {
            0 => planes::any_rim_or_one_off(n, random),
            1 => lattice(n, size, random),
            _ => random.one_of(&Shape::ALL).points(n, size, random),
        };
        if reader::read(&RimFile::plain(&points, 1, 1).bytes()).is_ok() {
            return points;
        }
    }
}

/// Rims that the right search takes: its candidates do not cross, and those of a wrong one often do.
#[test]
fn told_by_crossings() {
    let mut random = Random::new(1);
    let mut told = WRONG.map(|(name, _)| (name, 0));
    for _ in 0..3_000 {
        let points = any_rim(&mut random);
        let Ok(right) = candidates(&points) else { continue };
        assert_eq!(crossing_pair(&points, &Vec::from_iter(right)), None, "{points:?}");
        for ((_, drops), (_, times)) in WRONG.iter().zip(&mut told) {
            *times += crossing_pair(&points, &kept(&points, *drops)).is_some() as usize;
        }
    }
    assert!(told.iter().all(|&(_, times)| times > 200), "{told:?}");
}

/// Where 12 is due, some of those triangles cross that would be candidates without it.
#[test]
fn twelve_keeps_crossings_out() {
    let mut random = Random::new(2);
    let mut due = [0; 2];
    for _ in 0..6_000 {
        let points = any_rim(&mut random);
        if candidates(&points).is_err() {
            assert!(crossing_pair(&points, &kept(&points, INSIDE)).is_some(), "{points:?}");
            due[is_flat(&points) as usize] += 1;
        }
    }
    assert!(due.iter().all(|&times| times > 100), "{due:?}");
}

/// Three vertices that are neither on one line nor a candidate of what is under test make a triangle that
/// crosses a candidate.
#[test]
fn one_more_triangle_crosses() {
    let mut others = 0;
    for seed in seeds("one more triangle crosses") {
        let mut random = Random::new(seed);
        for _ in 0..2_000 {
            let points = any_rim(&mut random);
            let file = RimFile::varied(&points, [1, 1], &mut random).bytes();
            if under_test().sizes(&file).is_err() {
                continue;
            }
            let job = job_of(under_test(), &file, &mut Tables::guarded(Places::BENCH));
            for three in all_triples(points.len()) {
                let is_triangle = normal(&points, three) != [0; 3];
                if is_triangle && !job.candidates.contains(&three) {
                    let crossed = crossed_by(&points, &job.candidates, three);
                    assert!(crossed.is_some(), "{three:?} of {points:?}");
                    others += 1;
                }
            }
        }
    }
    assert!(others > 10_000, "{others} triangles");
}
