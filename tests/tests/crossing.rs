//! No two candidates of a rim that is taken cross (rule 2.20), so a rim that meets itself has no patch
//! (rule 3.16), and the rows of a flat rim weigh 0. The candidates are those that the calls leave in the
//! tables; the crossing test is one of space, and knows of no sphere or circle.

use outside_tests::calls::{Job, Tables, Triangle};
use outside_tests::closing;
use outside_tests::crossings::{crossed_by, crossing_pair, meeting_edges, vertex_inside};
use outside_tests::jobs::{all_triples, job_of};
use outside_tests::law::finder::is_flat;
use outside_tests::law::reader;
use outside_tests::library::under_test;
use outside_tests::meetings::{ring_and_turned, Meeting};
use outside_tests::planes::{self, Outline, Plane};
use outside_tests::random::{seeds, Random};
use outside_tests::rims::{lattice, Edition, Point, RimFile, Shape, P, SQUARE};

/// What the calls leave of a rim that they take: its lists, and the triangles of its patch.
struct Closed {
    lists: Job,
    patch: Vec<Triangle>,
}

/// The lists of the finder's call, which the one call leaves too, and its patch; or the number due.
fn closed(file: &[u8]) -> Result<Closed, u32> {
    let places = under_test().sizes(file)?;
    let lists = job_of(under_test(), file, &mut Tables::guarded(places));
    let before = Tables::guarded(places);
    let mut left = before.clone();
    let answer = under_test().patch_rim(file, &mut left);
    assert_eq!(answer.number, 0, "{file:?}");
    let walk = &left.triangles.view()[..answer.triangles];
    assert_eq!(left.difference(&before.after(&lists, walk)), None, "{file:?}");
    let patch = walk.iter().map(|&k| lists.candidates[k as usize]).collect();
    Ok(Closed { lists, patch })
}

/// How often each outcome came.
#[derive(Clone, Copy, Default, Debug)]
struct Outcomes {
    patches: usize,
    nones: usize,
    refused: usize,
}

impl Outcomes {
    /// One rim more. Where it is taken its candidates do not cross, and no vertex is in one but as a
    /// corner; where it has a patch its edges do not meet.
    fn add(&mut self, file: &[u8]) {
        let Closed { lists, patch } = match closed(file) {
            Ok(closed) => closed,
            Err(number) => {
                assert!([11, 12].contains(&number), "{number} for {file:?}");
                self.refused += 1;
                return;
            }
        };
        let points = reader::read(file).expect("taken").points;
        assert_eq!(crossing_pair(&points, &lists.candidates), None, "{points:?}");
        assert_eq!(crossing_pair(&points, &patch), None, "{points:?}");
        assert_eq!(vertex_inside(&points, &lists.candidates), None, "{points:?}");
        if patch.is_empty() {
            self.nones += 1;
        } else {
            assert_eq!(meeting_edges(&points), None, "{points:?}");
            self.patches += 1;
        }
    }

    /// The same of these points, in a file of either edition.
    fn add_points(&mut self, points: &[Point], random: &mut Random) {
        self.add(&RimFile::varied(points, [1, 1], random).bytes());
    }
}

/// Rims by a maker of points, from a fixed seed and a fresh one.
fn run(subject: &str, cases: usize, points: impl Fn(&mut Random) -> Vec<Point>) -> Outcomes {
    let mut outcomes = Outcomes::default();
    for seed in seeds(subject) {
        let mut random = Random::new(seed);
        for _ in 0..cases {
            let points = points(&mut random);
            outcomes.add_points(&points, &mut random);
        }
    }
    outcomes
}

#[test]
fn rims_of_every_shape() {
    let outcomes = run("no crossing in rims of every shape", 4_000, |random| {
        let n = random.between(3, 24) as usize;
        let size = random.one_of(&[30, 200, 1000]);
        random.one_of(&Shape::ALL).points(n, size, random)
    });
    assert!(outcomes.patches > 2_000 && outcomes.nones > 1_000, "{outcomes:?}");
}

/// Fours in one plane are frequent, and so are vertices on the line of two others.
#[test]
fn rims_on_a_small_lattice() {
    let outcomes = run("no crossing in rims on a small lattice", 8_000, |random| {
        let n = random.between(4, 10) as usize;
        let size = random.one_of(&[2, 3, 5, 8]);
        lattice(n, size, random)
    });
    assert!(outcomes.patches > 500 && outcomes.nones > 2_000, "{outcomes:?}");
}

/// Flat rims, and rims that are flat but for one vertex.
#[test]
fn rims_in_any_plane() {
    let outcomes = run("no crossing in rims in any plane", 5_000, |random| {
        let n = random.between(3, 20) as usize;
        planes::any_rim_or_one_off(n, random)
    });
    assert!(outcomes.patches > 2_000 && outcomes.nones > 2_000, "{outcomes:?}");
}

/// Of every shape and outline, in both editions, and with one vertex off the plane.
#[test]
fn rims_of_64() {
    let mut outcomes = Outcomes::default();
    for seed in seeds("no crossing in rims of 64") {
        let mut random = Random::new(seed);
        let mut rims = Shape::GENERAL.map(|shape| shape.points(64, 1000, &mut random)).to_vec();
        for outline in Outline::ALL {
            let steps = outline.steps(64, 1000, &mut random);
            let flat = Plane::any(1000, &mut random).points(&steps);
            rims.extend(planes::with_one_off(&flat, random.below(64)).pop());
            rims.push(flat);
        }
        for (points, edition) in rims.iter().flat_map(|rim| Edition::BOTH.map(|own| (rim, own))) {
            let file = RimFile::varied(points, [1, 1], &mut random);
            outcomes.add(&file.in_edition(edition, 64, &mut random).bytes());
        }
    }
    assert!(outcomes.patches > 10 && outcomes.nones > 4, "{outcomes:?}");
}

#[test]
fn examples() {
    let mut outcomes = Outcomes::default();
    closing::rims_of_the_examples(|file| {
        let before = outcomes.patches;
        if under_test().sizes(file).is_ok() {
            outcomes.add(file);
        }
        outcomes.patches > before
    });
    assert_eq!((outcomes.nones, outcomes.refused), (2, 0), "{outcomes:?}");
}

/// Two edges that cross, a vertex on another edge, edges that overlap and neighbours that fold back, in a
/// level or tilted plane, with the other vertices in it and not.
#[test]
fn rims_that_meet_themselves() {
    for (meeting, is_flat) in Meeting::ALL.iter().flat_map(|&kind| [false, true].map(|f| (kind, f)))
    {
        let mut outcomes = Outcomes::default();
        for seed in seeds(&format!("{meeting:?}, flat {is_flat}")) {
            let mut random = Random::new(seed);
            for case in 0..1_000 {
                let n = random.between(4, if case % 50 == 0 { 64 } else { 12 }) as usize;
                let points = meeting.rim(n, is_flat, &mut random);
                assert!(meeting_edges(&points).is_some(), "{points:?}");
                outcomes.add_points(&points, &mut random);
            }
        }
        assert!(outcomes.patches == 0 && outcomes.nones > 1_000, "{meeting:?}: {outcomes:?}");
    }
}

/// A ring has a patch; with a part of it turned round, so that two edges cross, the same vertices have
/// the same candidates and no patch.
#[test]
fn rings_with_a_part_turned_round() {
    let mut outcomes = [Outcomes::default(); 2];
    for seed in seeds("rings with a part turned round") {
        let mut random = Random::new(seed);
        for case in 0..2_000 {
            let n = random.between(4, 16) as usize;
            let rims = ring_and_turned(n, case % 2 == 0, &mut random);
            if meeting_edges(&rims[1]).is_some() {
                for (outcomes, points) in outcomes.iter_mut().zip(&rims) {
                    outcomes.add_points(points, &mut random);
                }
            }
        }
    }
    let [rings, turned] = outcomes;
    assert!(rings.patches > 2_000, "{rings:?}");
    assert!(turned.patches == 0 && turned.nones >= rings.patches, "{turned:?}");
}

/// Two candidates on one edge are on either side of it, so the rows of a flat rim weigh nothing, whatever
/// the bend factor.
#[test]
fn rows_of_flat_rims() {
    let mut rows = 0;
    for seed in seeds("rows of flat rims") {
        let mut random = Random::new(seed);
        for case in 0..4_000 {
            let n = random.between(3, if case % 100 == 0 { 64 } else { 16 }) as usize;
            let points = planes::any_rim(n, &mut random);
            let factors = [random.below(17) as u16, random.one_of(&[1, 1000, 65_535])];
            let file = RimFile::varied(&points, factors, &mut random).bytes();
            if let Ok(Closed { lists, .. }) = closed(&file) {
                assert!(is_flat(&points));
                assert!(lists.rows.iter().all(|row| row[2] == 0), "{points:?}");
                rows += lists.rows.len();
            }
        }
    }
    assert!(rows > 20_000, "{rows} rows");
}

/// Of the triangles of rim file P each two share an edge, and no more.
#[test]
fn rim_file_p() {
    assert_eq!(crossing_pair(&P, &all_triples(4)), None);
    let closed = closed(&RimFile::plain(&P, 1, 1).bytes()).ok().expect("taken");
    assert_eq!(closed.lists.candidates, all_triples(4));
    assert_eq!(closed.patch, [[0, 1, 3], [1, 2, 3]]);
}

/// The triangles on one diagonal share it, those on both cross. With a dent inside the circle none of
/// them is a candidate: the square of examples/dent.rim.
#[test]
fn a_square() {
    for ([t, u], cross) in [
        ([[0, 1, 2], [0, 2, 3]], false),
        ([[0, 1, 3], [1, 2, 3]], false),
        ([[0, 1, 2], [1, 2, 3]], true),
        ([[0, 1, 2], [0, 1, 3]], true),
    ] {
        assert_eq!(crossing_pair(&SQUARE, &[t, u]).is_some(), cross, "{t:?} and {u:?}");
    }
    let file = include_bytes!("../../examples/dent.rim");
    let points = reader::read(file).expect("taken").points;
    let candidates = closed(file).ok().expect("taken").lists.candidates;
    assert_eq!(crossing_pair(&points, &candidates), None);
    for three in all_triples(5).into_iter().filter(|three| !candidates.contains(three)) {
        assert!(crossed_by(&points, &candidates, three).is_some(), "{three:?}");
    }
}

/// The bow tie of examples/bow-tie.rim, whose edges from 0 to 1 and from 2 to 3 cross.
#[test]
fn a_bow_tie() {
    let file = include_bytes!("../../examples/bow-tie.rim");
    let points = reader::read(file).expect("taken").points;
    assert_eq!(meeting_edges(&points), Some([0, 2]));
    let closed = closed(file).ok().expect("taken");
    assert_eq!(closed.lists.candidates, [[0, 2, 3], [1, 2, 3]]);
    assert!(closed.patch.is_empty());
}
