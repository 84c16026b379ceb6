//! Own weights (rules 1.14, 2.14 and 2.15): the bends to the surfaces outside the rim, for every
//! candidate, by hand and by a second formula.

use outside_tests::calls::{Calls, Job, PatchAnswer, Places, Row, Tables, Triangle};
use outside_tests::fast::FAST;
use outside_tests::jobs::job_of;
use outside_tests::library::each;
use outside_tests::normals::{self, Normal};
use outside_tests::random::{seeds, Random};
use outside_tests::rims::{Point, RimFile, Shape, LINE, P};

/// The job of a rim with these normals, the same by each.
fn job_with(points: &[Point], factors: [u16; 2], normals: &[Normal]) -> Job {
    let file = RimFile::plain(points, factors[0], factors[1]).with_normals(normals).bytes();
    let mut tables = Tables::guarded(Places::ENOUGH);
    let [one, two, three] = each().map(|calls| job_of(calls, &file, &mut tables));
    assert_eq!(one, two, "{points:?}, {normals:?}");
    assert_eq!(one, three, "{points:?}, {normals:?}");
    one
}

fn alone(n: usize, edge: usize, normal: Normal) -> Vec<Normal> {
    let mut normals = vec![normals::NONE; n];
    normals[edge] = normal;
    normals
}

/// The length of a vector in whole quarters, up from 0 in steps that halve.
fn length(vector: [i128; 3]) -> i128 {
    let square: i128 = vector.iter().map(|x| (4 * x).pow(2)).sum();
    let steps = (0..32).rev().map(|k| 1 << k);
    steps
        .fold(0, |root: i128, step| if (root + step).pow(2) <= square { root + step } else { root })
}

/// 1000 less the largest q of -1000 to 1000 with q · m · m' ≤ 16,000 d, or -1000 where there is none.
fn bend(candidate: [i128; 3], outside: Normal) -> i128 {
    let outside = outside.map(i128::from);
    let d: i128 = candidate.iter().zip(outside).map(|(x, y)| x * y).sum();
    let both = length(candidate) * length(outside);
    1000 - (-1000..=1000).rev().find(|q| q * both <= 16_000 * d).unwrap_or(-1000)
}

fn normal_of(points: &[Point], corners: Triangle) -> [i128; 3] {
    let [p, q, r] = corners.map(|v| points[v as usize].map(i128::from));
    let minor =
        |i: usize, j: usize| p[i] * (q[j] - r[j]) + q[i] * (r[j] - p[j]) + r[i] * (p[j] - q[j]);
    [minor(1, 2), minor(2, 0), minor(0, 1)]
}

/// The ends of the rim edge that starts at a vertex, the lower one first.
fn ends(edge: usize, n: usize) -> [u8; 2] {
    match edge + 1 == n {
        true => [0, edge as u8],
        false => [edge as u8, edge as u8 + 1],
    }
}

fn is_on(corners: Triangle, edge: usize, n: usize) -> bool {
    let [a, b, c] = corners;
    [[a, b], [b, c], [a, c]].contains(&ends(edge, n))
}

/// The weights of a rim's candidates by the formula, beside those of the lists.
fn check(points: &[Point], [area_factor, bend_factor]: [u16; 2], normals: &[Normal]) -> Job {
    let job = job_with(points, [area_factor, bend_factor], normals);
    for (&corners, &weight) in job.candidates.iter().zip(&job.weights) {
        let normal = normal_of(points, corners);
        let mut expected = area_factor as i128 * length(normal);
        for (edge, &outside) in normals.iter().enumerate() {
            if outside != normals::NONE && is_on(corners, edge, points.len()) {
                expected += bend_factor as i128 * bend(normal, outside);
            }
        }
        assert_eq!(weight as i128, expected, "{corners:?} of {points:?}, {normals:?}");
    }
    job
}

/// A rim of n vertices with candidates.
fn rim(n: usize, random: &mut Random) -> Vec<Point> {
    let shape = random.one_of(&[Shape::Saddle, Shape::NoisyCircle, Shape::Scattered]);
    let size = random.one_of(&[60, 1000]);
    let points = shape.points(n, size, random);
    match FAST.sizes(&RimFile::plain(&points, 1, 1).bytes()) {
        Ok(sizes) if sizes.candidates > 0 => points,
        _ => rim(n, random),
    }
}

/// Candidates 012, 013, 023, 123 with rim edges 0 and 1, 0 and 3, 2 and 3, 1 and 2: a normal on any
/// of the edges.
#[test]
fn rim_file_p_by_hand() {
    let plain = [320, 256, 320, 373];
    let bends = [
        ([0, 0, 1], [200, 0, 200, 314]),
        ([0, 0, -1], [1800, 2000, 1800, 1687]),
        ([1, 0, 0], [1000, 1000, 1600, 1515]),
        ([0, -3, 4], [0, 200, 360, 143]),
    ];
    let edges = [[0, 1], [0, 3], [2, 3], [1, 2]];
    for (normal, bends) in bends {
        for some in 0..16 {
            let on = |edge: usize| some >> edge & 1 == 1;
            let normals = [0, 1, 2, 3].map(|edge| if on(edge) { normal } else { normals::NONE });
            let count = |t: usize| edges[t].iter().filter(|&&edge| on(edge)).count() as u32;
            let job = job_with(&P, [1, 1], &normals);
            assert_eq!(job.weights, [0, 1, 2, 3].map(|t| plain[t] + count(t) * bends[t]));
            assert_eq!(job.rows, [[1, 3, 314], [2, 0, 360]]);
        }
    }
}

/// With surfaces that go on as the two triangles of the dearer tiling do, it is the cheaper one.
#[test]
fn normals_change_the_patch() {
    let cases: [([Normal; 4], [u16; 2], u64); 3] = [
        ([[0; 3]; 4], [1, 3], 943),
        ([[0, 0, 1]; 4], [1, 3], 1571),
        ([[0, -3, 4], [0, -3, 4], [-3, 0, 4], [-3, 0, 4]], [2, 0], 1000),
    ];
    for (normals, walk, total) in cases {
        let file = RimFile::plain(&P, 1, 1).with_normals(&normals).bytes();
        for calls in each() {
            let mut left = Tables::guarded(Places::BENCH);
            let answer = calls.patch_rim(&file, &mut left);
            assert_eq!(answer, PatchAnswer { number: 0, triangles: 2, total }, "{normals:?}");
            assert_eq!(left.triangles.view()[..2], walk, "{normals:?}");
        }
    }
}

/// A normal on each edge in turn: (0, 1), those in the middle, (n - 2, n - 1), (0, n - 1).
#[test]
fn one_edge_at_a_time() {
    let mut random = Random::new(8);
    for n in [3, 4, 4, 5, 5, 6, 7, 9, 12, 20, 64] {
        let points = rim(n, &mut random);
        let plain = check(&points, [3, 5], &vec![normals::NONE; n]);
        let every: Vec<usize> = (0..n).collect();
        let edges = if n < 20 { &every[..] } else { &[0, 1, n / 2, n - 2, n - 1] };
        for &edge in edges {
            let normal = normals::on_all(1, &mut random)[0];
            let job = check(&points, [3, 5], &alone(n, edge, normal));
            assert_eq!((&job.candidates, &job.rows), (&plain.candidates, &plain.rows));
            for (t, &corners) in job.candidates.iter().enumerate() {
                if !is_on(corners, edge, n) {
                    assert_eq!(job.weights[t], plain.weights[t], "{corners:?}, edge {edge}");
                }
            }
        }
    }
}

/// Two normals on one candidate add up.
#[test]
fn two_edges_of_a_candidate() {
    let mut random = Random::new(9);
    let mut met = 0;
    for n in [3, 4, 5, 6, 8, 11] {
        let points = rim(n, &mut random);
        let [one, two] = [[700, -1000, 3], [-1, 0, 0]];
        for first in 0..n {
            let second = (first + 1) % n;
            let mut normals = alone(n, first, one);
            normals[second] = two;
            let job = check(&points, [1, 65_535], &normals);
            met += job
                .candidates
                .iter()
                .filter(|&&t| is_on(t, first, n) && is_on(t, second, n))
                .count();
        }
    }
    assert!(met > 10, "{met} candidates");
}

/// Vertex 0's normal belongs to (0, 1), and the last vertex's to the closing edge.
#[test]
fn normals_of_the_closing_edge() {
    let mut random = Random::new(10);
    for n in [3, 4, 5, 6, 9, 33] {
        let points = rim(n, &mut random);
        let normals = normals::on_all(n, &mut random);
        let before = check(&points, [1, 1], &normals);
        for (vertex, edge) in
            [(0, [0, 1]), (n - 1, [0, n as u8 - 1]), (n - 2, [n as u8 - 2, n as u8 - 1])]
        {
            let mut changed = normals.clone();
            changed[vertex] = normals[vertex].map(|x| -x);
            let after = check(&points, [1, 1], &changed);
            for (t, corners) in before.candidates.iter().enumerate() {
                let on_edge = edge.iter().all(|end| corners.contains(end));
                let same = before.weights[t] == after.weights[t];
                assert!(on_edge || same, "{corners:?} of {n}, vertex {vertex}");
            }
        }
    }
}

/// The normals go with the vertices, whatever the numbers of their records.
#[test]
fn records_in_any_order() {
    for seed in seeds("normals of records in any order") {
        let mut random = Random::new(seed);
        for _ in 0..300 {
            let n = random.between(3, 10) as usize;
            let points = rim(n, &mut random);
            let normals = normals::along(&points, &mut random);
            let expected = check(&points, [1, 1], &normals);
            let file = RimFile::varied(&points, [1, 1], &mut random).with_normals(&normals).bytes();
            let mut tables = Tables::guarded(Places::BENCH);
            for calls in each() {
                assert_eq!(job_of(calls, &file, &mut tables), expected, "{}", calls.name());
            }
        }
    }
}

/// Factors of 0 and the highest, with the longest bends.
#[test]
fn factors() {
    let mut random = Random::new(11);
    for n in [3, 4, 5, 8, 40] {
        let points = rim(n, &mut random);
        for factors in [[0, 1], [1, 0], [0, 0], [16, 65_535], [16, 0], [0, 65_535]] {
            for normals in [normals::on_all(n, &mut random), normals::along(&points, &mut random)] {
                check(&points, factors, &normals);
            }
        }
    }
    let largest =
        [[-1000, -1000, -1000], [1000, 1000, -1000], [1000, -1000, 1000], [-1000, 1000, 1000]];
    for sign in [1, -1] {
        check(&largest, [16, 65_535], &[[1000 * sign; 3]; 4]);
    }
}

/// With three vertices all three edges are on the rim: none of them has a surface outside, or one,
/// two or three.
#[test]
fn three_rim_edges() {
    let points = [[0, 0, 0], [8, 0, 0], [0, 8, 0]];
    let normals = [
        (normals::NONE, 0),
        ([0, 0, 1], 0),
        ([0, 3, 4], 200),
        ([5, 0, 0], 1000),
        ([0, 0, -7], 2000),
    ];
    for (i, j, k) in (0..125).map(|some| (some % 5, some / 5 % 5, some / 25)) {
        let edges = [normals[i], normals[j], normals[k]];
        let expected = 2 * 256 + 3 * edges.iter().map(|edge| edge.1).sum::<u32>();
        let job = check(&points, [2, 3], &edges.map(|edge| edge.0));
        assert_eq!((job.candidates, job.weights), (vec![[0, 1, 2]], vec![expected]), "{edges:?}");
        assert_eq!(job.rows, Vec::<Row>::new());
        let file = RimFile::plain(&points, 2, 3).with_normals(&edges.map(|edge| edge.0)).bytes();
        for calls in each() {
            let answer = calls.patch_rim(&file, &mut Tables::guarded(Places::BENCH));
            assert_eq!(answer, PatchAnswer { number: 0, triangles: 1, total: expected as u64 });
        }
    }
}

/// A rim on one line has no candidate that a normal could weigh on.
#[test]
fn rims_without_candidates() {
    for n in [3, 4, 5] {
        for normal in [[0, 0, 1], [0, 0, -1], [1000; 3], normals::NONE] {
            let normals = vec![normal; n];
            let file = RimFile::plain(&LINE[..n], 16, 65_535).with_normals(&normals).bytes();
            for calls in each() {
                let mut left = Tables::guarded(Places::BENCH);
                assert_eq!(calls.patch_rim(&file, &mut left), PatchAnswer::NONE);
                assert_eq!(left.difference(&Tables::guarded(Places::BENCH)), None);
            }
        }
    }
}
