//! Lengths in quarters (rule 2.7): weights of triangles whose normals have a chosen square, and bends
//! to normals outside that are short (rules 2.10, 2.11 and 2.15).

use outside_tests::calls::{Job, PatchAnswer, Places, Tables};
use outside_tests::comparison::compare_calls;
use outside_tests::fast::FAST;
use outside_tests::jobs::all_triples;
use outside_tests::law::finder::normal;
use outside_tests::law::BY_SETS;
use outside_tests::library::{each, under_test};
use outside_tests::normals::{self, greatest_divisor, Normal};
use outside_tests::random::{seeds, Random};
use outside_tests::rims::{lattice, Point, RimFile};

const SOME: Places = Places { triangles: 3, candidates: 5, weights: 6, rows: 4, work: 7 };

/// Each finds these lists and this patch, and leaves every other place as it was.
fn expect(file: &RimFile, lists: &Job, walk: &[u16], total: u64) {
    for calls in each() {
        let mut left = Tables::guarded(SOME);
        let answer = calls.patch_rim(&file.bytes(), &mut left);
        let expected = PatchAnswer { number: 0, triangles: walk.len(), total };
        assert_eq!(answer, expected, "{}, {file:?}", calls.name());
        let difference = left.difference(&Tables::guarded(SOME).after(lists, walk));
        assert_eq!(difference, None, "{}, {file:?}", calls.name());
    }
}

/// The same of a rim of three vertices.
fn expect_weight(file: &RimFile, weight: u32) {
    let lists = Job { n: 3, candidates: vec![[0, 1, 2]], weights: vec![weight], rows: vec![] };
    expect(file, &lists, &[0], weight as u64);
}

/// At area factor 1, without a surface outside, the weight of a triangle is the length m of its
/// normal: the one number that the square allows. The square is the answer.
fn expect_length(corners: &[Point; 3]) -> u128 {
    let square = normal(corners, [0, 1, 2]).iter().map(|&x| (x as i128).pow(2) as u128).sum();
    let file = RimFile::plain(corners, 1, 1);
    let m = under_test().patch_rim(&file.bytes(), &mut Tables::guarded(SOME)).total as u128;
    assert!(m * m <= 16 * square && 16 * square < (m + 1) * (m + 1), "{m} for {corners:?}");
    expect_weight(&file, m as u32);
    square
}

/// Numbers x ≥ y ≥ z ≥ 0 whose squares add up to this one, with x near its root.
fn three_squares(square: i64) -> Option<Point> {
    (1..=square.isqrt()).rev().take(20).find_map(|x| {
        let rest = square - x * x;
        (0..=x.min(rest.isqrt())).rev().find_map(|y| {
            let z = (rest - y * y).isqrt();
            (y * y + z * z == rest && y >= z).then_some([x, y, z])
        })
    })
}

/// Two sides of a triangle whose normal is (x, y, z) with x ≥ y ≥ z ≥ 0.
fn sides([x, y, z]: Point) -> [Point; 2] {
    let common = greatest_divisor(y, z);
    if common == 0 {
        let width = (1..=2000).rev().find(|width| x % width == 0).unwrap_or(1);
        return [[0, width, 0], [0, 0, x / width]];
    }
    let [y, z] = [y / common, z / common];
    // With y p + z q = 1, (-common, p x, q x) is a second side, and so it is with the first one added.
    let q = (0..y).find(|q| (z * q - 1) % y == 0).expect("no common divisor");
    let p = (1 - z * q) / y;
    let turns = x * (p * z - q * y) / (y * y + z * z);
    [[0, z, -y], [-common, p * x - turns * z, q * x + turns * y]]
}

/// A triangle with this normal; none where it does not fit on the grid.
fn triangle(normal: Point) -> Option<[Point; 3]> {
    let [u, v] = sides(normal);
    let low = [0, 1, 2].map(|k| 0.min(u[k]).min(v[k]));
    let corners = [[0; 3], u, v].map(|at| [0, 1, 2].map(|k| at[k] - low[k] - 1000));
    let fits = corners.iter().flatten().all(|&g| g <= 1000);
    fits.then_some(corners)
}

/// Tries a square that the normal of some triangle has; not all have one.
fn try_square(square: i64) -> bool {
    let corners = three_squares(square).and_then(triangle);
    corners.is_some_and(|corners| {
        assert_eq!(expect_length(&corners), square as u128, "{corners:?}");
        true
    })
}

/// All that there are: five of six numbers are sums of three squares.
#[test]
fn every_small_square() {
    assert_eq!((1..=2000).filter(|&square| try_square(square)).count(), 1668);
}

/// The squares next to m² / 16, where the length goes from m - 1 to m. At every fourth m that is a
/// whole number, itself a square.
#[test]
fn squares_next_to_a_bound() {
    for seed in seeds("squares next to a bound") {
        let mut random = Random::new(seed);
        let mut tried = 0;
        for size in [100, 1_000, 10_000, 100_000, 1_000_000, 5_000_000] {
            for turn in 0..60 {
                let any = random.between(size / 2, size);
                let m = if turn % 3 == 0 { any / 4 * 4 } else { any };
                let bound = (m * m + 15) / 16;
                tried += (bound - 2..=bound + 1).filter(|&square| try_square(square)).count();
            }
        }
        assert!(tried > 700, "{tried} squares");
    }
}

/// Whole lengths, and squares just below a bound: 16 (k² + k⁴) / 4 = (2 k² + 1)² - 1.
#[test]
fn long_normals() {
    let at = |x: i64, y: i64, z: i64| [x - 1000, y - 1000, z - 1000];
    for k in (2..=2000).step_by(2) {
        let whole = expect_length(&[at(0, 0, 0), at(2000, 0, 0), at(0, k, 0)]);
        assert_eq!(whole, (2000 * k as u128).pow(2));
        let below = expect_length(&[at(0, 0, 0), at(k / 2, 0, 0), at(0, k, 1)]);
        assert_eq!(16 * below + 1, (2 * (k as u128).pow(2) + 1).pow(2));
    }
}

/// The corners of the grid, where the longest normals are, and the points next to them.
#[test]
fn longest_normals() {
    let mut random = Random::new(1);
    let corner = |k: u8| [k & 1, k >> 1 & 1, k >> 2].map(|bit| 2000 * bit as i64 - 1000);
    let mut longest = 0;
    for three in all_triples(8) {
        longest = longest.max(expect_length(&three.map(corner)));
        for _ in 0..20 {
            let mut near = |g: i64| g - g.signum() * random.below(3) as i64;
            expect_length(&three.map(|k| corner(k).map(&mut near)));
        }
    }
    assert_eq!(longest, 3 * 4_000_000u128.pow(2));
}

/// A rim of three vertices weighs three bends where area counts nothing and a surface is outside each
/// of its edges.
fn expect_bend(corners: &[Point; 3], outside: Normal, bend: u32) {
    let file = RimFile::plain(corners, 0, 1).with_normals(&[outside; 3]);
    expect_weight(&file, 3 * bend);
}

/// By hand, for a triangle whose normal is (0, 0, 64), of length 256. The lengths outside are 4, 5, 6,
/// 8, 8, 9, 12, 20 and 3999, so the ratio to (0, 1, 1) is 16,000 · 64 / (256 · 5) = 800.
#[test]
fn short_normals_outside() {
    let corners = [[0, 0, 0], [8, 0, 0], [0, 8, 0]];
    for (outside, bend, opposite) in [
        ([0, 0, 1], 0, 2000),
        ([0, 1, 1], 200, 1800),
        ([1, 1, 1], 334, 1667),
        ([0, 1, 2], 0, 2000),
        ([0, 2, 1], 500, 1500),
        ([1, 1, 2], 112, 1889),
        ([2, 2, 1], 667, 1334),
        ([0, -3, 4], 200, 1800),
        ([0, 707, 707], 293, 1708),
    ] {
        expect_bend(&corners, outside, bend);
        expect_bend(&corners, outside.map(|x| -x), opposite);
    }
}

/// Rule 6.5, for directions x ≥ y ≥ z ≥ 0: however short or long the normals are, the bend is 0 where
/// they are equal or look the same way, 2000 where they are opposite, 1000 at a right angle.
#[test]
fn parallel_and_perpendicular() {
    for direction in [[1, 0, 0], [1, 1, 0], [1, 1, 1], [2, 1, 0], [2, 2, 1], [3, 2, 1], [11, 7, 5]]
    {
        let [x, y, z] = direction.map(|part: i64| part as i16);
        for times in [1, 2, 3, 7, 100, 1000] {
            let corners = triangle(direction.map(|part| times * part)).expect("it fits");
            for factor in [1, 2, 5, 1000 / x] {
                let outside = [x, y, z].map(|part| factor * part);
                expect_bend(&corners, outside, 0);
                expect_bend(&corners, outside.map(|part| -part), 2000);
            }
            for across in [[y, -x, 0], [-z, 0, x], [y - z, z - x, x - y]] {
                let bend = if across == [0; 3] { 0 } else { 1000 };
                expect_bend(&corners, across, bend);
            }
        }
    }
}

/// Small rims with short normals outside: weights, rows and patches by both references and by what is
/// under test.
#[test]
fn small_rims() {
    for seed in seeds("small rims") {
        let mut random = Random::new(seed);
        let mut taken = 0;
        for _ in 0..3_000 {
            let n = random.between(3, 7) as usize;
            let size = random.one_of(&[1, 2, 4, 9]);
            let points = lattice(n, size, &mut random);
            let normals = normals::short(n, &mut random);
            let file = RimFile::plain(&points, 1, 1).with_normals(&normals).bytes();
            let tables = Tables::guarded(Places::BENCH);
            let answer = compare_calls(&BY_SETS, under_test(), &file, &tables);
            compare_calls(&FAST, under_test(), &file, &tables);
            taken += (answer.number == 0) as usize;
        }
        assert!(taken > 1_000, "{taken} rims");
    }
}

/// The roots of 16, 20, 21 and 21 are all 4 as whole numbers, so that both ways to close this rim
/// looked equal. They are not, and the smaller one is found.
#[test]
fn areas_that_looked_equal() {
    let points = [[0, 0, 0], [2, 0, 0], [1, 2, 0], [1, 1, 2]];
    let candidates = all_triples(4);
    let normals = candidates.iter().map(|&three| normal(&points, three));
    let squares: Vec<i64> = normals.map(|at| at.iter().map(|x| x * x).sum()).collect();
    assert_eq!(squares, [16, 20, 21, 21]);
    let rows = vec![[1, 3, 0], [2, 0, 0]];
    let lists = Job { n: 4, candidates, weights: vec![16, 17, 18, 18], rows };
    expect(&RimFile::plain(&points, 1, 0), &lists, &[2, 0], 34);
}
