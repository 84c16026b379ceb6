//! Patches from elsewhere, judged.

mod common;

use common::{bytes_of, example, run, run_in, Folder, Numbers, Run, RIMS};
use patch_box::{Candidate, Number, Outcome, OwnedTables};
use rim::judge::{judge, Judgement};
use rim::patch::{close, Patch};
use rim::patch_text::parse;
use std::collections::{BTreeSet, HashMap};
use std::fs;

/// The lines that the bench program prints for p.rim.
const PRINTED: &str = "patch 4 2 943\n0 1 3 256 0\n1 2 3 373 314\n";

/// A patch of triangles alone.
fn text(n: usize, triangles: &[Candidate], total: u64) -> String {
    let lines = triangles.iter().map(|[a, b, c]| format!("{a} {b} {c}\n"));
    format!("patch {n} {} {total}\n", triangles.len()) + &lines.collect::<String>()
}

fn vertices(patch: &Patch) -> Vec<Candidate> {
    patch.triangles.iter().map(|triangle| triangle.vertices).collect()
}

/// The box's own patch of a rim.
fn own_text(name: &str) -> String {
    let patch = close(&bytes_of(name)).expect("accepted");
    text(patch.vertices.len(), &vertices(&patch), patch.total)
}

/// The tool's answer for a rim of examples/ and a patch on standard input.
fn judged(name: &str, text: impl AsRef<[u8]>) -> Run {
    run(&["judge", &example(name).display().to_string(), "-"], text.as_ref())
}

fn accepted(name: &str, text: impl AsRef<[u8]>, excess: u64) {
    assert_eq!(judged(name, text).done().text(), format!("accepted {excess}\n"), "{name}");
}

/// The run printed the number, and the line on standard error.
fn expect_refusal(run: &Run, number: Number, line: &str) {
    assert_eq!((run.status, run.text()), (1, format!("refused {}\n", number.code())));
    assert_eq!(run.errors, format!("rim: {line}\n"));
}

/// The patch is refused with this number, at this place.
fn refused(name: &str, text: impl AsRef<[u8]>, number: Number, place: &str) {
    let line = format!("standard input: {number}: {place}");
    expect_refusal(&judged(name, text), number, &line);
}

#[test]
fn the_box_accepts_its_own_patches() {
    accepted("p.rim", PRINTED, 0);
    for name in RIMS {
        accepted(name, own_text(name), 0);
    }
}

#[test]
fn in_any_order() {
    for text in [
        "patch 4 2 943\n1 2 3\n0 1 3\n",
        "patch 4 2 943\n3 0 1\n2 3 1",
        "\u{feff}patch\t4\t2\t943\r\n3\t1\t0\t256\t0\r\n\r\n3\t2\t1\t373\t314\r\n",
        "# from elsewhere\n\n  patch 4 2 943 # the best\n 0 1 3\n#\n 1 2 3 no weights\n",
    ] {
        accepted("p.rim", text, 0);
    }
    accepted("p.rim", "patch 4 2 1000\n0 1 2\n0 2 3\n", 57);
}

/// The triangles of the example are those of the rim with area factor 0.
#[test]
fn the_example_from_elsewhere() {
    let example = bytes_of("gap-bends.txt");
    let mut file = bytes_of("gap.rim");
    file[4] = 0;
    let best = vertices(&close(&file).expect("accepted"));
    let best: BTreeSet<[u64; 3]> = best.iter().map(|triangle| triangle.map(u64::from)).collect();
    let patch = parse(&example).expect("a patch");
    assert_eq!(patch.triangles.iter().map(|t| t.vertices).collect::<BTreeSet<_>>(), best);
    accepted("gap.rim", example, 185);
    let readme = String::from_utf8(bytes_of("README.md")).expect("text");
    let command = "`./rim judge examples/gap.rim examples/gap-bends.txt` prints `accepted 185`";
    assert!(readme.contains(command));
}

#[test]
fn what_is_no_triangulation() {
    for (text, place) in [
        ("patch 4 2 943\n0 1 3\n1 2 4\n", "line 3: 1 2 4 is no candidate of the rim"),
        ("patch 4 2 943\n3 3 0\n0 1 3\n", "line 2: 0 3 3 is no candidate of the rim"),
        ("patch 4 1 0\n0 1 256\n", "line 2: 0 1 256 is no candidate of the rim"),
        ("patch 4 2 943\n0 1 3\n#\n1 3 0\n", "line 4: 0 1 3 is on line 2 too"),
        ("patch 4 3 943\n0 1 3\n1 2 3\n3 2 1", "line 4: 1 2 3 is on line 3 too"),
        ("patch 4 0 0\n", "the rim edge from 0 to 1 is in 0 triangles, not in one"),
        ("patch 4 1 256\n0 1 3\n", "the rim edge from 1 to 2 is in 0 triangles, not in one"),
        ("patch 4 2 1\n0 1 2\n1 2 3\n", "the rim edge from 1 to 2 is in 2 triangles, not in one"),
        ("patch 4 2 1\n0 2 3\n1 2 3\n", "the rim edge from 0 to 1 is in 0 triangles, not in one"),
    ] {
        refused("p.rim", text, Number::NotATriangulation, place);
    }
    let open = own_text("gap.rim").replace("2 10 13\n", "").replace("14 12", "14 11");
    let place = "the edge from 2 to 10 does not have one triangle on each side, but 1 and 0";
    refused("gap.rim", open, Number::NotATriangulation, place);
    let place = "line 2: 0 1 2 is no candidate of the rim";
    refused("line.rim", "patch 5 1 0\n0 1 2\n", Number::NotATriangulation, place);
}

#[test]
fn what_is_not_the_total() {
    for stated in [0, 942, 944, u64::MAX] {
        let text = format!("# P\npatch 4 2 {stated}\n0 1 3\n1 2 3\n");
        let place = format!("line 2: it says {stated}, the triangles have 943");
        refused("p.rim", text, Number::WrongTotal, &place);
    }
    let place = "line 1: it says 768342, the triangles have 668804";
    let text = own_text("ridge.rim").replace("668804", "768342");
    refused("ridge.rim", text, Number::WrongTotal, place);
}

/// The rim comes first, whatever the text.
#[test]
fn rims_that_are_refused() {
    let rim = example("out-of-range.rim").display().to_string();
    let number = Number::OutOfRange;
    let line = format!("{rim}: {number}: record 4, vertex 3: y = 126");
    for text in [PRINTED, "refused 9\n", ""] {
        expect_refusal(&run(&["judge", &rim, "-"], text.as_bytes()), number, &line);
    }
}

#[test]
fn texts_that_are_no_patch() {
    let begins = "a patch begins with the line patch N T TOTAL";
    let count = "a triangle has 3 vertices, this line has";
    let not = |word: &str| format!("'{word}' is not a whole number (a comment starts with #)");
    for (text, why) in [
        ("", "there is no line in the text".into()),
        ("# nothing\n\n", "there is no line in the text".into()),
        ("none\n", format!("line 1: {begins}")),
        ("#\nrefused 12\n", format!("line 2: {begins}")),
        ("patch 4 2\n", format!("line 1: {begins}")),
        ("patch 4 2 943 0\n", format!("line 1: {begins}")),
        ("0 1 3\n1 2 3\n", format!("line 1: {begins}")),
        ("patch 4 2 -943\n", format!("line 1: {}", not("-943"))),
        ("patch 4 x 943\n", format!("line 1: {}", not("x"))),
        ("patch 4 2 943\n0 1 3\n1 2.0 3\n", format!("line 3: {}", not("2.0"))),
        ("patch 4 2 943\n0,1,3\n1,2,3\n", format!("line 2: {count} 1")),
        ("patch 4 2 943\n\n0 1 3\n1 2\n", format!("line 4: {count} 2")),
        ("patch 4 2 943\n0 1 3\n", "line 1: it says 2 triangles, the text has 1".into()),
        (
            "patch 4 2 943\n0 1 3\n1 2 3\n0 1 3\n",
            "line 1: it says 2 triangles, the text has 3".into(),
        ),
        ("patch 5 2 943\n0 1 3\n1 2 3\n", "line 1: it says 5 vertices, the rim has 4".into()),
    ] {
        judged("p.rim", text).refused(2, &format!("standard input: {why}"));
    }
    let binary = "standard input: this is no patch: it has bytes that are no text";
    judged("p.rim", bytes_of("p.rim")).refused(2, binary);
    let long = "standard input: a patch has at most 1048576 bytes";
    judged("p.rim", vec![b' '; (1 << 20) + 1]).refused(2, long);
}

#[test]
fn two_files() {
    let folder = Folder::new("judge");
    let run = |words: &[&str], input: &[u8]| run_in(&folder.0, words, input);
    let p = bytes_of("p.rim");
    fs::write(folder.0.join("p.rim"), &p).expect("written");
    fs::write(folder.0.join("p.txt"), PRINTED).expect("written");
    assert_eq!(run(&["judge", "p.rim", "p.txt"], b"").done().text(), "accepted 0\n");
    assert_eq!(run(&["judge", "-", "p.txt"], &p).done().text(), "accepted 0\n");
    for (words, count) in
        [(&["judge"][..], 0), (&["judge", "-"], 1), (&["judge", "-", "a", "b"], 3)]
    {
        let line = format!("judge takes two files, RIM and PATCH; {count} are given");
        run(words, &p).refused(2, &line);
    }
    let line = "judge takes standard input for RIM or for PATCH, not for both";
    run(&["judge", "-", "-"], &p).refused(2, line);
    let line = "judge has no option --list (./rim --help)";
    run(&["judge", "--list", "p.rim", "p.txt"], b"").refused(2, line);
    for words in [["judge", "gone", "p.txt"], ["judge", "p.rim", "gone"]] {
        run(&words, b"").refused(2, "gone: No such file or directory");
    }
}

/// A refusal is an answer too, which is written; a text that cannot be read has none.
#[test]
fn into_a_file() {
    let folder = Folder::new("judged");
    let p = example("p.rim").display().to_string();
    let judged = |text: &str| run_in(&folder.0, &["judge", "-o", "out", &p, "-"], text.as_bytes());
    let written = || fs::read_to_string(folder.0.join("out")).expect("written");
    assert_eq!(judged(PRINTED).done().text(), "");
    assert_eq!(written(), "accepted 0\n");
    assert_eq!(judged(&PRINTED.replace("943", "944")).status, 1);
    assert_eq!(written(), "refused 22\n");
    assert_eq!(judged("none\n").status, 2);
    assert_eq!(written(), "refused 22\n");
    assert_eq!(folder.names(), ["out"]);
}

/// Puts the other diagonal of two triangles with a common edge in its place.
fn flip(triangles: &mut [Candidate], i: usize, j: usize) {
    let [one, other] = [triangles[i], triangles[j]];
    let (common, alone): (Vec<u8>, Vec<u8>) = one.iter().partition(|v| other.contains(v));
    let far = other.into_iter().find(|v| !one.contains(v));
    if let (&[p, q], &[r], Some(s)) = (&common[..], &alone[..], far) {
        triangles[i] = [p, r, s];
        triangles[j] = [q, r, s];
    }
}

/// Changes a patch somewhere, so that it is another one or none.
fn change(triangles: &mut Vec<Candidate>, candidates: &[Candidate], numbers: &mut Numbers) {
    let [i, j] = [(); 2].map(|()| numbers.below(triangles.len()));
    let candidate = candidates[numbers.below(candidates.len())];
    match numbers.below(6) {
        0 => drop(triangles.remove(i)),
        1 => triangles.push(candidate),
        2 => triangles[i] = candidate,
        _ => flip(triangles, i, j),
    }
}

/// The number of a judgement, for 21 with its place in a word or two. After 22 the patch is accepted
/// with the total that is named.
fn kind(judged: impl Fn(u64) -> Judgement, least: u64) -> &'static str {
    match judged(least) {
        Judgement::Accepted(0) => "0",
        Judgement::PatchRefused(Number::WrongTotal, why) => {
            let own: u64 = why.rsplit(' ').next().and_then(|word| word.parse().ok()).expect(&why);
            assert_eq!(judged(own), Judgement::Accepted(own - least));
            "22"
        }
        Judgement::PatchRefused(Number::NotATriangulation, why) => {
            let mut places = PLACES.into_iter();
            places.find(|place| why.contains(place)).expect(&why)
        }
        other => panic!("{other:?}"),
    }
}

const PLACES: [&str; 4] = ["no candidate", "is on line", "rim edge", "on each side"];

/// Every refusal of a changed patch has its place.
#[test]
fn changed_patches() {
    let mut numbers = Numbers(3);
    let mut met: HashMap<&str, usize> = HashMap::new();
    for name in ["saddle12.rim", "gap.rim", "halves.rim", "ridge-normals.rim"] {
        let file = bytes_of(name);
        let mut tables = OwnedTables::new(patch_box::sizes(&file).expect("accepted"));
        let outcome = patch_box::rim(&file, tables.lend());
        let Ok(Outcome::Patch { total, .. }) = outcome else { panic!("{outcome:?}") };
        let OwnedTables { triangles: patch, candidates, .. } = tables;
        for _ in 0..5000 {
            let mut triangles: Vec<Candidate> =
                patch.iter().map(|&number| candidates[number as usize]).collect();
            (0..numbers.below(4)).for_each(|_| change(&mut triangles, &candidates, &mut numbers));
            let text = |total: u64| text(patch.len() + 2, &triangles, total);
            let judged = |total: u64| judge(&file, text(total).as_bytes()).expect("a patch");
            *met.entry(kind(judged, total)).or_default() += 1;
        }
    }
    let kinds = ["0", "22"].into_iter().chain(PLACES);
    assert!(kinds.into_iter().all(|kind| met[kind] > 100), "{met:?}");
}
