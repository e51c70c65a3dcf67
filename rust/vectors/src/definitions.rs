//! Cases of `parse_definitions`. The bindings are the Rust reference's; the numbers are 01's, as the oracle reads it.
use crate::record::{DEFINITIONS, LONGEST_ROOM, Record, answer_field};
use oracle::definitions::{SHARE, answer, work_needed};
use oracle::includes::files_of;
use oracle::{Files, bundle, parse_definitions, sheet};

#[derive(Clone)]
pub struct Case {
    pub bundle: Vec<u8>,
    pub path: Vec<u8>,
    /// The lengths of both buffers.
    pub left: usize,
    pub work: usize,
}

/// The sheet, whose bindings must be the reference's, or the number.
pub fn wanted(case: &Case) -> Result<Vec<u8>, u8> {
    let files = files_of(&case.bundle);
    let result = answer(files.as_ref(), &case.path, case.left, case.work).result;
    let asked = || parse_definitions(files.as_ref().expect("files"), str::from_utf8(&case.path).expect("a path"));
    match result {
        Ok(tree) => {
            assert_eq!(asked().expect("accepted").tree(), tree);
            Ok(sheet::encode(&tree).expect("a sheet"))
        }
        Err(5) => {
            assert!(asked().is_err());
            Err(5)
        }
        Err(number) => Err(number),
    }
}

/// The longest of all that is held to L.
pub fn longest(bundle: &[u8], path: &[u8]) -> usize {
    answer(files_of(bundle).as_ref(), path, usize::MAX, usize::MAX).longest
}

/// Do its buffers fit into those of the program.
pub fn fits(case: &Case) -> bool {
    case.left <= LONGEST_ROOM && case.work <= LONGEST_ROOM
}

pub fn record(case: &Case, wanted: &Result<Vec<u8>, u8>) -> Record {
    assert!(fits(case));
    let (number, sheet): (u8, &[u8]) = match wanted {
        Ok(sheet) => (0, sheet),
        Err(number) => (*number, b""),
    };
    let answers = [answer_field(number, case.left, sheet), answer_field(number, case.work, b"")];
    Record::new(DEFINITIONS, &[&case.bundle, &case.path, &answers[0], &answers[1]])
}

pub fn cases() -> Vec<Record> {
    let all = [readings(), classes(), rooms(), imports(), order(), levels(), paths(), bytes(), bundles()].concat();
    all.iter().map(|case| record(case, &wanted(case))).collect()
}

fn encoded(entries: &[(&str, &str)]) -> Vec<u8> {
    let files: Files = entries.iter().map(|(path, content)| (path.as_bytes().to_vec(), (*content).into())).collect();
    bundle::encode(&files).expect("a bundle")
}

/// The file f with sheet buffers of these lengths, counted from the longest that is held to L; the work buffer just suffices.
fn around(bundle: &[u8], rooms: &[isize]) -> Vec<Case> {
    let lengths = rooms.iter().filter_map(|room| longest(bundle, b"f").checked_add_signed(*room));
    let case = |left| Case { bundle: bundle.to_vec(), path: b"f".to_vec(), left, work: work_needed(left) };
    lengths.map(case).collect()
}

const TEXTS: [&str; 84] = [
    "",
    "x = \"1\"",
    "#let",
    "#let x",
    "#letx\"1\"",
    "#let x = \"1\"",
    "#let = \"1\"",
    "#let a-b = \"1\"",
    "#let a.b = \"1\"",
    "#let x y \"1\"",
    "#let x == \"1\"",
    "#let x\n=\n\"1\"",
    "#let x = \n\n\"1\"",
    "#let x =\n#let y = \"1\"",
    "#let x = none\n#let y",
    "#let x = none#let y = none",
    "#let x = nonesuch",
    "#let x = none + \"1\"",
    "#let x = \"1\" + none",
    "#let none = \"1\"#let x = \"a\" + none",
    "#let x = non",
    "#let x = 9 #let y\n#let z = _",
    "#let x = -1\n\"2\"",
    "#let x = \"",
    "#let x = \"a",
    "#let x = \"a\\",
    "#let x = \"\\n\\t\\\"\\\\\\q\\\n\"",
    "#let x = \"a\"\"b\"",
    "#let x = \"a\" + \"b\"+\"c\"",
    "#let x = \"a\" +\n\"b\"",
    "#let x = \"a\"\n+ \"b\"",
    "#let x = \"a\" \t+\x0b \"b\"",
    "#let x = \"a\" + 1",
    "#let x = \"a\" + (b: \"c\")",
    "#let x = y",
    "#let x = \"1\"\n#let y = x",
    "#let x = \"1\"\n#let x = x + x",
    "#let x = \"1\"\n#let y = x.k + x. + .x",
    "#let a-b = \"1\"\n#let x = a-b + a_b",
    "#let x = \"1\"#let y = \"2\"#let x = \"3\"",
    "#let x = \"1\"#let x = none",
    "#let x = \"1\"#let x",
    "#let y = \"1\"#let x = \"2\"#let = \"0\"",
    "#let d = ()",
    "#let d = (",
    "#let d = (,)",
    "#let d = (a)",
    "#let d = (a\n)",
    "#let d = (a: \"1\")",
    "#let d = (a \"1\" b \"2\")",
    "#let d = (a: \"1\", b: none, c: ())",
    "#let d = (b: \"1\", a: \"2\")",
    "#let d = (a: \"1\", a: \"2\")",
    "#let d = (a: \"12\", a: none)",
    "#let d = (a-b: \"1\", a_b: \"2\")",
    "#let d = (\"a\": \"1\")",
    "#let d = (: \"1\")",
    "#let d = (\"1\", \"2\")",
    "#let d = (a:: \"1\")",
    "#let d = (a:\n\n\"1\",,\n,b:\"2\"\n)",
    "#let d = (a: 5, b: \"1\"\n, c: \"2\")",
    "#let d = (a: \"1\" // c\n, b: \"2\")",
    "#let d = (// c\na: \"1\")",
    "#let d = (a: none)b: \"1\")",
    "#let d = (a: none, b: x, c: \"1\" + \"2\")",
    "#let d = (a.b: \"1\")",
    "#let d = (a: (b: (c: \"1\")), e: \"2\")",
    "#let d = ((a: \"1\"), (b: \"2\"))",
    "#let d = (a: (b: \"1\"",
    "#let d = (a: \"1\")#let e = d.a + d.b + d",
    "#let d = (e: (a: \"1\"))#let e = d.e.a + d.e",
    "#let d = (a-b: \"1\", a_b: \"2\")#let e = d.a-b",
    "#let x = \"1\"#let d = (x: x, y: d.x)",
    "#let d = ((((((",
    "#let d = (((((((",
    "#let d = ((((((\"1\"))))), x: \"2\")",
    "// #let x = \"1\"\n#let y = \"2\"",
    "//\n//#let x\n /#let y",
    "#let x = \"1\" // #let y\n",
    "a // #let x = \"1\"",
    "#let x = \"//\"",
    "# let x\n#Let y\n#lets = \"1\"",
    "##let x = \"1\"",
    "#let #let x = \"1\"",
];

/// Each text with a buffer that just suffices; where it has a dictionary or a sum, also with one that is too short by one.
fn readings() -> Vec<Case> {
    let rooms = |text: &str| if text.contains(['(', '+']) { &[0, -1][..] } else { &[0] };
    TEXTS.iter().flat_map(|text| around(&encoded(&[("f", text)]), rooms(text))).collect()
}

/// Bytes on both sides of each class: blanks, line blanks, letters, digits, and those of names and words.
fn classes() -> Vec<Case> {
    let mut all = Vec::new();
    for c in "\x08\t\n\x0b\x0c\r\x0e\x1c\x1f !".chars() {
        let text = format!("#let{c}x{c}={c}\"a\"{c}+{c}\"b\"\n#let d = ({c}k{c}:{c}\"c\"{c})");
        all.extend(around(&encoded(&[("f", &text)]), &[0]));
        let text = format!("#import{c}\"a\"{c}:{c}x{c},{c}y");
        all.extend(around(&encoded(&[("a", "#let x#let y"), ("f", &text)]), &[1]));
    }
    for c in "/09:@AZ[^_`az{-.".chars() {
        let text = format!("#let x{c}=\"1\"\n#let y = {c}x + x{c}\n#let d = (k{c} \"2\")");
        all.extend(around(&encoded(&[("f", &text)]), &[0]));
    }
    all
}

/// Every length of the sheet buffer, up to one that suffices, and lengths of the work buffer around what is needed.
fn rooms() -> Vec<Case> {
    let bundle = encoded(&[("f", "#let d = (a: \"1\", b: (c: none))\n#let = d.a")]);
    let enough = longest(&bundle, b"f");
    let case = |left, work| Case { bundle: bundle.clone(), path: b"f".to_vec(), left, work };
    let mut all: Vec<Case> = (0..enough + 2).map(|left| case(left, SHARE * left)).collect();
    let works = [0, 1, SHARE * enough - 1, SHARE * enough + 1, SHARE * enough + SHARE];
    all.extend(works.map(|work| case(enough, work)));
    // 1 comes before all others.
    all.push(Case { bundle: vec![], path: vec![], left: 1, work: SHARE - 1 });
    all
}

const IMPORTS: [&str; 39] = [
    "#import",
    "#import \"",
    "#import \"a",
    "#import \"a\"",
    "#import \"a\"\nx",
    "#import \"a\"\n#let z",
    "#import \"a\": x",
    "#import \"a\" x",
    "#import\n\"a\"\n:\n\nx",
    "#import\"a\":x,y",
    "#import \"a\": x, y #let z",
    "#import \"a\": y ,  x\n#let z",
    "#import \"a\": ,x",
    "#import \"a\": x,,y",
    "#import \"a\": x, ,y,",
    "#import \"a\": x\t,y",
    "#import \"a\": x,\ty",
    "#import \"a\": x,\ny",
    "#import \"a\": x-y",
    "#import \"a\": x.y",
    "#import \"a\": x x",
    "#import \"a\": *",
    "#import \"a\": * , x",
    "#import \"a\": x, *",
    "#import \"a\":: *",
    "#import \"a\": n, d",
    "#import \"a\": d\n#let x = d.k",
    "#import \"a\": m",
    "#import x \"a\": x\n#let z",
    "#import a #let y\n#let z",
    "#import: \"a\"",
    "#imports \"a\": x",
    "#import \"n\": *\n#let z",
    "#import \"a/b\": *",
    "#let x = none\n#import \"a\": x",
    "#import \"a\": x\n#let x = x + y",
    "#import \"a\": *\n#import \"a\": *",
    "#import \"b/c\": *",
    "#import \"b/c\": e",
];

fn imports() -> Vec<Case> {
    let files = |text| {
        let a = "#let x = \"1\"\n#let y = \"2\"\n#let = \"0\"\n#let n = none\n#let d = (k: \"v\")";
        encoded(&[("a", a), ("b/a", "#let e = \"b\""), ("b/c", "#import \"a\": *\n#import \"b/a\": *"), ("f", text)])
    };
    let mut all: Vec<Case> = IMPORTS.iter().flat_map(|text| around(&files(text), &[0])).collect();
    all.extend(around(&files("#import \"a\": *"), &[-1]));
    all
}

/// One name after another: the order of the words, and of `*`, decides which lengths suffice.
fn order() -> Vec<Case> {
    let a = "#let a = \"1\"\n#let b = \"1\"";
    let texts = ["#import \"a\": a, b", "#import \"a\": b, a", "#import \"a\": *", "#import \"a\": b"];
    let with = |text: &&str| encoded(&[("a", a), ("f", &format!("#let b = \"1234567\"\n{text}"))]);
    texts.iter().flat_map(|text| around(&with(text), &[0, -1])).collect()
}

/// Six files, each importing the next, and what the sixth may hold.
fn levels() -> Vec<Case> {
    let sixth = [
        "#let x = \"6\"",
        "#import \"a\"",
        "#import \"n\"",
        "#import \"..\"",
        "#import \"d\"",
        "#import \"h\"",
        "#let d = (((((((",
    ];
    let case = |last: &str, path: &[u8]| Case { bundle: chain(last), path: path.to_vec(), left: 30, work: 480 };
    let mut all: Vec<Case> = sixth.iter().map(|last| case(last, b"0")).collect();
    all.push(case(sixth[1], b"1"));
    all.extend(around(&encoded(&[("f", "#let x\n#import \"f\": *")]), &[0]));
    all.extend(around(&encoded(&[("f", "#import \"f\": *")]), &[5]));
    all
}

fn chain(last: &str) -> Vec<u8> {
    let mut files: Files = (0..6).map(|i| (i.to_string().into(), format!("#import \"{}\": *", i + 1).into())).collect();
    files.insert(b"6".to_vec(), last.into());
    files.insert(b"a".to_vec(), vec![]);
    files.insert(b"d/x".to_vec(), vec![]);
    files.insert(b"h".to_vec(), vec![128]);
    bundle::encode(&files).expect("a bundle")
}

const PATHS: [&str; 18] =
    ["", " ", ".", "..", "../a", "./a", "d/../a", "/a", "a/", "d//b", "d", "n", "d/n", "a/b", "d/b", "a b", "\\a", "A"];

/// Paths to import and paths asked for.
fn paths() -> Vec<Case> {
    let mut all = Vec::new();
    for path in PATHS {
        let bundle = encoded(&[("a", ""), ("d/b", "#let x"), ("f", &format!("#import \"{path}\": *"))]);
        all.push(Case { bundle: bundle.clone(), path: b"f".to_vec(), left: 4, work: 64 });
        all.push(Case { bundle, path: path.into(), left: 4, work: 64 });
    }
    // From the folder of the file.
    for path in ["b", "d/b", "e/c"] {
        let text = format!("#import \"{path}\": *");
        let bundle = encoded(&[("b", "#let x"), ("d/b", "#let y"), ("d/e/c", "#let z"), ("d/f", &text)]);
        all.push(Case { bundle, path: b"d/f".to_vec(), left: 4, work: 64 });
    }
    let (longest, longer) = ("p".repeat(253), "p".repeat(254));
    for path in [longest, longer] {
        let bundle = encoded(&[("d/f", &format!("#import \"{path}\": *"))]);
        all.push(Case { bundle, path: b"d/f".to_vec(), left: 4, work: 64 });
    }
    all
}

/// Bytes from 128 in the file, in one that is imported, and in one that is not; and which refusal comes first.
fn bytes() -> Vec<Case> {
    let texts: [&[u8]; 6] = [
        b"\x80",
        b"#import \"..\"\xff",
        b"#import \"h\"",
        b"#import \"h\": *\n#import \"..\"",
        b"#let x\n#import \"h\"",
        b"\x7f",
    ];
    let files = |text: &[u8]| Files::from([(b"f".to_vec(), text.to_vec()), (b"h".to_vec(), b"x\x80".to_vec())]);
    let bundle = |text: &[u8]| bundle::encode(&files(text)).expect("a bundle");
    texts.iter().map(|text| Case { bundle: bundle(text), path: b"f".to_vec(), left: 3, work: 48 }).collect()
}

/// A bundle cut at each place.
fn bundles() -> Vec<Case> {
    let whole = encoded(&[("d/b", "#let x"), ("f", "#import \"d/b\": *")]);
    let case = |n| Case { bundle: whole[..n].to_vec(), path: b"f".to_vec(), left: 4, work: 64 };
    (0..=whole.len()).step_by(3).map(case).collect()
}
