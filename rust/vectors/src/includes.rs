//! Cases of `resolve_includes`. The texts are the Rust reference's; the numbers are 01's, as the oracle reads it.
use crate::record::{INCLUDE, LONGEST_ROOM, Record, text_field};
use oracle::includes::{answer, files_of};
use oracle::{Files, bundle, resolve_includes};

#[derive(Clone)]
pub struct Case {
    pub bundle: Vec<u8>,
    pub folder: Vec<u8>,
    pub text: Vec<u8>,
    pub room: usize,
}

/// The text, which must be the reference's, or the number.
pub fn wanted(case: &Case) -> Result<Vec<u8>, u8> {
    let files = files_of(&case.bundle);
    let result = answer(files.as_ref(), &case.folder, &case.text, case.room).result;
    let asked = || resolve_includes(files.as_ref().expect("files"), utf8(&case.folder), utf8(&case.text));
    match &result {
        Ok(text) => assert_eq!(asked().as_deref(), Ok(utf8(text))),
        Err(5) => assert!(asked().is_err()),
        Err(_) => {}
    }
    result
}

fn utf8(bytes: &[u8]) -> &str {
    str::from_utf8(bytes).expect("a text")
}

pub fn record(case: &Case, wanted: &Result<Vec<u8>, u8>) -> Record {
    assert!(case.room <= LONGEST_ROOM);
    Record::new(INCLUDE, &[&case.bundle, &case.folder, &case.text, &text_field(wanted, case.room)])
}

fn case(files: &Files, folder: &str, text: &str, room: usize) -> Case {
    Case { bundle: encoded(files), folder: folder.into(), text: text.into(), room }
}

fn encoded(files: &Files) -> Vec<u8> {
    bundle::encode(files).expect("a bundle")
}

fn files(entries: &[(&str, &str)]) -> Files {
    entries.iter().map(|(path, content)| (path.as_bytes().to_vec(), content.as_bytes().to_vec())).collect()
}

/// How many bytes come out before the end or a refusal.
fn written(files: &Files, folder: &str, text: &str) -> usize {
    answer(Some(files), folder.as_bytes(), text.as_bytes(), usize::MAX).written
}

pub fn cases() -> Vec<Record> {
    let all = [starred(), readings(), rooms(), paths(), citations(), levels(), bytes(), folders(), bundles()].concat();
    all.iter().map(|case| record(case, &wanted(case))).collect()
}

/// The line of 01, section 10.
fn starred() -> Vec<Case> {
    let case = case(&files(&[("b", "B")]), "", "// #include \"a\" #include \"b\"", 20);
    assert_eq!(wanted(&case).as_deref(), Ok(&b"// #include \"a\" B\n"[..]));
    vec![case]
}

/// Texts for a file a.
const TEXTS: [&str; 57] = [
    "",
    "x\ny\n",
    "#",
    "##include\"a\"",
    "#includ\"a\"",
    "#include",
    "#include\"a\"",
    "x#include \"a\"y",
    "#include\n\t\"a\"\n",
    "#include x\"a\"",
    "#include)\"\x0b a\r\n\"",
    "#include\"a",
    "#include\"",
    "#include\"a\"#include\"a\"",
    "#include#include\"a\"\"a\"",
    "#include//\n\"a\"",
    "#include#source-include(\"a\")",
    "//#include\"n\"",
    " \t//x#include\"n\"",
    "\x0c//#include\"n\"\n#include\"a\"",
    "//#include#include\"a\"",
    "//#include//#include\"n\"",
    "//#include\n//#include\"n\"",
    "x//#include\"a\"",
    "/#include\"a\"",
    "/ /#include\"a\"",
    "\x1c//#include\"a\"",
    "//\n#include\"a\"",
    "#include\"a\"//#include\"n\"",
    "#include\"a\"\n //#include\"n\"",
    "//#source-include(\"n\")",
    "#source-include//#include\"n\"",
    "#source-include",
    "#source-include x\"a\"",
    "#source-include(",
    "#source-include(\"a",
    "#source-include(\"a\")",
    "#source-include(\"a\")\n",
    "#source-include(\"a\")x\ny",
    "#source-include(\"a\")x",
    "#source-include \n(\"a\",\"r\")\nz",
    "#source-include(\"a\"",
    "#source-include(\"a\"\nz",
    "#source-include(\" a\n\",\"\")\n\n",
    "#source-include(\"a\",\"r)\"\nz",
    "#source-include(\"a\",\"r)\")z\ny",
    "#source-include()\"a\"\"r\"",
    "#source-include()\n\"a\"\"r\"",
    "#source-include)(\"a\")",
    "#source-include()\n#include\"a\"",
    "#source-include(\"a\"#include\"a\"",
    "#source-include(\"a\",\"r",
    "#source-include(\"a\")\n#include\"a\"",
    "#source-#include\"a\"",
    "#source-include()\n#source-include()\n\"a\"",
    "#source-include(\"a\")\n#source-include(\n\"a\")\nz",
    "#source-include(\"a\")//#include\"a\"\n#include\"a\"",
];

/// Contents of a file a.
const CONTENTS: [&str; 10] =
    ["", "\n", "A\n", "A\n\n", "\"", "//", "#include", "#include \"", "#source-include(", "#source-include(\"a\""];

/// Each text with a buffer that just suffices and, where it writes, with one that is too short by one.
fn readings() -> Vec<Case> {
    let mut all = Vec::new();
    for text in TEXTS {
        all.extend(around(&files(&[("a", "A")]), text, &[0, -1]));
    }
    for content in CONTENTS {
        let files = files(&[("a", content)]);
        all.extend(around(&files, "#include\"a\"//x\"#include\"a\"", &[0]));
        all.extend(around(&files, "#source-include(\"a\")", &[1]));
        all.extend(around(&files, "#include\"a\"#source-include(\"a\")x", &[0]));
    }
    all
}

/// The text with buffers of these lengths, counted from what it writes.
fn around(files: &Files, text: &str, rooms: &[isize]) -> Vec<Case> {
    let rooms = rooms.iter().filter_map(|room| written(files, "", text).checked_add_signed(*room));
    rooms.map(|room| case(files, "", text, room)).collect()
}

/// What is written counts before the next file is opened.
fn rooms() -> Vec<Case> {
    let files = files(&[("a", "B#include\"c\""), ("c", "C"), ("x", "X#include\"n\"")]);
    let texts =
        ["x#include\"a\"y", "#include\"x\"", "xy#include\"n\"", "xy#source-include(\"n\")", "#source-include(\"c\")"];
    let with_each_room = |text: &&str| {
        let text = text.to_string();
        (0..=written(&files, "", &text)).map(|room| case(&files, "", &text, room)).collect::<Vec<_>>()
    };
    texts.iter().flat_map(with_each_room).collect()
}

const PATHS: [&str; 20] = [
    "", " ", ".", "..", "../a", "./a", "d/../a", "/a", "a/", "d//b", "d", "n", "d/n", "a/b", "d/b", "a b", "a\0",
    "a\x1c", "A", "\x7f",
];

fn paths() -> Vec<Case> {
    let files = files(&[("a", "A"), ("d/b", "B")]);
    let include = |folder: &str, path: &str| case(&files, folder, &format!("#include\"{path}\""), 12);
    let source = |folder: &str, path: &str| case(&files, folder, &format!("#source-include(\"{path}\")"), 12);
    let mut all = Vec::new();
    for path in PATHS {
        all.extend([include("", path), source("", path)]);
    }
    for path in ["b", "a", "../a", "/d/b"] {
        all.extend([include("d", path), source("d", path)]);
    }
    all.extend([255, 256].map(|n| include("", &"p".repeat(n))));
    all
}

/// `CITATION.cff` at each height, as a file and as a folder.
fn citations() -> Vec<Case> {
    let places = ["", "CITATION.cff", "CITATION.cff/x", "d/CITATION.cff", "d/CITATION.cff/x", "d/e/CITATION.cff"];
    let mut all = Vec::new();
    for place in places {
        let mut files = files(&[("a", "R"), ("d/a", "D"), ("d/e/a", "E"), ("d/b", "#source-include(\"a\")")]);
        if !place.is_empty() {
            files.insert(place.into(), vec![]);
        }
        all.push(case(&files, "", "#include\"d/b\"", 11));
        files.remove(&b"d/b"[..]);
        for folder in ["", "d", "d/e", "d/x", "x/y"] {
            all.push(case(&files, folder, "#source-include(\"a\")", 10));
        }
    }
    all.push(longest_citation());
    all
}

/// One whose path has 255 bytes.
fn longest_citation() -> Case {
    let folder = "p".repeat(255 - "/CITATION.cff".len());
    let files = files(&[(&format!("{folder}/CITATION.cff"), ""), (&format!("{folder}/a"), "A")]);
    case(&files, &format!("{folder}/e"), "#source-include(\"a\")", 10)
}

/// Six files, each including the next, and what the sixth may hold.
fn levels() -> Vec<Case> {
    let sixth = [
        "6",
        "#include\"a\"",
        "#include\"n\"",
        "#include\"..\"",
        "#include\"d\"",
        "#include\"h\"",
        "#source-include(\"a\")",
    ];
    let mut all: Vec<Case> = sixth.iter().map(|last| case(&chain(last), "", "#include\"1\"", 30)).collect();
    all.push(case(&chain(sixth[1]), "", "#include\"2\"", 30));
    let itself = files(&[("a", "x#include\"a\"")]);
    all.extend((4..8).map(|room| case(&itself, "", "#include\"a\"", room)));
    all
}

fn chain(last: &str) -> Files {
    let mut files: Files = (1..6).map(|i| (i.to_string().into(), format!("#include\"{}\"", i + 1).into())).collect();
    files.insert(b"6".to_vec(), last.into());
    files.insert(b"a".to_vec(), b"A".to_vec());
    files.insert(b"d/x".to_vec(), vec![]);
    files.insert(b"h".to_vec(), vec![128]);
    files
}

/// Bytes from 128 in the arguments and in files, opened or not; and which refusal comes first.
fn bytes() -> Vec<Case> {
    let files = Files::from([(b"a".to_vec(), b"A".to_vec()), (b"h".to_vec(), b"x\xff".to_vec())]);
    let texts: [(&[u8], &[u8]); 8] = [
        (b"", b"#include\"a\""),
        (b"", b"#include\"h\""),
        (b"", b"#source-include(\"h\")"),
        (b"", b"x\x80"),
        (b"", b"#include\"n\"\x80"),
        (b"/", b"\x80"),
        (b"\x80", b"x"),
        (b"", b"\x7f"),
    ];
    let whole = encoded(&files);
    let broken = whole[1..].to_vec();
    let case = |bundle: &[u8], folder: &[u8], text: &[u8]| Case {
        bundle: bundle.into(),
        folder: folder.into(),
        text: text.into(),
        room: 2,
    };
    let mut all: Vec<Case> = texts.iter().map(|(folder, text)| case(&whole, folder, text)).collect();
    all.extend([case(&broken, b"/", b"\x80"), case(&broken, b"", b"\x80"), case(b"", b"", b"")]);
    all
}

fn folders() -> Vec<Case> {
    let (longest, longer) = ("p".repeat(255), "p".repeat(256));
    let plain = files(&[("a", "A"), ("d/b", "B")]);
    let rooted = files(&[("CITATION.cff", ""), ("a", "A")]);
    let folders = ["d", "n", "a", "a/b", "/", "d/", ".", "..", "d d", &longest, &longer];
    let mut all: Vec<Case> = folders.iter().map(|folder| case(&plain, folder, "x", 2)).collect();
    all.push(case(&plain, &longest, "#source-include(\"a\")", 10));
    all.push(case(&rooted, &longest, "#source-include(\"a\")", 10));
    all
}

/// A bundle cut, and hurt in some ways of one byte: most break the layout.
fn bundles() -> Vec<Case> {
    let whole = encoded(&files(&[("a", "A"), ("d/b", "B")]));
    let mut hurt: Vec<Vec<u8>> = (0..whole.len()).map(|n| whole[..n].to_vec()).collect();
    for i in 0..whole.len() {
        for bit in [1, 4, 128] {
            let mut bytes = whole.clone();
            bytes[i] ^= bit;
            hurt.push(bytes);
        }
    }
    hurt.into_iter().map(|bundle| Case { bundle, folder: vec![], text: b"#include\"d/b\"".to_vec(), room: 3 }).collect()
}
