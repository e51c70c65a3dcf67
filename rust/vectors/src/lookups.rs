//! Cases of `resolve`. Kinds and texts are the Rust reference's, of its two lookups; the numbers are 01's and 02's, as the oracle reads them.
use crate::record::{LONGEST_ROOM, LOOKUP, Record, answer_field};
use oracle::expansion::tree_of;
use oracle::lookup::{Looked, answer};
use oracle::{Tree, Value, context, sheet};

#[derive(Clone)]
pub struct Case {
    pub sheet: Vec<u8>,
    pub path: Vec<u8>,
    pub room: usize,
}

/// The kind and the text, which must be the reference's, or the number.
pub fn wanted(case: &Case) -> Result<Looked, u8> {
    let result = answer(tree_of(&case.sheet).as_ref(), &case.path, case.room);
    if let Ok(looked) = &result {
        let path = str::from_utf8(&case.path).expect("a text");
        assert_eq!(context(&case.sheet).expect("a sheet").looked(path), *looked);
    }
    result
}

pub fn record(case: &Case, wanted: &Result<Looked, u8>) -> Record {
    assert!(case.room <= LONGEST_ROOM);
    let (number, kind, text): (u8, u8, &[u8]) = match wanted {
        Ok(looked) => (0, looked.kind, &looked.text),
        Err(number) => (*number, 0, b""),
    };
    let answer = answer_field(number, case.room, text);
    Record::new(LOOKUP, &[&case.sheet, &case.path, &answer, &[kind]])
}

fn text(t: &str) -> Value {
    Value::Text(t.as_bytes().to_vec())
}

fn tree(entries: Vec<(&str, Value)>) -> Tree {
    entries.into_iter().map(|(n, v)| (n.as_bytes().to_vec(), v)).collect()
}

/// A dictionary in a dictionary, so many levels.
fn nested(levels: usize) -> Value {
    let inner = if levels == 1 {
        tree(vec![("e", text("end"))])
    } else {
        tree(vec![("k", nested(levels - 1)), ("a-b", text("hyphen"))])
    };
    Value::Dictionary(inner)
}

fn sheets() -> Vec<Vec<u8>> {
    let all = [
        tree(vec![]),
        tree(vec![("x", text("10"))]),
        tree(vec![("", text("")), ("_", Value::None), ("a", text("A")), ("a_b", text("AB")), ("b", text(""))]),
        tree(vec![
            ("d", Value::Dictionary(tree(vec![]))),
            ("e", Value::Dictionary(tree(vec![("", text("empty key")), ("-", text("hyphen"))]))),
        ]),
        tree(vec![("n", nested(6)), ("z", text("last"))]),
        (0..40).map(|i| (format!("name_{i:02}").into_bytes(), text(&"v".repeat(i)))).collect(),
    ];
    all.iter().map(|t| sheet::encode(t).expect("within six levels")).collect()
}

/// Sheets hurt in every way of one byte, or cut: many keep the layout, the others are 3.
fn hurt(of: &[u8]) -> Vec<Vec<u8>> {
    let mut all: Vec<Vec<u8>> = (0..of.len()).map(|n| of[..n].to_vec()).collect();
    for i in 0..of.len() {
        for x in [0, 1, 2, 4, 8, 16, 128] {
            let mut b = of.to_vec();
            b[i] ^= x;
            all.push(b);
        }
    }
    all
}

const LONG: usize = 1000;

const PATHS: [&str; 22] = [
    "", "x", "x.", ".x", "a", "a_b", "a-b", "b", "_", "d", "d.", "e", "e.", "e.-", "e._", "n", "n.k", "n.k.k.k.k.k.e",
    "n.a-b", "z", "name_07", "name_40",
];

fn case(sheet: &[u8], path: &[u8], room: usize) -> Case {
    Case { sheet: sheet.to_vec(), path: path.to_vec(), room }
}

pub fn cases() -> Vec<Record> {
    let all = [readings(), rooms(), told_apart(), order(), hurt_sheets()].concat();
    all.iter().map(|case| record(case, &wanted(case))).collect()
}

/// Every path for every sheet; the long sheet, which would fill the input, only for those that name something of it.
fn readings() -> Vec<Case> {
    let mut all = Vec::new();
    for s in sheets() {
        let paths = PATHS.iter().filter(|p| s.len() < LONG || p.is_empty() || p.starts_with("name"));
        all.extend(paths.map(|p| case(&s, p.as_bytes(), 40)));
        all.push(case(&s, b"\x80", 40));
    }
    all
}

/// Every length of the buffer, up to ones that suffice; and a text whose length does not fit into a byte.
fn rooms() -> Vec<Case> {
    let long = sheet::encode(&tree(vec![("x", text(&"v".repeat(300)))])).expect("a sheet");
    (0..5).map(|room| case(&sheets()[1], b"x", room)).chain(around(&long, "x")).collect()
}

/// What E1 tells apart, under a name, a key, the empty name and the empty key: each value that there is, and none at all. Into no bytes, one
/// too few, just enough, and one too many.
fn told_apart() -> Vec<Case> {
    let values = [
        Some(text("")),
        Some(text("a")),
        Some(text("abc")),
        Some(Value::None),
        Some(Value::Dictionary(tree(vec![]))),
        None,
    ];
    let mut all = Vec::new();
    for value in values {
        let at = |name| value.clone().map(|value| (name, value));
        let inner = |name| ("d", Value::Dictionary(tree(at(name).into_iter().collect())));
        let sheets = [
            (tree(at("x").into_iter().collect()), ["x", "x.", "x.k"]),
            (tree(at("").into_iter().chain([("y", text("Y"))]).collect()), ["", ".", "y."]),
            (tree(vec![inner("k")]), ["d.k", "d.k.", "d"]),
            (tree(vec![inner("")]), ["d.", "d..", "d"]),
        ];
        for (tree, paths) in sheets {
            let sheet = sheet::encode(&tree).expect("a sheet");
            all.extend(paths.iter().flat_map(|path| around(&sheet, path)));
        }
    }
    all
}

/// With buffers of no bytes, one too few, just enough, and one too many.
fn around(sheet: &[u8], path: &str) -> Vec<Case> {
    let len = wanted(&case(sheet, path.as_bytes(), LONGEST_ROOM)).expect("accepted").text.len();
    let mut rooms = vec![0, len.saturating_sub(1), len, len + 1];
    rooms.dedup();
    rooms.into_iter().map(|room| case(sheet, path.as_bytes(), room)).collect()
}

/// Which refusal comes first.
fn order() -> Vec<Case> {
    let sheet = &sheets()[1];
    let mut all = Vec::new();
    for sheet in [&sheet[..], &[sheet, &b"\x10"[..]].concat(), b"\x10"] {
        for path in [&b"x"[..], b"x\x80", b"x.\xff", b"\x7f"] {
            all.extend((0..4).map(|room| case(sheet, path, room)));
        }
    }
    all
}

fn hurt_sheets() -> Vec<Case> {
    let hurt_ones = hurt(&sheets()[2]).into_iter().chain(hurt(&sheets()[3]));
    hurt_ones.map(|s| case(&s, b"e.", 12)).collect()
}
