//! Sheets and paths to look up in them, from a grammar of fragments and at random; and sheets that break a rule.
use crate::damage::{damaged, few};
use crate::rng::Rng;
use oracle::sheet::{LEVELS, encode};
use oracle::{Tree, Value};

const NAMES: [&str; 18] =
    ["", "x", "y", "a", "b", "aa", "ab", "abc", "_", "__", "X", "x1", "9", "x_y", "lang", "title", "none", "zz"];
const KEYS: [&str; 8] = ["-", "--", "a-b", "x-y", "-x", "x-", "a_b", "a-"];
const TEXTS: [&str; 14] =
    ["10", "ten seconds", "\"q\"", "a.b", "x", "\n", " \t", "#x", "\\n", "\0", "\x7f", "```", "d.x", "\0\0\0"];
const WORD: &[u8] = b"ABCDEFGHIJKLMNOPQRSTUVWXYZabcdefghijklmnopqrstuvwxyz0123456789_";
const KEY: &[u8] = b"ABCDEFGHIJKLMNOPQRSTUVWXYZabcdefghijklmnopqrstuvwxyz0123456789_-";
/// On both sides of what a name may hold.
const EDGES: &[u8] = b"AZaz09__--/:@[`{^. ,\0\x7f\x80\xff";

/// Which bytes a tree's names and texts are made of.
#[derive(Clone, Copy)]
struct Bytes {
    names: &'static [u8],
    keys: &'static [u8],
    /// One text in so many holds a byte from 128; 0 for none.
    high: usize,
}

const KEPT: Bytes = Bytes { names: WORD, keys: KEY, high: 0 };

/// A sheet's tree that keeps the rules. Some few are large.
pub fn tree(rng: &mut Rng) -> Tree {
    match rng.below(4000) {
        0 => many(rng),
        1 => with_long_text(rng),
        2 => filled(rng, 65_535),
        3..400 => deep(rng, KEPT),
        _ => records(rng, KEPT, LEVELS, false),
    }
}

fn records(rng: &mut Rng, bytes: Bytes, levels: usize, keys: bool) -> Tree {
    let count = match rng.below(40) {
        0 => rng.between(9, 40),
        1..4 => 0,
        _ => rng.between(1, 6),
    };
    (0..count).map(|_| (name(rng, bytes, keys), value(rng, bytes, levels))).collect()
}

fn value(rng: &mut Rng, bytes: Bytes, levels: usize) -> Value {
    match rng.below(10) {
        0 => Value::Text(vec![]),
        1 => Value::None,
        2..=4 if levels > 0 => Value::Dictionary(records(rng, bytes, levels - 1, true)),
        _ => Value::Text(text(rng, bytes)),
    }
}

fn name(rng: &mut Rng, bytes: Bytes, key: bool) -> Vec<u8> {
    let set = if key { bytes.keys } else { bytes.names };
    match rng.below(200) {
        0 => long(rng, set),
        1..50 => {
            let n = rng.between(1, 6);
            rng.string(set, n)
        }
        50..100 if key => rng.pick(&KEYS).as_bytes().to_vec(),
        _ => rng.pick(&NAMES).as_bytes().to_vec(),
    }
}

fn text(rng: &mut Rng, bytes: Bytes) -> Vec<u8> {
    let mut text = match rng.below(100) {
        0 => long(rng, b"abc\0\n\x7f"),
        1..40 => {
            let n = rng.between(1, 12);
            rng.bytes(n).iter().map(|b| b % 128).collect()
        }
        _ => rng.pick(&TEXTS).as_bytes().to_vec(),
    };
    if bytes.high > 0 && rng.one_in(bytes.high) {
        let i = rng.below(text.len());
        text[i] |= 128;
    }
    text
}

/// Around a length whose second byte counts.
fn long(rng: &mut Rng, set: &[u8]) -> Vec<u8> {
    let n = *rng.pick(&[127, 128, 255, 256, 257, 300, 511, 512, 1000]);
    rng.string(set, n)
}

/// Dictionaries in each other down to the last level.
fn deep(rng: &mut Rng, bytes: Bytes) -> Tree {
    let mut inner = records(rng, bytes, 0, true);
    for level in 0..LEVELS {
        let keys = level + 1 < LEVELS;
        let mut outer = records(rng, bytes, 0, keys);
        outer.insert(name(rng, bytes, keys), Value::Dictionary(inner));
        inner = outer;
    }
    inner
}

/// Hundreds of bindings, or of keys.
fn many(rng: &mut Rng) -> Tree {
    let names = |rng: &mut Rng| (0..rng.between(200, 1500)).map(|i| format!("n{i}").into_bytes()).collect::<Vec<_>>();
    let all: Tree = names(rng).into_iter().map(|name| (name, Value::Text(text(rng, KEPT)))).collect();
    let all = if encode(&all).is_some_and(|b| b.len() < 60_000) { all } else { Tree::new() };
    if rng.one_in(2) { all } else { Tree::from([(b"d".to_vec(), Value::Dictionary(all))]) }
}

fn with_long_text(rng: &mut Rng) -> Tree {
    let mut tree = records(rng, KEPT, 2, false);
    let n = rng.between(1000, 60_000);
    tree.insert(name(rng, KEPT, false), Value::Text(rng.string(b"abc \n", n)));
    tree
}

/// A tree whose sheet has exactly n bytes.
pub fn filled(rng: &mut Rng, n: usize) -> Tree {
    const FILLER: &[u8] = b"zzzz";
    let mut tree = records(rng, KEPT, 1, false);
    let taken = encode(&tree).expect("short").len() + 1 + 2 + FILLER.len() + 2;
    tree.insert(FILLER.to_vec(), Value::Text(vec![b'f'; n - taken]));
    tree
}

/// A path to look up in a sheet: one that is there, one like it, or one at random.
pub fn path(tree: &Tree, rng: &mut Rng) -> Vec<u8> {
    match rng.below(16) {
        0 => {
            let n = rng.below(8);
            rng.string(b"..abxy-_", n)
        }
        1 => {
            let n = rng.below(8);
            rng.bytes(n)
        }
        2..=6 => changed(walk(tree, rng), rng).join(&b'.'),
        _ => walk(tree, rng).join(&b'.'),
    }
}

/// Pieces that lead to a value.
pub fn walk(tree: &Tree, rng: &mut Rng) -> Vec<Vec<u8>> {
    let mut pieces = Vec::new();
    let mut here = tree;
    while !here.is_empty() {
        let (name, value) = here.iter().nth(rng.below(here.len())).expect("a record");
        pieces.push(name.clone());
        match value {
            Value::Dictionary(inner) if !rng.one_in(5) => here = inner,
            _ => break,
        }
    }
    pieces
}

/// The pieces with one thing changed.
fn changed(mut pieces: Vec<Vec<u8>>, rng: &mut Rng) -> Vec<Vec<u8>> {
    let at = rng.below(pieces.len() + 1);
    let Some(piece) = pieces.get_mut(at) else {
        pieces.push(name(rng, KEPT, true));
        return pieces;
    };
    match rng.below(10) {
        0 => pieces.insert(at, vec![]),
        1 => pieces.push(vec![]),
        2 => drop(pieces.remove(at)),
        3 => *piece = name(rng, KEPT, true),
        4 => piece.push(*rng.pick(KEY)),
        5 => drop(piece.pop()),
        6 => swap_marks(piece),
        7 => piece.push(rng.byte()),
        8 => {
            let i = rng.below(piece.len() + 1);
            piece.insert(i, rng.byte() | 128);
        }
        _ => piece.make_ascii_uppercase(),
    }
    pieces
}

/// Each `-` made `_`, and the reverse.
fn swap_marks(piece: &mut [u8]) {
    for c in piece {
        match c {
            b'-' => *c = b'_',
            b'_' => *c = b'-',
            _ => {}
        }
    }
}

/// The length of an output for a text of `len` bytes: exact, one short, one over, none, some.
pub fn room(len: usize, rng: &mut Rng) -> usize {
    match rng.below(8) {
        0..=2 => len,
        3 => len.saturating_sub(1),
        4 => len + 1,
        5 => 0,
        6 => rng.below(40),
        _ => len + rng.below(300),
    }
}

/// Bytes that mostly are no sheet, and a path to look up in them.
pub fn damaged_sheet(rng: &mut Rng) -> (Vec<u8>, Vec<u8>) {
    let bytes = |names, keys, high| Bytes { names, keys, high };
    let tree = match rng.below(400) {
        0 => filled_over(rng),
        1..30 => records(rng, bytes(KEY, KEY, 0), LEVELS, false),
        30..60 => records(rng, bytes(EDGES, KEY, 0), 2, false),
        60..90 => records(rng, bytes(WORD, EDGES, 0), 3, false),
        90..120 => records(rng, bytes(WORD, KEY, 4), 3, false),
        120..160 => wrapped(rng),
        _ => tree(rng),
    };
    let path = path(&tree, rng);
    let sheet = match rng.below(8) {
        0 => few(rng),
        1 => regrouped(&tree, rng),
        2 => with_broken_record(&tree, rng),
        3 | 4 => encode(&tree).expect("lengths of 16 bits"),
        _ => damaged(encode(&tree).expect("lengths of 16 bits"), rng),
    };
    (sheet, path)
}

/// Around the greatest length of a sheet.
fn filled_over(rng: &mut Rng) -> Tree {
    let n = rng.between(65_533, 65_538);
    filled(rng, n)
}

/// A tree below some more dictionaries: of five to eight levels.
fn wrapped(rng: &mut Rng) -> Tree {
    let mut tree = deep(rng, KEPT);
    for _ in 0..rng.below(3) {
        let mut outer = records(rng, KEPT, 0, false);
        outer.insert(name(rng, KEPT, false), Value::Dictionary(tree));
        tree = outer;
    }
    tree
}

/// Each record of the tree by itself.
fn single_records(tree: &Tree) -> Vec<Vec<u8>> {
    let single = |(name, value): (&Vec<u8>, &Value)| Tree::from([(name.clone(), value.clone())]);
    tree.iter().map(|record| encode(&single(record)).expect("lengths of 16 bits")).collect()
}

/// The records joined; or as one dictionary's, with the count given.
fn joined(records: &[Vec<u8>], count: Option<usize>) -> Vec<u8> {
    let all = records.concat();
    match count {
        None => all,
        Some(n) => [b"\x05\x01\0d", &(n as u16).to_le_bytes()[..], &all].concat(),
    }
}

/// Records swapped, doubled, lost or miscounted.
fn regrouped(tree: &Tree, rng: &mut Rng) -> Vec<u8> {
    let mut records = single_records(tree);
    let mut count = records.len();
    if records.is_empty() {
        records.push(vec![0]);
    }
    let (i, j) = (rng.below(records.len()), rng.below(records.len()));
    match rng.below(4) {
        0 => records.swap(i, j),
        1 => records.insert(i, records[j].clone()),
        2 => drop(records.remove(i)),
        _ => count = count.wrapping_add(rng.below(3)).wrapping_sub(1) % 65_536,
    }
    if rng.one_in(2) {
        count = records.len();
    }
    let inside = rng.one_in(2).then_some(count);
    joined(&records, inside)
}

/// The records with one between them that breaks a rule by itself, or may.
fn with_broken_record(tree: &Tree, rng: &mut Rng) -> Vec<u8> {
    const BROKEN: [&[u8]; 20] = [
        b"\x01\0\0",
        b"\x02\0\0",
        b"\x03\x01\0a\0\0",
        b"\x03\0\0\x01\0a",
        b"\x06\x01\0a\0\0",
        b"\x0a\x01\0a",
        b"\x0c\0\0",
        b"\x0e\x01\0a\0\0",
        b"\x10",
        b"\x20",
        b"\x40",
        b"\x80",
        b"\x18",
        b"\x04",
        b"\x04\xff\xff",
        b"\x02\xff\xff",
        b"\x01\x01\0-",
        b"\x02\x01\0\x80",
        b"\x04\x02\0\x00\x00",
        b"\x04\x02\0\x08\x01\x01\0-",
    ];
    let mut records = single_records(tree);
    let i = rng.below(records.len() + 1);
    records.insert(i, rng.pick(&BROKEN).to_vec());
    let inside = rng.one_in(2).then_some(records.len());
    joined(&records, inside)
}

#[cfg(test)]
mod tests {
    use super::*;
    use oracle::layout::is_sheet;
    use oracle::sheet::decode;

    #[test]
    fn trees_keep_the_rules() {
        let mut rng = Rng::new(1);
        for _ in 0..20_000 {
            let tree = tree(&mut rng);
            let bytes = encode(&tree).unwrap();
            assert!(is_sheet(&bytes));
            assert_eq!(decode(&bytes), Some(tree));
        }
    }

    fn word_names(tree: &Tree, key: bool) -> bool {
        let allowed = |c: &u8| c.is_ascii_alphanumeric() || *c == b'_' || (key && *c == b'-');
        tree.iter().all(|(name, value)| {
            name.iter().all(allowed)
                && match value {
                    Value::Text(text) => text.is_ascii(),
                    Value::None => true,
                    Value::Dictionary(inner) => word_names(inner, true),
                }
        })
    }

    // The walk of `layout`, and the way by the tree: read, bytes allowed, written back the same.
    #[test]
    fn two_checks_agree() {
        let mut rng = Rng::new(2);
        let mut kept = 0;
        for _ in 0..100_000 {
            let (sheet, _) = damaged_sheet(&mut rng);
            let back = decode(&sheet).filter(|tree| word_names(tree, false)).and_then(|tree| encode(&tree));
            let by_tree = sheet.len() <= 65_535 && back.as_ref() == Some(&sheet);
            assert_eq!(is_sheet(&sheet), by_tree, "{}", crate::case::hex(&sheet));
            kept += usize::from(by_tree);
        }
        assert!((10_000..60_000).contains(&kept), "{kept} of the damaged sheets are sheets");
    }
}
