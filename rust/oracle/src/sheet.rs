//! Sheets (01, section 2): the tree of bindings and its bytes.
use crate::reader::Reader;
use std::collections::BTreeMap;

/// Names with their values, ordered by bytes.
pub type Tree = BTreeMap<Vec<u8>, Value>;

/// A value, as the reference's `TypstValue`.
#[derive(Clone, Debug, PartialEq, Eq)]
pub enum Value {
    Text(Vec<u8>),
    None,
    Dictionary(Tree),
}

/// Dictionaries may stand this deep in each other.
pub const LEVELS: usize = 6;

const NAME: u8 = 1;
const TEXT: u8 = 2;
const DICTIONARY: u8 = 4;
const NONE: u8 = 8;

/// The tree's bytes, in the one form that a sheet has. None where a length does not fit its 16 bits.
pub fn encode(tree: &Tree) -> Option<Vec<u8>> {
    let mut out = Vec::new();
    put_records(tree, &mut out)?;
    Some(out)
}

fn put_records(tree: &Tree, out: &mut Vec<u8>) -> Option<()> {
    tree.iter().try_for_each(|(name, value)| put_record(name, value, out))
}

fn put_record(name: &[u8], value: &Value, out: &mut Vec<u8>) -> Option<()> {
    let named = if name.is_empty() { 0 } else { NAME };
    out.push(named | map_bit(value));
    put_field(name, out)?;
    match value {
        Value::Text(text) => put_field(text, out),
        Value::None => Some(()),
        Value::Dictionary(tree) => {
            put_word(tree.len(), out)?;
            put_records(tree, out)
        }
    }
}

fn map_bit(value: &Value) -> u8 {
    match value {
        Value::Text(text) if text.is_empty() => 0,
        Value::Text(_) => TEXT,
        Value::None => NONE,
        Value::Dictionary(_) => DICTIONARY,
    }
}

/// A length and the bytes; nothing for the empty text.
fn put_field(bytes: &[u8], out: &mut Vec<u8>) -> Option<()> {
    if !bytes.is_empty() {
        put_word(bytes.len(), out)?;
        out.extend(bytes);
    }
    Some(())
}

fn put_word(n: usize, out: &mut Vec<u8>) -> Option<()> {
    out.extend(u16::try_from(n).ok()?.to_le_bytes());
    Some(())
}

/// The tree that the bytes name, read leniently: order, doubled names, empty fields and high map bits are let through, so
/// that `encode` of it gives the same bytes only where these rules are kept. None where the bytes end early, a
/// record has two values, or a seventh level opens.
pub fn decode(bytes: &[u8]) -> Option<Tree> {
    let mut reader = Reader::new(bytes);
    let mut tree = Tree::new();
    while !reader.is_empty() {
        take_record(&mut reader, LEVELS, &mut tree)?;
    }
    Some(tree)
}

fn take_record(reader: &mut Reader, levels: usize, into: &mut Tree) -> Option<()> {
    let map = reader.byte()?;
    let name = if map & NAME != 0 { take_field(reader)? } else { Vec::new() };
    let value = match map & (TEXT | DICTIONARY | NONE) {
        0 => Value::Text(Vec::new()),
        TEXT => Value::Text(take_field(reader)?),
        DICTIONARY => Value::Dictionary(take_dictionary(reader, levels)?),
        NONE => Value::None,
        _ => return None,
    };
    into.insert(name, value);
    Some(())
}

fn take_dictionary(reader: &mut Reader, levels: usize) -> Option<Tree> {
    let below = levels.checked_sub(1)?;
    let count = reader.word()?;
    let mut tree = Tree::new();
    for _ in 0..count {
        take_record(reader, below, &mut tree)?;
    }
    Some(tree)
}

fn take_field(reader: &mut Reader) -> Option<Vec<u8>> {
    let n = reader.word()?;
    Some(reader.take(n)?.to_vec())
}

#[cfg(test)]
mod tests {
    use super::*;

    fn text(t: &str) -> Value {
        Value::Text(t.into())
    }

    fn tree(records: &[(&str, Value)]) -> Tree {
        records.iter().map(|(n, v)| (n.as_bytes().to_vec(), v.clone())).collect()
    }

    #[test]
    fn bytes_of_single_records() {
        let bytes = |n: &str, v: Value| encode(&tree(&[(n, v)])).unwrap();
        assert_eq!(bytes("x", text("10")), b"\x03\x01\x00x\x02\x0010");
        assert_eq!(bytes("", text("")), b"\x00");
        assert_eq!(bytes("", text("q")), b"\x02\x01\x00q");
        assert_eq!(bytes("n", Value::None), b"\x09\x01\x00n");
        assert_eq!(bytes("d", Value::Dictionary(Tree::new())), b"\x05\x01\x00d\x00\x00");
    }

    #[test]
    fn round_trip() {
        let inner = tree(&[("", text("e")), ("a-b", Value::None), ("t", text("1"))]);
        let whole = tree(&[("", Value::None), ("d", Value::Dictionary(inner)), ("x", text(""))]);
        let bytes = encode(&whole).unwrap();
        assert_eq!(decode(&bytes), Some(whole));
    }

    #[test]
    fn other_forms_come_back_as_the_one_form() {
        for other in [&b"\x01\x00\x00"[..], b"\x02\x00\x00", b"\x00\x00", b"\x10", b"\x09\x01\x00b\x09\x01\x00a"] {
            let back = encode(&decode(other).unwrap()).unwrap();
            assert_ne!(back, other);
        }
    }

    #[test]
    fn seventh_level_and_long_texts() {
        let mut value = text("1");
        for _ in 0..LEVELS {
            value = Value::Dictionary(tree(&[("", value)]));
        }
        let six = tree(&[("x", value.clone())]);
        assert_eq!(decode(&encode(&six).unwrap()), Some(six));
        let seven = tree(&[("x", Value::Dictionary(tree(&[("", value)])))]);
        assert_eq!(decode(&encode(&seven).unwrap()), None);
        assert_eq!(encode(&tree(&[("x", Value::Text(vec![b'a'; 65_536]))])), None);
    }
}
