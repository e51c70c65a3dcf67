//! The lookup call as 01 tells it (section 2, with the numbers of section 8) and 02 merges it (E1): every refusal, and where it is
//! accepted the kind and the text. Written from these and apart from the reference, so that the one can be held against the other: what
//! is accepted here must be what the reference's two calls answer. For the refusals it has no counterpart: it has no buffer, no bytes of a
//! sheet, and takes any UTF-8.
use crate::layout::is_text;
use crate::sheet::{Tree, Value};
use crate::text::resolve;

/// The kinds by their numbers.
pub const KINDS: [&str; 4] = ["missing", "none", "text", "dictionary"];

/// What a path names.
#[derive(Clone, Debug, Default, PartialEq, Eq)]
pub struct Looked {
    /// One of `KINDS`.
    pub kind: u8,
    /// Empty unless the kind is text.
    pub text: Vec<u8>,
}

/// The call with an output of `room` bytes, or the number of the refusal. `sheet` is None for one that breaks its layout.
pub fn answer(sheet: Option<&Tree>, path: &[u8], room: usize) -> Result<Looked, u8> {
    let sheet = sheet.ok_or(3)?;
    if !is_text(path) {
        return Err(6);
    }
    let (kind, text): (u8, &[u8]) = match resolve(sheet, path) {
        None => (0, b""),
        Some(Value::None) => (1, b""),
        Some(Value::Text(text)) => (2, text),
        Some(Value::Dictionary(_)) => (3, b""),
    };
    if text.len() > room {
        return Err(11);
    }
    Ok(Looked { kind, text: text.to_vec() })
}

#[cfg(test)]
mod tests {
    use super::*;

    fn tree() -> Tree {
        let text = |t: &str| Value::Text(t.into());
        let inner = Tree::from([(b"a".to_vec(), text("A")), (b"n".to_vec(), Value::None)]);
        Tree::from([(b"d".to_vec(), Value::Dictionary(inner)), (b"e".to_vec(), text("")), (b"x".to_vec(), text("10"))])
    }

    #[test]
    fn kinds_and_texts() {
        let all = [("x", 2, "10"), ("e", 2, ""), ("d", 3, ""), ("d.a", 2, "A"), ("d.n", 1, ""), ("d.q", 0, "")];
        for (path, kind, text) in all.into_iter().chain([("q", 0, ""), ("", 0, ""), ("x.", 0, ""), ("d.a.a", 0, "")]) {
            let looked = Looked { kind, text: text.into() };
            assert_eq!(answer(Some(&tree()), path.as_bytes(), text.len()), Ok(looked), "{path}");
        }
    }

    #[test]
    fn numbers() {
        let number = |sheet: Option<&Tree>, path: &[u8], room| answer(sheet, path, room).map(|looked| looked.kind);
        assert_eq!(number(None, b"\x80", 0), Err(3));
        assert_eq!(number(Some(&tree()), b"x\x80", 0), Err(6));
        assert_eq!(number(Some(&tree()), b"x", 1), Err(11));
        assert_eq!(number(Some(&tree()), b"d", 0), Ok(3));
    }
}
