//! The Rust reference, as it is, behind plain functions. `build.rs` takes its functions unchanged out of its sources.
//!
//! - `Context`: the bindings of a sheet, built once for many lookups: in this process.
//! - `resolve_includes`, `preprocess_typst`, `parse_definitions`: in this process, the files unpacked into a fresh folder.
//!   They can hang, or overflow the stack: `child` runs them in a process of their own, with a time limit.
//! - `resolve_includes_below`: the same with files that were unpacked before, for many texts.
//! - `preprocess_typst_below`, `parse_definitions_below`: likewise.
//! - `lookup`, `includes`, `expansion` and `definitions`: what 01 adds to the lookups, `resolve_includes`, `preprocess_typst` and
//!   `parse_definitions`: which calls are accepted, and the numbers of the others. `pass`: includes and expansion in a pass, and whether a
//!   text is closed. `load`: the test load of 02, of which the reference has nothing.
//! - `sheet` and `bundle`: bytes to trees and files, and back. `bundle::find` finds by path.
//! - `layout`: the rules of 01 for bytes.

mod anyhow;
pub mod bundle;
pub mod child;
pub mod definitions;
pub mod expansion;
pub mod includes;
pub mod layout;
pub mod load;
pub mod lookup;
pub mod pass;
mod reader;
mod reference;
pub mod sheet;
mod text;

pub use bundle::{Files, Found, Unpacked};
pub use reference::Context;
pub use sheet::{Tree, Value};

/// The bindings of a sheet. None where it cannot be read.
pub fn context(sheet: &[u8]) -> Option<Context> {
    Context::new(&sheet::decode(sheet)?)
}

/// The text with its includes resolved.
pub fn resolve_includes(files: &Files, folder: &str, text: &str) -> Result<String, String> {
    resolve_includes_below(&unpacked(files)?, folder, text)
}

/// The same with files that were unpacked before.
pub fn resolve_includes_below(unpacked: &Unpacked, folder: &str, text: &str) -> Result<String, String> {
    reference::includes(unpacked.root(), folder, text)
}

/// The expanded text, and the bindings at its end.
pub fn preprocess_typst(files: &Files, text: &str, context: &Context) -> Result<(String, Context), String> {
    preprocess_typst_below(&unpacked(files)?, text, context)
}

/// The same with files that were unpacked before.
pub fn preprocess_typst_below(unpacked: &Unpacked, text: &str, context: &Context) -> Result<(String, Context), String> {
    reference::expansion(unpacked.root(), text, context)
}

/// Includes, then expansion, with files that were unpacked before.
pub fn pass_below(
    unpacked: &Unpacked,
    folder: &str,
    text: &str,
    context: &Context,
) -> Result<(String, Context), String> {
    preprocess_typst_below(unpacked, &resolve_includes_below(unpacked, folder, text)?, context)
}

/// The bindings of a definitions file.
pub fn parse_definitions(files: &Files, path: &str) -> Result<Context, String> {
    parse_definitions_below(&unpacked(files)?, path)
}

/// The same with files that were unpacked before.
pub fn parse_definitions_below(unpacked: &Unpacked, path: &str) -> Result<Context, String> {
    reference::definitions(unpacked.root(), path)
}

fn unpacked(files: &Files) -> Result<Unpacked, String> {
    Unpacked::new(files).map_err(|e| e.to_string())
}

#[cfg(test)]
mod tests {
    use super::*;
    use lookup::Looked;

    const X: &[u8] = b"\x03\x01\0x\x02\x0010";

    fn files(entries: &[(&str, &str)]) -> Files {
        entries.iter().map(|(p, c)| (p.as_bytes().to_vec(), c.as_bytes().to_vec())).collect()
    }

    fn expanded(text: &str) -> (String, Vec<u8>) {
        let (out, left) = preprocess_typst(&Files::new(), text, &context(X).unwrap()).unwrap();
        (out, sheet::encode(&left.tree()).unwrap())
    }

    #[test]
    fn lookups() {
        let sheet = context(b"\x05\x01\0d\x02\0\x08\x03\x01\0k\x01\0v\x01\x01\0e\x03\x01\0x\x02\x0010").unwrap();
        let all = [("x", 2, "10"), ("d", 3, ""), ("d.", 1, ""), ("d.k", 2, "v"), ("d.n", 0, ""), ("e", 2, "")];
        for (path, kind, text) in all.into_iter().chain([("x.y", 0, ""), ("", 0, ""), ("n", 0, "")]) {
            assert_eq!(sheet.looked(path), Looked { kind, text: text.into() }, "{path}");
        }
        assert!(context(b"\x03").is_none());
    }

    // Lines of 01, section 10.
    #[test]
    fn lines() {
        assert_eq!(expanded("A #x. B"), ("A  B".into(), X.into()));
        assert_eq!(expanded("#letter = x\n#ter").0, "10");
        assert_eq!(expanded("#let y = \"q\"\n#y").0, "\"q\"");
        assert_eq!(expanded("#raw(x, lang: \"r\", block: true)").0, "```r\n10\n```\n");
        let b = files(&[("b", "B")]);
        assert_eq!(resolve_includes(&b, "", "// #include \"a\" #include \"b\"").unwrap(), "// #include \"a\" B\n");
    }

    #[test]
    fn bindings_left() {
        let (_, left) = expanded("#let y = x\n");
        assert_eq!(left, b"\x03\x01\0x\x02\x0010\x03\x01\0y\x02\x0010");
    }

    #[test]
    fn definitions() {
        let all = files(&[("f/d.typ", "#import \"e.typ\": e\n#let d = (a:)\nb: \"1\")"), ("f/e.typ", "#let e = none")]);
        let left = parse_definitions(&all, "f/d.typ").unwrap();
        let bytes = sheet::encode(&left.tree()).unwrap();
        assert_eq!(bytes, b"\x05\x01\0d\x02\0\x09\x01\0a\x03\x01\0b\x01\x001\x09\x01\0e");
        assert!(parse_definitions(&all, "n").is_err());
    }

    #[test]
    fn sources() {
        let all = files(&[("CITATION.cff", ""), ("s", "S"), ("f/g", "")]);
        let out = resolve_includes(&all, "f", "#source-include(\"s\", \"r\")\nZ").unwrap();
        assert_eq!(out, "```r\nS\n```\nZ");
    }
}
