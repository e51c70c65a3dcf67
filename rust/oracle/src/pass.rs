//! The pass as 01 tells it (section 6, with the numbers of section 8): includes into a middle buffer, then expansion; every refusal, and
//! whether the text is closed. The two models are those of `includes` and `expansion`; what stands here is their order, the numbers of
//! the arguments, and closed. The reference has no such call: its `resolve_includes`, then its `preprocess_typst`.
use crate::bundle::Files;
use crate::layout::{is_folder, is_text};
use crate::sheet::Tree;
use crate::{expansion, includes};

/// What the call must answer.
#[derive(Clone, Debug, PartialEq, Eq)]
pub struct Answer {
    /// The text, the bindings left and whether the text is closed, or the number of the refusal.
    pub result: Result<Passed, u8>,
    /// How many bytes of the middle text and of the output were written before the refusal, or in all; and the longest sheet.
    pub middle: usize,
    pub written: usize,
    pub longest: usize,
    pub includes: includes::Seen,
    pub expansion: expansion::Seen,
}

impl Answer {
    /// The lengths of the buffers that just suffice, or that suffice up to the refusal, where this is the answer for `Rooms::WIDE`.
    pub fn needed(&self) -> Rooms {
        Rooms { middle: self.middle, out: self.written, left: self.longest }
    }
}

#[derive(Clone, Debug, PartialEq, Eq)]
pub struct Passed {
    pub out: Vec<u8>,
    pub left: Tree,
    pub closed: bool,
}

/// The lengths of the buffers.
#[derive(Clone, Copy, Debug, PartialEq, Eq)]
pub struct Rooms {
    pub middle: usize,
    pub out: usize,
    pub left: usize,
}

impl Rooms {
    /// None is too short. A sheet is held to 65,535 bytes all the same.
    pub const WIDE: Rooms = Rooms { middle: usize::MAX, out: usize::MAX, left: usize::MAX };
}

/// The call. `files` is None for a bundle that breaks its layout, `sheet` for a sheet that does.
pub fn answer(files: Option<&Files>, folder: &[u8], text: &[u8], sheet: Option<&Tree>, rooms: Rooms) -> Answer {
    let refused = |number, longest| Answer {
        result: Err(number),
        middle: 0,
        written: 0,
        longest,
        includes: includes::Seen::default(),
        expansion: expansion::Seen::default(),
    };
    let Some(bundle) = files else { return refused(2, 0) };
    let Some(tree) = sheet else { return refused(3, 0) };
    if !is_folder(folder) {
        return refused(4, 0);
    }
    if !is_text(text) {
        return refused(6, 0);
    }
    let size = expansion::tree_length(tree);
    if size > rooms.left.min(expansion::LONGEST_SHEET) {
        return refused(9, size);
    }
    let first = includes::answer(Some(bundle), folder, text, rooms.middle);
    let included = Answer { middle: first.written, includes: first.seen, ..refused(0, size) };
    match first.result {
        Err(11) => Answer { result: Err(10), ..included },
        Err(number) => Answer { result: Err(number), ..included },
        Ok(middle) => expanded(included, text, expansion::answer(files, &middle, sheet, rooms.out, rooms.left)),
    }
}

/// With the expansion of the middle text.
fn expanded(included: Answer, text: &[u8], then: expansion::Answer) -> Answer {
    let ended = text.last().is_none_or(|&c| c == b'\n');
    let calls = then.seen.unended + then.seen.handed_back_last;
    let closed = ended && included.includes.open == 0 && calls == 0;
    Answer {
        result: then.result.map(|e| Passed { out: e.out, left: e.left, closed }),
        written: then.written,
        longest: then.longest,
        expansion: then.seen,
        ..included
    }
}

#[cfg(test)]
mod tests {
    use super::*;
    use crate::sheet::Value;

    fn files() -> Files {
        let entries: [(&str, &[u8]); 5] =
            [("a", b"A"), ("d/a", b"#x"), ("high", b"\x80"), ("open", b"#raw(\"a\""), ("marks", b"#include\n")];
        entries.iter().map(|(path, content)| (path.as_bytes().to_vec(), content.to_vec())).collect()
    }

    fn x() -> Tree {
        Tree::from([(b"x".to_vec(), Value::Text(b"10".to_vec()))])
    }

    fn run(folder: &str, text: &str, middle: usize, out: usize, left: usize) -> Result<(Vec<u8>, bool), u8> {
        let rooms = Rooms { middle, out, left };
        let here = answer(Some(&files()), folder.as_bytes(), text.as_bytes(), Some(&x()), rooms);
        here.result.map(|passed| (passed.out, passed.closed))
    }

    // What 01 and its readings say of closed.
    #[test]
    fn closed() {
        let cases = [
            ("", true),
            ("x", false),
            ("x\n", true),
            ("#raw(\"a\"\n", false),
            ("#raw(\"a\")\n", true),
            ("#raw\n", true),
            ("#raw(read\n", false),
            ("#raw(read\nx\n", true),
            ("#link(<a\n", true),
            ("#link(\"u\"\n", false),
            ("#link(\"u\")[t\n", false),
            ("#link(\"u\")[t]\n", true),
            ("#link(\"u\")\n", true),
            ("#let y = #raw(\n", true),
            ("#import #raw(\n", true),
            ("#link(\"u\")[#raw(]\n", true),
            ("#include \"a\"\n", true),
            ("#include \"a\"", false),
            ("#include \"a\n", false),
            ("// #include \"a\n", true),
            ("#include \"open\"\n", false),
            ("#include \"open\"\n)\n", true),
            ("#include \"marks\"\n", true),
            ("#source-include(\"a\",\"r)\"\n", true),
            ("#source-include(\"a\")\n", false),
            ("#source-include x\n", true),
            ("#source-include \n", false),
        ];
        for (text, closed) in cases {
            let here = run("", text, 99, 99, 99).unwrap_or_else(|number| panic!("{number} for {text}"));
            assert_eq!(here.1, closed, "{text}");
        }
    }

    #[test]
    fn numbers() {
        let done = |out: &str, closed| Ok((out.as_bytes().to_vec(), closed));
        assert_eq!(run("d", "#include \"a\"\n", 4, 4, 8), done("10\n\n", true));
        assert_eq!(run("d", "#include \"a\"\n", 3, 0, 8), Err(10));
        assert_eq!(run("d", "#include \"a\"\n", 4, 3, 8), Err(11));
        assert_eq!(run("d", "#include \"a\"\n", 0, 0, 7), Err(9));
        assert_eq!(run("", "#raw(1(#include \"n\"", 99, 99, 8), Err(5));
        assert_eq!(run("", "#raw(1(#include \"a\"", 99, 99, 8), Err(8));
        assert_eq!(run("", "#raw(1(#include \"a\"", 7, 99, 8), Err(10));
        assert_eq!(run("", "#include \"high\"", 99, 99, 8), Err(6));
        assert_eq!(run("", "#let y = x\n#raw(1(", 99, 99, 8), Err(9));
        assert_eq!(run("/", "\u{80}", 99, 99, 7), Err(4));
        assert_eq!(run("", "\u{80}", 99, 99, 7), Err(6));
        let rooms = Rooms::WIDE;
        assert_eq!(answer(None, b"/", b"\x80", None, rooms).result, Err(2));
        assert_eq!(answer(Some(&files()), b"/", b"\x80", None, rooms).result, Err(3));
    }
}
