//! The include call as 01 tells it (section 4, with the numbers of section 8): every refusal, and the text where it is accepted.
//! Written from 01 and apart from the reference, so that the one can be held against the other: what is accepted here the
//! reference must answer with the same text, and what is refused here with 5 it must answer with an error. For the other
//! refusals it has no counterpart: it has no buffer, takes any UTF-8, follows `..` and knows no levels.
use crate::bundle::{Files, Found, decode, find};
use crate::layout::{bundle_entries, is_folder, is_path, is_text};
use crate::text::{is_blank, trimmed};

const INCLUDE: &[u8] = b"#include";
const SOURCE: &[u8] = b"#source-include";
const CITATION: &[u8] = b"CITATION.cff";
const LEVELS: usize = 6;
const LONGEST_PATH: usize = 255;

/// What the call must answer.
#[derive(Clone, Debug, PartialEq, Eq)]
pub struct Answer {
    /// The text, or the number of the refusal.
    pub result: Result<Vec<u8>, u8>,
    /// How many bytes were output before the refusal, or in all.
    pub written: usize,
    pub seen: Seen,
}

/// What was met, up to the refusal or in all.
#[derive(Clone, Copy, Debug, Default, PartialEq, Eq)]
pub struct Seen {
    /// Files taken by `#include`, and by `#source-include`.
    pub includes: usize,
    pub sources: usize,
    /// Marks that were copied: behind `//`, and for want of two `"` or of `(`.
    pub commented: usize,
    pub unended: usize,
    /// The deepest level of an included file.
    pub depth: usize,
    /// Marks of the text itself, not of a file, that leave it open (section 6).
    pub open: usize,
}

/// The files of a bundle, or None where it breaks its layout.
pub fn files_of(bundle: &[u8]) -> Option<Files> {
    bundle_entries(bundle)?;
    decode(bundle)
}

/// The call with an output of `room` bytes. `files` is None for a bundle that breaks its layout.
pub fn answer(files: Option<&Files>, folder: &[u8], text: &[u8], room: usize) -> Answer {
    let refused = |number| Answer { result: Err(number), written: 0, seen: Seen::default() };
    let Some(files) = files else { return refused(2) };
    if !is_folder(folder) {
        return refused(4);
    }
    if !is_text(text) {
        return refused(6);
    }
    let mut run = Run { files, room, out: Vec::new(), seen: Seen::default() };
    let done = run.text(text, folder, LEVELS);
    Answer { written: run.out.len(), seen: run.seen, result: done.map(|()| run.out) }
}

struct Run<'a> {
    files: &'a Files,
    room: usize,
    out: Vec<u8>,
    seen: Seen,
}

impl Run<'_> {
    /// A text that stands in a folder; files may be included below it so many levels deep.
    fn text(&mut self, text: &[u8], folder: &[u8], levels: usize) -> Result<(), u8> {
        let mut at = 0;
        // Where the stretch begins that is tested for `//`.
        let mut stretch = 0;
        while at < text.len() {
            let before = &text[stretch..at];
            if let Some(mark) = mark_at(&text[at..]) {
                at += mark.len();
                at += self.mark(mark, before, &text[at..], folder, levels)?;
                stretch = at;
            } else {
                self.put(&text[at..=at])?;
                at += 1;
                if text[at - 1] == b'\n' {
                    stretch = at;
                }
            }
        }
        Ok(())
    }

    /// How many bytes behind the mark are taken with it. `before` is the stretch.
    fn mark(&mut self, mark: &[u8], before: &[u8], behind: &[u8], folder: &[u8], levels: usize) -> Result<usize, u8> {
        let taken = if commented(before) {
            self.seen.commented += 1;
            None
        } else {
            let whole = if mark == INCLUDE { quoted(behind, 0).is_some() } else { whole_source(behind) };
            self.seen.open += usize::from(levels == LEVELS && !whole);
            if mark == INCLUDE { self.include(behind, folder, levels)? } else { self.source(behind, folder)? }
        };
        if taken.is_none() {
            self.put(mark)?;
        }
        Ok(taken.unwrap_or(0))
    }

    /// Behind `#include`: how many bytes are taken, or None where the mark is to be copied.
    fn include(&mut self, behind: &[u8], folder: &[u8], levels: usize) -> Result<Option<usize>, u8> {
        let Some((path, end)) = quoted(behind, 0) else { return Ok(self.unended()) };
        let path = joined(folder, trimmed(path));
        let content = self.file(&path)?;
        let below = levels.checked_sub(1).ok_or(7)?;
        let content = plain(content)?;
        self.seen.includes += 1;
        self.seen.depth = self.seen.depth.max(LEVELS - below);
        self.text(&content, parent(&path), below)?;
        self.put(b"\n")?;
        Ok(Some(end))
    }

    /// The same behind `#source-include`.
    fn source(&mut self, behind: &[u8], folder: &[u8]) -> Result<Option<usize>, u8> {
        let blanks = behind.iter().take_while(|c| is_blank(**c)).count();
        if behind.get(blanks) != Some(&b'(') {
            return Ok(self.unended());
        }
        let Some((path, end)) = quoted(behind, blanks + 1) else { return Ok(self.unended()) };
        let language = quoted(behind, end).map_or(&b""[..], |(language, _)| language);
        let path = joined(&project_root(self.files, folder), trimmed(path));
        let content = plain(self.file(&path)?)?;
        self.seen.sources += 1;
        let last = if content.ends_with(b"\n") { &b""[..] } else { b"\n" };
        self.put(&[b"```", language, b"\n", &content, last, b"```\n"].concat())?;
        Ok(Some(source_end(behind)))
    }

    fn unended(&mut self) -> Option<usize> {
        self.seen.unended += 1;
        None
    }

    fn put(&mut self, bytes: &[u8]) -> Result<(), u8> {
        if self.room - self.out.len() < bytes.len() {
            return Err(11);
        }
        self.out.extend(bytes);
        Ok(())
    }

    fn file(&self, path: &[u8]) -> Result<Vec<u8>, u8> {
        if !is_path(path) {
            return Err(4);
        }
        match find(self.files, path) {
            Found::File(content) => Ok(content),
            Found::Folder | Found::Absent => Err(5),
        }
    }
}

/// The nearest folder upward that has `CITATION.cff`, else the folder itself.
pub fn project_root(files: &Files, folder: &[u8]) -> Vec<u8> {
    let mut above = folder;
    loop {
        let citation = joined(above, CITATION);
        if citation.len() <= LONGEST_PATH && find(files, &citation) != Found::Absent {
            return above.to_vec();
        }
        if above.is_empty() {
            return folder.to_vec();
        }
        above = parent(above);
    }
}

fn plain(content: Vec<u8>) -> Result<Vec<u8>, u8> {
    if is_text(&content) { Ok(content) } else { Err(6) }
}

fn mark_at(rest: &[u8]) -> Option<&'static [u8]> {
    [INCLUDE, SOURCE].into_iter().find(|mark| rest.starts_with(mark))
}

fn commented(before: &[u8]) -> bool {
    trimmed(before).starts_with(b"//")
}

/// Closed (section 6), behind `#source-include`: blanks skipped, a byte; if that is `(`, four `"` behind it, a `)`, and a newline behind
/// that.
fn whole_source(behind: &[u8]) -> bool {
    let Some(first) = behind.iter().position(|&c| !is_blank(c)) else { return false };
    let quotes = behind[first..].iter().filter(|&&c| c == b'"').count();
    let close = behind.iter().position(|&c| c == b')');
    behind[first] != b'(' || quotes >= 4 && close.is_some_and(|at| behind[at..].contains(&b'\n'))
}

/// What stands between the next two `"`, and the place behind them.
fn quoted(text: &[u8], from: usize) -> Option<(&[u8], usize)> {
    let next = |from: usize| Some(from + text[from..].iter().position(|&c| c == b'"')?);
    let first = next(from)?;
    let second = next(first + 1)?;
    Some((&text[first + 1..second], second + 1))
}

pub fn joined(folder: &[u8], path: &[u8]) -> Vec<u8> {
    if folder.is_empty() { path.to_vec() } else { [folder, b"/", path].concat() }
}

pub fn parent(path: &[u8]) -> &[u8] {
    path.iter().rposition(|&c| c == b'/').map_or(b"", |i| &path[..i])
}

/// Where a source mark ends: behind the first newline after the first `)`, or behind the `)`, or at the end.
fn source_end(behind: &[u8]) -> usize {
    let Some(close) = behind.iter().position(|&c| c == b')') else { return behind.len() };
    let newline = behind[close..].iter().position(|&c| c == b'\n');
    close + newline.unwrap_or(0) + 1
}

#[cfg(test)]
mod tests {
    use super::*;
    use crate::bundle::Unpacked;
    use crate::resolve_includes_below;

    fn files(entries: &[(&str, &str)]) -> Files {
        entries.iter().map(|(p, c)| (p.as_bytes().to_vec(), c.as_bytes().to_vec())).collect()
    }

    fn some_files() -> Files {
        files(&[
            ("1", "#include \"2\""),
            ("2", "#include \"3\""),
            ("3", "#include \"4\""),
            ("4", "#include \"5\""),
            ("5", "#include \"6\""),
            ("6", "six"),
            ("a", "A"),
            ("d/CITATION.cff/x", ""),
            ("d/a", "D"),
            ("d/e/a", "E\n"),
            ("d/e/s", "#source-include(\"a\", \"r\")\n#include \"a\""),
            ("self", "#include \"self\""),
        ])
    }

    const ACCEPTED: [(&str, &str, &str); 15] = [
        ("", "// #include \"n\" #include \"a\"", "// #include \"n\" A\n"),
        ("", "#include\n x \"\ta\n\"y", "A\ny"),
        ("", "#include #source-include(\"a\"", "A\n"),
        ("", "#include \"a\"// #include \"n\"", "A\n// #include \"n\""),
        ("", "#source-include()\n\"a\"\"r\"\n", "```r\nA\n```\n\"a\"\"r\"\n"),
        ("", "#source-include(\"a\",\"r)\"\nz", "```r)\nA\n```\nz"),
        ("", "#source-include(\"a\"\nz", "```\nA\n```\n"),
        ("", "#source-include (\"a\")z", "```\nA\n```\nz"),
        ("", "#source-include", "#source-include"),
        ("", "#include \"a", "#include \"a"),
        ("", "#include \"1\"", "six\n\n\n\n\n\n"),
        ("", "#include \"d/e/s\".", "```r\nD\n```\nE\n\n\n."),
        ("d/e", "#source-include(\"e/a\")", "```\nE\n```\n"),
        ("d/n/m", "#source-include(\"a\")", "```\nD\n```\n"),
        ("a/n", "", ""),
    ];

    #[test]
    fn accepted_as_by_the_reference() {
        let files = some_files();
        let disk = Unpacked::new(&files).unwrap();
        for (folder, text, out) in ACCEPTED {
            let here = answer(Some(&files), folder.as_bytes(), text.as_bytes(), out.len());
            assert_eq!(here.result.as_deref(), Ok(out.as_bytes()), "{text}");
            assert_eq!(resolve_includes_below(&disk, folder, text).as_deref(), Ok(out), "{text}");
        }
    }

    #[test]
    fn refused() {
        let mut files = some_files();
        files.insert(b"high".to_vec(), vec![128]);
        files.insert(b"x".to_vec(), b"X#include \"n\"".to_vec());
        let long = "p".repeat(256);
        let cases: [(&str, &str, usize, u8); 18] = [
            ("/", "", 9, 4),
            (&long, "", 9, 4),
            ("", "\u{80}", 9, 6),
            ("/", "\u{80}", 9, 4),
            ("", "a", 0, 11),
            ("", "#include \"n\"", 0, 5),
            ("", "#include \"d\"", 0, 5),
            ("", "#include \"\"", 0, 4),
            ("", "#include \"../a\"", 9, 4),
            ("d", "#include \"/a\"", 9, 4),
            ("", "#include \"high\"", 0, 6),
            ("", "#include \"self\"", 9, 7),
            ("", "#include \"x\"", 0, 11),
            ("", "#include \"x\"", 1, 5),
            ("", "#include \"a\"", 1, 11),
            ("", "#source-include(\"n\")", 0, 5),
            ("", "#source-include(\"high\")", 0, 6),
            ("", "#source-include(\"a\")", 9, 11),
        ];
        for (folder, text, room, number) in cases {
            let here = answer(Some(&files), folder.as_bytes(), text.as_bytes(), room);
            assert_eq!(here.result, Err(number), "{folder} {text}");
        }
        assert_eq!(answer(None, b"/", b"\x80", 0).result, Err(2));
    }

    // The marks of a text that leave it open; those of the files that it includes do not count.
    #[test]
    fn open_marks() {
        let cases = [
            ("#include \"a\"", 0),
            ("#include \"a", 1),
            ("// #include \"a", 0),
            ("#source-include", 1),
            ("#source-include \n", 1),
            ("#source-include \nx", 0),
            ("#source-include(\"a\")\n", 1),
            ("#source-include(\"a\",\"r)\"\n", 0),
            ("#source-include(\"a\",\"r\")", 1),
            ("#source-include(\"a\",\"r\"\n", 1),
            ("#source-include(\"a\",)\n\"r\"", 0),
            ("#source-include(x)\n", 1),
            ("#include \"d/e/s\"", 0),
            ("#include\"a\"#include", 1),
        ];
        for (text, open) in cases {
            assert_eq!(answer(Some(&some_files()), b"", text.as_bytes(), 99).seen.open, open, "{text}");
        }
    }

    // Per file: 4, 5, 7, 6. The levels are tested by files that stand below six others.
    #[test]
    fn at_the_seventh_level() {
        let mut files = some_files();
        files.insert(b"high".to_vec(), vec![128]);
        for (path, number) in [("..", 4), ("n", 5), ("d", 5), ("a", 7), ("high", 7)] {
            files.insert(b"6".to_vec(), format!("#include \"{path}\"").into_bytes());
            assert_eq!(answer(Some(&files), b"", b"#include \"1\"", 99).result, Err(number), "{path}");
        }
    }

    #[test]
    fn what_was_seen() {
        let here = answer(Some(&some_files()), b"", b"//#include\n#include \"d/e/s\"#include", 99);
        assert_eq!(here.seen, Seen { includes: 2, sources: 1, commented: 1, unended: 1, depth: 2, open: 1 });
        assert_eq!(here.written, here.result.unwrap().len());
    }
}
