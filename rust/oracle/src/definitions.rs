//! The definitions call as 01 tells it (section 7, with the numbers of section 8): every refusal, and the bindings where it is accepted.
//! Written from 01 and apart from the reference, so that the one can be held against the other: what is accepted here the reference
//! must answer with the same bindings, and what is refused here with 5 it must answer with an error. For the other refusals it has no
//! counterpart: it has no buffers, takes any UTF-8, follows `..` and knows no levels.
use crate::bundle::{Files, Found, find};
use crate::expansion::{LONGEST_SHEET, record_length};
use crate::includes::{joined, parent};
use crate::layout::{is_path, is_text};
use crate::sheet::{LEVELS, Tree, Value};
use crate::text::{Text, is_blank, is_letter, is_line_blank, is_name, is_word, underscored};

/// The work buffer has so many bytes for each of the sheet buffer.
pub const SHARE: usize = 16;
const IMPORT_LEVELS: usize = 6;

/// What the call must answer.
#[derive(Clone, Debug, PartialEq, Eq)]
pub struct Answer {
    /// The bindings, or the number of the refusal.
    pub result: Result<Tree, u8>,
    /// The longest of all that is held to L, up to the refusal or in all: values, dictionaries as they grow, sheets.
    pub longest: usize,
    pub seen: Seen,
}

/// What was met, up to the refusal or in all.
#[derive(Clone, Copy, Debug, Default, PartialEq, Eq)]
pub struct Seen {
    /// Files taken by `#import`; of these the ones with `*`, and with two or more words.
    pub imports: usize,
    pub stars: usize,
    pub lists: usize,
    /// Names bound by imports, and words that the file does not bind.
    pub imported: usize,
    pub lost: usize,
    /// Imports of a path that is absent, and without a literal.
    pub passed_over: usize,
    pub unquoted: usize,
    /// `#let`s; those of them that replace a binding.
    pub lets: usize,
    pub replaced: usize,
    /// Values, in dictionaries too: texts, none by its name, none for want of a value, dictionaries.
    pub texts: usize,
    pub nones: usize,
    pub no_values: usize,
    pub dictionaries: usize,
    /// Expressions of two terms or more; references with a text, and of these the ones to a key.
    pub sums: usize,
    pub found: usize,
    pub keyed: usize,
    /// Entries whose key was there before, and whose key is empty.
    pub doubled: usize,
    pub no_keys: usize,
    /// Dictionaries that the end of the text closes.
    pub unended: usize,
    pub comments: usize,
    /// The deepest level of a dictionary, and of an imported file.
    pub depth: usize,
    pub import_depth: usize,
}

/// How long the work buffer must be at least.
pub fn work_needed(left_len: usize) -> usize {
    SHARE * left_len.min(LONGEST_SHEET)
}

/// The call with a sheet buffer and a work buffer of so many bytes. `files` is None for a bundle that breaks its layout.
pub fn answer(files: Option<&Files>, path: &[u8], left_len: usize, work_len: usize) -> Answer {
    let refused = |number| Answer { result: Err(number), longest: 0, seen: Seen::default() };
    if work_len < work_needed(left_len) {
        return refused(1);
    }
    let Some(files) = files else { return refused(2) };
    if !is_path(path) {
        return refused(4);
    }
    let Found::File(content) = find(files, path) else { return refused(5) };
    let mut run = Run { files, limit: left_len.min(LONGEST_SHEET), longest: 0, seen: Seen::default() };
    let result = run.file(&content, parent(path), IMPORT_LEVELS).map(|records| records.tree);
    Answer { result, longest: run.longest, seen: run.seen }
}

/// Records of a sheet or of a dictionary, and how many bytes they take.
#[derive(Default)]
struct Records {
    tree: Tree,
    size: usize,
}

impl Records {
    /// Was the name there before.
    fn set(&mut self, name: Vec<u8>, value: Value) -> bool {
        self.size += record_length(&name, &value);
        let old = self.tree.get(&name).map(|old| record_length(&name, old));
        self.size -= old.unwrap_or(0);
        self.tree.insert(name, value);
        old.is_some()
    }
}

/// What an import binds.
enum Names {
    Star,
    Words(Vec<Vec<u8>>),
}

struct Run<'a> {
    files: &'a Files,
    limit: usize,
    longest: usize,
    seen: Seen,
}

impl Run<'_> {
    /// 9 where it is over L.
    fn measure(&mut self, size: usize) -> Result<(), u8> {
        self.longest = self.longest.max(size);
        if size > self.limit { Err(9) } else { Ok(()) }
    }

    /// The bindings of a file with its folder; files may be imported below it so many levels deep.
    fn file(&mut self, content: &[u8], folder: &[u8], levels: usize) -> Result<Records, u8> {
        if !is_text(content) {
            return Err(6);
        }
        let mut text = Text::new(content);
        let mut sheet = Records::default();
        while text.next().is_some() {
            if text.takes(b"//") {
                self.seen.comments += 1;
                text.span(|c| c != b'\n');
            } else if text.takes(b"#import") {
                self.import(&mut text, folder, levels, &mut sheet)?;
            } else if text.takes(b"#let") {
                self.binding(&mut text, &mut sheet)?;
            } else {
                text.skip();
            }
        }
        Ok(sheet)
    }

    /// Behind `#import`. The rest of the line is dropped, its newline left.
    fn import(&mut self, text: &mut Text, folder: &[u8], levels: usize, sheet: &mut Records) -> Result<(), u8> {
        text.span(is_blank);
        if !text.sees(b'"') {
            self.seen.unquoted += 1;
            text.span(|c| c != b'\n');
            return Ok(());
        }
        let path = joined(folder, &text.literal());
        text.span(|c| is_blank(c) || c == b':');
        let names = names(text);
        text.span(|c| c != b'\n');
        match self.imported(&path, levels)? {
            Some(from) => self.bind_names(names, &from, sheet),
            None => Ok(()),
        }
    }

    /// Per file: 4, 5, 7, 6. None where the path is neither file nor folder.
    fn imported(&mut self, path: &[u8], levels: usize) -> Result<Option<Tree>, u8> {
        if !is_path(path) {
            return Err(4);
        }
        let content = match find(self.files, path) {
            Found::File(content) => content,
            Found::Folder => return Err(5),
            Found::Absent => {
                self.seen.passed_over += 1;
                return Ok(None);
            }
        };
        let below = levels.checked_sub(1).ok_or(7)?;
        self.seen.imports += 1;
        self.seen.import_depth = self.seen.import_depth.max(IMPORT_LEVELS - below);
        Ok(Some(self.file(&content, parent(path), below)?.tree))
    }

    /// One name after another, each measured.
    fn bind_names(&mut self, names: Names, from: &Tree, sheet: &mut Records) -> Result<(), u8> {
        let words = match names {
            Names::Star => {
                self.seen.stars += 1;
                from.keys().cloned().collect()
            }
            Names::Words(words) => {
                self.seen.lists += usize::from(words.len() > 1);
                words
            }
        };
        for word in words {
            let Some(value) = from.get(&word) else {
                self.seen.lost += 1;
                continue;
            };
            self.seen.imported += 1;
            self.bind(word, value.clone(), sheet)?;
        }
        Ok(())
    }

    fn bind(&mut self, name: Vec<u8>, value: Value, sheet: &mut Records) -> Result<(), u8> {
        self.seen.replaced += usize::from(sheet.set(name, value));
        self.measure(sheet.size)
    }

    /// Behind `#let`.
    fn binding(&mut self, text: &mut Text, sheet: &mut Records) -> Result<(), u8> {
        text.span(is_blank);
        let name = underscored(text.span(is_name));
        text.span(|c| is_blank(c) || c == b'=');
        let value = self.value(text, &sheet.tree, LEVELS)?;
        self.seen.lets += 1;
        self.bind(name, value, sheet)
    }

    /// A value; dictionaries may open in it so many levels deep.
    fn value(&mut self, text: &mut Text, sheet: &Tree, levels: usize) -> Result<Value, u8> {
        text.span(is_line_blank);
        match text.next() {
            Some(b'(') => self.dictionary(text, sheet, levels),
            Some(b'"') => self.text_value(text, sheet),
            _ if text.takes(b"none") => {
                self.seen.nones += 1;
                Ok(Value::None)
            }
            Some(c) if is_letter(c) || c == b'_' => self.text_value(text, sheet),
            _ => {
                self.seen.no_values += 1;
                text.span(|c| c != b'\n');
                Ok(Value::None)
            }
        }
    }

    fn text_value(&mut self, text: &mut Text, sheet: &Tree) -> Result<Value, u8> {
        let from = text.at;
        (text.found, text.keyed) = (0, 0);
        let value = Value::Text(text.expression(sheet));
        self.seen.texts += 1;
        self.seen.found += text.found;
        self.seen.keyed += text.keyed;
        // Of a literal `"+"` this is not exact; it is for the tally alone.
        self.seen.sums += usize::from(text.bytes[from..text.at].contains(&b'+'));
        self.measure(record_length(b"", &value))?;
        Ok(value)
    }

    /// From a `(`. It is measured after each entry.
    fn dictionary(&mut self, text: &mut Text, sheet: &Tree, levels: usize) -> Result<Value, u8> {
        let below = levels.checked_sub(1).ok_or(7)?;
        self.seen.dictionaries += 1;
        self.seen.depth = self.seen.depth.max(LEVELS - below);
        text.skip();
        let mut entries = Records::default();
        loop {
            text.span(|c| is_blank(c) || c == b',');
            if text.next().is_none_or(|c| c == b')') {
                self.seen.unended += usize::from(text.next().is_none());
                text.skip();
                return Ok(Value::Dictionary(entries.tree));
            }
            let key = text.span(is_name).to_vec();
            text.span(|c| is_blank(c) || c == b':');
            let value = self.value(text, sheet, below)?;
            self.seen.no_keys += usize::from(key.is_empty());
            self.seen.doubled += usize::from(entries.set(key, value));
            // A map byte and the count of the entries.
            self.measure(1 + 2 + entries.size)?;
        }
    }
}

/// `*`, or words parted by `,` with spaces: the first one also where it is empty.
fn names(text: &mut Text) -> Names {
    if text.takes(b"*") {
        return Names::Star;
    }
    let mut words = vec![text.span(is_word).to_vec()];
    loop {
        text.span(|c| c == b' ');
        if !text.takes(b",") {
            return Names::Words(words);
        }
        text.span(|c| c == b' ');
        let word = text.span(is_word);
        if !word.is_empty() {
            words.push(word.to_vec());
        }
    }
}

#[cfg(test)]
mod tests {
    use super::*;
    use crate::bundle::Unpacked;
    use crate::parse_definitions_below;
    use crate::sheet::encode;

    fn files(entries: &[(&str, &[u8])]) -> Files {
        entries.iter().map(|(path, content)| (path.as_bytes().to_vec(), content.to_vec())).collect()
    }

    fn some_files() -> Files {
        files(&[
            ("a", b"#let x = \"1\"\n#let y = \"2\"\n#let = \"0\""),
            ("b/c", b"#import \"d\": *\n#let z = x + \"!\""),
            ("b/d", b"#let x = \"d\""),
            ("high", b"\x80"),
        ])
    }

    /// The call on a file `f` of this text.
    fn run(text: &str, left_len: usize) -> Answer {
        let mut all = some_files();
        all.insert(b"f".to_vec(), text.into());
        answer(Some(&all), b"f", left_len, usize::MAX)
    }

    const ACCEPTED: [(&str, &[u8]); 44] = [
        ("", b""),
        ("x", b""),
        ("#let d = (a:)\nb: \"1\")", b"\x05\x01\0d\x02\0\x09\x01\0a\x03\x01\0b\x01\x001"),
        ("#let d = (a: nonesuch, b: \"1\")\n)", b"\x05\x01\0d\x02\0\x09\x01\0a\x09\x04\0such"),
        ("#let d = ((((((", b"\x05\x01\0d\x01\0\x04\x01\0\x04\x01\0\x04\x01\0\x04\x01\0\x04\0\0"),
        ("#let x = \"1\"", b"\x03\x01\0x\x01\x001"),
        ("#let\n\tx\n=\n=\"1\"", b"\x03\x01\0x\x01\x001"),
        ("#letx\"1\"", b"\x03\x01\0x\x01\x001"),
        ("#let = \"1\"", b"\x02\x01\x001"),
        ("#let a-b = \"1\"", b"\x03\x03\0a_b\x01\x001"),
        ("#let x =", b"\x09\x01\0x"),
        ("#let x", b"\x09\x01\0x"),
        ("#let", b"\x08"),
        ("#let x = 9 #let y = z\n#let z", b"\x09\x01\0x\x09\x01\0z"),
        ("#let x = none#let y", b"\x09\x01\0x\x09\x01\0y"),
        ("#let x = y", b"\x01\x01\0x"),
        ("#let x = \"a\\n\\\"\\q\\", b"\x03\x01\0x\x06\0a\n\"\\q\\"),
        ("#let x = \"a\"+x +\t\"b\"", b"\x03\x01\0x\x02\0ab"),
        ("#let x = \"a\"\n+\"b\"", b"\x03\x01\0x\x01\0a"),
        ("#let x = \"a\"#let x = x-y.z+x + none", b"\x03\x01\0x\x01\0a"),
        ("#let x = \"a\" + 1\n#let y = _", b"\x03\x01\0x\x01\0a\x01\x01\0y"),
        (
            "#let d = (k: \"v\")#let e = d.k#let g = d",
            b"\x05\x01\0d\x01\0\x03\x01\0k\x01\0v\x03\x01\0e\x01\0v\x01\x01\0g",
        ),
        ("#let d = (\"k\": \"v\")", b"\x05\x01\0d\x01\0\x02\x01\0v"),
        ("#let d = (a-b\n:\n\"v\",a_b \"w\")", b"\x05\x01\0d\x02\0\x03\x03\0a-b\x01\0v\x03\x03\0a_b\x01\0w"),
        ("#let d = (a: \"1\", a: none // b\n)", b"\x05\x01\0d\x02\0\x08\x09\x01\0a"),
        ("#let d = ()#let e = ((),)", b"\x05\x01\0d\0\0\x05\x01\0e\x01\0\x04\0\0"),
        ("// #let x\n#let y// #let z", b"\x09\x01\0y"),
        ("/#let y", b"\x09\x01\0y"),
        ("#import \"a\": x", b"\x03\x01\0x\x01\x001"),
        ("#import\n\"a\"\n:\n:x", b"\x03\x01\0x\x01\x001"),
        ("#import\"a\"\nx y", b"\x03\x01\0x\x01\x001"),
        ("#import \"a\"", b"\x02\x01\x000"),
        ("#import \"a\": , y", b"\x02\x01\x000\x03\x01\0y\x01\x002"),
        ("#import \"a\": x,,  , y", b"\x03\x01\0x\x01\x001\x03\x01\0y\x01\x002"),
        ("#import \"a\": x\t, y", b"\x03\x01\0x\x01\x001"),
        ("#import \"a\": x ,\ty", b"\x03\x01\0x\x01\x001"),
        ("#import \"a\": * , y #let z", b"\x02\x01\x000\x03\x01\0x\x01\x001\x03\x01\0y\x01\x002"),
        ("#import \"a\": m, x-y", b"\x03\x01\0x\x01\x001"),
        ("#import \"n\": x\n#let y", b"\x09\x01\0y"),
        ("#import \"a/b\": *", b""),
        ("#import a: x\n#let y", b"\x09\x01\0y"),
        ("#import", b""),
        ("#import \"a", b"\x02\x01\x000"),
        ("#import \"b/c\": z, x", b"\x03\x01\0x\x01\0d\x03\x01\0z\x02\0d!"),
    ];

    #[test]
    fn accepted_as_by_the_reference() {
        for (text, sheet) in ACCEPTED {
            let mut all = some_files();
            all.insert(b"f".to_vec(), text.into());
            let disk = Unpacked::new(&all).unwrap();
            let here = run(text, usize::MAX);
            let tree = here.result.unwrap_or_else(|number| panic!("{number} for {text}"));
            assert_eq!(encode(&tree).as_deref(), Some(sheet), "{text}");
            assert_eq!(parse_definitions_below(&disk, "f").unwrap().tree(), tree, "{text}");
            // With a buffer that just suffices, and too short by one.
            assert!(run(text, here.longest).result.is_ok(), "{text}");
            if here.longest > 0 {
                assert_eq!(run(text, here.longest - 1).result, Err(9), "{text}");
            }
        }
    }

    #[test]
    fn refused() {
        let cases = [
            ("#let d = (((((((", 0, 7),
            ("#let d = ((((((", 20, 9),
            ("#let d = ((((((", 21, 0),
            ("#let = ()", 2, 9),
            ("#let = ()", 3, 0),
            ("#let = (a: \"12345\", a: \"\")", 13, 9),
            ("#let = (a: \"12345\", a: \"\")", 14, 0),
            ("#let x = \"123\"#let x = \"\"", 9, 0),
            ("#let x = \"123\"#let x = \"\"", 8, 9),
            ("#let xyz = \"\"", 5, 9),
            ("#let x = \"123\" + \"4\"", 6, 9),
            ("#import \"..\"", 0, 4),
            ("#import \"\"", 0, 4),
            ("#import \" a\"", 0, 4),
            ("#import \"/a\"", 0, 4),
            ("#import \"b\"", 0, 5),
            ("#import \"high\"", 0, 6),
            ("#import \"f\"", 0, 7),
            // The imported sheet is held to L, too.
            ("#import \"a\": y", 17, 9),
            ("#import \"a\": y", 18, 0),
            // The names of `*` in their order: x is shorter only after the empty name was bound.
            ("#let x = \"123456789012\"\n#import \"a\": *", 21, 9),
            ("#let x = \"123456789012\"\n#import \"a\": *", 22, 0),
            ("#let x = \"123456789012\"\n#import \"a\": x,", 18, 0),
            ("#let x = \"123456789012\"\n#import \"a\": y, x", 24, 9),
            ("#let x = \"123456789012\"\n#import \"a\": x, y", 24, 0),
            ("#let x = none\n#import \"..\"", 4, 4),
            ("#let x = none\n#import \"..\"", 3, 9),
        ];
        for (text, left_len, number) in cases {
            assert_eq!(run(text, left_len).result.err().unwrap_or(0), number, "{text} {left_len}");
        }
        let all = some_files();
        let ask = |path: &str, left, work| answer(Some(&all), path.as_bytes(), left, work).result.err();
        assert_eq!(answer(None, b"..", 1, 15).result, Err(1));
        assert_eq!(answer(None, b"..", 1, 16).result, Err(2));
        assert_eq!(ask("..", 1, 16), Some(4));
        assert_eq!(ask("", 0, 0), Some(4));
        assert_eq!(ask("n", 0, 0), Some(5));
        assert_eq!(ask("b", 0, 0), Some(5));
        assert_eq!(ask("high", 0, 0), Some(6));
        assert_eq!(ask("a", 100_000, 16 * 65_535), None);
        assert_eq!(ask("a", 100_000, 16 * 65_535 - 1), Some(1));
    }

    // Per file: 4, 5, 7, 6. Below six files.
    #[test]
    fn at_the_seventh_level() {
        for (path, number) in [("..", 4), ("n", 0), ("d", 5), ("a", 7), ("high", 7)] {
            let mut all = some_files();
            all.insert(b"d/x".to_vec(), vec![]);
            for i in 0..6 {
                all.insert(format!("{i}").into(), format!("#import \"{}\": *", i + 1).into());
            }
            all.insert(b"6".to_vec(), format!("#let x = none\n#import \"{path}\"").into());
            let here = answer(Some(&all), b"0", 99, usize::MAX);
            assert_eq!(here.result.err().unwrap_or(0), number, "{path}");
            assert_eq!(here.seen.import_depth, 6);
        }
    }

    // A sheet is held to 65,535 bytes however long its buffer is. A file is too short for that, but not two.
    #[test]
    fn longest_sheet() {
        for (n, number) in [(5_526, 0), (5_527, 9)] {
            let long = format!("#let l = \"{}\"", "a".repeat(60_000));
            let text = format!("#import \"l\": l\n#let = \"{}\"", "b".repeat(n));
            let all = files(&[("f", text.as_bytes()), ("l", long.as_bytes())]);
            let here = answer(Some(&all), b"f", usize::MAX, usize::MAX);
            assert_eq!(here.result.err().unwrap_or(0), number, "{n} {}", here.longest);
        }
    }

    #[test]
    fn what_was_seen() {
        let text = "// c\n#import \"a\": x, m\n#import \"b/c\": *\n#import \"n\": x\n#import x\n#let x = \"1\" + x\n\
                    #let d = (k: none, k: (), \"u\" 9\n";
        let wanted = Seen {
            imports: 3,
            stars: 2,
            lists: 1,
            imported: 4,
            lost: 1,
            passed_over: 1,
            unquoted: 1,
            lets: 7,
            replaced: 2,
            texts: 7,
            nones: 1,
            no_values: 1,
            dictionaries: 2,
            sums: 2,
            found: 2,
            keyed: 0,
            doubled: 1,
            no_keys: 1,
            unended: 1,
            comments: 1,
            depth: 2,
            import_depth: 2,
        };
        assert_eq!(run(text, 99).seen, wanted);
    }
}
