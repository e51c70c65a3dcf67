//! The expansion call as 01 tells it (sections 3 and 5, with the numbers of section 8): every refusal; the text and the bindings left
//! where it is accepted. Written from 01 and apart from the reference, so that the one can be held against the other: what is
//! accepted here the reference must answer with the same text and the same bindings, what is refused here with 5 it must answer
//! with an error, and what is refused with 8 it must not answer at all. For the other refusals it has no counterpart: it has no
//! buffers, takes any UTF-8 and follows `..`.
use crate::bundle::{Files, Found, find};
use crate::layout::{is_path, is_sheet, is_text};
use crate::sheet::{Tree, Value, decode};
use crate::text::{Text, is_blank, is_letter, is_line_blank, is_name, is_run, is_word, look, resolve, trimmed};
use crate::text::{underscored, without_last_blanks};

/// A longer buffer for the sheet counts as this long.
pub const LONGEST_SHEET: usize = 65_535;

/// What the call must answer.
#[derive(Clone, Debug, PartialEq, Eq)]
pub struct Answer {
    /// The text and the bindings left, or the number of the refusal.
    pub result: Result<Expanded, u8>,
    /// How many bytes were output before the refusal, or in all.
    pub written: usize,
    /// The longest sheet up to the refusal, or of all: the one given, or after a `#let`.
    pub longest: usize,
    /// Where the step begins that is refused; else the end of the text.
    pub reached: usize,
    pub seen: Seen,
}

#[derive(Clone, Debug, PartialEq, Eq)]
pub struct Expanded {
    pub out: Vec<u8>,
    pub left: Tree,
}

/// What was met, up to the refusal or in all.
#[derive(Clone, Copy, Debug, Default, PartialEq, Eq)]
pub struct Seen {
    pub imports: usize,
    /// `#let` lines; those of them that replace a binding, that found a value, and that found a dictionary.
    pub lets: usize,
    pub replaced: usize,
    pub copied: usize,
    pub dictionaries: usize,
    /// Calls of `#raw`; those of them that are blocks, blocks that lose blanks, and that read a file.
    pub raws: usize,
    pub blocks: usize,
    pub trimmed: usize,
    pub reads: usize,
    /// Calls of `#link`; those of them whose text is their address, and that keep their text.
    pub links: usize,
    pub equal: usize,
    pub boxes: usize,
    /// The terms of the expression that has the most.
    pub most_terms: usize,
    /// Marks `#raw` and `#link` that were copied: without `(`, and handed back.
    pub bare: usize,
    pub handed_back: usize,
    /// Calls that were handed back at the end of the text.
    pub handed_back_last: usize,
    /// Calls that ran to the end of the text.
    pub unended: usize,
    /// References with a text, without one, and before `(`.
    pub found: usize,
    pub missing: usize,
    pub called: usize,
}

/// The bindings of a sheet, or None where it breaks its layout.
pub fn tree_of(sheet: &[u8]) -> Option<Tree> {
    if is_sheet(sheet) { decode(sheet) } else { None }
}

/// The call with an output and a sheet buffer of so many bytes. `files` is None for a bundle that breaks its layout, `sheet` for a
/// sheet that does.
pub fn answer(files: Option<&Files>, text: &[u8], sheet: Option<&Tree>, out_len: usize, left_len: usize) -> Answer {
    let refused = |number| Answer { result: Err(number), written: 0, longest: 0, reached: 0, seen: Seen::default() };
    let Some(files) = files else { return refused(2) };
    let Some(sheet) = sheet else { return refused(3) };
    if !is_text(text) {
        return refused(6);
    }
    let size = tree_length(sheet);
    let limit = left_len.min(LONGEST_SHEET);
    if size > limit {
        return Answer { longest: size, ..refused(9) };
    }
    let mut run = Run {
        files,
        text: Text::new(text),
        sheet: sheet.clone(),
        size,
        longest: size,
        limit,
        room: out_len,
        out: Vec::new(),
        seen: Seen::default(),
    };
    let mut reached = 0;
    let mut done = Ok(());
    while done.is_ok() && run.text.next().is_some() {
        reached = run.text.at;
        done = run.step();
    }
    if done.is_ok() {
        reached = text.len();
    }
    run.seen.most_terms = run.text.most_terms;
    Answer {
        written: run.out.len(),
        longest: run.longest,
        reached,
        seen: run.seen,
        result: done.map(|()| Expanded { out: run.out, left: run.sheet }),
    }
}

/// How many bytes a sheet of these bindings has. Counted here apart from the encoder, for it may be more than 16 bits can say.
pub fn tree_length(tree: &Tree) -> usize {
    tree.iter().map(|(name, value)| record_length(name, value)).sum()
}

/// A map byte; the name, and the text or the entries, where there are any.
pub fn record_length(name: &[u8], value: &Value) -> usize {
    let field = |bytes: &[u8]| if bytes.is_empty() { 0 } else { 2 + bytes.len() };
    let of_value = match value {
        Value::None => 0,
        Value::Text(text) => field(text),
        Value::Dictionary(entries) => 2 + tree_length(entries),
    };
    1 + field(name) + of_value
}

struct Run<'a> {
    files: &'a Files,
    text: Text<'a>,
    /// The bindings, how many bytes their sheet has, how many it had at most, and how many it may have.
    sheet: Tree,
    size: usize,
    longest: usize,
    limit: usize,
    room: usize,
    out: Vec<u8>,
    seen: Seen,
}

impl Run<'_> {
    /// At each place, in this order, prefixes only.
    fn step(&mut self) -> Result<(), u8> {
        if self.text.takes(b"#import") {
            self.import();
            Ok(())
        } else if self.text.takes(b"#let") {
            self.binding()
        } else if self.text.takes(b"#raw") {
            self.call(b"#raw", Self::raw)
        } else if self.text.takes(b"#link") {
            self.call(b"#link", Self::link)
        } else if self.text.takes(b"#") {
            if self.text.next().is_some_and(is_letter) { self.reference_step() } else { self.put(b"#") }
        } else {
            let byte = self.text.bytes[self.text.at];
            self.text.skip();
            self.put(&[byte])
        }
    }

    fn put(&mut self, bytes: &[u8]) -> Result<(), u8> {
        if self.room - self.out.len() < bytes.len() {
            return Err(11);
        }
        self.out.extend(bytes);
        Ok(())
    }

    /// Drops through the newline.
    fn import(&mut self) {
        self.seen.imports += 1;
        self.text.span(|c| c != b'\n');
        self.text.skip();
    }

    /// The name; line blanks and `=`; the rest of the line, trimmed, is looked up unchanged.
    fn binding(&mut self) -> Result<(), u8> {
        self.text.span(is_line_blank);
        let name = underscored(self.text.span(is_name));
        self.text.span(|c| is_line_blank(c) || c == b'=');
        let rest = trimmed(self.text.span(|c| c != b'\n'));
        self.text.skip();
        let found = resolve(&self.sheet, rest).cloned();
        self.seen.lets += 1;
        self.seen.copied += usize::from(found.is_some());
        self.seen.dictionaries += usize::from(matches!(found, Some(Value::Dictionary(_))));
        self.bind(name, found.unwrap_or_else(|| Value::Text(rest.to_vec())))
    }

    fn bind(&mut self, name: Vec<u8>, value: Value) -> Result<(), u8> {
        self.size += record_length(&name, &value);
        if let Some(old) = self.sheet.get(&name) {
            self.size -= record_length(&name, old);
            self.seen.replaced += 1;
        }
        self.longest = self.longest.max(self.size);
        if self.size > self.limit {
            return Err(9);
        }
        self.sheet.insert(name, value);
        Ok(())
    }

    /// `#` and a letter.
    fn reference_step(&mut self) -> Result<(), u8> {
        let run = self.text.span(is_run);
        if self.text.sees(b'(') {
            self.seen.called += 1;
            return self.put(&[b"#", run].concat());
        }
        let text = look(&self.sheet, run);
        if text.is_empty() {
            self.seen.missing += 1;
        } else {
            self.seen.found += 1;
        }
        self.put(&text)
    }

    /// `#raw`, `#link`: without `(`, or handed back, the mark and the blanks are output.
    fn call(&mut self, mark: &[u8], inner: fn(&mut Self) -> Result<Option<Vec<u8>>, u8>) -> Result<(), u8> {
        let blanks = self.text.span(is_line_blank);
        let behind = self.text.at;
        if !self.text.takes(b"(") {
            self.seen.bare += 1;
            return self.put(&[mark, blanks].concat());
        }
        if let Some(output) = inner(self)? {
            return self.put(&output);
        }
        self.seen.handed_back += 1;
        self.seen.handed_back_last += usize::from(self.text.next().is_none());
        self.text.at = behind;
        self.put(&[mark, blanks].concat())
    }

    /// Behind the `(` of a raw call: its output, or None where it is handed back.
    fn raw(&mut self) -> Result<Option<Vec<u8>>, u8> {
        self.text.span(is_blank);
        let content = if self.text.sees(b'"') {
            self.text.expression(&self.sheet)
        } else if self.text.takes(b"read") {
            let Some(content) = self.read()? else { return Ok(None) };
            content
        } else {
            self.text.reference(&self.sheet)
        };
        let (lang, block) = self.arguments()?;
        self.seen.raws += 1;
        self.seen.blocks += usize::from(block);
        self.ends();
        if !block {
            return Ok(Some([b"`", &content[..], b"`"].concat()));
        }
        let kept = without_last_blanks(&content);
        self.seen.trimmed += usize::from(kept.len() < content.len());
        Ok(Some([b"```", &lang[..], b"\n", kept, b"\n```\n"].concat()))
    }

    /// Behind `read`: the file's content, or None where the call is handed back.
    fn read(&mut self) -> Result<Option<Vec<u8>>, u8> {
        self.text.span(is_blank);
        if !self.text.takes(b"(") {
            return Ok(None);
        }
        let path = self.text.expression(&self.sheet);
        self.text.span(|c| c != b')');
        self.text.skip();
        let content = self.file(path.strip_prefix(b"/").unwrap_or(&path))?;
        self.seen.reads += 1;
        Ok(Some(content))
    }

    fn file(&self, path: &[u8]) -> Result<Vec<u8>, u8> {
        if !is_path(path) {
            return Err(4);
        }
        match find(self.files, path) {
            Found::File(content) if is_text(&content) => Ok(content),
            Found::File(_) => Err(6),
            Found::Folder | Found::Absent => Err(5),
        }
    }

    /// The language, and whether it is a block. Stops at the end or at `)`.
    fn arguments(&mut self) -> Result<(Vec<u8>, bool), u8> {
        let (mut lang, mut block) = (vec![], false);
        loop {
            let from = self.text.at;
            self.text.span(|c| is_blank(c) || c == b',');
            if self.text.next().is_none_or(|c| c == b')') {
                return Ok((lang, block));
            }
            let name = self.text.span(is_word);
            self.text.span(|c| is_blank(c) || c == b':');
            match name {
                b"lang" if self.text.sees(b'"') => lang = self.text.literal(),
                b"lang" => lang = self.text.reference(&self.sheet),
                b"block" => block = self.text.span(is_letter) == b"true",
                _ => {}
            }
            if self.text.at == from {
                return Err(8);
            }
        }
    }

    /// Steps over the byte that ends a call, if the text goes on so far.
    fn ends(&mut self) {
        self.seen.unended += usize::from(self.text.next().is_none());
        self.text.skip();
    }

    /// Behind the `(` of a link: its output, or None where it is handed back.
    fn link(&mut self) -> Result<Option<Vec<u8>>, u8> {
        self.text.span(is_blank);
        if self.text.sees(b'<') {
            return Ok(None);
        }
        let address = self.text.expression(&self.sheet);
        self.text.span(is_blank);
        self.seen.links += 1;
        if !self.text.takes(b")") {
            self.text.span(|c| c != b')');
            self.ends();
            return Ok(Some(address));
        }
        self.text.span(is_line_blank);
        if !self.text.takes(b"[") {
            return Ok(Some(address));
        }
        let text = self.text.span(|c| c != b']');
        self.ends();
        if text.is_empty() || text == address {
            self.seen.equal += usize::from(!text.is_empty());
            return Ok(Some(address));
        }
        self.seen.boxes += 1;
        Ok(Some([b"#link(\"", &address[..], b"\")[", text, b"]"].concat()))
    }
}

#[cfg(test)]
mod tests {
    use super::*;
    use crate::bundle::Unpacked;
    use crate::preprocess_typst_below;
    use crate::{Context, sheet};

    fn files() -> Files {
        let entries: [(&str, &[u8]); 4] = [("a", b"A \n"), ("d/b", b"B"), ("e", b""), ("high", b"\x80")];
        entries.iter().map(|(p, c)| (p.as_bytes().to_vec(), c.to_vec())).collect()
    }

    /// x is `10`, n none, d a dictionary.
    fn bindings() -> Tree {
        let text = |t: &str| Value::Text(t.into());
        let inner = Tree::from([(b"a-b".to_vec(), text("hyphen")), (b"k".to_vec(), text("v"))]);
        Tree::from([
            (b"d".to_vec(), Value::Dictionary(inner)),
            (b"n".to_vec(), Value::None),
            (b"x".to_vec(), text("10")),
            (b"x_y".to_vec(), text("xy")),
        ])
    }

    fn run(text: &str, out_len: usize, left_len: usize) -> Answer {
        answer(Some(&files()), text.as_bytes(), Some(&bindings()), out_len, left_len)
    }

    const ACCEPTED: [(&str, &str); 44] = [
        ("", ""),
        ("A #x. B", "A  B"),
        ("#letter = x\n#ter", "10"),
        ("#let y = \"q\"\n#y", "\"q\""),
        ("#raw(x, lang: \"r\", block: true)", "```r\n10\n```\n"),
        ("#raw(\"a\"\n", "`a`"),
        ("a#import \"b\": x\nb", "ab"),
        ("#important", ""),
        ("#let y = d\n#y.k#y.a-b", "v"),
        ("#let y = d.a-b\n#y", "hyphen"),
        ("#let y-z == \t= x \n#y-z", "10"),
        ("#let = x\n#raw()", "`10`"),
        ("#let x\n[#x]", "[]"),
        ("#let y = n\n#y", ""),
        ("#let x =  a b\x0c\n#x", "a b"),
        ("#x#n#d#m#d.k#x-y#1##_", "10vxy#1##_"),
        ("#x(1)#x-y.z (", "#x(1) ("),
        ("#", "#"),
        ("#raw", "#raw"),
        ("#raw \t(readme)", "#raw \t(readme)"),
        ("#raw\n(x)", "#raw\n(x)"),
        ("#rawx(x)#x", "#rawx(x)10"),
        ("#raw(read(\"a\"))", "`A \n`"),
        ("#raw( read\n(\"/d/\" + \"b\" x) , block: true )", "```\nB\n```\n"),
        ("#raw(read(\"a\"),block:true)", "```\nA\n```\n"),
        ("#raw(read(\"e\"", "``"),
        ("#raw(read(\"e\")lang x block true)", "```10\n\n```\n"),
        ("#raw(\"a\\n\\t\\\"\\\\\\q\" + x + \"b\")", "`a\n\t\"\\\\q10b`"),
        ("#raw(\"a\\", "`a\\`"),
        ("#raw(\"a\" + )", "`a`"),
        ("#raw(x-y,,theme: x,)", "`xy`"),
        ("#raw(\"a\",block:true,block:tru)", "`a`"),
        ("#raw(\"a\",block:true1)", "```\na\n```\n"),
        ("#raw(d.k lang:n,lang:\"z\",block:true)", "```z\nv\n```\n"),
        ("#link(<a>)[#x]", "#link(<a>)[10]"),
        ("#link(\"u\")", "u"),
        ("#link(\"u\") \n[t]", "u\n[t]"),
        ("#link(\"u\") [t]z", "#link(\"u\")[t]z"),
        ("#link(x + \"/\"\n)[10/]", "10/"),
        ("#link(\"u\")[t", "#link(\"u\")[t]"),
        ("#link(\"u\")[]", "u"),
        ("#link(\"u\", y)[t]", "u[t]"),
        ("#link(\"u\"", "u"),
        ("#link  \n(x)", "#link  \n(x)"),
    ];

    #[test]
    fn accepted_as_by_the_reference() {
        let disk = Unpacked::new(&files()).unwrap();
        let context = Context::new(&bindings()).unwrap();
        for (text, out) in ACCEPTED {
            let here = run(text, usize::MAX, usize::MAX);
            let expanded = here.result.unwrap_or_else(|number| panic!("{number} for {text}"));
            assert_eq!(str::from_utf8(&expanded.out), Ok(out), "{text}");
            let (there, left) = preprocess_typst_below(&disk, text, &context).unwrap();
            assert_eq!(there, out, "{text}");
            assert_eq!(expanded.left, left.tree(), "{text}");
            assert_eq!(tree_length(&expanded.left), sheet::encode(&expanded.left).unwrap().len(), "{text}");
            // With buffers that just suffice, and too short by one.
            assert!(run(text, out.len(), here.longest).result.is_ok(), "{text}");
            assert_eq!(run(text, out.len(), here.longest - 1).result, Err(9), "{text}");
            if !out.is_empty() {
                assert_eq!(run(text, out.len() - 1, here.longest).result, Err(11), "{text}");
            }
        }
    }

    #[test]
    fn refused() {
        let size = tree_length(&bindings());
        let cases: [(&str, usize, usize, u8); 23] = [
            ("\u{80}", 9, 0, 6),
            ("", 0, size - 1, 9),
            ("", 0, size, 0),
            ("a#raw(1(", 0, size, 11),
            ("a#raw(1(", 1, size, 8),
            ("#let y = x\na", 0, size, 9),
            ("a#let y = x\n", 0, size, 11),
            ("#let x = 1\n", 0, size, 0),
            ("#let x = 123\n", 0, size, 9),
            ("#raw(\"a\", theme: \"b\")", 99, size, 8),
            ("#raw(\"a\" \"b\")", 0, size, 8),
            ("#raw(x + \"b\")", 0, size, 8),
            ("#raw(read(\"n\") \"b\")", 0, size, 5),
            ("#raw(read(\"d\"))", 0, size, 5),
            ("#raw(read(\"a/b\"))", 0, size, 5),
            ("#raw(read(\"//a\"))", 0, size, 4),
            ("#raw(read(\" a\"))", 0, size, 4),
            ("#raw(read(\n\"a\"))", 0, size, 4),
            ("#raw(read(\"../a\"))", 0, size, 4),
            ("#raw(read(\"high\")(", 0, size, 6),
            ("#raw(read(\"a\")(", 0, size, 8),
            ("#raw(read(\"a\"))", 4, size, 11),
            ("#raw(read(\"a\"))", 5, size, 0),
        ];
        for (text, out_len, left_len, number) in cases {
            let here = run(text, out_len, left_len);
            assert_eq!(here.result.err().unwrap_or(0), number, "{text}");
        }
        assert_eq!(answer(None, b"\x80", None, 0, 0).result, Err(2));
        assert_eq!(answer(Some(&files()), b"\x80", None, 0, 0).result, Err(3));
        assert_eq!(answer(Some(&files()), b"\x80", Some(&bindings()), 0, 0).result, Err(6));
    }

    // The sheet is held to 65,535 bytes however long its buffer is.
    #[test]
    fn longest_sheet() {
        let filled = |n: usize| Tree::from([(vec![], Value::Text(vec![b'a'; n]))]);
        let with = |n: usize| answer(Some(&files()), b"#let a = b\n", Some(&filled(n)), 0, usize::MAX);
        assert_eq!(with(65_525).longest, 65_535);
        assert!(with(65_525).result.is_ok());
        assert_eq!(with(65_526).result, Err(9));
    }

    #[test]
    fn what_was_seen() {
        let text = "#import\n#let y = d\n#let x = y.k\n#raw#raw(x,block:true)#raw(read#raw(read(\"a\"))#x#m#x(#link(x)#link(x)[t";
        let wanted = Seen {
            imports: 1,
            lets: 2,
            replaced: 1,
            copied: 2,
            dictionaries: 1,
            raws: 2,
            blocks: 1,
            trimmed: 0,
            reads: 1,
            links: 2,
            equal: 0,
            boxes: 1,
            most_terms: 1,
            bare: 1,
            handed_back: 1,
            handed_back_last: 0,
            unended: 1,
            found: 1,
            missing: 1,
            called: 1,
        };
        let here = run(text, usize::MAX, usize::MAX);
        assert_eq!(here.seen, wanted);
        assert_eq!((here.written, here.reached), (here.result.unwrap().out.len(), text.len()));
        let seen = run("#raw(\"a\" + x + \" \",block:true)#link(\"1\" + \"0\")[10]#link(x)[]", 99, 99).seen;
        assert_eq!((seen.trimmed, seen.equal, seen.most_terms), (1, 1, 3));
        assert_eq!(run("#raw(read \n", 99, 99).seen.handed_back_last, 1);
        assert_eq!(run("#raw(read \nx", 99, 99).seen.handed_back_last, 0);
        let here = run("ab #raw(\"a\" (", 99, 99);
        assert_eq!((here.result, here.written, here.reached), (Err(8), 3, 3));
    }
}
