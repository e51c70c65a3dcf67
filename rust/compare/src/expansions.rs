//! Sheets, files to read, and texts to expand with them: from a grammar of fragments, and of stray marks at random. Most are accepted;
//! texts and paths that are refused are strewn in.
use crate::bundles::{changed, edge, fits};
use crate::damage::damaged;
use crate::rng::Rng;
use crate::sheets;
use crate::sums::{self, Bound, literal_of, many_blanks, more_terms, some_terms, split_sum, tailed};
use crate::texts::{blanks, one, parent, quoted, with_high_byte, word};
use oracle::expansion::tree_length;
use oracle::{Files, Tree, Value, bundle, sheet};

const BLANKS: &[u8] = b"  \t\n\x0b\x0c\r";
const LINE_BLANKS: &[u8] = b"  \t\x0b\x0c\r";
/// On both sides of the blanks.
const NO_BLANKS: &[u8] = b"\x08\x0e\x1c\x1f!\0";
const RUN: &[u8] = b"abxyAZ019_-.";

/// Text between the marks; also what is nearly a mark, and marks with more behind them.
const WORDS: [&str; 44] = [
    "a", "ten seconds", "x y", " ", "\n", "\n\n", "// ", "(", ")", "[", "]", "\"", "#", "##", "# ", "#1", "#_x", "#-",
    "#.", "#(", "#\n", "#[", "#impor", "#le", "#ra", "#lin", "#Let x = 1", "#RAW(", "#raw", "#link", "#rawx",
    "#linked(x)", "#raw\n(", "#link\n(", "#raw-x(", "import", "let", "```", "\r\n", "\x0b", "\x1c", "\0", "\x7f", "\\",
];

/// For texts that are nothing but stray marks.
const STRAYS: [&str; 44] = [
    "#", "#", "#raw", "#raw(", "#raw(", "#let", "#let ", "#link", "#link(", "#link(", "#import", "(", ")", ")", "[",
    "]", "\"", "\"", "\"", "\\", "+", "+", ",", ":", "=", " ", " ", "\n", "\t", "x", "x", "y", "d.k", "read", "read(",
    "lang", "lang:", "block", "block:true", "true", "<", "-", "/", "a",
];

const LITERALS: [&str; 33] = [
    "a", "b", "10", "u", "x y", " ", " a ", "#x", ")", "]", ",", "(", "\n", "\t", "a\n\n", "\\n", "\\t", "\\\"",
    "\\\\", "\\q", "\\r", "\\u{41}", "\\)", "\\\n", "\\N", "\\ ", "`", "```", "+", "\\\\\\\"", "\r", "\x0b ", "\x1c",
];

/// What a text binds itself, and may then name.
const LOCALS: [&str; 12] = ["y", "y", "z", "t", "a_b", "x", "d", "", "_", "X9", "yy", "n"];
/// What no sheet of `known` has.
const MISSING: [&str; 8] = ["lost", "lost.k", "m", "x.y.z", "d.", "d..k", "x.", "_."];

/// The line of a `#let` behind its name.
const EQUALS: [&str; 14] =
    [" = ", " = ", " = ", "=", " ", "", "==", " == = ", "\t=\x0b", "= ", "\x0c=\r", " =\x1c", " : ", ".k = "];
const VALUES: [&str; 26] = [
    "\"q\"", "ten seconds", "10", "x // y", "(a: 1, b: x)", "none", "#x", "#raw(\"a\")", "[t]", "", " ", "\t \x0c",
    ".", "..", "-", "x +", "x + \"a\"", "x\0", "\x1cx", "x\x1c", "x y", "=x", "a=b", "d.k.", "X", "y",
];
const BEHIND_IMPORTS: [&str; 12] =
    [" \"a.typ\": b", "", "ed x", " #x", ": *", " \"a", "#let y = 1", "-x", "(", ".a", "\t\x0b", " #raw(\"a\""];

const ARGUMENTS: [&str; 38] = [
    "lang: \"r\"",
    "lang: \"r\"",
    "lang:\"\"",
    "lang: \"a\\nb\"",
    "lang: \"a\\\"b)\"",
    "lang\"r\"",
    "lang \n: : \"r\"",
    "lang: x",
    "lang:x-y.z",
    "lang",
    "lang:",
    "lang: d.k",
    "lang:9",
    "lang:-.",
    "lang : lang",
    "lang_: x",
    "lang1",
    "langs",
    "Lang: x",
    "block: true",
    "block: true",
    "block: true",
    "block: true",
    "block:false",
    "block true",
    "block:tru",
    "block: truex",
    "block: true1",
    "block:TRUE",
    "block:",
    "block",
    "block_: true",
    "blocks",
    "theme: x",
    "theme",
    "1",
    "_: true",
    "x lang:y",
];
/// In a round of arguments these move by nothing, there or in the next one.
const STALLS: [&str; 16] = [
    "\"b\"",
    "theme: \"b\"",
    "theme: -1",
    "block: 1.5",
    "block:\"true\"",
    "block: (true)",
    "-",
    ".",
    "+ x",
    "(",
    "[x]",
    "#x",
    "lang: (x)",
    "lang: \"r\" + x",
    "lang: +",
    "\\",
];

/// Behind the content of a block: one of them stalls it.
const BLOCK_STALLS: [&str; 5] = [" \"b\"", ", (", ", theme: -1", ", lang: \"r\" + x", ", block: true, -"];
/// To read: they keep no rule of paths, or no file is there.
const BAD_PATHS: [&str; 9] = ["../a", "", "/", "//a", " a", "a ", "n", "d/n", "d"];
/// Short enough to stand in an expression of many terms.
const LONGEST_BOUND: usize = 1000;

/// What a text may be made with.
pub struct Group {
    pub files: Files,
    pub tree: Tree,
    /// Paths that lead to values of the tree, and of these the ones to texts with their texts.
    paths: Vec<Vec<u8>>,
    texts: Vec<Bound>,
    /// The texts that an expression may name, where they are not too long.
    bound: Vec<Bound>,
    /// Paths that lead to dictionaries, with their keys.
    dictionaries: Vec<(Vec<u8>, Vec<Vec<u8>>)>,
    file_paths: Vec<Vec<u8>>,
}

impl Group {
    pub fn new(rng: &mut Rng) -> Group {
        let tree = tree(rng);
        let mut paths: Vec<Vec<u8>> = (0..12).map(|_| sheets::walk(&tree, rng).join(&b'.')).collect();
        if tree.is_empty() {
            paths = vec![b"x".to_vec()];
        }
        let text_of = |path: &Vec<u8>| match value_at(&tree, path) {
            Some(Value::Text(text)) => Some((path.clone(), text.clone())),
            _ => None,
        };
        let keys_of = |path: &[u8]| match value_at(&tree, path) {
            Some(Value::Dictionary(entries)) => Some((path.to_vec(), entries.keys().cloned().collect())),
            _ => None,
        };
        let texts: Vec<Bound> = paths.iter().filter_map(text_of).collect();
        let bound = texts.iter().filter(|(path, text)| text.len() < LONGEST_BOUND && is_named(path)).cloned().collect();
        let dictionaries = paths.iter().flat_map(|path| starts(path)).filter_map(keys_of).collect();
        let files = files(rng);
        let file_paths = files.keys().cloned().collect();
        Group { files, tree, paths, texts, bound, dictionaries, file_paths }
    }

    /// The files as a bundle.
    pub fn bundle(&self) -> Vec<u8> {
        bundle::encode(&self.files).expect("lengths that fit")
    }

    pub fn sheet(&self) -> Vec<u8> {
        sheet::encode(&self.tree).expect("lengths of 16 bits")
    }

    pub fn text(&self, rng: &mut Rng) -> Vec<u8> {
        let mut text = match rng.below(200) {
            0..28 => strays(rng),
            28..30 => self.long(rng),
            _ => self.pieces(rng),
        };
        if rng.one_in(6) {
            text.truncate(rng.below(text.len() + 1));
        }
        match rng.below(80) {
            0 => with_high_byte(text, rng),
            1..=3 => damaged(text, rng),
            _ => text,
        }
    }

    fn pieces(&self, rng: &mut Rng) -> Vec<u8> {
        let count = match rng.below(100) {
            0..3 => 0,
            3 => rng.between(20, 60),
            _ => rng.between(1, 6),
        };
        let mut text = Vec::new();
        for _ in 0..count {
            self.piece(&mut text, rng);
        }
        // An output buffer that is short by few bytes then ends inside of it.
        if rng.one_in(8) {
            self.measured(&mut text, rng);
        }
        text
    }

    pub fn piece(&self, text: &mut Vec<u8>, rng: &mut Rng) {
        match rng.below(50) {
            0..4 => text.extend(word(&WORDS, rng)),
            4..6 => import(text, rng),
            6..15 => self.binding(text, rng),
            15..24 => self.raw(text, rng),
            24..31 => self.link(text, rng),
            31..39 => self.reference_mark(text, rng),
            39..49 => self.measured(text, rng),
            _ => text.push(b'\n'),
        }
    }

    /// Plain text for the most part, longer than a length of 8 bits says; at times as long as no sheet may be.
    fn long(&self, rng: &mut Rng) -> Vec<u8> {
        let n = *rng.pick(&[255, 256, 257, 300, 1000, 5000]);
        let mut text = rng.string(b"abc \n", n);
        self.piece(&mut text, rng);
        if rng.one_in(12) {
            text.extend(b"#let y = ");
            let n = self.long_value(rng);
            text.extend(rng.string(b"abc", n));
        }
        text
    }

    /// With a new name of one byte it fills the sheet, but for one byte, or is one too long; or its own length passes 16 bits.
    fn long_value(&self, rng: &mut Rng) -> usize {
        let filling = 65_535_usize.saturating_sub(tree_length(&self.tree) + 6);
        match rng.below(6) {
            0..3 => (filling + rng.below(3)).saturating_sub(1),
            3 => rng.between(65_530, 65_536),
            _ => 65_536 + rng.below(400),
        }
    }

    /// What a reference may name.
    fn run(&self, rng: &mut Rng) -> Vec<u8> {
        match rng.below(20) {
            0..10 => hyphened(one(&self.paths, rng), rng),
            10..12 => {
                [&hyphened(one(&self.paths, rng), rng)[..], word(&[".", ".k", ".a-b", "-", "_", "0"], rng)].concat()
            }
            12..16 => hyphened(word(&LOCALS, rng).to_vec(), rng),
            16 => [word(&LOCALS, rng), word(&[".k", ".a_b", "."], rng)].concat(),
            17 | 18 => word(&MISSING, rng).to_vec(),
            _ => {
                let n = rng.below(6);
                rng.string(RUN, n)
            }
        }
    }

    fn reference_mark(&self, text: &mut Vec<u8>, rng: &mut Rng) {
        text.push(b'#');
        text.extend(self.run(rng));
        text.extend(word(&["", "", "", " ", "\n", "(", "(x)", "()", " (", "#", "/", ",", "[t]", "\\", ";"], rng));
    }

    /// A name for a dictionary, and mostly a reference to a key of it by that name.
    fn dictionary_binding(&self, text: &mut Vec<u8>, rng: &mut Rng) {
        let (path, keys) = rng.pick(&self.dictionaries);
        let name = self.let_name(rng);
        text.extend([b"#let ", &name[..], b" = ", path, b"\n"].concat());
        if !keys.is_empty() && !rng.one_in(3) {
            text.extend([b"#", &name[..], b".", &one(keys, rng)].concat());
        }
    }

    fn binding(&self, text: &mut Vec<u8>, rng: &mut Rng) {
        if !self.dictionaries.is_empty() && rng.one_in(4) {
            return self.dictionary_binding(text, rng);
        }
        text.extend(b"#let");
        if !rng.one_in(12) {
            text.push(b' ');
            blanks(text, LINE_BLANKS, rng);
        }
        text.extend(self.let_name(rng));
        text.extend(word(&EQUALS, rng));
        text.extend(self.let_value(rng));
        some_blanks(text, LINE_BLANKS, rng);
        if !rng.one_in(12) {
            text.push(b'\n');
        }
        if rng.one_in(3) {
            self.reference_mark(text, rng);
        }
    }

    /// One that the sheet has, for the most part, or one of the text's own.
    fn let_name(&self, rng: &mut Rng) -> Vec<u8> {
        match rng.below(30) {
            0..11 => {
                let path = one(&self.paths, rng);
                let name = path.split(|&c| c == b'.').next().unwrap_or_default().to_vec();
                hyphened(name, rng)
            }
            11..24 => hyphened(word(&LOCALS, rng).to_vec(), rng),
            24..28 => {
                let n = rng.between(1, 4);
                rng.string(b"abxyAZ019_-", n)
            }
            28 => word(&["x y", "x(y)", "d.k", "\"x\"", "#x", "+", "9"], rng).to_vec(),
            _ => {
                let n = *rng.pick(&[127, 128, 255, 256, 257]);
                rng.string(b"ab_-", n)
            }
        }
    }

    fn let_value(&self, rng: &mut Rng) -> Vec<u8> {
        match rng.below(30) {
            0..12 => one(&self.paths, rng),
            12 | 13 => hyphened(one(&self.paths, rng), rng),
            14..17 => word(&LOCALS, rng).to_vec(),
            17..28 => word(&VALUES, rng).to_vec(),
            28 => self.run(rng),
            _ => {
                let n = *rng.pick(&[127, 128, 255, 256, 257, 300, 600]);
                rng.string(b"abc =.", n)
            }
        }
    }

    fn raw(&self, text: &mut Vec<u8>, rng: &mut Rng) {
        text.extend(b"#raw");
        some_blanks(text, LINE_BLANKS, rng);
        text.push(b'(');
        some_blanks(text, BLANKS, rng);
        self.content(text, rng);
        for _ in 0..rng.below(4) {
            text.extend(word(&[", ", ", ", ",", " ", "\n", ",,", " ,\t", ""], rng));
            text.extend(word(&ARGUMENTS, rng));
        }
        if rng.one_in(4) {
            text.extend(b", block: true");
        }
        if rng.one_in(5) {
            text.extend(word(&[", lang: ", "lang:"], rng));
            text.extend(self.run(rng));
        }
        if rng.one_in(25) {
            text.extend(word(&["", ",", " ", ", "], rng));
            text.extend(word(&STALLS, rng));
        }
        text.extend(word(&["", "", "", " ", ",", "\n", ", \n"], rng));
        if !rng.one_in(14) {
            text.push(b')');
        }
    }

    fn content(&self, text: &mut Vec<u8>, rng: &mut Rng) {
        match rng.below(20) {
            0..6 => literal(text, rng),
            6..10 => {
                literal(text, rng);
                self.terms(text, rng);
            }
            10..15 => text.extend(self.run(rng)),
            15..18 => self.read(text, rng),
            // Only a literal begins an expression here: it stalls.
            18 if rng.one_in(3) => {
                text.extend(self.run(rng));
                self.terms(text, rng);
            }
            18 => self.read(text, rng),
            _ => text.extend(word(&["", "readme", "reads(\"a\")", "rea", "read", "READ(\"a\")", "<x>", "none"], rng)),
        }
    }

    /// More of an expression.
    fn terms(&self, text: &mut Vec<u8>, rng: &mut Rng) {
        for _ in 0..rng.between(1, 3) {
            // A newline ends the expression.
            let set = if rng.one_in(12) { BLANKS } else { LINE_BLANKS };
            some_blanks(text, set, rng);
            text.push(b'+');
            some_blanks(text, set, rng);
            if rng.one_in(2) {
                literal(text, rng);
            } else {
                text.extend(self.run(rng));
            }
        }
        if rng.one_in(20) {
            text.extend(word(&["+", " + ", "+\n", " +)", "++x"], rng));
        }
    }

    fn read(&self, text: &mut Vec<u8>, rng: &mut Rng) {
        text.extend(b"read");
        some_blanks(text, BLANKS, rng);
        if rng.one_in(25) {
            return text.extend(word(&["", "x", "[\"a\"]", "\"a\"", ","], rng));
        }
        text.push(b'(');
        if rng.one_in(3) {
            blanks(text, LINE_BLANKS, rng);
        }
        self.path(text, rng);
        if rng.one_in(10) {
            text.extend(word(&[" x", "\n", ", \"b\"", " + ", "(", "\"", "]"], rng));
        }
        if !rng.one_in(14) {
            text.push(b')');
        }
    }

    /// A path to read: a file that is there, for the most part; by one literal, by two, or by a reference.
    fn path(&self, text: &mut Vec<u8>, rng: &mut Rng) {
        if rng.one_in(40) {
            return text
                .extend(word(&["\"../a\"", "\"\"", "\"/\"", "", "\n\"a\"", "\"n\"", "\"a b\"", "\"//a\""], rng));
        }
        if self.file_paths.is_empty() || rng.one_in(60) {
            return text.extend(self.run(rng));
        }
        let mut path = one(&self.file_paths, rng);
        match rng.below(60) {
            0 => path = changed(path, rng).into_iter().filter(|c| c.is_ascii() && *c != b'"').collect(),
            1 => path = edge(rng).into_iter().filter(|c| c.is_ascii() && *c != b'"').collect(),
            2 => drop(path.pop()),
            3 => path.extend(word(&["x", "/x", "-", "/b"], rng)),
            4 => path = word(&["n", "d/n", "/n", "B"], rng).to_vec(),
            5 => path = parent(&path).to_vec(),
            6 => path.insert(0, *rng.pick(BLANKS)),
            7 => path.push(*rng.pick(BLANKS)),
            8..20 => path.insert(0, b'/'),
            _ => {}
        }
        if let Some((known, _)) = self.texts.iter().find(|(_, text)| *text == path)
            && rng.one_in(2)
        {
            return text.extend(known);
        }
        if rng.one_in(3) {
            let (start, end) = path.split_at(rng.below(path.len() + 1));
            quoted(text, start);
            text.extend(word(&["+", " + ", "\t+"], rng));
            return quoted(text, end);
        }
        quoted(text, &path);
    }

    fn link(&self, text: &mut Vec<u8>, rng: &mut Rng) {
        text.extend(b"#link");
        some_blanks(text, LINE_BLANKS, rng);
        text.push(b'(');
        some_blanks(text, BLANKS, rng);
        let address = self.address(text, rng);
        some_blanks(text, BLANKS, rng);
        if rng.one_in(6) {
            text.extend(word(&[", ", ",x", "[t]", "\"t\"", "+", "<l>", "\n[t]", "(", "x", "-"], rng));
        }
        if !rng.one_in(14) {
            text.push(b')');
        }
        some_blanks(text, if rng.one_in(6) { BLANKS } else { LINE_BLANKS }, rng);
        if rng.one_in(4) {
            return;
        }
        text.push(b'[');
        match rng.below(8) {
            0 => {}
            1 | 2 => text.extend(address),
            3 => text.extend([&address[..], word(&["x", " ", "\n"], rng)].concat()),
            4 => self.reference_mark(text, rng),
            5 => text.extend(&address[..rng.below(address.len() + 1)]),
            _ => text.extend(word(&["t", "a t", "#x", "\"", "[", "(", "\\]", "\n", ")", "t[u"], rng)),
        }
        if !rng.one_in(14) {
            text.push(b']');
        }
    }

    /// A call whose output is measured before it is written, or compared while it is read.
    pub fn measured(&self, text: &mut Vec<u8>, rng: &mut Rng) {
        if rng.one_in(2) {
            self.block(text, rng);
        } else {
            self.near_link(text, rng);
        }
    }

    /// A raw call, mostly a block, whose content ends in many blanks or has many terms. Some stall behind it.
    fn block(&self, text: &mut Vec<u8>, rng: &mut Rng) {
        text.extend(b"#raw(");
        self.tailed_content(text, rng);
        text.extend(word(&["", "", "", ", lang: \"r\"", ",lang:x", " lang x,"], rng));
        if !rng.one_in(8) {
            text.extend(word(&[", block: true", ",block:true", " block true", "\n, block :true,\n"], rng));
        }
        if rng.one_in(16) {
            text.extend(word(&BLOCK_STALLS, rng));
        }
        if !rng.one_in(20) {
            text.push(b')');
        }
    }

    fn tailed_content(&self, text: &mut Vec<u8>, rng: &mut Rng) {
        match rng.below(9) {
            0 => literal_of(text, &tailed(rng), rng),
            1 | 2 => split_sum(text, &tailed(rng), &self.bound, some_terms(rng), rng),
            3 | 4 => {
                literal_of(text, &tailed(rng), rng);
                more_terms(text, &self.bound, some_terms(rng) - 1, rng);
                sums::blank_terms(text, &self.bound, rng);
            }
            5 | 6 => text.extend(self.tailed_name(rng)),
            _ => {
                text.extend(b"read(");
                self.split_path(text, rng);
                text.push(b')');
            }
        }
    }

    /// A path to a text that ends in a blank, where there is one.
    fn tailed_name(&self, rng: &mut Rng) -> Vec<u8> {
        let ends = |(_, text): &&Bound| text.last().is_some_and(|c| BLANKS.contains(c));
        let paths: Vec<Vec<u8>> = self.texts.iter().filter(ends).map(|(path, _)| path.clone()).collect();
        if paths.is_empty() { self.run(rng) } else { hyphened(one(&paths, rng), rng) }
    }

    /// A path to read by one term or many; some are refused.
    fn split_path(&self, text: &mut Vec<u8>, rng: &mut Rng) {
        let bad = self.file_paths.is_empty() || rng.one_in(8);
        let path = if bad { word(&BAD_PATHS, rng).to_vec() } else { one(&self.file_paths, rng) };
        split_sum(text, &path, &self.bound, some_terms(rng), rng);
    }

    /// A link whose text is its address, or nearly.
    fn near_link(&self, text: &mut Vec<u8>, rng: &mut Rng) {
        text.extend(b"#link(");
        let address = sums::sum(text, &self.bound, some_terms(rng), rng);
        text.extend(word(&[")[", ")[", ") [", " )\t["], rng));
        text.extend(sums::near(&address, rng));
        if !rng.one_in(20) {
            text.push(b']');
        }
    }

    /// Writes the address of a link, and answers what it may come to.
    fn address(&self, text: &mut Vec<u8>, rng: &mut Rng) -> Vec<u8> {
        match rng.below(24) {
            0..6 => {
                let address = word(&["u", "10", "https://e.x/a-b", "a", "", "x y", "u)", "<u>"], rng);
                quoted(text, address);
                address.to_vec()
            }
            6..13 if !self.texts.is_empty() => {
                let (path, value) = rng.pick(&self.texts).clone();
                text.extend(hyphened(path, rng));
                value
            }
            13..18 => {
                text.extend(self.run(rng));
                self.terms(text, rng);
                vec![]
            }
            18 => {
                text.extend(word(&["<l>", "<", "<\"u\">"], rng));
                b"<l>".to_vec()
            }
            19 => {
                text.extend(word(&["", "9", "-x", "(u)", "[u]", ".", "+\"u\"", "\\"], rng));
                vec![]
            }
            20 | 21 => {
                literal(text, rng);
                self.terms(text, rng);
                b"a".to_vec()
            }
            _ => {
                literal(text, rng);
                b"a".to_vec()
            }
        }
    }
}

fn value_at<'a>(tree: &'a Tree, path: &[u8]) -> Option<&'a Value> {
    let mut pieces = path.split(|&c| c == b'.');
    let first = tree.get(pieces.next()?)?;
    pieces.try_fold(first, |value, piece| match value {
        Value::Dictionary(entries) => entries.get(piece),
        _ => None,
    })
}

/// Does an expression read a reference there, and does it lead where the path does.
fn is_named(path: &[u8]) -> bool {
    path.first().is_some_and(|c| c.is_ascii_alphabetic() || *c == b'_') && !path.contains(&b'-')
}

/// The path, and each part of it before a `.`.
fn starts(path: &[u8]) -> impl Iterator<Item = &[u8]> {
    (0..=path.len()).filter(|&i| i == path.len() || path[i] == b'.').map(|i| &path[..i])
}

/// Mostly one of `sheets`; else one that a text here is likely to name; some few as long as a sheet may be.
fn tree(rng: &mut Rng) -> Tree {
    match rng.below(150) {
        0 => {
            let n = if rng.one_in(2) { 65_535 } else { rng.between(65_480, 65_534) };
            sheets::filled(rng, n)
        }
        1..8 => Tree::new(),
        8..70 => known(rng),
        _ => sheets::tree(rng),
    }
}

/// Texts, none and dictionaries by the names that fragments of this module have.
fn known(rng: &mut Rng) -> Tree {
    let value = |text: &str| Value::Text(text.into());
    let inner: [(&str, Value); 6] = [
        ("", value("empty")),
        ("a-b", value("hyphen")),
        ("a_b", value("under")),
        ("k", value("v")),
        ("n", Value::None),
        ("in", Value::Dictionary(Tree::from([(b"k".to_vec(), value("deep \n"))]))),
    ];
    let all: [(&str, Value); 12] = [
        ("", value("nameless")),
        ("9", value("nine")),
        ("_", Value::None),
        ("a_b", value("a b \t\n")),
        ("d", Value::Dictionary(some(&inner, rng))),
        ("lang", value("r")),
        ("n", Value::None),
        ("path", value("d/b")),
        ("t", value("u")),
        ("x", value("10")),
        ("x_y", value("x]y")),
        ("y", value("")),
    ];
    let mut tree = some(&all, rng);
    tree.insert(b"b".to_vec(), Value::Text(many_blanks(rng)));
    for name in ["e_f", "w"] {
        tree.insert(name.into(), Value::Text(tailed(rng)));
    }
    tree
}

/// Most of the records.
fn some(records: &[(&str, Value)], rng: &mut Rng) -> Tree {
    let kept = records.iter().filter(|_| !rng.one_in(4));
    kept.map(|(name, value)| (name.as_bytes().to_vec(), value.clone())).collect()
}

fn files(rng: &mut Rng) -> Files {
    const NAMES: [&str; 12] = ["a", "b", "d/b", "d/e/f", "s.r", "x.typ", "a-b", "_", "readme", "10", "A", "..."];
    let mut files = Files::new();
    for _ in 0..rng.below(6) {
        let path = word(&NAMES, rng).to_vec();
        if fits(&files, &path) {
            files.insert(path, content(rng));
        }
    }
    files
}

/// Contents with and without blanks at their ends.
fn content(rng: &mut Rng) -> Vec<u8> {
    const CONTENTS: [&str; 14] =
        ["", "A", "A \n", " \t\n", "\n", "a\nb\n\n", "`", "```\n", "x\r\n\x0b", "#x", ")", "\"", "\x1c", " a"];
    match rng.below(60) {
        0..4 => with_high_byte(word(&CONTENTS, rng).to_vec(), rng),
        4 => {
            let n = *rng.pick(&[255, 256, 257, 1000]);
            rng.string(b"abc \n", n)
        }
        5 if rng.one_in(20) => rng.string(b"abc \n", 65_535),
        6..30 => tailed(rng),
        _ => word(&CONTENTS, rng).to_vec(),
    }
}

/// The path with some `_` made `-`.
pub fn hyphened(mut path: Vec<u8>, rng: &mut Rng) -> Vec<u8> {
    for c in &mut path {
        if *c == b'_' && rng.one_in(2) {
            *c = b'-';
        }
    }
    path
}

fn strays(rng: &mut Rng) -> Vec<u8> {
    (0..rng.between(2, 30)).flat_map(|_| word(&STRAYS, rng)).copied().collect()
}

fn import(text: &mut Vec<u8>, rng: &mut Rng) {
    text.extend(b"#import");
    text.extend(word(&BEHIND_IMPORTS, rng));
    if !rng.one_in(10) {
        text.push(b'\n');
    }
}

/// With its `"` at the end, mostly.
pub fn literal(text: &mut Vec<u8>, rng: &mut Rng) {
    text.push(b'"');
    for _ in 0..rng.below(4) {
        text.extend(word(&LITERALS, rng));
    }
    if !rng.one_in(30) {
        text.push(b'"');
    }
}

/// Mostly none; at times a byte that is nearly a blank.
pub fn some_blanks(text: &mut Vec<u8>, set: &[u8], rng: &mut Rng) {
    if rng.one_in(4) {
        blanks(text, set, rng);
    }
    if rng.one_in(100) {
        text.push(*rng.pick(NO_BLANKS));
    }
}

/// The lengths of both buffers, where so many bytes come out and so long is the longest sheet: mostly enough.
pub fn rooms(written: usize, longest: usize, rng: &mut Rng) -> (usize, usize) {
    let (enough, wide) = (enough(written, rng), enough(longest, rng));
    match rng.below(40) {
        0..4 => (short(written, rng), wide),
        4..8 => (enough, short(longest, rng)),
        8 => (short(written, rng), short(longest, rng)),
        // Longer than a sheet may be.
        9 if rng.one_in(12) => (enough, 65_530 + rng.below(40)),
        _ => (enough, wide),
    }
}

/// A start of the text that ends with `)` or `]`, as a call does. What comes out of it is a length for `inside`.
pub fn through_a_call<'a>(text: &'a [u8], rng: &mut Rng) -> Option<&'a [u8]> {
    let ends: Vec<usize> = (1..=text.len()).filter(|&i| matches!(text[i - 1], b')' | b']')).collect();
    if ends.is_empty() { None } else { Some(&text[..*rng.pick(&ends)]) }
}

/// The length of a buffer that ends with the output of a call or few bytes before: inside of what stands behind its content, or of its content.
pub fn inside(len: usize, rng: &mut Rng) -> usize {
    len.saturating_sub(rng.below(7))
}

pub fn enough(len: usize, rng: &mut Rng) -> usize {
    match rng.below(8) {
        0..4 => len,
        4 | 5 => len + 1,
        _ => len + rng.below(100),
    }
}

pub fn short(len: usize, rng: &mut Rng) -> usize {
    match rng.below(8) {
        0..4 => len.saturating_sub(1),
        4 => 0,
        5 => rng.below(30),
        6 => inside(len, rng),
        _ => rng.below(len + 1),
    }
}

#[cfg(test)]
mod tests {
    use super::*;
    use oracle::expansion::answer;
    use oracle::layout::{bundle_entries, is_sheet};

    #[test]
    fn groups_keep_the_rules() {
        let mut rng = Rng::new(1);
        for _ in 0..5_000 {
            let group = Group::new(&mut rng);
            assert!(bundle_entries(&group.bundle()).is_some());
            assert!(is_sheet(&group.sheet()));
        }
    }

    // More than half is accepted, everything that a text may do is done by many, and every number is met.
    #[test]
    fn what_the_texts_do() {
        let mut rng = Rng::new(2);
        let mut numbers = [0; 12];
        let mut done = [0; 19];
        for _ in 0..1000 {
            let group = Group::new(&mut rng);
            for _ in 0..20 {
                let text = group.text(&mut rng);
                let ask = |out, left| answer(Some(&group.files), &text, Some(&group.tree), out, left);
                let whole = ask(usize::MAX, usize::MAX);
                let (out, left) = rooms(whole.written, whole.longest, &mut rng);
                let here = ask(out, left);
                numbers[usize::from(here.result.as_ref().err().copied().unwrap_or(0))] += 1;
                if here.result.is_ok() {
                    let s = here.seen;
                    let long = s.most_terms / 5;
                    let all = [
                        s.imports, s.lets, s.replaced, s.copied, s.dictionaries, s.raws, s.blocks, s.reads, s.links,
                        s.boxes, s.bare, s.handed_back, s.unended, s.found, s.missing, s.called, s.trimmed, s.equal,
                        long,
                    ];
                    all.iter().zip(&mut done).for_each(|(&n, sum)| *sum += usize::from(n > 0));
                }
            }
        }
        assert!(numbers[0] > 12_000, "{numbers:?}");
        assert!([4, 5, 6, 8, 9, 11].iter().all(|&n| numbers[n] > 100), "{numbers:?}");
        assert!(done.iter().all(|&n| n > 200), "{done:?}");
    }
}
