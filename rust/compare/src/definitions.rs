//! Bundles whose files define bindings and import each other, and definitions files to ask for with them, from a grammar of fragments
//! and of stray marks at random. Most are accepted; texts and paths that are refused are strewn in.
use crate::bundles::{changed, edge, fits, segment, stretched};
use crate::damage::damaged;
use crate::expansions::{enough, hyphened, literal, short, some_blanks};
use crate::rng::Rng;
use crate::texts::{below, blanks, joined, one, parent, quoted, with_high_byte, word};
use oracle::Files;
use oracle::definitions::work_needed;
use oracle::layout::is_text;

const LONGEST_PATH: usize = 255;
const BLANKS: &[u8] = b"  \t\n\x0b\x0c\r";
const LINE_BLANKS: &[u8] = b"  \t\x0b\x0c\r";
const FILES: [&str; 10] = ["a", "b", "c", "x.typ", "defs.typ", "a-b", "...", "_", "1a", "A"];
/// What files bind, import and refer to.
const NAMES: [&str; 20] = [
    "x", "x", "x", "y", "y", "z", "d", "d", "e", "lang", "", "_", "9", "a_b", "X", "none", "nonesuch", "xx", "b1", "d_",
];
const KEYS: [&str; 18] =
    ["k", "k", "k", "a", "b", "a-b", "a_b", "-", "_", "", "k1", "9", "K", "none", "x", "kk", "k-", "ab"];
const RUN: &[u8] = b"abxyAZ019_-.";

/// Behind a name that is bound.
const EQUALS: [&str; 22] = [
    " = ", " = ", " = ", " = ", " = ", " = ", " = ", " = ", "=", "=", " ", "", "==", "\n=\n", " =\n\n", "\t=\x0b",
    " : ", " =\x1c", "= = ", "\n", "=\r\n", ".k = ",
];
/// Behind a key.
const COLONS: [&str; 20] = [
    ": ", ": ", ": ", ": ", ": ", ": ", ":", ":", "", " ", "::", " : ", ":\n", "\n:\n", ":\t\x0b", "\r\n", ":\x1c",
    " = ", ".k: ", ": : ",
];
/// Between entries.
const COMMAS: [&str; 14] = [", ", ", ", ", ", ", ", ",", " ", "\n", ",\n", ",,", " ,\t", "", ",\n// c\n", ";", "\r\n"];
/// Between the words of an import: those that part two words, and those that end the list.
const PARTING: [&str; 9] = [", ", ", ", ", ", ",", ",", " , ", ",,", ", ,", "  ,  "];
const ENDING: [&str; 10] = ["\t,", ",\t", ",\n", " ", ";", "-", ".", "\n,", " as ", "\x1c,"];
/// Between the literal of an import and its words.
const COLONS_OF_IMPORT: [&str; 14] =
    [": ", ": ", ": ", ": ", ": ", ":", "", " ", "\n", "\n:\n", "::", " : ", ":\t\x0b\r", "\x1c"];
/// Values that are neither texts nor dictionaries: skipped to the newline, or a `none` with more behind it.
const ODD_VALUES: [&str; 28] = [
    "none", "none", "none", "none", "nonesuch", "none.k", "none-", "none + x", "nonenone", "none\"a\"", "none(",
    "none)", "non", "None", "", "9", "-x", "[t]", "#x", "+", "+ \"a\"", ".k", "\\", "10pt", "{", "true", "\x1c\"a\"",
    "/ 2",
];
/// Between definitions.
const WORDS: [&str; 26] = [
    "\n",
    "\n",
    "\n\n",
    " ",
    "a",
    "x = \"1\"",
    "// c\n",
    "//\n",
    "// #let x = \"c\"\n",
    "/ /",
    "/",
    "#",
    "##",
    "# let x",
    "#Let y",
    "#le",
    "#impor",
    "\"",
    "(",
    ")",
    "\r\n",
    "\0",
    "\x7f",
    "///",
    "#show: x\n",
    "//",
];
const STRAYS: [&str; 40] = [
    "#let", "#let ", "#let x", "#let d = (", "#import", "#import \"a\"", "#import \"", "(", "(", ")", "\"", "\"", "\\",
    "+", "+", ",", ",", ":", ":", "=", "=", " ", " ", "\n", "\n", "\t", "x", "y", "d.k", "none", "//", "*", "-", "_",
    "k", "k:", "\r", "9", "#", "\x0b",
];

/// What a definitions file may be made with.
pub struct Group {
    /// All files but the one that is asked for, which stands at `path`.
    files: Files,
    path: Vec<u8>,
}

/// Paths that a file may import, from its folder.
struct Targets {
    paths: Vec<Vec<u8>>,
    /// Are paths strewn in that are refused.
    bad: bool,
}

impl Group {
    pub fn new(rng: &mut Rng) -> Group {
        let folders = folders(rng);
        let mut files = Files::new();
        let path = joined(&one(&folders, rng), b"main.typ");
        // So that no other file takes its place.
        files.insert(path.clone(), vec![]);
        let order = some_paths(&mut files, &folders, rng);
        if !rng.one_in(3) {
            chain(&mut files, if rng.one_in(4) { b"" } else { parent(&path) }, rng);
        }
        for i in (0..order.len()).rev() {
            // A file imports those behind it, so that no file imports itself; some few may import any.
            let known = if rng.one_in(60) { &order[..] } else { &order[i + 1..] };
            let content = content(&Targets::new(&files, known, parent(&order[i]), rng), rng);
            files.insert(order[i].clone(), content);
        }
        Group { files, path }
    }

    /// The files with one more, and its path. It is the one that the call is to be asked for, for the most part.
    pub fn files(&self, rng: &mut Rng) -> (Files, Vec<u8>) {
        let mut files = self.files.clone();
        let known: Vec<Vec<u8>> = self.files.keys().filter(|path| **path != self.path).cloned().collect();
        let targets = Targets::new(&files, &known, parent(&self.path), rng);
        let mut text = main_text(&targets, rng);
        match rng.below(150) {
            0 => text = with_high_byte(text, rng),
            1..4 => text = damaged(text, rng),
            _ => {}
        }
        files.insert(self.path.clone(), text);
        (files, self.asked(rng))
    }

    fn asked(&self, rng: &mut Rng) -> Vec<u8> {
        match rng.below(300) {
            0 => edge(rng),
            1 => changed(self.path.clone(), rng),
            2 => parent(&self.path).to_vec(),
            3 => joined(parent(&self.path), b"n"),
            4..30 => one(&self.files.keys().cloned().collect::<Vec<_>>(), rng),
            _ => self.path.clone(),
        }
    }
}

impl Targets {
    /// Of the known files those below the folder; with a byte from 128 mostly none.
    fn new(files: &Files, known: &[Vec<u8>], folder: &[u8], rng: &mut Rng) -> Targets {
        let any = rng.one_in(12);
        let known: Vec<Vec<u8>> = known.iter().filter(|path| any || is_text(&files[*path])).cloned().collect();
        Targets { paths: below(&known, folder), bad: rng.one_in(4) }
    }

    /// A path to import: mostly a file that is there.
    fn path(&self, rng: &mut Rng) -> Vec<u8> {
        let ascii = |path: Vec<u8>| path.into_iter().filter(|c| c.is_ascii() && *c != b'"').collect();
        match rng.below(100) {
            0..2 if self.bad => {
                word(&["", "..", "../a", "/a", "a/", " a", "a ", "./a", "a//b", "a b", "a\\n"], rng).to_vec()
            }
            2 if self.bad => ascii(edge(rng)),
            3..6 if self.bad && !self.paths.is_empty() => {
                let file = one(&self.paths, rng);
                if parent(&file).is_empty() { b"dir".to_vec() } else { parent(&file).to_vec() }
            }
            6..13 => word(&["n", "d/n", "lost.typ", "a/b", "x.typ/x", "N"], rng).to_vec(),
            13 if self.bad && !self.paths.is_empty() => ascii(changed(one(&self.paths, rng), rng)),
            // The first link of a chain, where there is one.
            14..30 => self.paths.iter().find(|path| path.ends_with(b"1")).cloned().unwrap_or_else(|| b"n".to_vec()),
            _ if self.paths.is_empty() => b"n".to_vec(),
            _ => one(&self.paths, rng),
        }
    }
}

fn folders(rng: &mut Rng) -> Vec<Vec<u8>> {
    let mut folders = vec![vec![], vec![]];
    for _ in 0..rng.below(4) {
        let name = if rng.one_in(4) { segment(rng) } else { word(&["d", "e", "f"], rng).to_vec() };
        let folder = joined(&one(&folders, rng), &name);
        // So long that a name of few bytes makes a path of 255, or nearly.
        let long = rng.one_in(30).then(|| rng.between(243, 254));
        folders.push(long.map_or(folder.clone(), |n| stretched(folder, rng, n)));
    }
    folders.retain(|folder| folder.len() + b"/main.typ".len() <= LONGEST_PATH);
    folders
}

/// Puts empty files there, and answers their paths in the order in which they came. A folder `dir` has one, too.
fn some_paths(files: &mut Files, folders: &[Vec<u8>], rng: &mut Rng) -> Vec<Vec<u8>> {
    let mut order = Vec::new();
    for _ in 0..rng.between(1, 6) {
        let name = if rng.one_in(6) { &b"dir/a"[..] } else { word(&FILES, rng) };
        let path = joined(&one(folders, rng), name);
        if path.len() <= LONGEST_PATH && fits(files, &path) {
            files.insert(path.clone(), vec![]);
            order.push(path);
        }
    }
    order
}

/// What the last file of a chain may import, at the seventh level where there are six above it.
const LAST_LINKS: [&str; 8] = [
    "#import \"a\": x\n",
    "#import \"n\": x\n",
    "#import \"n\": *\n",
    "#import \"..\": x\n",
    "#import \"1\": *\n",
    "#import \"high\": x\n",
    "#import \"dir\": x\n",
    "#import x\n",
];

/// Two to eight files in one folder, each importing the next; and one with a byte from 128.
fn chain(files: &mut Files, folder: &[u8], rng: &mut Rng) {
    let count = if rng.one_in(2) { 6 } else { rng.between(2, 8) };
    let path = |name: &str| joined(folder, name.as_bytes());
    let names: Vec<String> = (1..=count).map(|i| i.to_string()).chain(["high".into()]).collect();
    if !names.iter().all(|name| path(name).len() <= LONGEST_PATH && fits(files, &path(name))) {
        return;
    }
    files.insert(path("high"), b"#let x = \"\x80\"".to_vec());
    let none = Targets { paths: vec![], bad: false };
    for i in 1..=count {
        let mut text = Vec::new();
        for _ in 0..rng.below(3) {
            binding(&mut text, rng);
        }
        if i < count {
            let bound = if rng.one_in(3) { &b"x, y, d"[..] } else { b"*" };
            text.extend([b"#import \"", names[i].as_bytes(), b"\": ", bound, b"\n"].concat());
        } else if rng.one_in(3) {
            text.extend(word(&LAST_LINKS, rng));
        }
        if rng.one_in(2) {
            piece(&mut text, &none, rng);
        }
        files.insert(path(&names[i - 1]), text);
    }
}

fn content(targets: &Targets, rng: &mut Rng) -> Vec<u8> {
    let content = match rng.below(600) {
        0 => long(rng),
        1 => many(rng),
        2..20 => strays(rng),
        _ => {
            let n = rng.below(5);
            let mut text = pieces(targets, n, rng);
            plain(&mut text, rng);
            text
        }
    };
    if rng.one_in(50) { with_high_byte(content, rng) } else { content }
}

fn main_text(targets: &Targets, rng: &mut Rng) -> Vec<u8> {
    let mut text = match rng.below(3000) {
        0..2 => many(rng),
        2..5 => long(rng),
        5..7 => filling(rng),
        7..300 => strays(rng),
        300..360 => {
            let n = rng.between(8, 30);
            pieces(targets, n, rng)
        }
        360..450 => vec![],
        _ => {
            let mut text = Vec::new();
            if rng.one_in(3) {
                plain(&mut text, rng);
            }
            let n = rng.between(1, 5);
            text.extend(pieces(targets, n, rng));
            text
        }
    };
    if rng.one_in(8) {
        text.truncate(rng.below(text.len() + 1));
    }
    text
}

fn strays(rng: &mut Rng) -> Vec<u8> {
    (0..rng.between(2, 25)).flat_map(|_| word(&STRAYS, rng)).copied().collect()
}

/// A text nearly as long as a sheet may be, or as a file. With another of its kind it is longer.
fn long(rng: &mut Rng) -> Vec<u8> {
    let n = *rng.pick(&[255, 256, 257, 5_000, 32_760, 65_400]);
    let name = word(&["", "x", "l"], rng);
    let mut text = [b"#let ", name, b" = \""].concat();
    let letters = rng.string(b"abc", 50);
    text.extend(letters.iter().cycle().take(n));
    text.extend(b"\"\n");
    if n < 40_000 {
        text.extend(word(&["#let x = x + x\n", "#let y = x + \"a\" + x\n", "#let d = (k: x, a: x)\n", ""], rng));
    }
    text
}

/// A sheet of 65,534 to 65,537 bytes, by two bindings or by two keys: a file is too short to have it in one text.
fn filling(rng: &mut Rng) -> Vec<u8> {
    let first = 32_000;
    let head = [b"#let x = \"".to_vec(), rng.string(b"abc", first), b"\"\n".to_vec()].concat();
    let records = 2 * (1 + 3 + 2) + 2 * first;
    let length = rng.between(65_534, 65_537);
    if rng.one_in(2) {
        let rest = rng.string(b"abc", length - records);
        return [head, b"#let y = x + \"".to_vec(), rest, b"\"".to_vec()].concat();
    }
    // The dictionary takes the place of x: a map byte, the name and the count more.
    let rest = rng.string(b"abc", length - records - (1 + 3 + 2));
    [head, b"#let x = (k: x, l: x + \"".to_vec(), rest, b"\")".to_vec()].concat()
}

/// Hundreds of bindings or keys, ascending or not.
fn many(rng: &mut Rng) -> Vec<u8> {
    let count = rng.between(100, 900);
    let step = *rng.pick(&[1, 7, 101]);
    let name = |i: usize| format!("n{}", i * step % 997);
    if rng.one_in(2) {
        return (0..count).flat_map(|i| format!("#let {} = \"{i}\"\n", name(i)).into_bytes()).collect();
    }
    let entries: Vec<String> = (0..count).map(|i| format!("{}: \"{i}\"", name(i))).collect();
    format!("#let d = ({})\n", entries.join(", ")).into_bytes()
}

fn pieces(targets: &Targets, count: usize, rng: &mut Rng) -> Vec<u8> {
    let mut text = Vec::new();
    for _ in 0..count {
        piece(&mut text, targets, rng);
    }
    text
}

fn piece(text: &mut Vec<u8>, targets: &Targets, rng: &mut Rng) {
    match rng.below(22) {
        0..5 => import(text, targets, rng),
        5..15 => binding(text, rng),
        15 => deep(text, rng),
        16 | 17 => plain(text, rng),
        18 => known(text, rng),
        _ => text.extend(word(&WORDS, rng)),
    }
}

/// Bindings by names that are often imported and referred to, of values short and long.
fn plain(text: &mut Vec<u8>, rng: &mut Rng) {
    for name in ["x", "y", "d", "a-b", "z"] {
        if rng.one_in(2) {
            continue;
        }
        let value = match rng.below(6) {
            0 => "(k: \"v\", a_b: \"w\", a-b: none, e: (k: \"u\"))",
            1 => "none",
            2 => "\"a longer text\"",
            3 => "\"\"",
            _ => "\"1\"",
        };
        text.extend(format!("#let {name} = {value}\n").bytes());
    }
}

/// A dictionary, and references to its keys.
fn known(text: &mut Vec<u8>, rng: &mut Rng) {
    let name = word(&["d", "e", "x", "a_b"], rng);
    text.extend([b"#let ", name, b" = (k: \"v\", a_b: \"w\", e: (k: \"u\"), a-b: \"lost\")\n#let "].concat());
    text.extend(word(&NAMES, rng));
    text.extend(b" = ");
    for _ in 0..rng.between(1, 3) {
        let run = [name, word(&[".k", ".a-b", ".a_b", ".e.k", ".e", ".", "", ".k.k"], rng)].concat();
        text.extend(hyphened(run, rng));
        text.extend(word(&[" + ", "+", " "], rng));
    }
    text.push(b'\n');
}

fn import(text: &mut Vec<u8>, targets: &Targets, rng: &mut Rng) {
    if rng.one_in(8) {
        return shrinking(text, targets, rng);
    }
    text.extend(b"#import");
    blanks(text, BLANKS, rng);
    if rng.one_in(14) {
        return text.extend(word(
            &[
                "a: x\n", "\n", "x \"a\"\n", ": *\n", "", "-", "(\"a\")\n", "// \"a\": x\n", "ed\n", "\x1c\"a\"\n",
                "* #let z\n",
            ],
            rng,
        ));
    }
    quoted(text, &targets.path(rng));
    text.extend(word(&COLONS_OF_IMPORT, rng));
    match rng.below(24) {
        0..9 => text.push(b'*'),
        9 => text.extend(word(&["* , x", "*x", "**", "*, y", " *", "x, *", "-"], rng)),
        _ => words(text, rng),
    }
    text.extend(word(&["\n", "\n", "\n", "\n", "", " ", " // c\n", " #let z = \"1\"\n", "\r\n", "(\n"], rng));
}

/// Imports more names and then one that was bound to a long text: the sheet is at its longest before the last name.
fn shrinking(text: &mut Vec<u8>, targets: &Targets, rng: &mut Rng) {
    text.extend(b"#let x = \"a text that is longer than the others\"\n#import ");
    quoted(text, &targets.path(rng));
    text.extend(word(&[": *\n", ": y, x\n", ": d, y, x\n", ": x, y\n", ": z, x, d\n"], rng));
}

fn words(text: &mut Vec<u8>, rng: &mut Rng) {
    let count = rng.between(1, 4);
    for i in 0..count {
        if !rng.one_in(9) {
            text.extend(word(&NAMES, rng));
        }
        if i + 1 < count {
            text.extend(if rng.one_in(8) { word(&ENDING, rng) } else { word(&PARTING, rng) });
        }
    }
    if rng.one_in(12) {
        text.extend(word(&[",", " ,", ", ", "-b"], rng));
    }
}

fn binding(text: &mut Vec<u8>, rng: &mut Rng) {
    text.extend(b"#let");
    if !rng.one_in(12) {
        text.push(b' ');
        if rng.one_in(5) {
            blanks(text, BLANKS, rng);
        }
    }
    text.extend(name(rng));
    text.extend(word(&EQUALS, rng));
    value(text, 3, rng);
    some_blanks(text, LINE_BLANKS, rng);
    text.extend(word(&["\n", "\n", "\n", "\n", "\n", "\n", "", " ", "// c\n", "#", " x\n", ")\n", "\r\n"], rng));
}

fn name(rng: &mut Rng) -> Vec<u8> {
    match rng.below(40) {
        0 => {
            let n = rng.between(1, 4);
            rng.string(b"abxyAZ019_-", n)
        }
        1 => word(&["x y", "x(y)", "d.k", "\"x\"", "#x", "+", "-", "--"], rng).to_vec(),
        2 if rng.one_in(4) => {
            let n = *rng.pick(&[127, 128, 255, 256, 257]);
            rng.string(b"ab_-", n)
        }
        _ => hyphened(word(&NAMES, rng).to_vec(), rng),
    }
}

/// Dictionaries in it may stand so many levels deep.
fn value(text: &mut Vec<u8>, levels: usize, rng: &mut Rng) {
    match rng.below(24) {
        0..7 => literal(text, rng),
        7..10 => {
            literal(text, rng);
            terms(text, rng);
        }
        10 | 11 => text.extend(run(rng)),
        12..14 => {
            text.extend(run(rng));
            terms(text, rng);
        }
        14..17 => text.extend(word(&ODD_VALUES, rng)),
        17 if rng.one_in(3) => {
            text.push(b'"');
            let n = *rng.pick(&[127, 128, 252, 253, 255, 256, 257, 300]);
            text.extend(rng.string(b"abc ", n));
            text.push(b'"');
        }
        _ if levels > 0 => dictionary(text, levels, rng),
        _ => literal(text, rng),
    }
}

/// A reference, mostly to a name or to a key.
fn run(rng: &mut Rng) -> Vec<u8> {
    match rng.below(20) {
        0..9 => hyphened(word(&NAMES, rng).to_vec(), rng),
        9..16 => [word(&["d", "d", "x", "e"], rng), b".", word(&KEYS, rng)].concat(),
        16 => [word(&["d", "e"], rng), b".", word(&KEYS, rng), b".", word(&KEYS, rng)].concat(),
        17 => word(&["x.", ".x", "d..k", "x.y.z", "d.", "_"], rng).to_vec(),
        _ => {
            let n = rng.below(5);
            rng.string(RUN, n)
        }
    }
}

/// More of an expression.
fn terms(text: &mut Vec<u8>, rng: &mut Rng) {
    for _ in 0..rng.between(1, 3) {
        // A newline ends the expression.
        let set = if rng.one_in(12) { BLANKS } else { LINE_BLANKS };
        some_blanks(text, set, rng);
        text.push(b'+');
        some_blanks(text, set, rng);
        if rng.one_in(2) {
            literal(text, rng);
        } else {
            text.extend(run(rng));
        }
    }
    if rng.one_in(20) {
        text.extend(word(&["+", " + ", "+\n", " +)", "++x", "+ (", "+ none", "+ 1"], rng));
    }
}

fn dictionary(text: &mut Vec<u8>, levels: usize, rng: &mut Rng) {
    text.push(b'(');
    some_blanks(text, BLANKS, rng);
    for i in 0..rng.below(5) {
        if i > 0 {
            text.extend(word(&COMMAS, rng));
        }
        entry(text, levels, rng);
    }
    if !rng.one_in(14) {
        text.extend(word(&[")", ")", ")", ")", ",)", "\n)", " )", "))"], rng));
    }
}

fn entry(text: &mut Vec<u8>, levels: usize, rng: &mut Rng) {
    match rng.below(40) {
        0 => literal(text, rng),
        1 => text.extend(word(&["k.k", "\"k\"", "#k", "(k)", "k k", "+", "..x", "*"], rng)),
        2 if rng.one_in(6) => {
            let n = *rng.pick(&[127, 128, 255, 256, 257]);
            text.extend(rng.string(b"ab_-", n));
        }
        _ => text.extend(word(&KEYS, rng)),
    }
    text.extend(word(&COLONS, rng));
    value(text, levels - 1, rng);
}

/// Dictionaries in each other down to the last level, or one more; as entries with keys or without, with more in each or nothing.
fn deep(text: &mut Vec<u8>, rng: &mut Rng) {
    let levels = match rng.below(12) {
        0 => 7,
        1 => 8,
        2..8 => 6,
        _ => rng.between(2, 5),
    };
    text.extend([b"#let ", word(&NAMES, rng), b" = "].concat());
    for _ in 0..levels {
        text.push(b'(');
        if rng.one_in(4) {
            entry(text, 1, rng);
            text.extend(word(&COMMAS, rng));
        }
        text.extend(word(&["", "k: ", "k: ", "a-b:\n", ", k", ":"], rng));
    }
    if rng.one_in(2) {
        literal(text, rng);
    }
    let closed = if rng.one_in(5) { rng.below(levels + 1) } else { levels };
    text.extend(vec![b')'; closed]);
    text.push(b'\n');
}

/// The lengths of the sheet buffer and of the work buffer, where the longest of all that is held to L has so many bytes: mostly enough.
pub fn rooms(longest: usize, rng: &mut Rng) -> (usize, usize) {
    let left = match rng.below(40) {
        0..4 => short(longest, rng),
        4 if rng.one_in(20) => 65_530 + rng.below(12),
        5 if rng.one_in(30) => 65_535 + rng.below(3000),
        _ => enough(longest, rng),
    };
    let needed = work_needed(left);
    let work = match rng.below(40) {
        0 => short(needed, rng),
        1..5 => needed + rng.between(1, 40),
        _ => needed,
    };
    (left, work)
}

#[cfg(test)]
mod tests {
    use super::*;
    use oracle::bundle;
    use oracle::definitions::answer;
    use oracle::layout::bundle_entries;

    #[test]
    fn groups_keep_the_rules() {
        let mut rng = Rng::new(1);
        for _ in 0..3_000 {
            let (files, _) = Group::new(&mut rng).files(&mut rng);
            assert!(bundle_entries(&bundle::encode(&files).unwrap()).is_some());
        }
    }

    #[test]
    fn filling_sheets() {
        let mut rng = Rng::new(3);
        let mut lengths = [0; 4];
        for _ in 0..100 {
            let files = Files::from([(b"f".to_vec(), filling(&mut rng))]);
            lengths[answer(Some(&files), b"f", usize::MAX, usize::MAX).longest - 65_534] += 1;
        }
        assert!(lengths.iter().all(|&n| n > 5), "{lengths:?}");
    }

    // More than 55 of 100 are accepted, everything that a file may do is done by many, and every number and level is met.
    #[test]
    fn what_the_files_do() {
        let mut rng = Rng::new(2);
        let mut numbers = [0; 12];
        let mut done = [0; 20];
        let (mut depths, mut import_depths) = ([0; 7], [0; 7]);
        for _ in 0..1000 {
            let group = Group::new(&mut rng);
            for _ in 0..20 {
                let (files, path) = group.files(&mut rng);
                let whole = answer(Some(&files), &path, usize::MAX, usize::MAX);
                let (left, work) = rooms(whole.longest, &mut rng);
                let here = answer(Some(&files), &path, left, work);
                numbers[usize::from(here.result.as_ref().err().copied().unwrap_or(0))] += 1;
                if here.result.is_ok() {
                    let s = here.seen;
                    let all = [
                        s.imports, s.stars, s.lists, s.imported, s.lost, s.passed_over, s.unquoted, s.lets, s.replaced,
                        s.texts, s.nones, s.no_values, s.dictionaries, s.sums, s.doubled, s.no_keys, s.unended,
                        s.comments, s.found, s.keyed,
                    ];
                    all.iter().zip(&mut done).for_each(|(&n, sum)| *sum += usize::from(n > 0));
                    depths[s.depth] += 1;
                    import_depths[s.import_depth] += 1;
                }
            }
        }
        assert!(numbers[0] > 12_000, "{numbers:?}");
        assert!([1, 4, 5, 6, 7, 9].iter().all(|&n| numbers[n] > 100), "{numbers:?}");
        assert!(done.iter().all(|&n| n > 500), "{done:?}");
        assert!(depths.iter().chain(&import_depths).all(|&n| n > 50), "{depths:?} {import_depths:?}");
    }
}
