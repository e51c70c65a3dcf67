//! Bundles whose files include each other, and texts to resolve with them, from a grammar of fragments. Most are accepted; paths,
//! texts and folders that are refused are strewn in.
use crate::bundles::{changed, edge, fits, segment, stretched};
use crate::damage::damaged;
use crate::rng::Rng;
use oracle::includes::project_root;
use oracle::layout::is_text;
use oracle::{Files, bundle};

const CITATION: &[u8] = b"CITATION.cff";
const LONGEST_PATH: usize = 255;
const BLANKS: &[u8] = b"  \t\n\x0b\x0c\r";
const LINE_BLANKS: &[u8] = b"  \t\x0b\x0c\r";
const NAMES: [&str; 9] = ["a", "b", "c", "s.r", "x.typ", "a-b", "CITATION", "...", "_"];
/// Text between the marks; also what is nearly a mark, a comment or a blank.
const WORDS: [&str; 30] = [
    "a", "ten seconds", "x y", " ", "\t", "\n", "\n", "\n\n", "//", "/", "#", "##", "#x", "(", ")", "\"", "\"q\"",
    "```", "#includ", "#source-includ", "#source-", "#Include", "include", "\r\n", "\x0b", "\x0c", "\x1c", "\0",
    "\x7f", "\\\"",
];
/// Between a mark and its quotes.
const FILLERS: [&str; 14] = [
    " ",
    "\n",
    "\t",
    "x",
    ")",
    "(",
    "#include",
    "#source-include(",
    "#source-include",
    "//",
    "\n// ",
    "\n)",
    ")\n",
    "#",
];
const LANGUAGES: [&str; 9] = ["r", "rust", "", "r)", "a\nb", ")\n", " x ", "#include", "//"];
/// Stretches that are no comments, though nearly.
const NO_COMMENTS: [&str; 8] = ["/", "/ /", "x//", "\x1c//", "\"//\"", "//\n", "-// ", "\0//"];
/// Marks without two quotes, or without `(`, for the end of a text.
const UNENDED: [&str; 10] = [
    "#include",
    "#include \"",
    "#include \"a",
    "#include#include",
    "#source-include",
    "#source-include \n",
    "#source-include(",
    "#source-include (\"a",
    "#source-include(\"",
    "#source-include)\"a\"\"r\"",
];
const BAD_PATHS: [&str; 16] =
    ["", " ", ".", "..", "../a", "./a", "a/../b", "/a", "/", "a/", "a//b", "n", "d/n", "a b", "a\x1c", "CITATION.cff"];

/// Files, and the folders that they stand in or could.
pub struct Group {
    pub files: Files,
    folders: Vec<Vec<u8>>,
}

/// What a text can name: paths from its folder for `#include`, paths from its project's root for `#source-include`.
struct Targets {
    includes: Vec<Vec<u8>>,
    sources: Vec<Vec<u8>>,
    /// Are paths strewn in that are refused.
    bad: bool,
}

impl Group {
    pub fn new(rng: &mut Rng) -> Group {
        let folders = folders(rng);
        let mut files = Files::new();
        let order = some_paths(&mut files, &folders, rng);
        citations(&mut files, &folders, rng);
        for i in 0..order.len() {
            // A file includes those behind it, so that no file includes itself; some few may include any.
            let known = if rng.one_in(40) { &order[..] } else { &order[i + 1..] };
            let content = content(&files, known, parent(&order[i]), rng);
            files.insert(order[i].clone(), content);
        }
        if !rng.one_in(4) {
            chain(&mut files, &one(&folders, rng), rng);
        }
        Group { files, folders }
    }

    /// The files as a bundle.
    pub fn bundle(&self) -> Vec<u8> {
        bundle::encode(&self.files).expect("lengths that fit")
    }

    /// The folder of a text: mostly one of the bundle's.
    pub fn folder(&self, rng: &mut Rng) -> Vec<u8> {
        match rng.below(40) {
            0..=2 => joined(&one(&self.folders, rng), word(&["q", "q/r", "a", "CITATION.cff"], rng)),
            3 => {
                let n = rng.between(240, 256);
                stretched(one(&self.folders, rng), rng, n)
            }
            4 => edge(rng),
            5 => changed(one(&self.folders, rng), rng),
            // One with a file in it.
            6..30 if !self.files.is_empty() => {
                let paths: Vec<Vec<u8>> = self.files.keys().cloned().collect();
                parent(&one(&paths, rng)).to_vec()
            }
            _ => one(&self.folders, rng),
        }
    }

    /// So many pieces of a text that stands in a folder, and no damage.
    pub fn pieces(&self, folder: &[u8], count: usize, rng: &mut Rng) -> Vec<u8> {
        let known: Vec<Vec<u8>> = self.files.keys().cloned().collect();
        let mut targets = targets(&self.files, &known, folder, rng);
        targets.bad = rng.one_in(4);
        let mut text = Vec::new();
        for _ in 0..count {
            piece(&mut text, &targets, rng);
        }
        text
    }

    /// A text that stands in a folder.
    pub fn text(&self, folder: &[u8], rng: &mut Rng) -> Vec<u8> {
        let known: Vec<Vec<u8>> = self.files.keys().cloned().collect();
        let mut targets = targets(&self.files, &known, folder, rng);
        let pieces = match rng.below(100) {
            0..5 => 0,
            5 => rng.between(20, 200),
            _ => rng.between(1, 7),
        };
        targets.bad &= pieces < 20;
        let text = text(&targets, pieces, rng);
        match rng.below(60) {
            0 => with_high_byte(text, rng),
            1..=3 => damaged(text, rng),
            _ => text,
        }
    }
}

pub fn one(paths: &[Vec<u8>], rng: &mut Rng) -> Vec<u8> {
    rng.pick(paths).clone()
}

pub fn word<'a>(words: &[&'a str], rng: &mut Rng) -> &'a [u8] {
    rng.pick(words).as_bytes()
}

/// The length of an output, where `len` bytes come out before the end or a refusal: mostly enough.
pub fn room(len: usize, rng: &mut Rng) -> usize {
    match rng.below(16) {
        0..=5 => len,
        6 | 7 => len + 1,
        8..=12 => len + rng.below(100),
        13 => len.saturating_sub(1),
        14 => rng.below(len + 1),
        _ => rng.below(30),
    }
}

/// The empty folder and some others, in each other too. Some are so long that the path of a `CITATION.cff` in them has 255 bytes,
/// or nearly.
fn folders(rng: &mut Rng) -> Vec<Vec<u8>> {
    let mut folders = vec![vec![]];
    for _ in 0..rng.below(5) {
        let name = if rng.one_in(3) { segment(rng) } else { word(&["d", "e", "f"], rng).to_vec() };
        let folder = joined(&one(&folders, rng), &name);
        if rng.one_in(25) {
            let n = *rng.pick(&[238, 241, 242, 243, 244, 253]);
            let long = stretched(folder, rng, n);
            folders.push(joined(&long, b"e"));
            folders.push(long);
        } else {
            folders.push(folder);
        }
    }
    folders.retain(|folder| folder.len() <= LONGEST_PATH - 2);
    folders
}

/// Puts empty files there, and answers their paths in the order in which they came.
fn some_paths(files: &mut Files, folders: &[Vec<u8>], rng: &mut Rng) -> Vec<Vec<u8>> {
    let mut order = Vec::new();
    for _ in 0..rng.between(1, 9) {
        let path = joined(&one(folders, rng), word(&NAMES, rng));
        if path.len() <= LONGEST_PATH && fits(files, &path) {
            files.insert(path.clone(), vec![]);
            order.push(path);
        }
    }
    order
}

/// `CITATION.cff` here and there, as a file or a folder.
fn citations(files: &mut Files, folders: &[Vec<u8>], rng: &mut Rng) {
    for folder in folders {
        let path = match rng.below(if folder.len() > 200 { 3 } else { 8 }) {
            0 => joined(folder, CITATION),
            1 => joined(&joined(folder, CITATION), b"x"),
            _ => continue,
        };
        if path.len() <= LONGEST_PATH && fits(files, &path) {
            files.insert(path, word(&["", "cff-version: 1\n"], rng).to_vec());
        }
    }
}

fn content(files: &Files, known: &[Vec<u8>], folder: &[u8], rng: &mut Rng) -> Vec<u8> {
    let content = match rng.below(200) {
        0 => long(rng),
        1..50 => leaf(rng),
        _ => {
            let pieces = rng.below(4);
            text(&targets(files, known, folder, rng), pieces, rng)
        }
    };
    if rng.one_in(40) { with_high_byte(content, rng) } else { content }
}

/// A text without marks: with and without a last newline.
fn leaf(rng: &mut Rng) -> Vec<u8> {
    word(&["", "A", "B\n", "\n", "\n\n", "a\nb", "```", "\"", "\"x\"\n", "//", "x\0", "#", "end\r\n"], rng).to_vec()
}

/// Around lengths whose second byte counts, up to the greatest.
fn long(rng: &mut Rng) -> Vec<u8> {
    let n = *rng.pick(&[255, 256, 257, 1000, 4096, 65_535]);
    rng.string(b"abc \n", n)
}

/// Behind six files these marks are at the seventh level, where a source may still stand.
const LAST_LINKS: [&str; 7] = [
    "#include \"a\"",
    "#include \"n\"",
    "#include \"..\"",
    "#include \"1\"",
    "#include \"high\"",
    "#source-include(\"a\")",
    "#source-include(\"n\")",
];

/// Two to eight files in one folder, each including the next; and one with a byte from 128.
fn chain(files: &mut Files, folder: &[u8], rng: &mut Rng) {
    let count = if rng.one_in(2) { 6 } else { rng.between(2, 8) };
    let path = |name: &str| joined(folder, name.as_bytes());
    let names: Vec<String> = (1..=count).map(|i| i.to_string()).chain(["high".into()]).collect();
    if !names.iter().all(|name| path(name).len() <= LONGEST_PATH && fits(files, &path(name))) {
        return;
    }
    files.insert(path("high"), b"a\x80".to_vec());
    for i in 1..=count {
        let mut text = Vec::new();
        plain(&mut text, rng);
        if i < count {
            text.extend(format!("#include \"{}\"", names[i]).bytes());
        } else if rng.one_in(2) {
            text.extend(word(&LAST_LINKS, rng));
        }
        plain(&mut text, rng);
        files.insert(path(&names[i - 1]), text);
    }
}

/// The text with one byte more, or in the place of one where the text is long.
pub fn with_high_byte(mut text: Vec<u8>, rng: &mut Rng) -> Vec<u8> {
    let at = rng.below(text.len() + 1);
    if text.len() > 1000 {
        text.remove(at.min(text.len() - 1));
    }
    text.insert(at.min(text.len()), rng.byte() | 128);
    text
}

/// For a text in a folder; of the known files for `#include`. Files with a byte from 128 are mostly left out.
fn targets(files: &Files, known: &[Vec<u8>], folder: &[u8], rng: &mut Rng) -> Targets {
    let any = rng.one_in(8);
    let wanted = |path: &&Vec<u8>| any || is_text(&files[*path]);
    let includes: Vec<Vec<u8>> = known.iter().filter(wanted).cloned().collect();
    let sources: Vec<Vec<u8>> = files.keys().filter(wanted).cloned().collect();
    Targets { includes: below(&includes, folder), sources: below(&sources, &project_root(files, folder)), bad: true }
}

/// The paths that stand below a folder, from there.
pub fn below(paths: &[Vec<u8>], folder: &[u8]) -> Vec<Vec<u8>> {
    let start = joined(folder, b"");
    paths.iter().filter_map(|path| path.strip_prefix(start.as_slice())).map(<[u8]>::to_vec).collect()
}

pub fn joined(folder: &[u8], path: &[u8]) -> Vec<u8> {
    if folder.is_empty() { path.to_vec() } else { [folder, b"/", path].concat() }
}

pub fn parent(path: &[u8]) -> &[u8] {
    path.iter().rposition(|&c| c == b'/').map_or(b"", |i| &path[..i])
}

/// So many pieces, and sometimes a mark behind them that has no end.
fn text(targets: &Targets, pieces: usize, rng: &mut Rng) -> Vec<u8> {
    let mut text = Vec::new();
    for _ in 0..pieces {
        piece(&mut text, targets, rng);
    }
    if rng.one_in(8) {
        text.extend(word(&UNENDED, rng));
    }
    text
}

fn piece(text: &mut Vec<u8>, targets: &Targets, rng: &mut Rng) {
    match rng.below(20) {
        0..=2 => plain(text, rng),
        3..=8 => include(text, targets, rng),
        9..=11 => source(text, targets, rng),
        12 | 13 => comment(text, targets, rng),
        14 => {
            text.extend(word(&NO_COMMENTS, rng));
            include(text, targets, rng);
        }
        15 => far_include(text, targets, rng),
        16 | 17 => far_source(text, targets, rng),
        18 => {
            text.extend(word(&["#source-include", "#source-include ", "#source-include\n)", "#source-include["], rng))
        }
        _ => text.push(b'\n'),
    }
}

fn plain(text: &mut Vec<u8>, rng: &mut Rng) {
    for _ in 0..rng.below(3) {
        text.extend(word(&WORDS, rng));
    }
}

fn include(text: &mut Vec<u8>, targets: &Targets, rng: &mut Rng) {
    if targets.includes.is_empty() && !(targets.bad && rng.one_in(20)) {
        return plain(text, rng);
    }
    text.extend(b"#include");
    blanks(text, BLANKS, rng);
    quoted_path(text, &targets.includes, targets.bad, rng);
    if rng.one_in(2) {
        text.push(b'\n');
    }
}

fn source(text: &mut Vec<u8>, targets: &Targets, rng: &mut Rng) {
    if targets.sources.is_empty() && !(targets.bad && rng.one_in(20)) {
        return plain(text, rng);
    }
    text.extend(b"#source-include");
    blanks(text, BLANKS, rng);
    text.push(b'(');
    blanks(text, BLANKS, rng);
    quoted_path(text, &targets.sources, targets.bad, rng);
    if !rng.one_in(4) {
        text.extend(b", ");
        quoted(text, word(&LANGUAGES, rng));
    }
    if !rng.one_in(16) {
        text.push(b')');
    }
    if rng.one_in(5) {
        text.extend(word(&[" x", ")", "// ", "\"", "#include"], rng));
    }
    if !rng.one_in(5) {
        text.push(b'\n');
    }
}

/// A mark behind `//`, mostly on a line of its own; then perhaps another, which is not behind it.
fn comment(text: &mut Vec<u8>, targets: &Targets, rng: &mut Rng) {
    if !rng.one_in(6) {
        text.push(b'\n');
    }
    blanks(text, LINE_BLANKS, rng);
    text.extend(b"//");
    text.extend(word(&["", " ", "x ", "/"], rng));
    text.extend(word(&["#include", "#source-include"], rng));
    text.extend(word(&["", " \"n\"", " \"a\" ", "(\"n\")", "//", " // "], rng));
    match rng.below(4) {
        0 => include(text, targets, rng),
        1 => source(text, targets, rng),
        _ => text.push(b'\n'),
    }
}

fn far_include(text: &mut Vec<u8>, targets: &Targets, rng: &mut Rng) {
    if targets.includes.is_empty() {
        return;
    }
    text.extend(b"#include");
    filler(text, rng);
    quoted_path(text, &targets.includes, targets.bad, rng);
}

fn far_source(text: &mut Vec<u8>, targets: &Targets, rng: &mut Rng) {
    if targets.sources.is_empty() {
        return;
    }
    text.extend(b"#source-include(");
    filler(text, rng);
    quoted_path(text, &targets.sources, targets.bad, rng);
    filler(text, rng);
    if rng.one_in(2) {
        quoted(text, word(&LANGUAGES, rng));
    }
    if rng.one_in(2) {
        text.extend(word(&[")", ")\n", "\n", "x)y\n"], rng));
    }
}

fn filler(text: &mut Vec<u8>, rng: &mut Rng) {
    for _ in 0..rng.below(4) {
        text.extend(word(&FILLERS, rng));
    }
}

pub fn blanks(text: &mut Vec<u8>, set: &[u8], rng: &mut Rng) {
    match rng.below(4) {
        0 => {}
        1 => {
            let n = rng.below(4);
            text.extend(rng.string(set, n));
        }
        _ => text.push(b' '),
    }
}

pub fn quoted(text: &mut Vec<u8>, inner: &[u8]) {
    text.push(b'"');
    text.extend(inner);
    text.push(b'"');
}

/// One of the paths, or, at times and if `bad` says so, one that is refused; with blanks around it or none.
fn quoted_path(text: &mut Vec<u8>, paths: &[Vec<u8>], bad: bool, rng: &mut Rng) {
    let choice = if bad { rng.below(100) } else { rng.between(4, 99) };
    let mut path = match choice {
        0 => word(&BAD_PATHS, rng).to_vec(),
        1 => edge(rng).into_iter().filter(|c| c.is_ascii()).collect(),
        _ if paths.is_empty() => b"n".to_vec(),
        2 => changed(one(paths, rng), rng).into_iter().filter(|c| c.is_ascii()).collect(),
        3 => parent(&one(paths, rng)).to_vec(),
        // The first link of a chain, where there is one.
        4..25 => {
            paths.iter().find(|path| path.ends_with(b"/1") || *path == b"1").cloned().unwrap_or_else(|| one(paths, rng))
        }
        _ => one(paths, rng),
    };
    if rng.one_in(5) {
        let (before, behind) = (rng.below(3), rng.below(3));
        path = [rng.string(BLANKS, before), path, rng.string(BLANKS, behind)].concat();
    }
    quoted(text, &path);
}

#[cfg(test)]
mod tests {
    use super::*;
    use oracle::includes::answer;
    use oracle::layout::bundle_entries;

    #[test]
    fn groups_keep_the_rules() {
        let mut rng = Rng::new(1);
        for _ in 0..5_000 {
            let group = Group::new(&mut rng);
            assert!(bundle_entries(&group.bundle()).is_some());
        }
    }

    // More than half is accepted, in more than half of these a file is taken, and every level and every number is met.
    #[test]
    fn what_the_texts_do() {
        let mut rng = Rng::new(2);
        let (mut accepted, mut taking) = (0, 0);
        let mut depths = [0; 7];
        let mut numbers = [0; 12];
        for _ in 0..500 {
            let group = Group::new(&mut rng);
            for _ in 0..40 {
                let folder = group.folder(&mut rng);
                let text = group.text(&folder, &mut rng);
                let whole = answer(Some(&group.files), &folder, &text, usize::MAX);
                let short = answer(Some(&group.files), &folder, &text, room(whole.written, &mut rng));
                numbers[usize::from(short.result.err().unwrap_or(0))] += 1;
                if whole.result.is_ok() {
                    accepted += 1;
                    taking += u32::from(whole.seen.includes + whole.seen.sources > 0);
                    depths[whole.seen.depth] += 1;
                }
            }
        }
        assert!(accepted > 10_000 && taking > accepted / 2, "{taking} of {accepted}");
        assert!(depths.iter().all(|&n| n > 100), "{depths:?}");
        assert!([0, 4, 5, 6, 7, 11].iter().all(|&n| numbers[n] > 200), "{numbers:?}");
    }
}
