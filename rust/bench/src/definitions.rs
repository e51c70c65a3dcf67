//! The definitions call: files of bindings, of dictionaries, of imports, and of text that binds nothing.
use crate::place;
use crate::timing::times;
use oracle::load::next;
use oracle::{Files, Unpacked, bundle, parse_definitions_below, sheet};
use std::hint::black_box;
use wagtailfen::{parse_definitions, work_needed};

const NOTES: &str = "\
parse_definitions (microseconds a call; read: the bytes of all files that are read, a file that is imported twice counted twice; the ns are
nanoseconds for each of these bytes, so that two sizes of a row show the growth)
The call here checks the bundle, and clears a sheet buffer of 65,535 bytes and a work buffer of 16 times that; in the first row they have 4,096
and 65,536. Files are parts of the bundle. The Rust answers hash maps, checks nothing, and reads each file from a file system in memory.
A file has at most 65,535 bytes, so longer texts are a file that is imported many times.";

/// A sheet may be so long, and no longer.
const LEFT: usize = 65_535;
const SHORT: usize = 4_096;
const LONGEST_FILE: usize = 65_535;
const MANY: usize = 1500;
/// So many bindings twice are as long as a file may be.
const TWICE: usize = 1250;

struct Bench {
    bundle: Vec<u8>,
    disk: Unpacked,
    /// The bytes of all files that are read.
    read: usize,
}

pub fn table() {
    println!("\n{NOTES}\n");
    println!(
        "file                               bindings      read      sheet       here      ns       Rust      ns     ratio"
    );
    row("no bindings, short buffers", SHORT, &[("f", "")], 0);
    row("no bindings", LEFT, &[("f", "")], 0);
    let ascending: Vec<usize> = (0..MANY).collect();
    let descending: Vec<usize> = (0..MANY).rev().collect();
    let shuffled = shuffled(&ascending);
    for (name, order) in [("ascending", &ascending), ("descending", &descending), ("shuffled", &shuffled)] {
        for count in [100, MANY] {
            let order: Vec<usize> = order.iter().copied().filter(|i| *i < count).collect();
            row(&format!("bindings {name}"), LEFT, &[("f", &bindings(&order))], 0);
        }
    }
    row("each bound twice", LEFT, &[("f", &bindings(&[&shuffled[..TWICE], &shuffled[..TWICE]].concat()))], 0);
    for (name, order) in [("ascending", &ascending), ("shuffled", &shuffled)] {
        row(&format!("one dictionary, {name}"), LEFT, &[("f", &dictionary(order))], 0);
    }
    row("references to the last of 1,500", LEFT, &[("f", &references())], 0);
    row("dictionaries of six levels", LEFT, &[("f", &nested())], 0);
    imports();
    growing("comments", "// Ten seconds of flow, or less.\n");
    growing("blank lines", "    \n");
    growing("words", "Ten seconds of flow, or less.\n");
    growing("full of #", "#");
}

/// In an order without a pattern, the same in each run.
fn shuffled(order: &[usize]) -> Vec<usize> {
    let mut order = order.to_vec();
    let mut state: u32 = 1;
    for i in (1..order.len()).rev() {
        state = next(state);
        order.swap(i, (state >> 8) as usize % (i + 1));
    }
    order
}

/// Bindings of ten seconds each.
fn bindings(order: &[usize]) -> String {
    order.iter().map(|&i| format!("#let {} = \"10 s\"\n", place(i))).collect()
}

fn dictionary(order: &[usize]) -> String {
    let entries: String = order.iter().map(|&i| format!("{}: \"10 s\",\n", place(i))).collect();
    format!("#let d = ({entries})\n")
}

/// The bindings, and then one that is bound again and again to the text of the last.
fn references() -> String {
    let all: Vec<usize> = (0..MANY).collect();
    let last = place(MANY - 1);
    bindings(&all) + &format!("#let x = {last} + {last}\n").repeat(500)
}

/// Dictionaries that stand in each other, six deep, over and over.
fn nested() -> String {
    let one = |i: usize| format!("#let {} = (a: (b: (c: (d: (e: (f: \"10 s\", g: none))))), h: \"x\")\n", place(i));
    (0..800).map(one).collect()
}

/// Six levels of files, each with bindings of its own and all those of the next; and one file imported often.
fn imports() {
    let mut files = Files::new();
    for level in 0..7 {
        let own: String = (0..40).map(|i| format!("#let limit_{level}_{i:02} = \"10 s\"\n")).collect();
        let import = if level < 6 { format!("#import \"{}\": *\n", level + 1) } else { String::new() };
        files.insert(if level == 0 { b"f".to_vec() } else { level.to_string().into() }, (import + &own).into());
    }
    let read = files.values().map(Vec::len).sum();
    Bench::new(&files, read).row("six levels of imports", LEFT);
    let names: Vec<String> = (0..100).map(place).collect();
    let all: Vec<usize> = (0..100).collect();
    let listed = format!("#import \"a\": {}\n", names.join(", ")).repeat(20);
    let a = bindings(&all);
    row("20 imports of 100 names", LEFT, &[("a", &a), ("f", &listed)], 20 * a.len());
    row("20 imports of 100 names by *", LEFT, &[("a", &a), ("f", &"#import \"a\": *\n".repeat(20))], 20 * a.len());
}

/// A file of the piece over and over: by itself, then imported 16, 64 and 256 times, which is 1, 4 and 16 MB.
fn growing(name: &str, piece: &str) {
    let long = piece.repeat(LONGEST_FILE / piece.len());
    row(name, LEFT, &[("f", &long)], 0);
    for times in [16, 64, 256] {
        let files = [("a", long.as_str()), ("f", &"#import \"a\": *\n".repeat(times))];
        row(name, LEFT, &files, times * long.len());
    }
}

/// The file f; of the others so many bytes are read.
fn row(name: &str, left: usize, entries: &[(&str, &str)], imported: usize) {
    let files: Files = entries.iter().map(|(path, content)| (path.as_bytes().to_vec(), (*content).into())).collect();
    Bench::new(&files, files[&b"f"[..]].len() + imported).row(name, left);
}

impl Bench {
    fn new(files: &Files, read: usize) -> Bench {
        let disk = Unpacked::new(files).expect("a folder for the files");
        Bench { bundle: bundle::encode(files).expect("a bundle"), disk, read }
    }

    fn row(&self, name: &str, left: usize) {
        let (mut left, mut work) = (vec![0; left], vec![0; work_needed(left)]);
        let (count, length) = self.lengths(&mut left, &mut work);
        let mut here = || {
            black_box(parse_definitions(black_box(&self.bundle), b"f", &mut left, &mut work));
        };
        let mut rust = || {
            assert!(black_box(parse_definitions_below(black_box(&self.disk), "f")).is_ok());
        };
        let [here, rust] = times([&mut here, &mut rust]);
        let per_byte = |time: f64| if self.read == 0 { "-".into() } else { format!("{:.2}", time / self.read as f64) };
        println!(
            "{name:33} {count:9} {:9} {length:10} {:10.1} {:>7} {:10.1} {:>7} {:9.4}",
            self.read,
            here / 1e3,
            per_byte(here),
            rust / 1e3,
            per_byte(rust),
            here / rust
        );
    }

    /// How many bindings there are, and how long the sheet is. Both must bind the same.
    fn lengths(&self, left: &mut [u8], work: &mut [u8]) -> (usize, usize) {
        let here = parse_definitions(&self.bundle, b"f", left, work);
        assert_eq!(here.number, 0);
        let tree = parse_definitions_below(&self.disk, "f").expect("accepted").tree();
        assert_eq!(sheet::decode(&left[..here.sheet_len]).as_ref(), Some(&tree));
        (tree.len(), here.sheet_len)
    }
}
