//! Times the proved calls on the same inputs as the Rust reference, or alone where it has no such call.
//!
//!     bench [NAME]        one table alone: lookups, files, includes, expansion, definitions, pass, loads

mod definitions;
mod expansion;
mod includes;
mod loads;
mod pass;
mod timing;

use oracle::lookup::KINDS;
use oracle::{Context, Files, Tree, Value, bundle, sheet};
use std::env;
use std::hint::black_box;
use timing::times;
use wagtailfen::{DICTIONARY, MISSING, NONE, TEXT, find_file, resolve};

const SIZES: [usize; 3] = [1, 100, 1500];

const NOTES: &str = "\
Nanoseconds a call: the least of 100 repetitions of a millisecond or more, in which the calls of a row take turns.
here    the call, which checks the layout of the sheet or bundle each time
check   that check: the call with a path that is refused right behind it
rest    here less check
Rust    for a text the reference's `resolve_string`, which answers a new String; for another kind its `resolve`. Its hash maps are
        built once, outside of the timed loop, and it checks nothing
The output here is one lent buffer of 64 bytes, cleared by the call alone.";

const TABLES: [(&str, fn()); 7] = [
    ("lookups", lookup_table),
    ("files", file_table),
    ("includes", includes::table),
    ("expansion", expansion::table),
    ("definitions", definitions::table),
    ("pass", pass::table),
    ("loads", loads::table),
];

fn main() {
    if cfg!(debug_assertions) {
        println!("NOT a release build\n");
    }
    let name = env::args().nth(1);
    for (_, table) in TABLES.iter().filter(|(table, _)| name.as_ref().is_none_or(|name| name == table)) {
        table();
    }
}

fn lookup_table() {
    println!("{NOTES}\n");
    println!("bindings   bytes  kind        path       here     check      rest      Rust     ratio");
    SIZES.into_iter().for_each(lookups);
}

fn file_table() {
    println!("\nfind_file (the reference has no such call)");
    println!(" entries   bytes  path                       here     check      rest");
    SIZES.into_iter().for_each(files);
}

/// Bindings of ten seconds each.
fn bindings(count: usize) -> Tree {
    let binding = |i: usize| (place(i).into_bytes(), Value::Text(b"ten seconds".to_vec()));
    (0..count).map(binding).collect()
}

/// The name of a binding by its place.
fn place(i: usize) -> String {
    format!("limit_{i:04}")
}

/// Texts at each place, and at the last one each other kind.
fn lookups(count: usize) {
    let mut tree = bindings(count);
    let mut paths = vec![("first", place(0)), ("middle", place(count / 2)), ("last", place(count - 1))];
    paths.dedup_by(|a, b| a.1 == b.1);
    for (name, path) in &paths {
        lookup_row(&tree, TEXT, name, path);
    }
    lookup_row(&tree, MISSING, "lost", "lost");
    for (kind, value) in [(NONE, Value::None), (DICTIONARY, Value::Dictionary(bindings(1)))] {
        tree.insert(place(count - 1).into_bytes(), value);
        lookup_row(&tree, kind, "last", &place(count - 1));
    }
}

/// A path that is refused behind the check of the sheet.
const REFUSED: &[u8] = b"\x80";

fn lookup_row(tree: &Tree, kind: u8, name: &str, path: &str) {
    let sheet = sheet::encode(tree).expect("a sheet");
    let context = Context::new(tree).expect("a context");
    let mut out = [0; 64];
    let here = resolve(&sheet, path.as_bytes(), &mut out);
    let wanted = context.looked(path);
    assert_eq!((here.number, here.kind, &out[..here.len]), (0, kind, &wanted.text[..]));
    assert_eq!(kind, wanted.kind);
    assert_eq!(resolve(&sheet, REFUSED, &mut out).number, 6);
    let mut other = [0; 64];
    let ours = |path: &[u8], out: &mut [u8]| {
        black_box(resolve(black_box(&sheet), black_box(path), black_box(out)));
    };
    let rust = || {
        if kind == TEXT {
            black_box(context.resolve_string(black_box(path)));
        } else {
            black_box(context.resolve(black_box(path)));
        }
    };
    let [here, check, rust] =
        times([&mut || ours(path.as_bytes(), &mut out), &mut || ours(REFUSED, &mut other), &mut { rust }]);
    println!(
        "{:8} {:7}  {:10}  {name:7} {here:9.1} {check:9.1} {:9.1} {rust:9.1} {:9.2}",
        tree.len(),
        sheet.len(),
        KINDS[usize::from(kind)],
        here - check,
        here / rust
    );
}

fn chapter(i: usize) -> String {
    format!("chapters/c{i:04}.typ")
}

fn files(count: usize) {
    let file = |i: usize| (chapter(i).into_bytes(), b"ten seconds of flow\n".to_vec());
    let files: Files = (0..count).map(file).collect();
    let bundle = bundle::encode(&files).expect("a bundle");
    let mut paths = vec![chapter(0), chapter(count / 2), chapter(count - 1)];
    paths.dedup();
    paths.extend(["chapters".into(), "lost.typ".into()]);
    for path in paths {
        file_row(&bundle, count, &path);
    }
}

fn file_row(bundle: &[u8], count: usize, path: &str) {
    const REFUSED: &[u8] = b"/";
    assert_eq!(find_file(bundle, path.as_bytes()).number, 0);
    assert_eq!(find_file(bundle, REFUSED).number, 4);
    let ours = |path: &[u8]| {
        black_box(find_file(black_box(bundle), black_box(path)));
    };
    let [here, check] = times([&mut || ours(path.as_bytes()), &mut || ours(REFUSED)]);
    println!("{count:8} {:7}  {path:20}  {here:9.1} {check:9.1} {:9.1}", bundle.len(), here - check);
}
