//! The expansion call: texts of several kinds and sizes, with sheets of few and of many bindings.
use crate::timing::times;
use crate::{bindings, place};
use oracle::expansion::tree_length;
use oracle::{Context, Files, Unpacked, bundle, preprocess_typst_below, sheet};
use std::hint::black_box;
use wagtailfen::preprocess_typst;

const NOTES: &str = "\
preprocess_typst (microseconds a call; the ns are nanoseconds for each byte of the text, so that two sizes of a text show the growth)
The call here checks the bundle, the sheet and the text, and clears both buffers: an output of just the length that is needed, and one of
65,535 bytes for the sheet. The Rust answers a new String, checks nothing, and copies the hash map of its bindings, which is built once.";

const REFERENCES: &str = "\
References by the place of their binding, in a text of 64 KB (nanoseconds for each reference, with all that the call does; walk: what a
reference to this binding takes more than one to the first, for each binding that it passes)";

const SMALL: usize = 64 << 10;
const SIZES: [usize; 3] = [1 << 20, 4 << 20, 16 << 20];
const FEW: usize = 20;
const MANY: usize = 1500;
/// A sheet may be so long, and no longer.
const LEFT: usize = 65_535;

/// A sheet on both sides.
struct Bench {
    count: usize,
    bundle: Vec<u8>,
    disk: Unpacked,
    sheet: Vec<u8>,
    context: Context,
}

pub fn table() {
    println!("\n{NOTES}\n");
    println!(
        "text                           bindings     bytes    output       here      ns       Rust      ns     ratio"
    );
    let few = Bench::new(FEW);
    let middle = place(FEW / 2);
    few.growing("plain", "Ten seconds of flow, or less.\n");
    few.growing("full of #", "#");
    few.growing("references", &format!("Flow: #{middle} or less.\n"));
    few.growing("calls", &format!("#raw({middle}, lang: \"r\", block: true)\n#link(\"e.x/\" + {middle})[ten] s.\n"));
    few.growing("lets", &lets(FEW));
    few.row("raw calls that read a file", &filled("#raw(read(\"short\"), lang: \"r\")\n", SMALL));
    let many = Bench::new(MANY);
    for bench in [&few, &many] {
        bench.row("plain", &filled("Ten seconds of flow, or less.\n", SMALL));
        bench.row("references to the middle", &references(bench.count / 2));
        bench.row("lets", &filled(&lets(bench.count), SMALL));
    }
    println!("\n{REFERENCES}\n");
    println!("bindings  binding        here      Rust     ratio      walk");
    few.places();
    many.places();
}

/// Some lines that bind names of the sheet anew, far apart.
fn lets(count: usize) -> String {
    let line = |i: usize| format!("#let {} = {}\n", place(i * count / 10), place((i * 7 % 10) * count / 10));
    (0..10).map(line).collect()
}

/// References to one binding, or to none.
fn references(i: usize) -> String {
    filled(&format!("#{} ", place(i)), SMALL)
}

/// The piece over and over, up to n bytes.
fn filled(piece: &str, n: usize) -> String {
    piece.repeat(n / piece.len())
}

impl Bench {
    fn new(count: usize) -> Bench {
        let files = Files::from([(b"short".to_vec(), b"ten seconds of flow\n".to_vec())]);
        let tree = bindings(count);
        assert!(tree_length(&tree) < LEFT);
        Bench {
            count,
            bundle: bundle::encode(&files).expect("a bundle"),
            disk: Unpacked::new(&files).expect("a folder for the files"),
            sheet: sheet::encode(&tree).expect("a sheet"),
            context: Context::new(&tree).expect("bindings"),
        }
    }

    fn growing(&self, name: &str, piece: &str) {
        for n in SIZES {
            self.row(name, &filled(piece, n));
        }
    }

    fn row(&self, name: &str, text: &str) {
        let length = self.length(text);
        let [here, rust] = self.times(text, length);
        let per_byte = |time: f64| time / text.len() as f64;
        println!(
            "{name:30} {:8} {:9} {length:9} {:10.1} {:7.2} {:10.1} {:7.2} {:9.4}",
            self.count,
            text.len(),
            here / 1e3,
            per_byte(here),
            rust / 1e3,
            per_byte(rust),
            here / rust
        );
    }

    /// References to the first binding, to one in the middle, to the last, and to none.
    fn places(&self) {
        let mut first = 0.0;
        let last = self.count - 1;
        for (name, i, passed) in [
            ("first", 0, 0),
            ("middle", self.count / 2, self.count / 2),
            ("last", last, last),
            ("missing", 9999, self.count),
        ] {
            let text = references(i);
            let count = text.matches('#').count() as f64;
            let [here, rust] = self.times(&text, self.length(&text)).map(|time| time / count);
            print!("{:8}  {name:8} {here:10.1} {rust:9.1} {:9.2}", self.count, here / rust);
            if passed == 0 {
                first = here;
                println!();
            } else {
                println!(" {:9.2}", (here - first) / passed as f64);
            }
        }
    }

    fn times(&self, text: &str, length: usize) -> [f64; 2] {
        let (mut out, mut left) = (vec![0; length], vec![0; LEFT]);
        let mut here = || {
            let (bundle, sheet) = (black_box(&self.bundle), black_box(&self.sheet));
            black_box(preprocess_typst(bundle, black_box(text.as_bytes()), sheet, &mut out, &mut left));
        };
        let mut rust = || {
            let context = black_box(&self.context);
            assert!(black_box(preprocess_typst_below(&self.disk, black_box(text), context)).is_ok());
        };
        times([&mut here, &mut rust])
    }

    /// How long the output is. Both must write the same and leave the same bindings.
    fn length(&self, text: &str) -> usize {
        let (there, bindings) = preprocess_typst_below(&self.disk, text, &self.context).expect("accepted");
        let (mut out, mut left) = (vec![0; there.len()], vec![0; LEFT]);
        let here = preprocess_typst(&self.bundle, text.as_bytes(), &self.sheet, &mut out, &mut left);
        assert_eq!(here.number, 0);
        assert!(out[..here.len] == *there.as_bytes());
        assert_eq!(sheet::decode(&left[..here.sheet_len]), Some(bindings.tree()));
        here.len
    }
}
