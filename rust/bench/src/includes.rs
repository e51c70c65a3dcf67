//! The include call: texts of several kinds and sizes.
use crate::timing::times;
use oracle::{Files, Unpacked, bundle, resolve_includes_below};
use std::hint::black_box;
use wagtailfen::resolve_includes;

const NOTES: &str = "\
resolve_includes (microseconds a call; the ns are nanoseconds for each byte of the text, so that two sizes of a text show the growth)
The call here checks the bundle and the text and clears its output, a lent buffer of just the length that is needed; files are parts of
the bundle. The Rust answers a new String, checks nothing, and reads each file from a file system in memory.
no Rust: it is quadratic there, since it looks for the next mark and the quotes anew behind every mark; see the smaller size.";

/// The Rust is asked only at this size where it is quadratic.
const SMALL: usize = 64 << 10;
const SIZES: [usize; 2] = [1 << 20, 16 << 20];
/// A call that took so many nanoseconds is not tried at a larger size.
const SLOW: f64 = 2e9;
const MARKS: usize = 2000;
const CHAPTERS: usize = 100;

struct Bench {
    bundle: Vec<u8>,
    disk: Unpacked,
}

pub fn table() {
    println!("\n{NOTES}\n");
    println!("text                               bytes    output       here      ns       Rust      ns     ratio");
    let bench = Bench::new(&files());
    for n in SIZES {
        bench.row("plain", &filled("Ten seconds of flow, or less.\n", n), true);
    }
    for n in SIZES {
        bench.row("full of #", &filled("#", n), true);
    }
    bench.row("2,000 #include", &marks(|i| format!("#include \"{}\"\n", chapter(i))), true);
    bench.row("2,000 #source-include", &marks(|i| format!("#source-include(\"{}\", \"r\")\n", chapter(i))), true);
    bench.row("2,000 #include of six levels", &"#include \"deep/1\"\n".repeat(MARKS), true);
    bench.growing("#include, no quotes", |n| filled("#include\n", n));
    bench.growing("#source-include(), no quotes", |n| filled("#source-include()\n", n));
    bench.growing("#source-include(), quotes last", |n| filled("#source-include()\n", n) + "\"short\" \"r\"\n");
}

/// Chapters, a chain of six files, and a file that marks the project's root.
fn files() -> Files {
    let mut files: Files = (0..CHAPTERS).map(|i| (chapter(i).into(), b"ten seconds of flow\n".to_vec())).collect();
    for i in 1..6 {
        files.insert(format!("deep/{i}").into(), format!("#include \"{}\"", i + 1).into());
    }
    files.insert(b"deep/6".to_vec(), b"six".to_vec());
    files.insert(b"short".to_vec(), b"S".to_vec());
    files.insert(b"CITATION.cff".to_vec(), vec![]);
    files
}

fn chapter(i: usize) -> String {
    format!("chapters/c{i:04}.typ")
}

/// The piece over and over, up to n bytes.
fn filled(piece: &str, n: usize) -> String {
    piece.repeat(n / piece.len())
}

fn marks(mark: impl Fn(usize) -> String) -> String {
    (0..MARKS).map(|i| mark(i % CHAPTERS)).collect()
}

impl Bench {
    fn new(files: &Files) -> Bench {
        let bundle = bundle::encode(files).expect("a bundle");
        Bench { bundle, disk: Unpacked::new(files).expect("a folder for the files") }
    }

    /// Beside the Rust at a small size, then alone at the others.
    fn growing(&self, name: &str, text: impl Fn(usize) -> String) {
        self.row(name, &text(SMALL), true);
        for n in SIZES {
            if self.row(name, &text(n), false) > SLOW {
                println!("{name:30}  larger sizes are left out");
                break;
            }
        }
    }

    /// Prints the row, and answers the time here.
    fn row(&self, name: &str, text: &str, beside_rust: bool) -> f64 {
        let mut out = vec![0; self.length(text, beside_rust)];
        let length = out.len();
        let mut here = || {
            black_box(resolve_includes(black_box(&self.bundle), b"", black_box(text.as_bytes()), black_box(&mut out)));
        };
        let mut rust = || {
            black_box(resolve_includes_below(black_box(&self.disk), "", black_box(text))).expect("accepted");
        };
        let per_byte = |time: f64| time / text.len() as f64;
        print!("{name:30} {:9} {length:9}", text.len());
        if beside_rust {
            let [here, rust] = times([&mut here, &mut rust]);
            let (ours, theirs) = (per_byte(here), per_byte(rust));
            println!(" {:10.1} {ours:7.2} {:10.1} {theirs:7.2} {:9.4}", here / 1e3, rust / 1e3, here / rust);
            here
        } else {
            let [here] = times([&mut here]);
            println!(" {:10.1} {:7.2}    no Rust", here / 1e3, per_byte(here));
            here
        }
    }

    /// How long the output is. Both must write the same, where both are asked.
    fn length(&self, text: &str, beside_rust: bool) -> usize {
        let mut out = vec![0; text.len() + 4096];
        let here = resolve_includes(&self.bundle, b"", text.as_bytes(), &mut out);
        assert_eq!(here.number, 0);
        if beside_rust {
            assert!(
                resolve_includes_below(&self.disk, "", text).as_deref()
                    == Ok(str::from_utf8(&out[..here.len]).unwrap())
            );
        }
        here.len
    }
}
