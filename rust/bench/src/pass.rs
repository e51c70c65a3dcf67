//! The pass: texts of several kinds and sizes.
use crate::timing::times;
use crate::{bindings, place};
use oracle::{Context, Files, Unpacked, bundle, pass_below, sheet};
use std::hint::black_box;
use wagtailfen::pass;

const NOTES: &str = "\
pass (microseconds a call; the ns are nanoseconds for each byte of the text, so that two sizes of a text show the growth)
The call here checks the bundle, the sheet and the text, and clears its three buffers: a middle and an output of just the lengths that are needed,
and one of 65,535 bytes for the sheet. The Rust's two calls answer new Strings, check nothing, and copy the hash map of the bindings, which is built
once. In parts: here a pass for each closed part of about 4 KB, from the sheet that the one before it left; the Rust over the whole text.";

const SIZES: [usize; 3] = [1 << 20, 4 << 20, 16 << 20];
const SMALL: usize = 64 << 10;
const PART: usize = 4 << 10;
const FEW: usize = 20;
/// A sheet may be so long, and no longer.
const LEFT: usize = 65_535;

/// A sheet and files on both sides.
struct Bench {
    bundle: Vec<u8>,
    disk: Unpacked,
    sheet: Vec<u8>,
    context: Context,
}

/// Buffers for one text.
struct Buffers {
    middle: Vec<u8>,
    out: Vec<u8>,
    left: Vec<u8>,
}

pub fn table() {
    println!("\n{NOTES}\n");
    println!("text                               bytes    output       here      ns       Rust      ns     ratio");
    let bench = Bench::new();
    let middle = place(FEW / 2);
    let calls = format!("#raw({middle}, lang: \"r\", block: true)\n#link(\"e.x/\" + {middle})[ten] s.\n");
    let page = format!("= Flow\nTen seconds of flow, or less: #{middle}.\n{calls}#let limit = {middle}\n");
    bench.growing("plain", "Ten seconds of flow, or less.\n");
    bench.growing("references", &format!("Flow: #{middle} or less.\n"));
    bench.growing("calls", &calls);
    bench.growing("pages", &page);
    bench.row("2,000 #include", &"#include \"chapter\"\n".repeat(2000));
    bench.row("500 #source-include", &"#source-include(\"chapter\", \"r\")\n".repeat(500));
    bench.row("pages", &filled(&page, SMALL));
    bench.parts("pages, in parts", &page, SMALL);
    bench.parts("pages, in parts", &page, SIZES[0]);
}

/// The piece over and over, up to n bytes.
fn filled(piece: &str, n: usize) -> String {
    piece.repeat(n / piece.len())
}

fn print_row(name: &str, bytes: usize, output: usize, [here, rust]: [f64; 2]) {
    let per_byte = |time: f64| time / bytes as f64;
    println!(
        "{name:30} {bytes:9} {output:9} {:10.1} {:7.2} {:10.1} {:7.2} {:9.4}",
        here / 1e3,
        per_byte(here),
        rust / 1e3,
        per_byte(rust),
        here / rust
    );
}

impl Bench {
    fn new() -> Bench {
        let chapter = format!("Ten seconds of flow: #{}\n", place(3));
        let files = Files::from([(b"chapter".to_vec(), chapter.into_bytes())]);
        let tree = bindings(FEW);
        Bench {
            bundle: bundle::encode(&files).expect("a bundle"),
            disk: Unpacked::new(&files).expect("a folder for the files"),
            sheet: sheet::encode(&tree).expect("a sheet"),
            context: Context::new(&tree).expect("bindings"),
        }
    }

    fn growing(&self, name: &str, piece: &str) {
        for n in SIZES {
            self.row(name, &filled(piece, n));
        }
    }

    fn row(&self, name: &str, text: &str) {
        let mut buffers = self.buffers(text);
        let mut here = || {
            let Buffers { middle, out, left } = &mut buffers;
            let (bundle, sheet) = (black_box(&self.bundle), black_box(&self.sheet));
            black_box(pass(bundle, b"", black_box(text.as_bytes()), sheet, middle, out, left));
        };
        let mut rust = || self.rust(text);
        let taken = times([&mut here, &mut rust]);
        print_row(name, text.len(), buffers.out.len(), taken);
    }

    fn rust(&self, text: &str) {
        assert!(black_box(pass_below(&self.disk, "", black_box(text), black_box(&self.context))).is_ok());
    }

    /// Passes over closed parts of the text, beside the Rust over the whole.
    fn parts(&self, name: &str, piece: &str, n: usize) {
        let part = filled(piece, PART);
        let count = n / part.len();
        let text = part.repeat(count);
        let whole = self.buffers(&text);
        let mut buffers = self.buffers(&part);
        assert_eq!(buffers.out.repeat(count), whole.out);
        let mut sheet = self.sheet.clone();
        let mut here = || {
            sheet.clone_from(&self.sheet);
            for _ in 0..count {
                let Buffers { middle, out, left } = &mut buffers;
                let passed = pass(black_box(&self.bundle), b"", black_box(part.as_bytes()), &sheet, middle, out, left);
                assert!(passed.number == 0 && passed.closed);
                sheet.clear();
                sheet.extend(&left[..passed.sheet_len]);
            }
        };
        let mut rust = || self.rust(&text);
        let taken = times([&mut here, &mut rust]);
        print_row(name, text.len(), whole.out.len(), taken);
    }

    /// Buffers that just suffice. Both must write the same and leave the same bindings, and the text must be closed.
    fn buffers(&self, text: &str) -> Buffers {
        let middle = oracle::resolve_includes_below(&self.disk, "", text).expect("accepted").len();
        let (there, bindings) = pass_below(&self.disk, "", text, &self.context).expect("accepted");
        let mut buffers = Buffers { middle: vec![0; middle], out: vec![0; there.len()], left: vec![0; LEFT] };
        let Buffers { middle, out, left } = &mut buffers;
        let here = pass(&self.bundle, b"", text.as_bytes(), &self.sheet, middle, out, left);
        assert_eq!((here.number, here.len), (0, there.len()));
        assert!(*out == *there.as_bytes());
        assert_eq!(sheet::decode(&left[..here.sheet_len]), Some(bindings.tree()));
        buffers
    }
}
