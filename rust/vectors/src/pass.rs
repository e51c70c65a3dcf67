//! Cases of `pass`. Texts and bindings are the Rust reference's; the numbers, and whether a text is closed, are 01's, as the oracle reads it.
use crate::record::{LONGEST_ROOM, PASS, Record, answer_field};
use oracle::expansion::tree_of;
use oracle::includes::files_of;
use oracle::pass::{Passed, Rooms, answer};
use oracle::{Context, Files, Tree, Unpacked, Value, bundle, pass_below, sheet};

#[derive(Clone)]
pub struct Case {
    pub bundle: Vec<u8>,
    pub folder: Vec<u8>,
    pub text: Vec<u8>,
    pub sheet: Vec<u8>,
    pub rooms: Rooms,
}

/// What an accepted call writes and answers.
#[derive(Clone, Debug, PartialEq, Eq)]
pub struct Done {
    pub out: Vec<u8>,
    pub left: Vec<u8>,
    pub closed: bool,
}

/// Text and bindings, which must be the reference's, and closed; or the number.
pub fn wanted(case: &Case) -> Result<Done, u8> {
    let (files, tree) = (files_of(&case.bundle), tree_of(&case.sheet));
    let result = answer(files.as_ref(), &case.folder, &case.text, tree.as_ref(), case.rooms).result;
    let utf8 = |bytes| str::from_utf8(bytes).expect("a text");
    let asked = || {
        let disk = Unpacked::new(files.as_ref().expect("files")).expect("a folder for the files");
        let context = Context::new(tree.as_ref().expect("a sheet")).expect("bindings");
        pass_below(&disk, utf8(&case.folder), utf8(&case.text), &context)
    };
    match result {
        Ok(Passed { out, left, closed }) => {
            let (there, bindings) = asked().expect("accepted");
            assert_eq!((there.as_bytes(), bindings.tree()), (&out[..], left.clone()));
            Ok(Done { out, left: sheet::encode(&left).expect("a sheet"), closed })
        }
        Err(5) => {
            assert!(asked().is_err());
            Err(5)
        }
        Err(number) => Err(number),
    }
}

/// The lengths of the buffers that just suffice, or that suffice up to the refusal.
pub fn enough(bundle: &[u8], folder: &[u8], text: &[u8], sheet: &[u8]) -> Rooms {
    answer(files_of(bundle).as_ref(), folder, text, tree_of(sheet).as_ref(), Rooms::WIDE).needed()
}

pub fn record(case: &Case, wanted: &Result<Done, u8>) -> Record {
    let Rooms { middle, out, left } = case.rooms;
    assert!(middle.max(out).max(left) <= LONGEST_ROOM);
    let nothing = Done { out: vec![], left: vec![], closed: false };
    let (number, done) = match wanted {
        Ok(done) => (0, done),
        Err(number) => (*number, &nothing),
    };
    let answers = [
        answer_field(number, middle, b""),
        answer_field(number, out, &done.out),
        answer_field(number, left, &done.left),
    ];
    let closed = [u8::from(done.closed)];
    let inputs: [&[u8]; 4] = [&case.bundle, &case.folder, &case.text, &case.sheet];
    let outputs: [&[u8]; 4] = [&answers[0], &answers[1], &answers[2], &closed];
    Record::new(PASS, &[inputs, outputs].concat())
}

pub fn cases() -> Vec<Record> {
    let all = [closed(), rooms(), order(), files_met(), folders(), levels(), bytes(), broken(), parts()].concat();
    all.iter().map(|case| record(case, &wanted(case))).collect()
}

fn text(text: &str) -> Value {
    Value::Text(text.into())
}

/// x is `10`.
fn x() -> Vec<u8> {
    sheet::encode(&Tree::from([(b"x".to_vec(), text("10"))])).expect("a sheet")
}

fn encoded(entries: &[(&str, &str)]) -> Vec<u8> {
    let files: Files = entries.iter().map(|(path, content)| (path.as_bytes().to_vec(), (*content).into())).collect();
    bundle::encode(&files).expect("a bundle")
}

/// The text with buffers of these lengths, counted from those that suffice.
fn around(bundle: &[u8], folder: &str, text: &str, sheet: &[u8], rooms: &[[isize; 3]]) -> Vec<Case> {
    let whole = enough(bundle, folder.as_bytes(), text.as_bytes(), sheet);
    let case = |[middle, out, left]: &[isize; 3]| {
        let rooms = Rooms {
            middle: whole.middle.checked_add_signed(*middle)?,
            out: whole.out.checked_add_signed(*out)?,
            left: whole.left.checked_add_signed(*left)?,
        };
        Some(Case { bundle: bundle.into(), folder: folder.into(), text: text.into(), sheet: sheet.into(), rooms })
    };
    rooms.iter().filter_map(case).collect()
}

/// Texts without a file, closed and open.
const PLAIN: [&str; 58] = [
    "",
    "\n",
    "x",
    "x\n",
    "#x\n",
    "#x",
    "#x\r",
    "#\n",
    "#raw\n",
    "#raw \n",
    "#raw(\n",
    "#raw()\n",
    "#raw(x\n",
    "#raw(x)\n",
    "#raw(x)",
    "#raw(\"a\n",
    "#raw(\"a\"\n",
    "#raw(\"a\"\n)\n",
    "#raw(\"a\", lang: \")\n",
    "#raw(\"a\", lang: \")\")\n",
    "#raw(\"a\", block: true\n",
    "#raw(read\n",
    "#raw(read \n\n",
    "#raw(read\nx\n",
    "#raw(readme\n",
    "#raw(read[\n",
    "#link\n",
    "#link(\n",
    "#link()\n",
    "#link(<\n",
    "#link( \n",
    "#link(\"u\"\n",
    "#link(\"u\")\n",
    "#link(\"u\") \t\n",
    "#link(\"u\")[\n",
    "#link(\"u\")[t\n",
    "#link(\"u\")[t]\n",
    "#link(\"u\")[#raw(]\n",
    "#link(\"u\")\n[\n",
    "#link(\"u\", x\n",
    "#link(\"u\", x)\n",
    "#link(\"u\", x)[\n",
    "#let y = x\n#y\n",
    "#let y = x",
    "#let y = #raw(\n",
    "#let y = \"\n",
    "#import #link(\n",
    "#import",
    "#raw(x\n#raw(x)\n",
    "#raw(x)\n#link(\n",
    "#include\n",
    "#include \"\n",
    "// #include \"\n",
    "//#include#include\n",
    "#source-include\n",
    "#source-include x\n",
    "#source-include)\n",
    "#source-include(\n",
];

/// Texts with a file a that holds `A`, and a file o that holds `#raw("o"`.
const WITH_FILES: [&str; 30] = [
    "#include \"a\"",
    "#include \"a\"\n",
    "#include \"a\n",
    "#include \"a\"#include\n",
    "#include \"o\"\n",
    "#include \"o\"\n)\n",
    "#include \"o\")\n",
    "#raw(\n#include \"a\"\n",
    "#raw(\n#include \"a\"\n)\n",
    "#link(\"u\")[#include \"a\"]\n",
    "#raw(read(\"#include \"a\"",
    "#raw(read(\"a\"))\n",
    "#raw(read(\"a\")\n",
    "#raw(read(\"a\"\n",
    "// #include \"a\"\n",
    "// #include \"a\" #include \"a\"\n",
    "#source-include(\"a\")\n",
    "#source-include(\"a\", \"r\")\n",
    "#source-include(\"a\", \"r\")",
    "#source-include(\"a\", \"r\"\n",
    "#source-include(\"a\", \"r)\"\n",
    "#source-include(\"a\", \"r\n",
    "#source-include(\"a\")\n\"r\"\n",
    "#source-include()\n\"a\"\"r\"\n",
    "#source-include \n(\"a\", \"r\")x\n",
    "#source-include(\"a\", \"r\") x\ny",
    "#source-include(\"a\", \"#x\")\n",
    "#let y = #include \"a\"\n#y\n",
    "#let y = 1 #include \"o\"\n\n#y\n",
    "#import #include \"a\"\n",
];

fn closed() -> Vec<Case> {
    let sheet = x();
    let bundle = encoded(&[("a", "A"), ("o", "#raw(\"o\"")]);
    let plain = PLAIN.iter().flat_map(|text| around(&encoded(&[]), "", text, &sheet, &[[0, 0, 0]]));
    let with_files = WITH_FILES.iter().flat_map(|text| around(&bundle, "", text, &sheet, &[[0, 0, 0], [1, -1, 0]]));
    plain.chain(with_files).collect()
}

/// Every length of each buffer, up to one that suffices.
fn rooms() -> Vec<Case> {
    let (bundle, sheet) = (encoded(&[("a", "#x")]), x());
    let line = "a#include \"a\"#let y = x\n#raw(y)\n";
    let whole = enough(&bundle, b"", line.as_bytes(), &sheet);
    let down = |n: usize| (0..=n + 1).step_by(2).map(move |len| len as isize - n as isize);
    let middles = down(whole.middle).map(|middle| [middle, 0, 0]);
    let outs = down(whole.out).map(|out| [0, out, 0]);
    let lefts = down(whole.left).map(|left| [0, 0, left]);
    let all: Vec<[isize; 3]> =
        middles.chain(outs).chain(lefts).chain([[-1, -1, -1], [-1, -1, 0], [0, -1, -1]]).collect();
    around(&bundle, "", line, &sheet, &all)
}

/// All includes come before any expansion, and 9 for the sheet given before both.
fn order() -> Vec<Case> {
    let (bundle, sheet) = (encoded(&[("a", "A")]), x());
    let texts = [
        "#raw(1(#include \"n\"",
        "#raw(1(#include \"a\"",
        "#let y = x\n#include \"n\"",
        "#let y = x\n#raw(1(",
        "#raw(1(#let y = x\n",
        "x#raw(1(",
        "#raw(read(\"n\"))#include \"..\"",
        "#raw(read(\"n\"))#include \"a\"",
        "#include \"#include \"a\"\"",
    ];
    let rooms = [[0, 0, 0], [0, 0, -1], [-1, 0, 0], [3, 3, 8]];
    texts.iter().flat_map(|text| around(&bundle, "", text, &sheet, &rooms)).collect()
}

/// What stands in an included file is expanded with the text; it reads from the empty folder, and binds for what follows.
fn files_met() -> Vec<Case> {
    let bundle = encoded(&[
        ("a", "A"),
        ("d/a", "D"),
        ("d/b", "#let y = x\n#include \"a\"#raw(read(\"a\"))"),
        ("d/c", "#source-include(\"a\", \"r\")\n#y"),
    ]);
    let mut all = Vec::new();
    for (folder, text) in [
        ("", "#include \"d/b\"#y\n"),
        ("d", "#include \"b\"#y\n"),
        ("d", "#include \"b\"#include \"c\""),
        ("", "#y#include \"d/c\"#let y = 1\n#include \"d/c\"\n"),
        ("d", "#raw(read(\"d/a\"))#source-include(\"a\", \"#x\")\n"),
    ] {
        all.extend(around(&bundle, folder, text, &x(), &[[0, 0, 0], [-1, 0, 0], [0, 0, -1]]));
    }
    all
}

fn folders() -> Vec<Case> {
    let bundle = encoded(&[("a", "A"), ("d/a", "D")]);
    let folders = ["d", "n", "a", "/", "d/", ".", "..", "d d"];
    let case = |folder: &&str| around(&bundle, folder, "#x\n", &x(), &[[1, 1, 1]]);
    folders.iter().flat_map(case).collect()
}

/// Six files, each including the next.
fn levels() -> Vec<Case> {
    let mut files: Files = (1..6).map(|i| (i.to_string().into(), format!("#include\"{}\"", i + 1).into())).collect();
    let mut all = Vec::new();
    for sixth in ["#x", "#include\"a\"", "#include\"n\"", "#include\"h\""] {
        files.insert(b"6".to_vec(), sixth.into());
        files.insert(b"a".to_vec(), b"A".to_vec());
        files.insert(b"h".to_vec(), vec![128]);
        let bundle = bundle::encode(&files).expect("a bundle");
        all.extend(around(&bundle, "", "#include\"1\"\n", &x(), &[[0, 0, 0]]));
    }
    all
}

/// Bytes from 128, and which refusal of the arguments comes first.
fn bytes() -> Vec<Case> {
    let good = x();
    let (no_files, no_bundle, no_sheet) = (encoded(&[]), vec![0], vec![16]);
    let mut all = Vec::new();
    for bundle in [&no_files, &no_bundle] {
        for sheet in [&good, &no_sheet] {
            for folder in ["", "/"] {
                for line in [&b"#x"[..], b"\x80"] {
                    for left in [good.len(), 0] {
                        let rooms = Rooms { middle: 2, out: 2, left };
                        let (bundle, folder, text) = (bundle.clone(), folder.into(), line.to_vec());
                        all.push(Case { bundle, folder, text, sheet: sheet.clone(), rooms });
                    }
                }
            }
        }
    }
    all
}

/// A sheet and a bundle, cut at some places.
fn broken() -> Vec<Case> {
    let inner = Tree::from([(b"k".to_vec(), text("v"))]);
    let tree = Tree::from([(b"d".to_vec(), Value::Dictionary(inner)), (b"x".to_vec(), text("10"))]);
    let sheet = sheet::encode(&tree).expect("a sheet");
    let bundle = encoded(&[("d/b", "#x")]);
    let case = |bundle: &[u8], sheet: &[u8]| Case {
        bundle: bundle.into(),
        folder: b"d".to_vec(),
        text: b"#include \"b\"\n".to_vec(),
        sheet: sheet.into(),
        rooms: Rooms { middle: 4, out: 4, left: 32 },
    };
    let sheets = (0..=sheet.len()).step_by(2).map(|n| case(&bundle, &sheet[..n]));
    let bundles = (0..=bundle.len()).step_by(2).map(|n| case(&bundle[..n], &sheet));
    sheets.chain(bundles).collect()
}

/// Closed parts, each with the sheet that the one before it leaves, and their text in one.
fn parts() -> Vec<Case> {
    let bundle = encoded(&[("a", "#let z = y\n")]);
    let parts = ["#let y = x\n", "", "#include \"a\"#y\n", "#raw(z)\n#link(z)[\nt]\n", "#z#let x = z\n#x"];
    let mut all = around(&bundle, "", &parts.concat(), &x(), &[[0, 0, 0]]);
    let rooms = all[0].rooms;
    let mut sheet = x();
    for part in parts {
        let case = Case { bundle: bundle.clone(), folder: vec![], text: part.into(), sheet, rooms };
        sheet = wanted(&case).expect("accepted").left;
        all.push(case);
    }
    all
}
