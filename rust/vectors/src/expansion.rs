//! Cases of `preprocess_typst`. Texts and bindings are the Rust reference's; the numbers are 01's, as the oracle reads it.
use crate::record::{EXPANSION, LONGEST_ROOM, Record, answer_field};
use oracle::expansion::{Expanded, answer, tree_of};
use oracle::includes::files_of;
use oracle::{Context, Files, Tree, Value, bundle, preprocess_typst, sheet};

#[derive(Clone)]
pub struct Case {
    pub bundle: Vec<u8>,
    pub text: Vec<u8>,
    pub sheet: Vec<u8>,
    /// The lengths of both buffers.
    pub out: usize,
    pub left: usize,
}

/// The text and the sheet left, which must be the reference's, or the number.
pub fn wanted(case: &Case) -> Result<(Vec<u8>, Vec<u8>), u8> {
    let (files, tree) = (files_of(&case.bundle), tree_of(&case.sheet));
    let result = answer(files.as_ref(), &case.text, tree.as_ref(), case.out, case.left).result;
    let asked = || {
        let context = Context::new(tree.as_ref().expect("a sheet")).expect("bindings");
        preprocess_typst(files.as_ref().expect("files"), str::from_utf8(&case.text).expect("a text"), &context)
    };
    match result {
        Ok(expanded) => {
            let (out, left) = asked().expect("accepted");
            assert_eq!(expanded, Expanded { out: out.into_bytes(), left: left.tree() });
            Ok((expanded.out, sheet::encode(&expanded.left).expect("a sheet")))
        }
        Err(5) => {
            assert!(asked().is_err());
            Err(5)
        }
        Err(number) => Err(number),
    }
}

/// How many bytes come out before the end or a refusal, and how long the longest sheet is.
pub fn lengths(bundle: &[u8], text: &[u8], sheet: &[u8]) -> (usize, usize) {
    let (files, tree) = (files_of(bundle), tree_of(sheet));
    let whole = answer(files.as_ref(), text, tree.as_ref(), usize::MAX, usize::MAX);
    (whole.written, whole.longest)
}

pub fn record(case: &Case, wanted: &Result<(Vec<u8>, Vec<u8>), u8>) -> Record {
    assert!(case.out <= LONGEST_ROOM && case.left <= LONGEST_ROOM);
    let (number, out, left): (u8, &[u8], &[u8]) = match wanted {
        Ok((out, left)) => (0, out, left),
        Err(number) => (*number, b"", b""),
    };
    let answers = [answer_field(number, case.out, out), answer_field(number, case.left, left)];
    Record::new(EXPANSION, &[&case.bundle, &case.text, &case.sheet, &answers[0], &answers[1]])
}

pub fn cases() -> Vec<Record> {
    let all = [starred(), readings(), classes(), bindings(), names(), rooms(), paths(), bytes(), broken()].concat();
    all.iter().map(|case| record(case, &wanted(case))).collect()
}

fn text(text: &str) -> Value {
    Value::Text(text.into())
}

fn tree(records: &[(&str, Value)]) -> Tree {
    records.iter().map(|(name, value)| (name.as_bytes().to_vec(), value.clone())).collect()
}

fn encoded(records: &[(&str, Value)]) -> Vec<u8> {
    sheet::encode(&tree(records)).expect("a sheet")
}

fn no_files() -> Vec<u8> {
    bundle::encode(&Files::new()).expect("a bundle")
}

/// The text with buffers of these lengths, counted from what it writes and from its longest sheet.
fn around(bundle: &[u8], sheet: &[u8], text: &str, rooms: &[(isize, isize)]) -> Vec<Case> {
    let (written, longest) = lengths(bundle, text.as_bytes(), sheet);
    let case = |&(out, left): &(isize, isize)| {
        let (out, left) = (written.checked_add_signed(out)?, longest.checked_add_signed(left)?);
        Some(Case { bundle: bundle.into(), text: text.into(), sheet: sheet.into(), out, left })
    };
    rooms.iter().filter_map(case).collect()
}

/// The lines of 01, section 10, with their answers there: a text or a number.
fn starred() -> Vec<Case> {
    let lines: [(&str, Result<&str, u8>); 6] = [
        ("A #x. B", Ok("A  B")),
        ("#letter = x\n#ter", Ok("10")),
        ("#let y = \"q\"\n#y", Ok("\"q\"")),
        ("#raw(x, lang: \"r\", block: true)", Ok("```r\n10\n```\n")),
        ("#raw(\"a\", theme: \"b\")", Err(8)),
        ("#raw(\"a\"\n", Ok("`a`")),
    ];
    let sheet = encoded(&[("x", text("10"))]);
    let case = |(line, given): &(&str, Result<&str, u8>)| {
        let case = around(&no_files(), &sheet, line, &[(3, 2)]).remove(0);
        let wanted = wanted(&case).map(|(out, _)| String::from_utf8(out).expect("a text"));
        assert_eq!(wanted.as_deref().map_err(|number| *number), *given, "{line}");
        case
    };
    lines.iter().map(case).collect()
}

/// Texts with x, x_y, a none n and a dictionary d.
const TEXTS: [&str; 130] = [
    "",
    "x\ny\n",
    "#",
    "##x#",
    "#1#_x#-#.#(",
    "#x",
    "#x#x",
    "#x-y#x_y",
    "#x-y.z",
    "#x.",
    "#.x",
    "#x..",
    "#n#d#m",
    "#d.k",
    "#d.a-b",
    "#d.a_b",
    "#d.",
    "#d.e.k",
    "#d.e.k.k",
    "#d.x#d.n#d.e.x",
    "#rawx#linked",
    "#raw(\"a\nb\")",
    "#raw(\"a\",x-y: z)",
    "#raw(\"a\",langs: x,block:true)",
    "#raw(\"a\",block:TRUE)",
    "#raw(\"a\",blocks: true)",
    "#let _ = 1\n#link(_ + x)",
    "#link(x\n+ x)[t]",
    "#link(x + \n\"u\")[t]",
    "#let Z9 = Z\n#Z9",
    "#let 9 = 1\n#link(9)#raw(9)#raw(\"a\" + 9)",
    "#x(",
    "#x (",
    "#x-y.(z)",
    "#x[t]",
    "#X",
    "#xx",
    "// #x\n",
    "#import",
    "#import \"a\": b\n#x",
    "a#imports #x\nb",
    "#impor",
    "#let",
    "#let\n",
    "#let x",
    "#letx",
    "#let x\n#x",
    "#let\nx = 1",
    "#let y=x\n#y",
    "#let y = x y\n#y",
    "#let y-z = 1\n#y-z",
    "#let = x\n#raw()",
    "#let y = d\n#y.k",
    "#let y = d.e\n#y.k",
    "#let y = n\n#y",
    "#let y = d.a-b\n#y",
    "#let y = x-y\n#y",
    "#let y == \t=x\x0c\r\n#y",
    "#let y =\n#y",
    "#let y = \x1cx\n#y",
    "#let d = x\n#d.k#d",
    "#let x.y = 1\n#x",
    "#let x = 1\n#let x = x\n#x",
    "#let x = y\n#let y = x\n#y",
    "#let y = #raw(\"a\"\n#y",
    "#raw",
    "#raw x",
    "#rawx(x)",
    "#raw \t\x0b(x)",
    "#raw\n(x)",
    "#raw()",
    "#raw(",
    "#raw(x",
    "#raw(x)#x",
    "#raw(x-y.z)",
    "#raw( \n x \n)",
    "#raw(\"a\")",
    "#raw(\"a",
    "#raw(\"a\\",
    "#raw(\"\\n\\t\\\"\\\\\\r\\q\")",
    "#raw(\"a\" + x+\"b\" \t+ x-y)",
    "#raw(\"a\" +",
    "#raw(\"a\" + )",
    "#raw(\"a\" + _)",
    "#raw(\"a\" + 1)",
    "#raw(\"a\"\n+ x)",
    "#raw(\"a\" \"b\")",
    "#raw(x + \"b\")",
    "#raw(-x)",
    "#raw(<x>)",
    "#raw(\"a\",,\n,)",
    "#raw(\"a\", block: true)",
    "#raw(\" a\\n \\t\\n\", block: true)z",
    "#raw(\" a\\n \")",
    "#raw(\"a\" block:true lang:\"r\")",
    "#raw(\"a\",lang:x,block:true)",
    "#raw(\"a\",lang: x-y.z,block:true)",
    "#raw(\"a\",lang\"r\"block true)",
    "#raw(\"a\",block: : true,lang,lang:)",
    "#raw(\"a\",block:true,block:false)",
    "#raw(\"a\",block:false,block:true)",
    "#raw(\"a\",block:truex)",
    "#raw(\"a\",block:true1)",
    "#raw(\"a\",block:true,theme: x)",
    "#raw(\"a\",lang:\"r)\",lang:\"s\\n\",block:true)",
    "#raw(\"a\",lang:\"r\" + x)",
    "#raw(\"a\",lang: -)",
    "#raw(\"a\",block:(true))",
    "#raw(\"a\",lang:\"r",
    "#raw(\"a\",block:true",
    "#raw(\"a\".)",
    "#link",
    "#linked(x)",
    "#link(",
    "#link()",
    "#link(<x>)[#x]",
    "#link( \n<",
    "#link(\"u\")",
    "#link(\"u\")[t]z",
    "#link(\"u\") \t[t]",
    "#link(\"u\")\n[t]",
    "#link(\"u\")[]",
    "#link(\"u\")[u]",
    "#link(x)[10]#link(x)[1]",
    "#link(\"\\\"\" + x \n)[t]",
    "#link(\"u\")[t",
    "#link(\"u\"",
    "#link(\"u\", x)[t]",
    "#link(x_y + )[]]",
    "#link \t(d.k)  x",
];

/// Each text with buffers that just suffice; where it writes or binds, also with one that is too short by one.
fn readings() -> Vec<Case> {
    let inner = [("a-b", text("hyphen")), ("a_b", text("under")), ("e", Value::Dictionary(tree(&[("k", text("w"))])))];
    let dictionary = [tree(&inner), tree(&[("k", text("v"))])].into_iter().flatten().collect();
    let small = encoded(&[("x", text("10")), ("x_y", text("xy"))]);
    let whole =
        encoded(&[("d", Value::Dictionary(dictionary)), ("n", Value::None), ("x", text("10")), ("x_y", text("xy"))]);
    let mut all = Vec::new();
    for line in TEXTS {
        let dotted = line.contains(['d', 'n']) && !line.contains("link(\"");
        let sheet = if dotted { &whole } else { &small };
        all.extend(around(&no_files(), sheet, line, &[(0, 0), (-1, 0)]));
        if line.contains("#let") {
            all.extend(around(&no_files(), sheet, line, &[(1, -1)]));
        }
    }
    all
}

/// Bytes on both sides of each class: blanks, line blanks, letters, digits, and those of names and runs.
fn classes() -> Vec<Case> {
    let sheet = encoded(&[("x", text("10"))]);
    let mut all = Vec::new();
    for c in "\x08\t\n\x0b\x0c\r\x0e\x1c\x1f !".chars() {
        for line in
            [format!("#raw{c}({c}x{c})"), format!("#let{c}y{c}={c}x{c}\n#y"), format!("#link({c}x{c}+{c}x{c}){c}[t]")]
        {
            all.extend(around(&no_files(), &sheet, &line, &[(0, 0)]));
        }
    }
    for c in "/09:@AZ[^_`az{-.".chars() {
        for line in [format!("#let x{c} = 1\n#x{c}|"), format!("#{c}#raw(x,x{c}:y)"), format!("#link({c}x)")] {
            all.extend(around(&no_files(), &sheet, &line, &[(0, 0)]));
        }
    }
    all
}

/// Names that are alike for long, that `-` and `_` put in different places, and below each other.
fn names() -> Vec<Case> {
    let sheet = encoded(&[("a0", text("1")), ("aZ", text("x")), ("aa", text("3")), ("x", text("10"))]);
    let mut all = Vec::new();
    for line in ["#let a- = x\n", "#let a-b = x\n#a_b", "#aZ#raw(aZ)#link(aZ)[x]", "#let aZ = aZ\n#aZ"] {
        all.extend(around(&no_files(), &sheet, line, &[(0, 0)]));
    }
    let long = "n".repeat(255);
    all.extend(around(&no_files(), &sheet, &format!("#let {long}a = 1\n#let {long}b = 2\n#{long}a"), &[(0, 0)]));
    let mut nested = text("end");
    for _ in 0..6 {
        nested = Value::Dictionary(tree(&[("k", nested)]));
    }
    let deep = encoded(&[("k", nested)]);
    for line in ["#k.k.k.k.k.k.k", "#k.k.k.k.k.k.k.k", "#let y = k.k.k\n#y.k.k.k.k", "#let k = k.k\n#k.k.k.k.k.k"] {
        all.extend(around(&no_files(), &deep, line, &[(0, 0)]));
    }
    all
}

/// A binding at each place of the sheet: new, or in the place of one; longer, as long and shorter. And long ones.
fn bindings() -> Vec<Case> {
    let sheet = encoded(&[
        ("", text("e")),
        ("a", text("10")),
        ("b", Value::None),
        ("d", Value::Dictionary(tree(&[("", text("k"))]))),
    ]);
    let mut all = Vec::new();
    for name in ["", "0", "_", "a", "a_", "aa", "b", "c", "d", "z"] {
        for value in ["", "12", "d", "b", "longer text"] {
            all.extend(around(&no_files(), &sheet, &format!("#let {name} = {value}\n"), &[(0, 1)]));
        }
    }
    for n in [255, 256, 300] {
        let (name, value) = ("n".repeat(n), "v".repeat(n));
        all.extend(around(&no_files(), &sheet, &format!("#let {name} = a\n#{name}"), &[(0, 0)]));
        all.extend(around(&no_files(), &sheet, &format!("#let c = {value}\n"), &[(0, 0), (0, -1)]));
    }
    all
}

/// Every length of either buffer, up to one that suffices.
fn rooms() -> Vec<Case> {
    let sheet = encoded(&[("x", text("10"))]);
    let line = "a#x#let y = x\n#raw(y)#link(y)[t]";
    let (written, longest) = lengths(&no_files(), line.as_bytes(), &sheet);
    let (written, longest) = (written as isize, longest as isize);
    let outs = (-written..=1).map(|out| (out, 0));
    let lefts = (-longest..=1).map(|left| (0, left));
    around(&no_files(), &sheet, line, &outs.chain(lefts).collect::<Vec<_>>())
}

const READS: [&str; 36] = [
    "read(\"a\")",
    "read(\"/a\")",
    "read(\"//a\")",
    "read(\"d/b\")",
    "read(\"/d/b\")",
    "read(\"d\")",
    "read(\"d/\")",
    "read(\"n\")",
    "read(\"a/b\")",
    "read(\"d/n\")",
    "read(\"\")",
    "read(\"/\")",
    "read(\".\")",
    "read(\"../a\")",
    "read(\" a\")",
    "read(\"a\\n\")",
    "read(\"h\")",
    "read(p)",
    "read(\"d\" + s + \"b\")",
    "read(\"a\" x)",
    "read(\"a\" (x)",
    "read(\"a\"",
    "read(\"a",
    "read(\n\"a\")",
    "read\n \t(\"a\")",
    "read",
    "read \n",
    "readme",
    "read[\"a\"]",
    "rea(\"a\")",
    "read(\"a\"), block: true",
    "read(\"e\"), block: true",
    "read(\"n\") \"b\"",
    "read(\"a\") \"b\"",
    "read(\"h\") \"b\"",
    "read(\"..\") \"b\"",
];

fn paths() -> Vec<Case> {
    let entries: [(&str, &[u8]); 4] = [("a", b"A \n"), ("d/b", b"B"), ("e", b""), ("h", b"\x80")];
    let files: Files = entries.iter().map(|(path, content)| (path.as_bytes().to_vec(), content.to_vec())).collect();
    let bundle = bundle::encode(&files).expect("a bundle");
    let sheet = encoded(&[("p", text("d/b")), ("s", text("/"))]);
    let mut all = Vec::new();
    for read in READS {
        all.extend(around(&bundle, &sheet, &format!("#raw({read})z"), &[(0, 0)]));
    }
    for read in ["read(\"n\")", "read(\"a\")\"b\"", "read(\"a\")"] {
        all.extend(around(&bundle, &sheet, &format!("x#raw({read})"), &[(-1, 0)]));
    }
    let longest = "p".repeat(255);
    all.extend(around(&bundle, &sheet, &format!("#raw(read(\"/{longest}\"))"), &[(0, 0)]));
    all.extend(around(&bundle, &sheet, &format!("#raw(read(\"{longest}p\"))"), &[(0, 0)]));
    all
}

/// Bytes from 128, and which refusal of the arguments comes first.
fn bytes() -> Vec<Case> {
    let good = encoded(&[("x", text("10"))]);
    let (no_bundle, no_sheet) = (vec![0], vec![16]);
    let mut all = Vec::new();
    for bundle in [&no_files(), &no_bundle] {
        for sheet in [&good, &no_sheet] {
            for line in [&b"#x"[..], b"#x\x80", b"\xff", b"\x7f"] {
                for left in [good.len(), 0] {
                    let (bundle, sheet) = (bundle.clone(), sheet.clone());
                    all.push(Case { bundle, text: line.to_vec(), sheet, out: 3, left });
                }
            }
        }
    }
    all
}

/// A sheet and a bundle, cut at each place.
fn broken() -> Vec<Case> {
    let sheet = encoded(&[("d", Value::Dictionary(tree(&[("k", text("v"))]))), ("x", text("10"))]);
    let files = Files::from([(b"d/b".to_vec(), b"B".to_vec())]);
    let bundle = bundle::encode(&files).expect("a bundle");
    let case = |bundle: &[u8], sheet: &[u8]| Case {
        bundle: bundle.into(),
        text: b"#x#d.k".to_vec(),
        sheet: sheet.into(),
        out: 4,
        left: 32,
    };
    let sheets = (0..sheet.len()).map(|n| case(&no_files(), &sheet[..n]));
    let bundles = (0..=bundle.len()).map(|n| case(&bundle[..n], &sheet));
    sheets.chain(bundles).collect()
}
