//! `preprocess_typst`: the accepted calls against the reference's, output and bindings; the refused ones against 01 as
//! `oracle::expansion` reads it.
use super::{Mode, same};
use crate::buffer::Buffer;
use crate::bundles;
use crate::case::{Case, Form};
use crate::damage::damaged;
use crate::expansions::{Group, inside, rooms, through_a_call};
use crate::rng::Rng;
use crate::sheets;
use oracle::expansion::{Answer, Expanded, Seen, answer, tree_of};
use oracle::includes::files_of;
use oracle::layout::is_text;
use oracle::{Context, Files, Tree, Unpacked, preprocess_typst_below, sheet};
use wagtailfen::preprocess_typst;

/// How many cases are made with the files and the sheet of one group.
const USES: usize = 40;
/// In one case of so many the output buffer ends inside of a call's output, if there is a call.
pub const INSIDE: usize = 9;

#[derive(Default)]
pub struct Expansion {
    group: Option<(Group, Vec<u8>, Vec<u8>)>,
    uses: usize,
    disk: Option<Disk>,
    bindings: Option<Bindings>,
    tally: Tally,
}

/// The last bundle, kept for the cases that follow with the same.
struct Disk {
    bundle: Vec<u8>,
    files: Option<Files>,
    /// Unpacked when a text that reads is put to the reference for the first time.
    unpacked: Option<Unpacked>,
    /// For texts that read nothing.
    empty: Unpacked,
}

/// The last sheet, likewise.
struct Bindings {
    sheet: Vec<u8>,
    tree: Option<Tree>,
    context: Option<Context>,
}

/// What a call is given, but for its buffers.
pub struct Arguments {
    pub bundle: Vec<u8>,
    pub text: Vec<u8>,
    pub sheet: Vec<u8>,
}

impl Mode for Expansion {
    fn name(&self) -> &'static str {
        "expansion"
    }

    fn case(&mut self, rng: &mut Rng) -> Case {
        let Arguments { bundle, text, sheet } = self.arguments(rng);
        let whole = self.answer(&bundle, &text, &sheet, usize::MAX, usize::MAX);
        let (mut out, left) = rooms(whole.written, whole.longest, rng);
        if rng.one_in(INSIDE)
            && let Some(start) = through_a_call(&text, rng)
        {
            out = inside(self.answer(&bundle, start, &sheet, usize::MAX, usize::MAX).written, rng);
        }
        Case::default()
            .input("bundle", Form::Bundle, bundle)
            .input("text", Form::Plain, text)
            .input("sheet", Form::Sheet, sheet)
            .room("out", out)
            .room("left", left)
    }

    fn run(&mut self, case: &Case) -> Result<&'static str, String> {
        let (bundle, text, sheet) = (case.bytes(0), case.bytes(1), case.bytes(2));
        let wanted = self.answer(bundle, text, sheet, case.len(0), case.len(1));
        let (number, expanded) = match &wanted.result {
            Ok(expanded) => (0, self.reference(text, expanded)?),
            Err(5) => (5, self.reference_fails(text)?),
            Err(number) => (*number, nothing()),
        };
        let left_bytes = sheet::encode(&expanded.left).ok_or("this driver: bindings that fit no sheet")?;
        let mut out = Buffer::new(case.len(0));
        let mut left = Buffer::new(case.len(1));
        let here = preprocess_typst(bundle, text, sheet, out.inside(), left.inside());
        let lengths = (expanded.out.len(), left_bytes.len());
        same("preprocess_typst", (here.number, here.len, here.sheet_len), (number, lengths.0, lengths.1))?;
        out.check("preprocess_typst: out", &expanded.out)?;
        left.check("preprocess_typst: left", &left_bytes)?;
        same("the sheet left", sheet::decode(&left.inside()[..here.sheet_len]), Some(expanded.left))?;
        self.tally.count(&wanted);
        Ok(label(number, case, &wanted))
    }

    fn summary(&self) -> Option<String> {
        Some(self.tally.summary())
    }
}

fn nothing() -> Expanded {
    Expanded { out: vec![], left: Tree::new() }
}

impl Expansion {
    pub fn arguments(&mut self, rng: &mut Rng) -> Arguments {
        if self.uses == 0 {
            let group = Group::new(rng);
            let (bundle, sheet) = (group.bundle(), group.sheet());
            self.group = Some((group, bundle, sheet));
            self.uses = USES;
        }
        self.uses -= 1;
        let (group, bundle, sheet) = self.group.as_ref().expect("a group");
        let text = group.text(rng);
        let bundle = match rng.below(300) {
            0 => bundles::damaged_bundle(rng).0,
            1..4 => damaged(bundle.clone(), rng),
            _ => bundle.clone(),
        };
        let sheet = match rng.below(300) {
            0..2 => sheets::damaged_sheet(rng).0,
            2..5 => damaged(sheet.clone(), rng),
            _ => sheet.clone(),
        };
        Arguments { bundle, text, sheet }
    }

    /// What 01 says.
    pub fn answer(&mut self, bundle: &[u8], text: &[u8], sheet: &[u8], out: usize, left: usize) -> Answer {
        if self.disk.as_ref().is_none_or(|disk| disk.bundle != bundle) {
            self.disk = Some(Disk::new(bundle, self.disk.take()));
        }
        if self.bindings.as_ref().is_none_or(|bindings| bindings.sheet != sheet) {
            let tree = tree_of(sheet);
            let context = tree.as_ref().and_then(Context::new);
            self.bindings = Some(Bindings { sheet: sheet.to_vec(), tree, context });
        }
        answer(self.files(), text, self.bindings.as_ref().and_then(|bindings| bindings.tree.as_ref()), out, left)
    }

    pub fn files(&self) -> Option<&Files> {
        self.disk.as_ref().and_then(|disk| disk.files.as_ref())
    }

    /// The reference's answer for a call that 01 accepts. It must be 01's.
    fn reference(&mut self, text: &[u8], by_01: &Expanded) -> Result<Expanded, String> {
        let (out, left) = self.ask(text)?.map_err(|e| format!("this driver: 01 accepts, the reference: {e}"))?;
        let expanded = Expanded { out: out.into_bytes(), left: left.tree() };
        if expanded != *by_01 {
            return Err(format!("this driver: by 01 {by_01:?}, the reference {expanded:?}"));
        }
        Ok(expanded)
    }

    /// Nothing, where the reference fails as 01 does with 5.
    fn reference_fails(&mut self, text: &[u8]) -> Result<Expanded, String> {
        match self.ask(text)? {
            Ok(_) => Err("this driver: 5 by 01, and the reference accepts".into()),
            Err(_) => Ok(nothing()),
        }
    }

    fn ask(&mut self, text: &[u8]) -> Result<Result<(String, Context), String>, String> {
        let text = str::from_utf8(text).map_err(|e| e.to_string())?;
        let context =
            self.bindings.as_ref().and_then(|bindings| bindings.context.as_ref()).ok_or("this driver: no sheet")?;
        let disk = self.disk.as_mut().ok_or("this driver: no bundle")?;
        Ok(preprocess_typst_below(disk.folder(text.contains("read"))?, text, context))
    }
}

impl Disk {
    /// The empty folder is handed on.
    fn new(bundle: &[u8], last: Option<Disk>) -> Disk {
        let empty = last.map(|disk| disk.empty);
        let empty = empty.unwrap_or_else(|| Unpacked::new(&Files::new()).expect("a folder for files"));
        Disk { bundle: bundle.to_vec(), files: files_of(bundle), unpacked: None, empty }
    }

    fn folder(&mut self, read: bool) -> Result<&Unpacked, String> {
        if !read {
            return Ok(&self.empty);
        }
        let unpacked = match self.unpacked.take() {
            Some(unpacked) => unpacked,
            None => Unpacked::new(self.files.as_ref().ok_or("this driver: no bundle")?).map_err(|e| e.to_string())?,
        };
        Ok(self.unpacked.insert(unpacked))
    }
}

fn label(number: u8, case: &Case, wanted: &Answer) -> &'static str {
    match number {
        0 => "accepted",
        2 => "2 bundle",
        3 => "3 sheet",
        4 => "4 path",
        5 => "5 absent",
        6 if !is_text(case.bytes(1)) => "6 text",
        6 => "6 file",
        8 => "8 stalled",
        9 if case.bytes(2).len() == wanted.longest => "9 sheet given",
        9 => "9 let",
        _ => "11 short",
    }
}

/// How many of the accepted cases do what.
#[derive(Default)]
struct Tally {
    accepted: u64,
    does: [u64; KINDS.len()],
    nothing: u64,
}

type Kind = (&'static str, fn(&Seen) -> usize);

const KINDS: [Kind; 19] = [
    ("a raw", |s| s.raws),
    ("a block", |s| s.blocks),
    ("a block that loses blanks", |s| s.trimmed),
    ("a file read", |s| s.reads),
    ("a link", |s| s.links),
    ("a link whose text is its address", |s| s.equal),
    ("a link that keeps its text", |s| s.boxes),
    ("an expression of five terms or more", |s| s.most_terms / 5),
    ("a mark without (", |s| s.bare),
    ("a call handed back", |s| s.handed_back),
    ("a call without its end", |s| s.unended),
    ("a let", |s| s.lets),
    ("a let that replaces", |s| s.replaced),
    ("a let that finds a value", |s| s.copied),
    ("a let that finds a dictionary", |s| s.dictionaries),
    ("an import", |s| s.imports),
    ("a reference with a text", |s| s.found),
    ("a reference without one", |s| s.missing),
    ("a reference before (", |s| s.called),
];

impl Tally {
    fn count(&mut self, wanted: &Answer) {
        if wanted.result.is_err() {
            return;
        }
        self.accepted += 1;
        for ((_, of), count) in KINDS.iter().zip(&mut self.does) {
            *count += u64::from(of(&wanted.seen) > 0);
        }
        self.nothing += u64::from(wanted.seen == Seen::default());
    }

    fn summary(&self) -> String {
        let share = |n: u64| format!("{:.1} %", 100.0 * n as f64 / self.accepted.max(1) as f64);
        let kinds = KINDS.iter().zip(self.does).map(|((name, _), n)| format!("{name} {}", share(n)));
        format!(
            "  {} accepted, each held against the reference, output and bindings. With {}; plain text alone {}",
            self.accepted,
            kinds.collect::<Vec<_>>().join(", "),
            share(self.nothing)
        )
    }
}
