//! `parse_definitions`: the accepted calls against the reference's, with the files on the disk; the refused ones against 01 as
//! `oracle::definitions` reads it.
use super::{Mode, same};
use crate::buffer::Buffer;
use crate::bundles;
use crate::case::{Case, Form};
use crate::damage::damaged;
use crate::definitions::{Group, rooms};
use crate::rng::Rng;
use oracle::definitions::{Answer, Seen, answer};
use oracle::includes::files_of;
use oracle::layout::is_path;
use oracle::{Files, Tree, Unpacked, bundle, parse_definitions_below, sheet};
use wagtailfen::{Defined, parse_definitions};

/// How many cases are made with the files of one group.
const USES: usize = 40;

#[derive(Default)]
pub struct Definitions {
    group: Option<Group>,
    uses: usize,
    known: Known,
    tally: Tally,
}

/// What is kept from one call of the reference to the next.
#[derive(Default)]
pub struct Known {
    disk: Option<Disk>,
}

/// The files that were unpacked last. From one case to the next few of them differ.
struct Disk {
    files: Files,
    unpacked: Unpacked,
}

impl Mode for Definitions {
    fn name(&self) -> &'static str {
        "definitions"
    }

    fn case(&mut self, rng: &mut Rng) -> Case {
        let (files, path) = self.files(rng);
        let whole = answer(Some(&files), &path, usize::MAX, usize::MAX);
        let (left, work) = rooms(whole.longest, rng);
        let bundle = bundle::encode(&files).expect("lengths that fit");
        let bundle = match rng.below(300) {
            0 => bundles::damaged_bundle(rng).0,
            1..4 => damaged(bundle, rng),
            _ => bundle,
        };
        Case::default()
            .input("bundle", Form::Bundle, bundle)
            .input("path", Form::Plain, path)
            .room("left", left)
            .room("work", work)
    }

    fn run(&mut self, case: &Case) -> Result<&'static str, String> {
        let (bundle, path) = (case.bytes(0), case.bytes(1));
        let files = files_of(bundle);
        let wanted = self.known.compared(bundle, files.as_ref(), path, case.len(0), case.len(1))?;
        self.tally.count(&wanted);
        let number = wanted.result.as_ref().err().copied().unwrap_or(0);
        let there = files.is_some_and(|files| files.contains_key(path));
        Ok(label(number, is_path(path), there, &wanted.seen))
    }

    fn summary(&self) -> Option<String> {
        Some(self.tally.summary())
    }
}

impl Definitions {
    fn files(&mut self, rng: &mut Rng) -> (Files, Vec<u8>) {
        if self.uses == 0 {
            self.group = Some(Group::new(rng));
            self.uses = USES;
        }
        self.uses -= 1;
        self.group.as_ref().expect("a group").files(rng)
    }
}

impl Known {
    /// A call with buffers of these lengths, held against the reference and against 01, whose answer it gives. `files` is None for a bundle
    /// that breaks its layout.
    pub fn compared(
        &mut self,
        bundle: &[u8],
        files: Option<&Files>,
        path: &[u8],
        left_len: usize,
        work_len: usize,
    ) -> Result<Answer, String> {
        let wanted = answer(files, path, left_len, work_len);
        let number = wanted.result.as_ref().err().copied().unwrap_or(0);
        let tree = match &wanted.result {
            Ok(by_01) => self.reference(files, path, by_01)?,
            Err(5) => self.reference_fails(files, path)?,
            Err(_) => Tree::new(),
        };
        let sheet = sheet::encode(&tree).ok_or("this driver: bindings that fit no sheet")?;
        let (mut left, mut work) = (Buffer::new(left_len), Buffer::new(work_len));
        let here = parse_definitions(bundle, path, left.inside(), work.inside());
        same("parse_definitions", here, Defined { number, sheet_len: sheet.len() })?;
        left.check("parse_definitions: left", &sheet)?;
        work.check("parse_definitions: work", b"")?;
        same("the sheet", sheet::decode(&left.inside()[..here.sheet_len]), Some(tree))?;
        Ok(wanted)
    }

    /// The reference's bindings for a call that 01 accepts. They must be 01's.
    fn reference(&mut self, files: Option<&Files>, path: &[u8], by_01: &Tree) -> Result<Tree, String> {
        let tree = self.ask(files, path)?.map_err(|e| format!("this driver: 01 accepts, the reference: {e}"))?;
        if tree != *by_01 {
            return Err(format!("this driver: by 01 {by_01:?}, the reference {tree:?}"));
        }
        Ok(tree)
    }

    /// Nothing, where the reference fails as 01 does with 5.
    fn reference_fails(&mut self, files: Option<&Files>, path: &[u8]) -> Result<Tree, String> {
        match self.ask(files, path)? {
            Ok(_) => Err("this driver: 5 by 01, and the reference accepts".into()),
            Err(_) => Ok(Tree::new()),
        }
    }

    fn ask(&mut self, files: Option<&Files>, path: &[u8]) -> Result<Result<Tree, String>, String> {
        let files = files.ok_or("this driver: no bundle")?;
        let path = str::from_utf8(path).map_err(|e| e.to_string())?;
        let unpacked = match self.disk.take() {
            Some(disk) => disk.unpacked.change(&disk.files, files).map(|()| disk.unpacked),
            None => Unpacked::new(files),
        };
        let unpacked = unpacked.map_err(|e| e.to_string())?;
        let answer = parse_definitions_below(&unpacked, path).map(|context| context.tree());
        self.disk = Some(Disk { files: files.clone(), unpacked });
        Ok(answer)
    }
}

/// `good` and `there`: does the path asked for keep the rule, and is it a file.
fn label(number: u8, good: bool, there: bool, seen: &Seen) -> &'static str {
    match number {
        0 => "accepted",
        1 => "1 work",
        2 => "2 bundle",
        4 if !good => "4 path asked for",
        4 => "4 path imported",
        5 if !there => "5 absent",
        5 => "5 folder imported",
        6 => "6 file",
        7 if seen.import_depth == 6 => "7 six imports deep",
        7 => "7 dictionaries",
        _ => "9 over L",
    }
}

/// How many of the accepted cases do what.
#[derive(Default)]
struct Tally {
    accepted: u64,
    does: [u64; KINDS.len()],
    nothing: u64,
    depths: [u64; 7],
    import_depths: [u64; 7],
}

type Kind = (&'static str, fn(&Seen) -> usize);

const KINDS: [Kind; 20] = [
    ("a let", |s| s.lets),
    ("a let or an import that replaces", |s| s.replaced),
    ("a text", |s| s.texts),
    ("a sum", |s| s.sums),
    ("a reference with a text", |s| s.found),
    ("one to a key", |s| s.keyed),
    ("none by its name", |s| s.nones),
    ("none for want of a value", |s| s.no_values),
    ("a dictionary", |s| s.dictionaries),
    ("a key doubled", |s| s.doubled),
    ("an empty key", |s| s.no_keys),
    ("a dictionary without its end", |s| s.unended),
    ("a file imported", |s| s.imports),
    ("names imported", |s| s.imported),
    ("an import with *", |s| s.stars),
    ("an import with two words or more", |s| s.lists),
    ("a word that the file does not bind", |s| s.lost),
    ("an import of what is absent", |s| s.passed_over),
    ("an import without a literal", |s| s.unquoted),
    ("a comment", |s| s.comments),
];

impl Tally {
    fn count(&mut self, wanted: &Answer) {
        if wanted.result.is_err() {
            return;
        }
        self.accepted += 1;
        for ((_, of), count) in KINDS.iter().zip(&mut self.does) {
            *count += u64::from(of(&wanted.seen) > 0);
        }
        self.nothing += u64::from(wanted.seen == Seen::default());
        self.depths[wanted.seen.depth] += 1;
        self.import_depths[wanted.seen.import_depth] += 1;
    }

    fn summary(&self) -> String {
        let share = |n: u64| format!("{:.1} %", 100.0 * n as f64 / self.accepted.max(1) as f64);
        let kinds = KINDS.iter().zip(self.does).map(|((name, _), n)| format!("{name} {}", share(n)));
        let levels = |counts: &[u64; 7]| {
            counts.iter().enumerate().map(|(i, &n)| format!("{i} {}", share(n))).collect::<Vec<_>>().join(", ")
        };
        format!(
            "  {} accepted, each held against the reference. With {}; nothing of these {}\n  levels of dictionaries: {}\n  levels of \
             imports: {}",
            self.accepted,
            kinds.collect::<Vec<_>>().join(", "),
            share(self.nothing),
            levels(&self.depths),
            levels(&self.import_depths)
        )
    }
}
