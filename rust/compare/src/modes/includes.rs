//! `resolve_includes`: the accepted calls against the reference's, with the files on the disk; the refused ones against 01 as
//! `oracle::includes` reads it.
use super::{Mode, same};
use crate::buffer::Buffer;
use crate::bundles;
use crate::case::{Case, Form};
use crate::damage::damaged;
use crate::rng::Rng;
use crate::texts::{Group, room};
use oracle::includes::{Answer, Seen, answer, files_of};
use oracle::layout::{is_folder, is_text};
use oracle::{Files, Unpacked, resolve_includes_below};
use wagtailfen::{Text, resolve_includes};

/// How many cases are made with the files of one group.
const USES: usize = 40;

#[derive(Default)]
pub struct Includes {
    group: Option<(Group, Vec<u8>)>,
    uses: usize,
    disk: Option<Disk>,
    tally: Tally,
}

/// The last bundle, kept for the cases that follow with the same.
struct Disk {
    bundle: Vec<u8>,
    files: Option<Files>,
    /// Unpacked when the reference is asked for the first time.
    unpacked: Option<Unpacked>,
}

impl Mode for Includes {
    fn name(&self) -> &'static str {
        "includes"
    }

    fn case(&mut self, rng: &mut Rng) -> Case {
        let (bundle, folder, text) = self.arguments(rng);
        let written = answer(self.disk(&bundle).files.as_ref(), &folder, &text, usize::MAX).written;
        Case::default()
            .input("bundle", Form::Bundle, bundle)
            .input("folder", Form::Plain, folder)
            .input("text", Form::Plain, text)
            .room("out", room(written, rng))
    }

    fn run(&mut self, case: &Case) -> Result<&'static str, String> {
        let (bundle, folder, text, room) = (case.bytes(0), case.bytes(1), case.bytes(2), case.len(0));
        let disk = self.disk(bundle);
        let wanted = answer(disk.files.as_ref(), folder, text, room);
        let (number, result) = match &wanted.result {
            Ok(_) => (0, disk.reference(folder, text)?),
            Err(5) => (5, disk.reference_fails(folder, text)?),
            Err(number) => (*number, vec![]),
        };
        if wanted.result.as_ref().is_ok_and(|text| *text != result) {
            return Err(format!("this driver: 01's text is {:?}, the reference's {result:?}", wanted.result));
        }
        let mut out = Buffer::new(room);
        let here = resolve_includes(bundle, folder, text, out.inside());
        same("resolve_includes", here, Text { number, len: result.len() })?;
        out.check("resolve_includes: out", &result)?;
        self.tally.count(&wanted);
        Ok(label(number, folder, text))
    }

    fn summary(&self) -> Option<String> {
        Some(self.tally.summary())
    }
}

impl Includes {
    fn arguments(&mut self, rng: &mut Rng) -> (Vec<u8>, Vec<u8>, Vec<u8>) {
        if self.uses == 0 {
            let group = Group::new(rng);
            let bundle = group.bundle();
            self.group = Some((group, bundle));
            self.uses = USES;
        }
        self.uses -= 1;
        let (group, bundle) = self.group.as_ref().expect("a group");
        let folder = group.folder(rng);
        let text = group.text(&folder, rng);
        let bundle = match rng.below(200) {
            0 => bundles::damaged_bundle(rng).0,
            1..4 => damaged(bundle.clone(), rng),
            _ => bundle.clone(),
        };
        (bundle, folder, text)
    }

    fn disk(&mut self, bundle: &[u8]) -> &mut Disk {
        if self.disk.as_ref().is_none_or(|disk| disk.bundle != bundle) {
            self.disk = Some(Disk { bundle: bundle.to_vec(), files: files_of(bundle), unpacked: None });
        }
        self.disk.as_mut().expect("a bundle")
    }
}

impl Disk {
    /// The reference's text for a call that 01 accepts.
    fn reference(&mut self, folder: &[u8], text: &[u8]) -> Result<Vec<u8>, String> {
        let out = self.ask(folder, text)?.map_err(|e| format!("this driver: 01 accepts, the reference: {e}"))?;
        Ok(out.into_bytes())
    }

    /// Nothing, where the reference fails as 01 does with 5.
    fn reference_fails(&mut self, folder: &[u8], text: &[u8]) -> Result<Vec<u8>, String> {
        match self.ask(folder, text)? {
            Ok(_) => Err("this driver: 5 by 01, and the reference accepts".into()),
            Err(_) => Ok(vec![]),
        }
    }

    fn ask(&mut self, folder: &[u8], text: &[u8]) -> Result<Result<String, String>, String> {
        let utf8 = |bytes| str::from_utf8(bytes).map_err(|e| e.to_string());
        let (folder, text) = (utf8(folder)?, utf8(text)?);
        let unpacked = match self.unpacked.take() {
            Some(unpacked) => unpacked,
            None => Unpacked::new(self.files.as_ref().ok_or("this driver: no bundle")?).map_err(|e| e.to_string())?,
        };
        let unpacked = self.unpacked.insert(unpacked);
        Ok(resolve_includes_below(unpacked, folder, text))
    }
}

fn label(number: u8, folder: &[u8], text: &[u8]) -> &'static str {
    match number {
        0 => "accepted",
        2 => "2 bundle",
        4 if !is_folder(folder) => "4 folder",
        4 => "4 path",
        5 => "5 absent",
        6 if !is_text(text) => "6 text",
        6 => "6 file",
        7 => "7 level",
        _ => "11 short",
    }
}

/// What the accepted cases do.
#[derive(Default)]
struct Tally {
    accepted: u64,
    include: u64,
    source: u64,
    commented: u64,
    unended: u64,
    none: u64,
    depths: [u64; 7],
}

impl Tally {
    fn count(&mut self, wanted: &Answer) {
        if wanted.result.is_err() {
            return;
        }
        let Seen { includes, sources, commented, unended, depth, .. } = wanted.seen;
        self.accepted += 1;
        self.include += u64::from(includes > 0);
        self.source += u64::from(sources > 0);
        self.commented += u64::from(commented > 0);
        self.unended += u64::from(unended > 0);
        self.none += u64::from(includes + sources + commented + unended == 0);
        self.depths[depth] += 1;
    }

    fn summary(&self) -> String {
        let share = |n: u64| format!("{:.1} %", 100.0 * n as f64 / self.accepted.max(1) as f64);
        let depths = self.depths.iter().enumerate().map(|(depth, &n)| format!("{depth} {}", share(n)));
        format!(
            "  {} accepted, each held against the reference: an include taken {}, a source taken {}, a mark behind // {}, a mark \
             copied for want of quotes or ( {}, no mark {}\n  depth of the includes: {}",
            self.accepted,
            share(self.include),
            share(self.source),
            share(self.commented),
            share(self.unended),
            share(self.none),
            depths.collect::<Vec<_>>().join(", ")
        )
    }
}
