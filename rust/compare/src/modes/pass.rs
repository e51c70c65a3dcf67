//! `pass`: the accepted calls against the reference's includes and then its expansion, output and bindings; the refused ones, and whether
//! a text is closed, against 01 as `oracle::pass` reads it.
use super::expansion::INSIDE;
use super::{Mode, same, same_bytes};
use crate::buffer::Buffer;
use crate::bundles;
use crate::case::{Case, Form};
use crate::damage::damaged;
use crate::expansions::{inside, through_a_call};
use crate::passes::{Group, rooms};
use crate::rng::Rng;
use crate::sheets;
use oracle::expansion::tree_of;
use oracle::includes::files_of;
use oracle::layout::{is_folder, is_text};
use oracle::pass::{Answer, Passed, Rooms, answer};
use oracle::{Context, Files, Tree, Unpacked, pass_below, sheet};

/// How many cases are made with the files and the sheet of one group.
const USES: usize = 40;

#[derive(Default)]
pub struct Pass {
    group: Option<(Group, Vec<u8>, Vec<u8>)>,
    uses: usize,
    known: Known,
    tally: Tally,
}

/// The last bundle and the last sheet, kept for the cases that follow with the same.
#[derive(Default)]
pub struct Known {
    bundle: Vec<u8>,
    pub files: Option<Files>,
    unpacked: Option<Unpacked>,
    sheet: Vec<u8>,
    pub tree: Option<Tree>,
    /// Are bundle and sheet of a case already.
    filled: bool,
}

impl Mode for Pass {
    fn name(&self) -> &'static str {
        "pass"
    }

    fn case(&mut self, rng: &mut Rng) -> Case {
        let (group, bundle, sheet) = self.group(rng);
        let folder = group.folder(rng);
        let text = group.text(&folder, rng);
        let bundle = match rng.below(300) {
            0 => bundles::damaged_bundle(rng).0,
            1..4 => damaged(bundle.clone(), rng),
            _ => bundle.clone(),
        };
        let sheet = match rng.below(300) {
            0..2 => sheets::damaged_sheet(rng).0,
            2..5 => damaged(sheet.clone(), rng),
            _ => sheet.clone(),
        };
        let known = self.known.with(&bundle, &sheet);
        let mut rooms = rooms(known.answer(&folder, &text, Rooms::WIDE).needed(), rng);
        if rng.one_in(INSIDE)
            && let Some(out) = known.room_inside(&folder, &text, rng)
        {
            rooms.out = out;
        }
        case(bundle, folder, text, sheet, rooms)
    }

    fn run(&mut self, case: &Case) -> Result<&'static str, String> {
        let (bundle, folder, text, sheet) = (case.bytes(0), case.bytes(1), case.bytes(2), case.bytes(3));
        let wanted = self.known.with(bundle, sheet).compared(folder, text, rooms_of(case))?;
        self.tally.count(&wanted);
        Ok(label(&wanted, folder, text, sheet))
    }

    fn summary(&self) -> Option<String> {
        Some(self.tally.summary())
    }
}

impl Pass {
    fn group(&mut self, rng: &mut Rng) -> &(Group, Vec<u8>, Vec<u8>) {
        if self.uses == 0 {
            let group = Group::new(rng);
            let (bundle, sheet) = (group.bundle(), group.sheet());
            self.group = Some((group, bundle, sheet));
            self.uses = USES;
        }
        self.uses -= 1;
        self.group.as_ref().expect("a group")
    }
}

/// A case of the pass. A mode may put more inputs behind these.
pub fn case(bundle: Vec<u8>, folder: Vec<u8>, text: Vec<u8>, sheet: Vec<u8>, rooms: Rooms) -> Case {
    Case::default()
        .input("bundle", Form::Bundle, bundle)
        .input("folder", Form::Plain, folder)
        .input("text", Form::Plain, text)
        .input("sheet", Form::Sheet, sheet)
        .room("middle", rooms.middle)
        .room("out", rooms.out)
        .room("left", rooms.left)
}

pub fn rooms_of(case: &Case) -> Rooms {
    Rooms { middle: case.len(0), out: case.len(1), left: case.len(2) }
}

/// What a call answered and left in its buffers. What stands behind the results, and all of the middle, was zero.
#[derive(Clone, Debug, PartialEq, Eq)]
pub struct Left {
    pub number: u8,
    pub out: Vec<u8>,
    pub sheet: Vec<u8>,
    pub closed: bool,
}

/// Calls, and looks at every byte of every buffer.
pub fn call(name: &str, bundle: &[u8], folder: &[u8], text: &[u8], sheet: &[u8], rooms: Rooms) -> Result<Left, String> {
    let [mut middle, mut out, mut left] = [rooms.middle, rooms.out, rooms.left].map(Buffer::new);
    let here = wagtailfen::pass(bundle, folder, text, sheet, middle.inside(), out.inside(), left.inside());
    let start = |buffer: &mut Buffer, len: usize| buffer.inside().get(..len).map(<[u8]>::to_vec);
    let (written, bindings) = (start(&mut out, here.len), start(&mut left, here.sheet_len));
    let (Some(written), Some(bindings)) = (written, bindings) else {
        return Err(format!("{name}: {here:?} with buffers of {rooms:?}"));
    };
    middle.check(&format!("{name}: middle"), b"")?;
    out.check(&format!("{name}: out"), &written)?;
    left.check(&format!("{name}: left"), &bindings)?;
    Ok(Left { number: here.number, out: written, sheet: bindings, closed: here.closed })
}

impl Left {
    /// Is it what 01 says.
    pub fn same_as(&self, name: &str, wanted: &Answer) -> Result<(), String> {
        let (number, out, left, closed) = match &wanted.result {
            Ok(Passed { out, left, closed }) => (0, &out[..], sheet::encode(left), *closed),
            Err(number) => (*number, &b""[..], Some(vec![]), false),
        };
        let left = left.ok_or("this driver: bindings that fit no sheet")?;
        let shape = |out: &[u8], left: &[u8], number, closed| (number, out.len(), left.len(), closed);
        let here = shape(&self.out, &self.sheet, self.number, self.closed);
        same(&format!("{name}: number, lengths, closed"), here, shape(out, &left, number, closed))?;
        same_bytes(&format!("{name}: out"), &self.out, out)?;
        same_bytes(&format!("{name}: left"), &self.sheet, &left)
    }
}

impl Known {
    pub fn with(&mut self, bundle: &[u8], sheet: &[u8]) -> &mut Known {
        if !self.filled || self.bundle != bundle {
            self.bundle = bundle.to_vec();
            self.files = files_of(bundle);
            self.unpacked = None;
        }
        if !self.filled || self.sheet != sheet {
            self.sheet = sheet.to_vec();
            self.tree = tree_of(sheet);
        }
        self.filled = true;
        self
    }

    /// The length of an output buffer that ends inside of a call's output.
    pub fn room_inside(&self, folder: &[u8], text: &[u8], rng: &mut Rng) -> Option<usize> {
        let start = through_a_call(text, rng)?;
        Some(inside(self.answer(folder, start, Rooms::WIDE).written, rng))
    }

    /// What 01 says of a pass from this bundle and sheet.
    pub fn answer(&self, folder: &[u8], text: &[u8], rooms: Rooms) -> Answer {
        answer(self.files.as_ref(), folder, text, self.tree.as_ref(), rooms)
    }

    /// Such a pass, held against the reference and against 01, whose answer it gives.
    pub fn compared(&mut self, folder: &[u8], text: &[u8], rooms: Rooms) -> Result<Answer, String> {
        let wanted = self.answer(folder, text, rooms);
        match &wanted.result {
            Ok(passed) => self.held_to_the_reference(folder, text, passed)?,
            Err(5) => self.reference_fails(folder, text)?,
            Err(_) => {}
        }
        call("pass", &self.bundle, folder, text, &self.sheet, rooms)?.same_as("pass", &wanted)?;
        Ok(wanted)
    }

    /// The reference's answer for a call that 01 accepts must be 01's.
    fn held_to_the_reference(&mut self, folder: &[u8], text: &[u8], by_01: &Passed) -> Result<(), String> {
        let (out, left) =
            self.ask(folder, text)?.map_err(|e| format!("this driver: 01 accepts, the reference: {e}"))?;
        if out.as_bytes() != by_01.out || left.tree() != by_01.left {
            return Err(format!("this driver: by 01 {by_01:?}, the reference {out:?} {:?}", left.tree()));
        }
        Ok(())
    }

    /// Where 01 refuses with 5 the reference fails.
    fn reference_fails(&mut self, folder: &[u8], text: &[u8]) -> Result<(), String> {
        match self.ask(folder, text)? {
            Ok(_) => Err("this driver: 5 by 01, and the reference accepts".into()),
            Err(_) => Ok(()),
        }
    }

    fn ask(&mut self, folder: &[u8], text: &[u8]) -> Result<Result<(String, Context), String>, String> {
        let utf8 = |bytes| str::from_utf8(bytes).map_err(|e| e.to_string());
        let context = self.tree.as_ref().and_then(Context::new).ok_or("this driver: no sheet")?;
        let unpacked = match self.unpacked.take() {
            Some(unpacked) => unpacked,
            None => Unpacked::new(self.files.as_ref().ok_or("this driver: no bundle")?).map_err(|e| e.to_string())?,
        };
        let unpacked = self.unpacked.insert(unpacked);
        Ok(pass_below(unpacked, utf8(folder)?, utf8(text)?, &context))
    }
}

fn label(wanted: &Answer, folder: &[u8], text: &[u8], sheet: &[u8]) -> &'static str {
    match &wanted.result {
        Ok(passed) if passed.closed => "accepted, closed",
        Ok(_) => "accepted, open",
        Err(2) => "2 bundle",
        Err(3) => "3 sheet",
        Err(4) if !is_folder(folder) => "4 folder",
        Err(4) => "4 path",
        Err(5) => "5 absent",
        Err(6) if !is_text(text) => "6 text",
        Err(6) => "6 file",
        Err(7) => "7 level",
        Err(8) => "8 stalled",
        Err(9) if sheet.len() == wanted.longest => "9 sheet given",
        Err(9) => "9 let",
        Err(10) => "10 middle",
        Err(_) => "11 short",
    }
}

/// What the accepted cases do.
#[derive(Default)]
struct Tally {
    accepted: u64,
    closed: u64,
    does: [u64; KINDS.len()],
}

type Kind = (&'static str, fn(&Answer) -> usize);

const KINDS: [Kind; 12] = [
    ("an include", |a| a.includes.includes),
    ("a source", |a| a.includes.sources),
    ("a mark of its own that leaves it open", |a| a.includes.open),
    ("a raw or a link", |a| a.expansion.raws + a.expansion.links),
    ("a block that loses blanks", |a| a.expansion.trimmed),
    ("a link whose text is its address", |a| a.expansion.equal),
    ("an expression of five terms or more", |a| a.expansion.most_terms / 5),
    ("a call that the text's end cuts off", |a| a.expansion.unended + a.expansion.handed_back_last),
    ("a call handed back", |a| a.expansion.handed_back),
    ("a file read", |a| a.expansion.reads),
    ("a let", |a| a.expansion.lets),
    ("a reference with a text", |a| a.expansion.found),
];

impl Tally {
    fn count(&mut self, wanted: &Answer) {
        let Ok(passed) = &wanted.result else { return };
        self.accepted += 1;
        self.closed += u64::from(passed.closed);
        for ((_, of), count) in KINDS.iter().zip(&mut self.does) {
            *count += u64::from(of(wanted) > 0);
        }
    }

    fn summary(&self) -> String {
        let share = |n: u64| format!("{:.1} %", 100.0 * n as f64 / self.accepted.max(1) as f64);
        let kinds = KINDS.iter().zip(self.does).map(|((name, _), n)| format!("{name} {}", share(n)));
        format!(
            "  {} accepted, each held against the reference, output and bindings; closed {}. With {}",
            self.accepted,
            share(self.closed),
            kinds.collect::<Vec<_>>().join(", ")
        )
    }
}
