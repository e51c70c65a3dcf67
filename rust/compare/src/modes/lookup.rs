//! `resolve`: the accepted calls against both lookups of the reference, the kind by its `resolve` and the text by its `resolve_string`;
//! the refused ones against 01 and 02 as `oracle::lookup` reads them.
use super::{Mode, same};
use crate::buffer::Buffer;
use crate::case::{Case, Form};
use crate::rng::Rng;
use crate::sheets;
use oracle::layout::is_sheet;
use oracle::lookup::{KINDS, Looked, answer};
use oracle::{Context, Tree, sheet};
use wagtailfen::{Resolved, TEXT, resolve};

#[derive(Default)]
pub struct Lookup {
    /// Bytes that mostly are no sheet, in every case and not only in one of so many.
    damaged: bool,
    tally: Tally,
}

const DAMAGED_ONE_IN: usize = 8;

impl Lookup {
    pub fn damaged() -> Lookup {
        Lookup { damaged: true, ..Lookup::default() }
    }
}

impl Mode for Lookup {
    fn name(&self) -> &'static str {
        if self.damaged { "damaged-sheets" } else { "lookups" }
    }

    fn case(&mut self, rng: &mut Rng) -> Case {
        let damaged = self.damaged || rng.one_in(DAMAGED_ONE_IN);
        let (sheet, path) = if damaged { sheets::damaged_sheet(rng) } else { kept(rng) };
        let room = sheets::room(text_length(&sheet, &path), rng);
        Case::default().input("sheet", Form::Sheet, sheet).input("path", Form::Plain, path).room("out", room)
    }

    fn run(&mut self, case: &Case) -> Result<&'static str, String> {
        let (sheet, path, room) = (case.bytes(0), case.bytes(1), case.len(0));
        let tree = tree_of(sheet)?;
        let whole = answer(tree.as_ref(), path, usize::MAX);
        if let (Some(tree), Ok(whole)) = (&tree, &whole) {
            held_against_reference(tree, path, whole)?;
        }
        let wanted = answer(tree.as_ref(), path, room);
        let number = wanted.as_ref().err().copied().unwrap_or(0);
        let Looked { kind, text } = wanted.unwrap_or_default();
        let mut out = Buffer::new(room);
        let here = resolve(sheet, path, out.inside());
        same("resolve", here, Resolved { number, kind, len: text.len() })?;
        out.check("resolve: out", &text)?;
        self.tally.count(here, whole.map_or(0, |looked| looked.text.len()), room);
        Ok(label(here))
    }

    fn summary(&self) -> Option<String> {
        Some(self.tally.summary())
    }
}

fn kept(rng: &mut Rng) -> (Vec<u8>, Vec<u8>) {
    let tree = sheets::tree(rng);
    let path = sheets::path(&tree, rng);
    (sheet::encode(&tree).expect("lengths of 16 bits"), path)
}

/// How long the text is that the path names, also in a sheet that breaks a rule but can be read; 0 where it names none.
fn text_length(sheet: &[u8], path: &[u8]) -> usize {
    let tree = sheet::decode(sheet);
    answer(tree.as_ref(), path, usize::MAX).map_or(0, |looked| looked.text.len())
}

/// The kind and the text by 01 must be the reference's.
fn held_against_reference(tree: &Tree, path: &[u8], by_01: &Looked) -> Result<(), String> {
    let context = Context::new(tree).ok_or("this driver: a sheet that the reference cannot hold")?;
    let looked = context.looked(str::from_utf8(path).map_err(|e| e.to_string())?);
    if looked == *by_01 { Ok(()) } else { Err(format!("this driver: by 01 {by_01:?}, the reference {looked:?}")) }
}

/// None where a rule is broken. A sheet that keeps them is read, and written back as it is.
fn tree_of(bytes: &[u8]) -> Result<Option<Tree>, String> {
    if !is_sheet(bytes) {
        return Ok(None);
    }
    let tree = sheet::decode(bytes).ok_or("this driver: a sheet that cannot be read")?;
    if sheet::encode(&tree).as_deref() != Some(bytes) {
        return Err("this driver: a sheet that is not written back as it was".into());
    }
    Ok(Some(tree))
}

fn label(here: Resolved) -> &'static str {
    match here.number {
        3 => "3 sheet",
        6 => "6 path",
        11 => "11 short",
        _ if here.kind == TEXT && here.len == 0 => "empty text",
        _ => KINDS[usize::from(here.kind)],
    }
}

/// Which outputs the cases had.
#[derive(Default)]
struct Tally {
    /// Accepted: without a text into no bytes and into some, a text into just its length and into more.
    nothing: [u64; 2],
    texts: [u64; 2],
    /// 11: short by one byte, and by more.
    short: [u64; 2],
}

impl Tally {
    /// `len`: how long the text is.
    fn count(&mut self, here: Resolved, len: usize, room: usize) {
        match here.number {
            0 if len == 0 => self.nothing[usize::from(room > 0)] += 1,
            0 => self.texts[usize::from(room > len)] += 1,
            11 => self.short[usize::from(room + 1 < len)] += 1,
            _ => {}
        }
    }

    fn summary(&self) -> String {
        let Tally { nothing, texts, short } = self;
        format!(
            "  {} accepted, each held against the reference: no bytes to write, and an output of none {}, of some {}; a text, and an \
             output of its length {}, a longer one {}\n  11: short by one {}, by more {}",
            nothing.iter().chain(texts).sum::<u64>(),
            nothing[0],
            nothing[1],
            texts[0],
            texts[1],
            short[0],
            short[1]
        )
    }
}
