//! Demand 3 on the code: passes over the parts of a text, each from the sheet that the one before it left, beside one pass over the whole
//! text. Wherever each part but the last is closed and the pass over the whole is accepted, every pass must be accepted, their outputs joined
//! must be its output, and the last sheet and the last `closed` must be its own. Whether a part is closed is asked of `oracle::pass`; each
//! pass, whatever the parts are, must also answer what `oracle::pass` says.
use super::expansion::INSIDE;
use super::pass::{Known, Left, call, case, rooms_of};
use super::{Mode, same, same_bytes};
use crate::case::{Case, Form};
use crate::expansions::short;
use crate::passes::Group;
use crate::rng::Rng;
use oracle::expansion::tree_of;
use oracle::pass::{Rooms, answer};

/// How many cases are made with the files and the sheet of one group.
const USES: usize = 40;
/// How often a part that is not closed is made anew.
const TRIES: usize = 6;
const MOST_PARTS: usize = 8;

#[derive(Default)]
pub struct Parts {
    group: Option<(Group, Vec<u8>, Vec<u8>)>,
    uses: usize,
    known: Known,
    tally: Tally,
}

impl Mode for Parts {
    fn name(&self) -> &'static str {
        "parts"
    }

    /// A text with the places where it is cut: parts that were made one by one, or a text cut anywhere.
    fn case(&mut self, rng: &mut Rng) -> Case {
        if self.uses == 0 {
            let group = Group::new(rng);
            let (bundle, sheet) = (group.bundle(), group.sheet());
            self.group = Some((group, bundle, sheet));
            self.uses = USES;
        }
        self.uses -= 1;
        let (group, bundle, sheet) = self.group.as_ref().expect("a group");
        let folder = group.folder(rng);
        let known = self.known.with(bundle, sheet);
        let (text, cuts) =
            if rng.one_in(5) { cut_text(group, &folder, rng) } else { joined_parts(group, known, &folder, rng) };
        let whole = answer(known.files.as_ref(), &folder, &text, known.tree.as_ref(), Rooms::WIDE);
        let mut rooms = rooms(whole.needed(), rng);
        if rng.one_in(INSIDE)
            && let Some(out) = known.room_inside(&folder, &text, rng)
        {
            rooms.out = out;
        }
        let case = case(bundle.clone(), folder, text, sheet.clone(), rooms);
        case.input("cuts", Form::Plain, cuts.iter().flat_map(|&at| (at as u32).to_le_bytes()).collect())
    }

    fn run(&mut self, case: &Case) -> Result<&'static str, String> {
        let (bundle, folder, text, sheet) = (case.bytes(0), case.bytes(1), case.bytes(2), case.bytes(3));
        let rooms = rooms_of(case);
        let known = self.known.with(bundle, sheet);
        let (files, tree) = (known.files.as_ref(), known.tree.as_ref());
        let whole = call("the whole text", bundle, folder, text, sheet, rooms)?;
        whole.same_as("the whole text", &answer(files, folder, text, tree, rooms))?;

        let parts = parts(text, case.bytes(4));
        let mut passes: Vec<Left> = Vec::new();
        let mut all_closed = true;
        for (i, part) in parts.iter().enumerate() {
            let from = passes.last().map_or(sheet, |pass| &pass.sheet);
            let bindings = if i == 0 { tree.cloned() } else { tree_of(from) };
            let name = format!("part {i}");
            let pass = call(&name, bundle, folder, part, from, rooms)?;
            pass.same_as(&name, &answer(files, folder, part, bindings.as_ref(), rooms))?;
            let unlimited = answer(files, folder, part, bindings.as_ref(), Rooms::WIDE);
            all_closed &= i + 1 == parts.len() || unlimited.result.is_ok_and(|passed| passed.closed);
            passes.push(pass);
        }
        if whole.number != 0 || !all_closed {
            return Ok(if all_closed { "refused as a whole" } else { "a part open" });
        }
        agree(&passes, &whole)?;
        self.tally.count(&parts);
        Ok("compared")
    }

    fn summary(&self) -> Option<String> {
        Some(self.tally.summary())
    }
}

/// What demand 3 says.
fn agree(passes: &[Left], whole: &Left) -> Result<(), String> {
    let numbers: Vec<u8> = passes.iter().map(|pass| pass.number).collect();
    same("the numbers of the parts", numbers, vec![0; passes.len()])?;
    let joined: Vec<u8> = passes.iter().flat_map(|pass| pass.out.iter().copied()).collect();
    let last = passes.last().ok_or("this driver: no part")?;
    same_bytes("the outputs joined", &joined, &whole.out)?;
    same_bytes("the last sheet", &last.sheet, &whole.sheet)?;
    same("closed of the last", last.closed, whole.closed)
}

/// Parts of which all but the last are closed, for the most part, for the sheets that they start from; and where each but the first begins.
fn joined_parts(group: &Group, known: &Known, folder: &[u8], rng: &mut Rng) -> (Vec<u8>, Vec<usize>) {
    let mut bindings = known.tree.clone();
    let (mut text, mut cuts) = (Vec::new(), Vec::new());
    let count = rng.between(1, MOST_PARTS);
    for i in 0..count {
        if i > 0 {
            cuts.push(text.len());
        }
        let mut part = Vec::new();
        for _ in 0..TRIES {
            part = if rng.one_in(12) { vec![] } else { group.part(folder, rng) };
            let pass = answer(known.files.as_ref(), folder, &part, bindings.as_ref(), Rooms::WIDE);
            let Ok(passed) = pass.result else { continue };
            if passed.closed || i + 1 == count {
                bindings = Some(passed.left);
                break;
            }
        }
        text.extend(part);
    }
    (text, cuts)
}

/// A text, and where it is cut: behind newlines, or anywhere.
fn cut_text(group: &Group, folder: &[u8], rng: &mut Rng) -> (Vec<u8>, Vec<usize>) {
    let text = group.text(folder, rng);
    let newlines: Vec<usize> = (1..=text.len()).filter(|&i| text[i - 1] == b'\n').collect();
    let anywhere = newlines.is_empty() || rng.one_in(3);
    let place = |rng: &mut Rng| if anywhere { rng.below(text.len() + 1) } else { *rng.pick(&newlines) };
    let mut cuts: Vec<usize> = (0..rng.between(1, 4)).map(|_| place(rng)).collect();
    cuts.sort_unstable();
    (text, cuts)
}

/// The parts of a text that is cut at these places, 32 bits each; a place behind the end is the end. One part or more.
fn parts<'a>(text: &'a [u8], cuts: &[u8]) -> Vec<&'a [u8]> {
    let place = |four: &[u8; 4]| (u32::from_le_bytes(*four) as usize).min(text.len());
    let mut places: Vec<usize> = cuts.as_chunks().0.iter().map(place).collect();
    places.extend([0, text.len()]);
    places.sort_unstable();
    places.windows(2).map(|pair| &text[pair[0]..pair[1]]).collect()
}

/// Mostly just enough for the whole text; at times too short.
fn rooms(enough: Rooms, rng: &mut Rng) -> Rooms {
    let more = |len: usize, rng: &mut Rng| if rng.one_in(4) { len + rng.below(60) } else { len };
    let Rooms { middle, out, left } = enough;
    match rng.below(30) {
        0 => Rooms { middle: middle.saturating_sub(1), ..enough },
        1 => Rooms { out: short(out, rng), ..enough },
        2 => Rooms { left: left.saturating_sub(1), ..enough },
        _ => Rooms { middle: more(middle, rng), out: more(out, rng), left: more(left, rng) },
    }
}

/// The lists that were compared, by their lengths.
#[derive(Default)]
struct Tally {
    lists: u64,
    by_length: [u64; 10],
    empty_parts: u64,
    passes: u64,
}

impl Tally {
    fn count(&mut self, parts: &[&[u8]]) {
        self.lists += 1;
        self.passes += parts.len() as u64;
        self.by_length[parts.len().min(9)] += 1;
        self.empty_parts += u64::from(parts.iter().any(|part| part.is_empty()));
    }

    fn summary(&self) -> String {
        let lengths = self.by_length.iter().enumerate().filter(|(_, n)| **n > 0);
        let lengths = lengths.map(|(length, n)| format!("{length} {n}")).collect::<Vec<_>>().join(", ");
        format!(
            "  {} lists of passes compared with the pass over the whole, {} passes in them; lists by the number of their parts: {lengths}; with \
             an empty part {}",
            self.lists, self.passes, self.empty_parts
        )
    }
}

#[cfg(test)]
mod tests {
    use super::*;

    #[test]
    fn parts_of_a_text() {
        assert_eq!(parts(b"abc", b"\x01\0\0\0\x09\0\0\0\x01\0\0\0"), [&b"a"[..], b"", b"bc", b""]);
        assert_eq!(parts(b"abc", b"\x01\0"), [b"abc"]);
        assert_eq!(parts(b"", b""), [b""]);
    }

    #[test]
    fn what_must_agree() {
        let left = |out: &[u8], closed| Left { number: 0, out: out.to_vec(), sheet: vec![], closed };
        assert_eq!(agree(&[left(b"a", true), left(b"b", false)], &left(b"ab", false)), Ok(()));
        assert!(agree(&[left(b"a", true), left(b"b", true)], &left(b"ab", false)).is_err());
        assert!(agree(&[left(b"a", true), left(b"c", false)], &left(b"ab", false)).is_err());
        assert!(agree(&[Left { number: 9, ..left(b"", false) }, left(b"ab", false)], &left(b"ab", false)).is_err());
        assert!(agree(&[Left { sheet: vec![8], ..left(b"ab", false) }], &left(b"ab", false)).is_err());
    }
}
