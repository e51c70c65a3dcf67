//! `test_load`: each load against 02 as `oracle::load` reads it, into outputs of several lengths. The reference has no such call; it is asked
//! what comes of the load: a document is passed, from the sheet x = 10 and a bundle of no files, and definitions are read as a file, by both.
use super::{Mode, definitions, pass, same};
use crate::buffer::Buffer;
use crate::case::{Case, Form};
use crate::rng::Rng;
use oracle::definitions::{answer as read, work_needed};
use oracle::load::{ROOM, SEEDS, answer, pieces};
use oracle::pass::Rooms;
use oracle::{Files, bundle};
use std::collections::{BTreeMap, BTreeSet};
use wagtailfen::{Text, test_load};

const NO_FILES: &[u8] = b"\0\0";
/// x = 10.
const SHEET: &[u8] = b"\x03\x01\0x\x02\x0010";
/// The file that holds the definitions.
const PATH: &[u8] = b"f";

#[derive(Default)]
pub struct Loads {
    /// How many cases were made.
    made: u64,
    passes: pass::Known,
    reads: definitions::Known,
    tally: Tally,
}

impl Mode for Loads {
    fn name(&self) -> &'static str {
        "loads"
    }

    /// The seeds from 0 in their order, each with both lists, as long as there are loads that were not there yet; then any seeds.
    fn case(&mut self, rng: &mut Rng) -> Case {
        let (place, definitions) = (self.made / 2, self.made % 2 == 1);
        self.made += 1;
        let seed = if place < u64::from(SEEDS) { place as u32 } else { rng.below(1 << 32) as u32 };
        let len = load(seed, definitions).len();
        Case::default()
            .input("seed", Form::Plain, seed.to_le_bytes().to_vec())
            .input("list", Form::Plain, vec![u8::from(definitions)])
            .room("short", rng.below(len))
            .room("long", len + rng.below(ROOM))
    }

    /// Into outputs of the case's two lengths, of no bytes, one too few, just enough and one too many. And the seed with every bit inverted,
    /// since the seeds in their order have no high bits.
    fn run(&mut self, case: &Case) -> Result<&'static str, String> {
        let (seed, definitions) = (seed_of(case.bytes(0)), case.bytes(1) == [1]);
        let text = load(seed, definitions);
        let len = text.len();
        for room in [0, len - 1, len, len + 1, case.len(0), case.len(1)] {
            call(seed, definitions, room)?;
            self.tally.count_room(room, len);
        }
        call(!seed, definitions, load(!seed, definitions).len())?;
        let number = if definitions { self.read(text)? } else { self.pass(&text)? };
        self.tally.lists[usize::from(definitions)].count(pieces(seed).len(), len, number);
        Ok(if definitions { "definitions" } else { "documents" })
    }

    fn summary(&self) -> Option<String> {
        Some(self.tally.summary())
    }
}

/// The low byte first; bytes that are not there are 0.
fn seed_of(bytes: &[u8]) -> u32 {
    bytes.iter().take(4).rev().fold(0, |seed, &byte| seed << 8 | u32::from(byte))
}

fn load(seed: u32, definitions: bool) -> Vec<u8> {
    answer(seed, definitions, ROOM).expect("no load is longer")
}

fn call(seed: u32, definitions: bool, room: usize) -> Result<(), String> {
    let wanted = answer(seed, definitions, room);
    let number = wanted.as_ref().err().copied().unwrap_or(0);
    let text = wanted.unwrap_or_default();
    let mut out = Buffer::new(room);
    let here = test_load(seed, definitions, out.inside());
    same("test_load", here, Text { number, len: text.len() })
        .and_then(|()| out.check("test_load: out", &text))
        .map_err(|difference| format!("seed {seed}, an output of {room}: {difference}"))
}

impl Loads {
    /// The number of the pass, with buffers that just suffice.
    fn pass(&mut self, text: &[u8]) -> Result<u8, String> {
        let known = self.passes.with(NO_FILES, SHEET);
        let rooms = known.answer(b"", text, Rooms::WIDE).needed();
        let wanted = known.compared(b"", text, rooms)?.result;
        self.tally.closed += u64::from(wanted.as_ref().is_ok_and(|passed| passed.closed));
        Ok(wanted.err().unwrap_or(0))
    }

    /// The number of the definitions call, with buffers that just suffice.
    fn read(&mut self, text: Vec<u8>) -> Result<u8, String> {
        let files = Files::from([(PATH.to_vec(), text)]);
        let bundle = bundle::encode(&files).ok_or("this driver: a load that fits no bundle")?;
        let left = read(Some(&files), PATH, usize::MAX, usize::MAX).longest;
        let wanted = self.reads.compared(&bundle, Some(&files), PATH, left, work_needed(left))?.result;
        Ok(wanted.err().unwrap_or(0))
    }
}

/// Which loads there were, and what came of them.
#[derive(Default)]
struct Tally {
    /// Documents, then definitions.
    lists: [List; 2],
    closed: u64,
    /// Outputs shorter by more than one byte, by one, just long enough, longer by one, by more.
    rooms: [u64; 5],
}

#[derive(Default)]
struct List {
    counts: BTreeSet<usize>,
    lengths: BTreeSet<usize>,
    numbers: BTreeMap<u8, u64>,
}

impl List {
    fn count(&mut self, pieces: usize, len: usize, number: u8) {
        self.counts.insert(pieces);
        self.lengths.insert(len);
        *self.numbers.entry(number).or_default() += 1;
    }

    fn summary(&self) -> String {
        let ends = |set: &BTreeSet<usize>| format!("{} to {}", set.first().unwrap_or(&0), set.last().unwrap_or(&0));
        let name = |number| if number == 0 { "accepted".into() } else { format!("refused with {number}") };
        let numbers: Vec<String> = self.numbers.iter().map(|(&number, n)| format!("{} {n}", name(number))).collect();
        format!(
            "{} pieces, {} bytes, {} lengths; {}",
            ends(&self.counts),
            ends(&self.lengths),
            self.lengths.len(),
            numbers.join(", ")
        )
    }
}

impl Tally {
    fn count_room(&mut self, room: usize, len: usize) {
        self.rooms[(room + 2).saturating_sub(len).min(4)] += 1;
    }

    fn summary(&self) -> String {
        let [documents, definitions] = self.lists.each_ref().map(List::summary);
        let [shorter, short, just, long, longer] = self.rooms;
        format!(
            "  each document passed: {documents}, closed {}\n  each of the definitions read: {definitions}\n  outputs too short by one {short}, \
             by more {shorter}; just long enough {just}; longer by one {long}, by more {longer}",
            self.closed
        )
    }
}

#[cfg(test)]
mod tests {
    use super::*;

    #[test]
    fn seeds_in_order() {
        let (mut loads, mut rng) = (Loads::default(), Rng::new(1));
        for (seed, list) in [(0, 0), (0, 1), (1, 0), (1, 1)] {
            let case = loads.case(&mut rng);
            assert_eq!((seed_of(case.bytes(0)), case.bytes(1)), (seed, &[list][..]));
        }
        loads.made = u64::from(SEEDS) * 2;
        assert!((0..20).any(|_| seed_of(loads.case(&mut rng).bytes(0)) >= SEEDS));
    }

    #[test]
    fn seeds_of_fewer_bytes() {
        assert_eq!(seed_of(b""), 0);
        assert_eq!(seed_of(b"\x01\x02"), 0x201);
        assert_eq!(seed_of(b"\x01\x02\x03\xff"), 0xFF03_0201);
        assert_eq!(seed_of(b"\x01\x02\x03\x04\x05"), 0x0403_0201);
    }

    #[test]
    fn rooms_are_counted() {
        let mut tally = Tally::default();
        for room in [0, 5, 7, 8, 9, 10, 11, 500] {
            tally.count_room(room, 9);
        }
        assert_eq!(tally.rooms, [3, 1, 1, 1, 2]);
    }
}
