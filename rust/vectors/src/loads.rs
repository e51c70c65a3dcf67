//! Cases of `test_load`. Texts and numbers are 02's, as the oracle reads it: the Rust reference has no such call.
use crate::record::{LOAD, LONGEST_ROOM, Record, text_field};
use oracle::load::{MOST_PIECES, ROOM, SEEDS, answer, list, pieces};

#[derive(Clone, Copy)]
pub struct Case {
    pub seed: u32,
    pub definitions: bool,
    pub room: usize,
}

/// The text, or the number.
pub fn wanted(case: &Case) -> Result<Vec<u8>, u8> {
    answer(case.seed, case.definitions, case.room)
}

pub fn record(case: &Case, wanted: &Result<Vec<u8>, u8>) -> Record {
    assert!(case.room <= LONGEST_ROOM);
    let list = [u8::from(case.definitions)];
    Record::new(LOAD, &[&case.seed.to_le_bytes(), &list, &text_field(wanted, case.room)])
}

pub fn cases() -> Vec<Record> {
    let all = [ends(), more(), rooms()].concat();
    all.iter().map(|case| record(case, &wanted(case))).collect()
}

/// The first seeds, one of a high bit alone, and the last: into no bytes, one too few, just enough, one too many, and as many as suffice
/// for every seed.
fn ends() -> Vec<Case> {
    let rooms = |len: usize| vec![0, len - 1, len, len + 1, ROOM];
    [0, 1, 1 << 31, u32::MAX].into_iter().flat_map(|seed| both(seed, rooms)).collect()
}

/// Seeds around a draw's lowest bit and around the lowest of the bits that no load depends on; each piece alone; as many pieces as there can
/// be; the longest load of each list. Just enough, and one too few.
fn more() -> Vec<Case> {
    let bits = [2, 0xFFFF, 0x1_0000, SEEDS - 1, SEEDS, SEEDS + 1];
    let alone = (0..list(false).len()).map(|i| first(|seed| pieces(seed).eq([i])));
    let most = first(|seed| pieces(seed).len() == MOST_PIECES);
    let longest = [false, true].map(|list| (0..SEEDS).max_by_key(|&seed| length(seed, list)).expect("a seed"));
    let seeds = bits.into_iter().chain(alone).chain([most]).chain(longest);
    seeds.flat_map(|seed| both(seed, |len| vec![len - 1, len])).collect()
}

/// Every length that is too short for seed 0: the output ends before each piece and at each place inside of it.
fn rooms() -> Vec<Case> {
    both(0, |len| (0..len).collect())
}

/// The first seed of which this is true.
fn first(wanted: impl Fn(u32) -> bool) -> u32 {
    (0..SEEDS).find(|&seed| wanted(seed)).expect("a seed")
}

fn length(seed: u32, definitions: bool) -> usize {
    pieces(seed).map(|i| list(definitions)[i].len()).sum()
}

/// The loads of a seed from both lists, into outputs by their lengths.
fn both(seed: u32, rooms: impl Fn(usize) -> Vec<usize>) -> Vec<Case> {
    let case = |definitions| {
        let rooms = rooms(length(seed, definitions));
        rooms.into_iter().map(move |room| Case { seed, definitions, room })
    };
    [false, true].into_iter().flat_map(case).collect()
}
