//! The test load: what it takes to write one, and to refuse one.
use crate::timing::times;
use oracle::load::{MOST_PIECES, SEEDS, pieces, write};
use std::hint::black_box;
use wagtailfen::{LOAD_ROOM, test_load};

const NOTES: &str = "\
test_load (nanoseconds a load; where a row has many seeds the mean of them, and of their pieces and bytes)
just    into a lent buffer of just the length that is needed
wide    into one that suffices for every seed, which the call clears behind the load
short   into one that is too short by one byte, which is refused and cleared
Rust    not the reference, which has no such call: the generator of `oracle::load`, into a Vec that is used again
ratio   just to Rust";

const MANY: u32 = 1000;

pub fn table() {
    println!("\n{NOTES}\n");
    println!("seeds              list         pieces   bytes      just      wide     short      Rust     ratio");
    let many: Vec<u32> = (0..MANY).collect();
    for definitions in [false, true] {
        row("one piece", definitions, &[first_of(1)]);
        row("seed 0", definitions, &[0]);
        row("32 pieces", definitions, &[first_of(MOST_PIECES)]);
        row("0 to 999", definitions, &many);
    }
}

/// The first seed of so many pieces.
fn first_of(count: usize) -> u32 {
    (0..SEEDS).find(|&seed| pieces(seed).len() == count).expect("a seed")
}

fn row(name: &str, definitions: bool, seeds: &[u32]) {
    let lengths: Vec<usize> = seeds.iter().map(|&seed| length(seed, definitions)).collect();
    let ours = |room: fn(usize) -> usize, out: &mut [u8; LOAD_ROOM]| {
        for (&seed, &len) in seeds.iter().zip(&lengths) {
            black_box(test_load(black_box(seed), definitions, black_box(&mut out[..room(len)])));
        }
    };
    let mut text = Vec::new();
    let mut rust = || {
        for &seed in seeds {
            write(black_box(seed), definitions, black_box(&mut text));
        }
    };
    let [mut first, mut second, mut third] = [[0; LOAD_ROOM]; 3];
    let taken = times([
        &mut || ours(|len| len, &mut first),
        &mut || ours(|_| LOAD_ROOM, &mut second),
        &mut || ours(|len| len - 1, &mut third),
        &mut rust,
    ]);
    let mean = |sum: f64| sum / seeds.len() as f64;
    let [just, wide, short, rust] = taken.map(mean);
    let count = seeds.iter().map(|&seed| pieces(seed).len()).sum::<usize>();
    println!(
        "{name:17}  {:11}  {:6.1} {:7.1} {just:9.1} {wide:9.1} {short:9.1} {rust:9.1} {:9.2}",
        if definitions { "definitions" } else { "document" },
        mean(count as f64),
        mean(lengths.iter().sum::<usize>() as f64),
        just / rust
    );
}

/// How long the load is. Both must write the same.
fn length(seed: u32, definitions: bool) -> usize {
    let (mut out, mut text) = ([0; LOAD_ROOM], Vec::new());
    let here = test_load(seed, definitions, &mut out);
    write(seed, definitions, &mut text);
    assert_eq!((here.number, &out[..here.len]), (0, &text[..]));
    here.len
}
