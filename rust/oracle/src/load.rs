//! The test load as 02 tells it (E2): pieces of a list, drawn by a seed. Written from these words alone: the reference has no such call. What
//! the reference does with a load is asked of its other calls.

/// 02's lists. A piece is drawn by its place.
const DOCUMENT: [&str; 8] = ["#x", "#x.", "#raw(x)", "#link(\"u\")[t]", "\n", "#let y = x\n", " ", "none"];
const DEFINITIONS: [&str; 8] = ["#let x = \"10\"\n", "(a:", ")", "none", ", ", "#let d = ", "\"\\q\"", "\n"];

pub const MOST_PIECES: usize = 32;
/// An output that every load fits into: so many times the longest piece of both lists.
pub const ROOM: usize = MOST_PIECES * DEFINITIONS[0].len();

/// Seeds that agree in this many low bits have the same load: a draw takes no bit of a state above the 21st, and no bit of a product or sum
/// depends on a higher one. So there are no more loads of a list than these seeds.
pub const DRAWN_BITS: u32 = 21;
pub const SEEDS: u32 = 1 << DRAWN_BITS;

/// The list that the caller chooses.
pub fn list(definitions: bool) -> &'static [&'static str; 8] {
    if definitions { &DEFINITIONS } else { &DOCUMENT }
}

/// The state behind this one.
pub fn next(state: u32) -> u32 {
    state.wrapping_mul(1_664_525).wrapping_add(1_013_904_223)
}

struct Draws {
    state: u32,
}

impl Draws {
    fn below(&mut self, n: usize) -> usize {
        self.state = next(self.state);
        (self.state >> 16) as usize % n
    }
}

/// The places of a load's pieces in their list. They are the same for both lists.
pub fn pieces(seed: u32) -> impl ExactSizeIterator<Item = usize> {
    let mut draws = Draws { state: seed };
    let count = draws.below(MOST_PIECES) + 1;
    (0..count).map(move |_| draws.below(DOCUMENT.len()))
}

/// Puts the load in the place of what the text holds.
pub fn write(seed: u32, definitions: bool, text: &mut Vec<u8>) {
    let list = list(definitions);
    text.clear();
    pieces(seed).for_each(|i| text.extend(list[i].as_bytes()));
}

/// The call with an output of `room` bytes, or the number of the refusal.
pub fn answer(seed: u32, definitions: bool, room: usize) -> Result<Vec<u8>, u8> {
    let mut text = Vec::new();
    write(seed, definitions, &mut text);
    if text.len() > room { Err(11) } else { Ok(text) }
}

#[cfg(test)]
mod tests {
    use super::*;

    fn text(seed: u32, definitions: bool) -> String {
        String::from_utf8(answer(seed, definitions, ROOM).unwrap()).unwrap()
    }

    // What 02 and its reading say of seed 0.
    #[test]
    fn seed_0() {
        assert_eq!(pieces(0).len(), 15);
        let document = text(0, false);
        assert_eq!(document, "#x\n#x.#raw(x)  #x.#let y = x\n#x #x.#link(\"u\")[t] #raw(x) ");
        assert_eq!(document.len(), 57);
        assert_eq!(text(0, true).len(), 74);
    }

    #[test]
    fn rooms() {
        assert_eq!(answer(0, false, 56), Err(11));
        assert_eq!(answer(0, false, 57).map(|text| text.len()), Ok(57));
        assert_eq!(answer(0, true, 73), Err(11));
        assert_eq!(answer(0, true, 74).map(|text| text.len()), Ok(74));
        assert_eq!(answer(0, true, 0), Err(11));
        assert_eq!(text(u32::MAX, false).len(), 111);
    }

    #[test]
    fn lengths() {
        assert_eq!(list(false).map(str::len), [2, 3, 7, 13, 1, 11, 1, 4]);
        assert_eq!(list(true).map(str::len), [14, 3, 1, 4, 2, 9, 4, 1]);
        assert_eq!(ROOM, 448);
    }

    // The states differ in high bits, the pieces do not.
    #[test]
    fn high_bits_of_a_seed() {
        for seed in (0..SEEDS).step_by(97) {
            for high in [1 << DRAWN_BITS, 1 << 31, u32::MAX << DRAWN_BITS] {
                assert!(pieces(seed).eq(pieces(seed | high)), "{seed} {high}");
            }
        }
        assert!(!pieces(0).eq(pieces(1 << (DRAWN_BITS - 1))));
    }

    // Every count of pieces, and every piece at every place where a load can have one.
    #[test]
    fn what_the_seeds_draw() {
        let mut counts = [0; MOST_PIECES + 1];
        let mut drawn = [[false; DOCUMENT.len()]; MOST_PIECES];
        for seed in 0..SEEDS {
            counts[pieces(seed).len()] += 1;
            pieces(seed).enumerate().for_each(|(at, i)| drawn[at][i] = true);
        }
        assert_eq!(counts[0], 0);
        assert!(counts[1..].iter().all(|&n| n == SEEDS / 32), "{counts:?}");
        assert!(drawn.iter().flatten().all(|&there| there));
    }
}
