//! Damage to bytes, without a thought for what they mean.
use crate::rng::Rng;

/// One to three hurts.
pub fn damaged(mut bytes: Vec<u8>, rng: &mut Rng) -> Vec<u8> {
    for _ in 0..rng.between(1, 3) {
        hurt(&mut bytes, rng);
    }
    bytes
}

fn hurt(bytes: &mut Vec<u8>, rng: &mut Rng) {
    if bytes.is_empty() {
        return bytes.extend(few(rng));
    }
    let i = rng.below(bytes.len());
    match rng.below(9) {
        0 => bytes[i] = rng.byte(),
        1 => bytes[i] ^= 1 << rng.below(8),
        2 => bytes[i] = bytes[i].wrapping_add(1),
        3 => bytes[i] = bytes[i].wrapping_sub(1),
        4 => bytes.truncate(i),
        5 => bytes.extend(few(rng)),
        6 => bytes.insert(i, small(rng)),
        7 => drop(bytes.remove(i)),
        _ => repeat_part(bytes, i, rng),
    }
}

/// A part of the bytes once more behind itself.
fn repeat_part(bytes: &mut Vec<u8>, i: usize, rng: &mut Rng) {
    let end = (i + rng.between(1, 12)).min(bytes.len());
    let part = bytes[i..end].to_vec();
    bytes.splice(end..end, part);
}

/// Up to twelve bytes, mostly of those that make heads and lengths.
pub fn few(rng: &mut Rng) -> Vec<u8> {
    (0..rng.between(1, 12)).map(|_| small(rng)).collect()
}

fn small(rng: &mut Rng) -> u8 {
    const HEADS: [u8; 16] = [0, 0, 1, 1, 2, 3, 4, 5, 6, 7, 8, 9, 16, b'a', b'b', b'/'];
    if rng.one_in(5) { rng.byte() } else { *rng.pick(&HEADS) }
}
