//! Expressions of one term or many, with what they come to; texts that end in many blanks; and texts that are nearly the same.
use crate::expansions::hyphened;
use crate::rng::Rng;
use crate::texts::word;

const BLANKS: &[u8] = b"   \t\n\n\x0b\x0c\r";
/// Before the blanks at an end: also what is nearly a blank, and what is written by an escape.
const STARTS: [&str; 18] = [
    "", "", "", "a", "a", "a b", " a", "a\n\nb", "x \t y", "`", "\"q\"", "a\\", "\\\"", "\0", "\x08", "\x0e", "\x1c",
    "a \x1f",
];
const WORDS: [&str; 16] =
    ["a", "b", "10", "https://e.x/", "/", "-", "x y", "q\"", "\\", "\n", "\t", "\\n", "]", ")", "\x1c", "#x"];
/// These come to nothing.
const NOTHING: [&str; 4] = ["\"\"", "lost", "_lost.k", "lost-y."];

/// A path that an expression may name, and the text that it leads to.
pub type Bound = (Vec<u8>, Vec<u8>);

/// From none to some hundred, of one kind or of all.
pub fn many_blanks(rng: &mut Rng) -> Vec<u8> {
    let n = match rng.below(8) {
        0 => 0,
        1..4 => rng.between(1, 8),
        4..7 => rng.between(9, 120),
        _ => *rng.pick(&[127, 128, 255, 256, 257, 300, 511]),
    };
    if rng.one_in(3) { vec![*rng.pick(BLANKS); n] } else { rng.string(BLANKS, n) }
}

/// A text with many blanks at its end, or blanks alone.
pub fn tailed(rng: &mut Rng) -> Vec<u8> {
    [word(&STARTS, rng), &many_blanks(rng)].concat()
}

/// How many terms: one, few, or up to forty.
pub fn some_terms(rng: &mut Rng) -> usize {
    match rng.below(6) {
        0 | 1 => 1,
        2 => rng.between(2, 4),
        3 | 4 => rng.between(5, 12),
        _ => rng.between(13, 40),
    }
}

/// A literal that comes to these bytes; its newlines and tabs as they are, by their escapes, or some so and some so.
pub fn literal_of(text: &mut Vec<u8>, value: &[u8], rng: &mut Rng) {
    let share = *rng.pick(&[1, 2, usize::MAX]);
    text.push(b'"');
    for &c in value {
        match c {
            b'"' | b'\\' => text.extend([b'\\', c]),
            b'\n' if rng.one_in(share) => text.extend(b"\\n"),
            b'\t' if rng.one_in(share) => text.extend(b"\\t"),
            _ => text.push(c),
        }
    }
    text.push(b'"');
}

/// An expression of so many terms. Answers what it comes to as long as the text binds none of its names.
pub fn sum(text: &mut Vec<u8>, bound: &[Bound], count: usize, rng: &mut Rng) -> Vec<u8> {
    let first = term(text, bound, rng);
    [first, more_terms(text, bound, count - 1, rng)].concat()
}

/// Behind a term so many others, each behind its `+`. Answers likewise.
pub fn more_terms(text: &mut Vec<u8>, bound: &[Bound], count: usize, rng: &mut Rng) -> Vec<u8> {
    let mut value = Vec::new();
    for _ in 0..count {
        plus(text, rng);
        value.extend(term(text, bound, rng));
    }
    value
}

/// Behind a term some others that are blanks or nothing.
pub fn blank_terms(text: &mut Vec<u8>, bound: &[Bound], rng: &mut Rng) {
    let blank: Vec<Bound> = bound.iter().filter(|(_, value)| value.trim_ascii().is_empty()).cloned().collect();
    for _ in 0..rng.below(5) {
        plus(text, rng);
        match rng.below(6) {
            0..3 if !blank.is_empty() => drop(reference(text, &blank, rng)),
            3 => text.extend(word(&NOTHING, rng)),
            _ => literal_of(text, &many_blanks(rng), rng),
        }
    }
}

/// An expression that comes to a text, by so many terms: literals for the most part, which may be empty.
pub fn split_sum(text: &mut Vec<u8>, value: &[u8], bound: &[Bound], count: usize, rng: &mut Rng) {
    let mut cuts: Vec<usize> = (1..count).map(|_| rng.below(value.len() + 1)).collect();
    cuts.extend([0, value.len()]);
    cuts.sort_unstable();
    for (i, pair) in cuts.windows(2).enumerate() {
        let piece = &value[pair[0]..pair[1]];
        if i > 0 {
            plus(text, rng);
        }
        match bound.iter().find(|(_, value)| value == piece) {
            // A raw call's expression begins with a literal.
            Some((path, _)) if i > 0 && rng.one_in(2) => text.extend(path),
            _ => literal_of(text, piece, rng),
        }
    }
}

/// A text, and what differs from it in one byte or is shorter or longer by one.
pub fn near(value: &[u8], rng: &mut Rng) -> Vec<u8> {
    let mut near = value.to_vec();
    if near.is_empty() {
        return word(&["", "x", " "], rng).to_vec();
    }
    let last = near.len() - 1;
    match rng.below(16) {
        0 | 1 => near[last] ^= 1,
        2 => near[0] ^= 1,
        3 => near[rng.below(last + 1)] ^= 1,
        4 => near.extend(word(&["x", " ", "\n", "\0"], rng)),
        5 => near.insert(0, *rng.pick(b"x \n")),
        6 => near.truncate(last),
        7 => drop(near.remove(0)),
        8 => near.truncate(rng.below(last + 1)),
        _ => {}
    }
    near
}

/// A newline would end the expression.
fn plus(text: &mut Vec<u8>, rng: &mut Rng) {
    text.extend(word(&["+", "+", "+", " + ", " + ", "\t+\x0b", " +\r", "+ \x0c"], rng));
}

fn term(text: &mut Vec<u8>, bound: &[Bound], rng: &mut Rng) -> Vec<u8> {
    match rng.below(16) {
        0..5 if !bound.is_empty() => return reference(text, bound, rng),
        5 | 6 => {
            text.extend(word(&NOTHING, rng));
            return vec![];
        }
        _ => {}
    }
    let value = if rng.one_in(5) { many_blanks(rng) } else { word(&WORDS, rng).to_vec() };
    literal_of(text, &value, rng);
    value
}

fn reference(text: &mut Vec<u8>, bound: &[Bound], rng: &mut Rng) -> Vec<u8> {
    let (path, value) = rng.pick(bound).clone();
    text.extend(hyphened(path, rng));
    value
}

#[cfg(test)]
mod tests {
    use super::*;
    use oracle::expansion::answer;
    use oracle::{Files, Tree, Value};

    // What is answered is what an expression comes to.
    #[test]
    fn what_expressions_come_to() {
        let mut rng = Rng::new(3);
        let texts = [("x", "10"), ("a_b", " \t\n"), ("y", "")];
        let tree: Tree =
            texts.iter().map(|(name, text)| (name.as_bytes().to_vec(), Value::Text((*text).into()))).collect();
        let bound: Vec<Bound> = texts.iter().map(|(name, text)| ((*name).into(), (*text).into())).collect();
        let read = |expression: &[u8]| {
            let text = [b"#link(", expression, b")"].concat();
            let here = answer(Some(&Files::new()), &text, Some(&tree), usize::MAX, usize::MAX);
            assert_eq!(here.seen.unended, 0, "{text:?}");
            (here.result.map(|expanded| expanded.out), here.seen.most_terms)
        };
        for _ in 0..2000 {
            let count = some_terms(&mut rng);
            let mut text = Vec::new();
            let value = sum(&mut text, &bound, count, &mut rng);
            assert_eq!(read(&text), (Ok(value), count));
            let (mut text, value) = (Vec::new(), tailed(&mut rng));
            split_sum(&mut text, &value, &bound, count, &mut rng);
            assert_eq!(read(&text), (Ok(value), count));
        }
    }

    #[test]
    fn nearly_the_same() {
        let mut rng = Rng::new(4);
        let all: Vec<Vec<u8>> = (0..1000).map(|_| near(b"abc", &mut rng)).collect();
        for wanted in ["abc", "abb", "`bc", "acc", "abcx", "xabc", "ab", "bc", "a", ""] {
            assert!(all.iter().any(|text| text == wanted.as_bytes()), "{wanted}");
        }
    }
}
