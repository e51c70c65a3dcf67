//! Sheets, bundles and texts for the pass: includes as in `texts`, what is expanded as in `expansions`, and both in one text. Many texts
//! are closed.
use crate::bundles::fits;
use crate::damage::damaged;
use crate::expansions::{self, enough, short};
use crate::rng::Rng;
use crate::texts::{self, with_high_byte, word};
use oracle::bundle;
use oracle::pass::Rooms;

/// What leaves a text open, or what ends it behind an included file that did not end.
const OPENINGS: [&str; 22] = [
    "#raw(\"a\"",
    "#raw(x",
    "#raw(x, block: true",
    "#raw(read",
    "#raw(read \t",
    "#raw(read x",
    "#raw(",
    "#link(\"u\"",
    "#link(\"u\")[t",
    "#link(\"u\")",
    "#link(\"u\", x",
    "#link(<",
    "#link(",
    "#include",
    "#include \"a",
    "#source-include",
    "#source-include x",
    "#source-include(\"a\"",
    "#source-include(\"a\", \"r\"",
    "#source-include(\"a\", \"r\")",
    "// #include \"",
    "#let y = #raw(",
];
const ENDINGS: [&str; 8] = [")", "]", "\"", ")]", "x)", "\"\"", " ", "\n)"];

/// A file shorter than this is made longer, by less than this.
const SHORT: usize = 1000;

/// What a text may be made with.
pub struct Group {
    included: texts::Group,
    expanded: expansions::Group,
}

impl Group {
    pub fn new(rng: &mut Rng) -> Group {
        let (mut included, expanded) = (texts::Group::new(rng), expansions::Group::new(rng));
        for (path, content) in &expanded.files {
            if fits(&included.files, path) {
                included.files.insert(path.clone(), content.clone());
            }
        }
        // Files with something to expand, some of it unended.
        for content in included.files.values_mut().filter(|content| content.len() < SHORT) {
            let mut added = Vec::new();
            if rng.one_in(3) {
                expanded.piece(&mut added, rng);
            }
            if rng.one_in(8) {
                added.extend(word(&OPENINGS, rng));
            }
            // A text of the sheet that stands in it may be as long as a sheet.
            if added.len() < SHORT {
                content.extend(added);
            }
        }
        Group { included, expanded }
    }

    pub fn bundle(&self) -> Vec<u8> {
        bundle::encode(&self.included.files).expect("lengths that fit")
    }

    pub fn sheet(&self) -> Vec<u8> {
        self.expanded.sheet()
    }

    pub fn folder(&self, rng: &mut Rng) -> Vec<u8> {
        self.included.folder(rng)
    }

    pub fn text(&self, folder: &[u8], rng: &mut Rng) -> Vec<u8> {
        let text = match rng.below(100) {
            0..3 => self.included.text(folder, rng),
            3..6 => self.expanded.text(rng),
            6..9 => vec![],
            _ => self.part(folder, rng),
        };
        match rng.below(150) {
            0 => with_high_byte(text, rng),
            1..4 => damaged(text, rng),
            4 => text[..rng.below(text.len() + 1)].to_vec(),
            _ => text,
        }
    }

    /// Few pieces of both kinds; then, mostly, a newline.
    pub fn part(&self, folder: &[u8], rng: &mut Rng) -> Vec<u8> {
        let mut text = Vec::new();
        for _ in 0..rng.between(1, 4) {
            match rng.below(16) {
                0..4 => text.extend(self.included.pieces(folder, 1, rng)),
                4 => text.extend(word(&ENDINGS, rng)),
                5 if rng.one_in(3) => text.extend(word(&OPENINGS, rng)),
                5..8 => text.push(b'\n'),
                _ => self.expanded.piece(&mut text, rng),
            }
        }
        if rng.one_in(6) {
            self.expanded.measured(&mut text, rng);
        }
        if rng.one_in(10) {
            text.extend(word(&OPENINGS, rng));
        }
        if !rng.one_in(7) {
            text.push(b'\n');
        }
        text
    }
}

/// The lengths of the buffers, where so many bytes come out and so long is the longest sheet: mostly enough.
pub fn rooms(whole: Rooms, rng: &mut Rng) -> Rooms {
    let mut rooms =
        Rooms { middle: enough(whole.middle, rng), out: enough(whole.out, rng), left: enough(whole.left, rng) };
    match rng.below(40) {
        0..3 => rooms.middle = short(whole.middle, rng),
        3..6 => rooms.out = short(whole.out, rng),
        6..9 => rooms.left = short(whole.left, rng),
        9 => rooms = Rooms { middle: short(whole.middle, rng), out: short(whole.out, rng), ..rooms },
        10 => rooms = Rooms { out: short(whole.out, rng), left: short(whole.left, rng), ..rooms },
        // Longer than a sheet may be.
        11 if rng.one_in(12) => rooms.left = 65_530 + rng.below(40),
        _ => {}
    }
    rooms
}

#[cfg(test)]
mod tests {
    use super::*;
    use oracle::layout::{bundle_entries, is_sheet};
    use oracle::pass::answer;

    // More than 55 of 100 are accepted, of these about half are closed, and every number is met.
    #[test]
    fn what_the_texts_do() {
        let mut rng = Rng::new(2);
        let mut numbers = [0; 12];
        let (mut closed, mut including) = (0, 0);
        for _ in 0..1000 {
            let group = Group::new(&mut rng);
            assert!(bundle_entries(&group.bundle()).is_some() && is_sheet(&group.sheet()));
            let (files, tree) = (Some(&group.included.files), Some(&group.expanded.tree));
            for _ in 0..20 {
                let folder = group.folder(&mut rng);
                let text = group.text(&folder, &mut rng);
                let whole = answer(files, &folder, &text, tree, Rooms::WIDE);
                let here = answer(files, &folder, &text, tree, rooms(whole.needed(), &mut rng));
                numbers[usize::from(here.result.as_ref().err().copied().unwrap_or(0))] += 1;
                if let Ok(passed) = here.result {
                    closed += usize::from(passed.closed);
                    including += usize::from(here.includes.includes + here.includes.sources > 0);
                }
            }
        }
        assert!(numbers[0] > 11_000, "{numbers:?}");
        assert!([4, 5, 6, 7, 8, 9, 10, 11].iter().all(|&n| numbers[n] > 100), "{numbers:?}");
        assert!((numbers[0] / 3..numbers[0] * 4 / 5).contains(&closed), "{closed} of {numbers:?}");
        assert!(including > 2000, "{including}");
    }
}
