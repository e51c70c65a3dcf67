//! Makes a failing case smaller, as long as it still fails.
use crate::case::{Case, Form};
use crate::loose::{smaller_bundles, smaller_sheets};
use std::time::{Duration, Instant};

/// How long smaller cases are tried at most.
const LIMIT: Duration = Duration::from_secs(30);

struct Shrinker<'a> {
    best: Case,
    fails: &'a mut dyn FnMut(&Case) -> bool,
    until: Instant,
}

/// A case that fails, too, and of which no part can be left out by what is tried here.
pub fn shrink(case: Case, fails: &mut dyn FnMut(&Case) -> bool) -> Case {
    let mut shrinker = Shrinker { best: case, fails, until: Instant::now() + LIMIT };
    while shrinker.round() {}
    shrinker.best
}

impl Shrinker<'_> {
    /// Is anything smaller now.
    fn round(&mut self) -> bool {
        let mut smaller = false;
        for i in 0..self.best.inputs.len() {
            smaller |= self.meaning(i) | self.parts(i) | self.values(i);
        }
        for i in 0..self.best.rooms.len() {
            smaller |= self.room(i);
        }
        smaller
    }

    /// Keeps the case if it fails.
    fn keeps(&mut self, case: Case) -> bool {
        let kept = case != self.best && Instant::now() < self.until && (self.fails)(&case);
        if kept {
            self.best = case;
        }
        kept
    }

    fn keeps_bytes(&mut self, i: usize, bytes: Vec<u8>) -> bool {
        let mut case = self.best.clone();
        case.inputs[i].bytes = bytes;
        self.keeps(case)
    }

    /// Leaves out records, files, and parts of them.
    fn meaning(&mut self, i: usize) -> bool {
        let mut smaller = false;
        loop {
            let input = self.best.inputs[i].clone();
            let kept = match input.form {
                Form::Plain => false,
                Form::Sheet => smaller_sheets(&input.bytes).any(|bytes| self.keeps_bytes(i, bytes)),
                Form::Bundle => smaller_bundles(&input.bytes).any(|bytes| self.keeps_bytes(i, bytes)),
            };
            if !kept {
                return smaller;
            }
            smaller = true;
        }
    }

    /// Leaves out parts of the bytes, the longest first.
    fn parts(&mut self, i: usize) -> bool {
        let mut smaller = false;
        let mut size = self.best.bytes(i).len();
        while size > 0 {
            let mut at = 0;
            while at + size <= self.best.bytes(i).len() {
                let bytes = self.best.bytes(i);
                let without = [&bytes[..at], &bytes[at + size..]].concat();
                if self.keeps_bytes(i, without) {
                    smaller = true;
                } else {
                    at += size;
                }
            }
            size /= 2;
        }
        smaller
    }

    /// Puts `a` or 0 for a byte. A byte goes down this list at most.
    fn values(&mut self, i: usize) -> bool {
        let mut smaller = false;
        for at in 0..self.best.bytes(i).len() {
            for plain in [0, b'a'] {
                let mut bytes = self.best.bytes(i).to_vec();
                if [0, b'a'].contains(&bytes[at]) {
                    break;
                }
                bytes[at] = plain;
                smaller |= self.keeps_bytes(i, bytes);
            }
        }
        smaller
    }

    fn room(&mut self, i: usize) -> bool {
        let len = self.best.len(i);
        let shorter = [0, len / 2, len.saturating_sub(1)];
        shorter.into_iter().filter(|&n| n < len).any(|n| {
            let mut case = self.best.clone();
            case.rooms[i].len = n;
            self.keeps(case)
        })
    }
}

#[cfg(test)]
mod tests {
    use super::*;
    use crate::rng::Rng;
    use crate::{bundles, sheets};
    use oracle::layout::{bundle_entries, is_sheet};
    use oracle::{Tree, Value, bundle, sheet};

    // Finds the one byte and the one record that matter.
    #[test]
    fn sheets_become_small() {
        let mut rng = Rng::new(7);
        for _ in 0..20 {
            let mut tree = sheets::tree(&mut rng);
            tree.insert(b"wanted".to_vec(), Value::None);
            let sheet = sheet::encode(&tree).unwrap();
            let path = b"some.path!".to_vec();
            let case =
                Case::default().input("sheet", Form::Sheet, sheet).input("path", Form::Plain, path).room("out", 9);
            let none_there = |tree: Tree| tree.values().any(|v| *v == Value::None);
            let mut fails = |case: &Case| {
                is_sheet(case.bytes(0))
                    && sheet::decode(case.bytes(0)).is_some_and(none_there)
                    && case.bytes(1).contains(&b'!')
                    && case.len(0) >= 3
            };
            assert_eq!(shrink(case, &mut fails).to_string(), "sheet=08 path=21 out=3");
        }
    }

    #[test]
    fn bundles_become_small() {
        let mut rng = Rng::new(8);
        for _ in 0..20 {
            let mut files = bundles::files(&mut rng);
            files.insert(b"q".to_vec(), b"content".to_vec());
            let case = Case::default().input("bundle", Form::Bundle, bundle::encode(&files).unwrap());
            let mut fails = |case: &Case| bundle_entries(case.bytes(0)).is_some_and(|es| es.iter().any(|e| e.len > 0));
            let small = shrink(case, &mut fails);
            assert_eq!(small.bytes(0).len(), 8, "{small}");
        }
    }
}
