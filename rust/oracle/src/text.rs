//! A text with a place in it, and what 01 reads there in sections 1 and 3: classes of bytes, literals, references, expressions. For
//! the models of the calls; apart from the reference.
use crate::sheet::{Tree, Value};

pub struct Text<'a> {
    pub bytes: &'a [u8],
    pub at: usize,
    /// References of expressions that have a text, and of these the ones to a key.
    pub found: usize,
    pub keyed: usize,
    /// The terms of the expression that has the most.
    pub most_terms: usize,
}

impl<'a> Text<'a> {
    pub fn new(bytes: &'a [u8]) -> Text<'a> {
        Text { bytes, at: 0, found: 0, keyed: 0, most_terms: 0 }
    }

    pub fn next(&self) -> Option<u8> {
        self.bytes.get(self.at).copied()
    }

    pub fn sees(&self, c: u8) -> bool {
        self.next() == Some(c)
    }

    /// Steps over one byte; at the end over none.
    pub fn skip(&mut self) {
        self.at = self.bytes.len().min(self.at + 1);
    }

    /// Steps over the mark if it stands here.
    pub fn takes(&mut self, mark: &[u8]) -> bool {
        let there = self.bytes[self.at..].starts_with(mark);
        if there {
            self.at += mark.len();
        }
        there
    }

    /// The longest stretch of such bytes.
    pub fn span(&mut self, wanted: impl Fn(u8) -> bool) -> &'a [u8] {
        let rest = &self.bytes[self.at..];
        let n = rest.iter().position(|&c| !wanted(c)).unwrap_or(rest.len());
        self.at += n;
        &rest[..n]
    }

    /// A literal, from its `"`.
    pub fn literal(&mut self) -> Vec<u8> {
        self.skip();
        let mut value = Vec::new();
        while let Some(c) = self.next() {
            self.skip();
            match c {
                b'"' => break,
                b'\\' => self.escape(&mut value),
                _ => value.push(c),
            }
        }
        value
    }

    /// Behind a `\`.
    fn escape(&mut self, value: &mut Vec<u8>) {
        match self.next() {
            None => value.push(b'\\'),
            Some(b'n') => value.push(b'\n'),
            Some(b't') => value.push(b'\t'),
            Some(c @ (b'"' | b'\\')) => value.push(c),
            Some(c) => value.extend([b'\\', c]),
        }
        self.skip();
    }

    /// The text of the reference that stands here, in a sheet of these bindings.
    pub fn reference(&mut self, sheet: &Tree) -> Vec<u8> {
        let run = self.span(is_run);
        let text = look(sheet, run);
        self.found += usize::from(!text.is_empty());
        self.keyed += usize::from(!text.is_empty() && run.contains(&b'.'));
        text
    }

    pub fn expression(&mut self, sheet: &Tree) -> Vec<u8> {
        let mut value = Vec::new();
        for terms in 1.. {
            self.span(is_line_blank);
            match self.next() {
                Some(b'"') => value.extend(self.literal()),
                Some(c) if is_letter(c) || c == b'_' => value.extend(self.reference(sheet)),
                _ => break,
            }
            self.most_terms = self.most_terms.max(terms);
            self.span(is_line_blank);
            if !self.takes(b"+") {
                break;
            }
        }
        value
    }
}

/// Lookup: split at every `.`; a binding, then keys.
pub fn resolve<'a>(tree: &'a Tree, path: &[u8]) -> Option<&'a Value> {
    let mut pieces = path.split(|&c| c == b'.');
    let mut value = tree.get(pieces.next()?)?;
    for piece in pieces {
        let Value::Dictionary(entries) = value else { return None };
        value = entries.get(piece)?;
    }
    Some(value)
}

/// The text of a reference: a run with each `-` made `_`, then looked up.
pub fn look(sheet: &Tree, run: &[u8]) -> Vec<u8> {
    match resolve(sheet, &underscored(run)) {
        Some(Value::Text(text)) => text.clone(),
        _ => vec![],
    }
}

pub fn is_blank(c: u8) -> bool {
    matches!(c, 9..=13 | 32)
}

pub fn is_line_blank(c: u8) -> bool {
    is_blank(c) && c != b'\n'
}

pub fn is_letter(c: u8) -> bool {
    c.is_ascii_alphabetic()
}

pub fn is_word(c: u8) -> bool {
    c.is_ascii_alphanumeric() || c == b'_'
}

/// Of a name behind `#let`, and of a key.
pub fn is_name(c: u8) -> bool {
    is_word(c) || c == b'-'
}

pub fn is_run(c: u8) -> bool {
    is_name(c) || c == b'.'
}

pub fn underscored(run: &[u8]) -> Vec<u8> {
    run.iter().map(|&c| if c == b'-' { b'_' } else { c }).collect()
}

pub fn without_last_blanks(text: &[u8]) -> &[u8] {
    &text[..text.iter().rposition(|&c| !is_blank(c)).map_or(0, |i| i + 1)]
}

pub fn trimmed(text: &[u8]) -> &[u8] {
    let text = without_last_blanks(text);
    &text[text.iter().position(|&c| !is_blank(c)).unwrap_or(text.len())..]
}
