//! The rules of 01 (sections 1 and 2) put to bytes, one after another and apart from the encoders and decoders, so that
//! the one can be held against the other.
use crate::reader::Reader;
use crate::sheet::LEVELS;

const LONGEST_PATH: usize = 255;
const LONGEST_SHEET: usize = 65_535;

/// A text holds bytes below 128.
pub fn is_text(bytes: &[u8]) -> bool {
    bytes.iter().all(|&c| c < 128)
}

/// The path rule: 1 to 255 bytes, segments parted by one `/`.
pub fn is_path(path: &[u8]) -> bool {
    path.len() <= LONGEST_PATH && path.split(|&c| c == b'/').all(is_segment)
}

/// A folder is a path or empty.
pub fn is_folder(folder: &[u8]) -> bool {
    folder.is_empty() || is_path(folder)
}

fn is_segment(segment: &[u8]) -> bool {
    let allowed = |&c: &u8| c.is_ascii_alphanumeric() || b"-_.".contains(&c);
    !segment.is_empty() && segment != b"." && segment != b".." && segment.iter().all(allowed)
}

/// An entry of a bundle: its path, and where its content stands in the bundle. Without content, `start` is the place behind
/// the entry's last field.
#[derive(Clone, Debug, PartialEq, Eq)]
pub struct Entry {
    pub path: Vec<u8>,
    pub start: usize,
    pub len: usize,
}

/// The bundle's entries, or None where it breaks a rule of section 1 (refusal 2).
pub fn bundle_entries(bytes: &[u8]) -> Option<Vec<Entry>> {
    let mut reader = Reader::new(bytes);
    let count = reader.word()?;
    let mut entries = Vec::new();
    for _ in 0..count {
        entries.push(bundle_entry(&mut reader)?);
    }
    (reader.is_empty() && paths_kept(&entries)).then_some(entries)
}

fn bundle_entry(reader: &mut Reader) -> Option<Entry> {
    let map = reader.byte()?;
    if map != 2 && map != 3 && map != 6 && map != 7 {
        return None;
    }
    let folder = if map % 2 == 1 { short_field(reader)? } else { &[] };
    let name = short_field(reader)?;
    if name.contains(&b'/') {
        return None;
    }
    let len = if map >= 4 { reader.word()? } else { 0 };
    if map >= 4 && len == 0 {
        return None;
    }
    let start = reader.at();
    reader.take(len)?;
    let path = if map % 2 == 1 { [folder, b"/", name].concat() } else { name.to_vec() };
    Some(Entry { path, start, len })
}

/// A field with an 8-bit length, 1 or more.
fn short_field<'a>(reader: &mut Reader<'a>) -> Option<&'a [u8]> {
    let n = reader.short()?;
    if n == 0 { None } else { reader.take(n) }
}

/// Each keeps the path rule; strictly ascending; none followed by `/` begins another.
fn paths_kept(entries: &[Entry]) -> bool {
    entries.iter().all(|e| is_path(&e.path))
        && entries.windows(2).all(|pair| pair[0].path < pair[1].path)
        && entries.iter().all(|e| !inside_a_file(&e.path, entries))
}

/// Is a folder of this path an entry, too. The entries ascend.
fn inside_a_file(path: &[u8], entries: &[Entry]) -> bool {
    let folders = (0..path.len()).filter(|&i| path[i] == b'/').map(|i| &path[..i]);
    folders.into_iter().any(|folder| entries.binary_search_by(|e| e.path.as_slice().cmp(folder)).is_ok())
}

/// What remains to be read of a list of records, and the last name.
struct Open<'a> {
    /// None: up to the end of the sheet.
    left: Option<usize>,
    last: Option<&'a [u8]>,
}

/// Does the sheet keep every rule of section 2 (else refusal 3). One walk over the records in the order of the bytes; `open`
/// holds the sheet and the dictionaries that are not yet at their end.
pub fn is_sheet(bytes: &[u8]) -> bool {
    bytes.len() <= LONGEST_SHEET && sheet_walk(bytes).is_some()
}

fn sheet_walk(bytes: &[u8]) -> Option<()> {
    let mut reader = Reader::new(bytes);
    let mut open = vec![Open { left: None, last: None }];
    loop {
        while open.last()?.left == Some(0) {
            open.pop();
        }
        if reader.is_empty() {
            return (open.len() == 1).then_some(());
        }
        let keys = open.len() > 1;
        let list = open.last_mut()?;
        list.left = list.left.map(|n| n - 1);
        if let Some(count) = record(&mut reader, keys, &mut list.last)? {
            if open.len() > LEVELS {
                return None;
            }
            open.push(Open { left: Some(count), last: None });
        }
    }
}

/// One record; for a dictionary the count of its entries.
fn record<'a>(reader: &mut Reader<'a>, key: bool, last: &mut Option<&'a [u8]>) -> Option<Option<usize>> {
    let map = reader.byte()?;
    if map >= 16 {
        return None;
    }
    let name = if map % 2 == 1 { word_field(reader)? } else { &[] };
    let allowed = |&c: &u8| c.is_ascii_alphanumeric() || c == b'_' || (key && c == b'-');
    if !name.iter().all(allowed) || last.is_some_and(|last| last >= name) {
        return None;
    }
    *last = Some(name);
    match map / 2 {
        0 | 4 => Some(None),
        1 => is_text(word_field(reader)?).then_some(None),
        2 => Some(Some(reader.word()?)),
        _ => None,
    }
}

/// A field with a 16-bit length, 1 or more.
fn word_field<'a>(reader: &mut Reader<'a>) -> Option<&'a [u8]> {
    let n = reader.word()?;
    if n == 0 { None } else { reader.take(n) }
}

#[cfg(test)]
mod tests {
    use super::*;

    #[test]
    fn paths() {
        let long = "a".repeat(255);
        for good in ["a", "a/b", "...", "a.b/-/_", ".x", "CITATION.cff", long.as_str()] {
            assert!(is_path(good.as_bytes()), "{good}");
        }
        let longer = "a".repeat(256);
        for bad in ["", "/", "/a", "a/", "a//b", ".", "..", "a/.", "../a", "a b", "a\u{80}", longer.as_str()] {
            assert!(!is_path(bad.as_bytes()), "{bad}");
        }
    }

    #[test]
    fn bundles() {
        let paths =
            |b: &[u8]| bundle_entries(b).map(|es| es.into_iter().map(|e| (e.path, e.start, e.len)).collect::<Vec<_>>());
        assert_eq!(paths(b"\0\0"), Some(vec![]));
        assert_eq!(paths(b"\x01\0\x07\x01a\x01b\x02\0hi"), Some(vec![(b"a/b".to_vec(), 9, 2)]));
        assert_eq!(paths(b"\x01\0\x02\x01a"), Some(vec![(b"a".to_vec(), 5, 0)]));
        let broken: [&[u8]; 14] = [
            b"",
            b"\0",
            b"\0\0\0",
            b"\x01\0",
            b"\x01\0\x01\x01a",
            b"\x01\0\x0a\x01a",
            b"\x01\0\x02\0",
            b"\x01\0\x02\x01.",
            b"\x01\0\x02\x03a/b",
            b"\x01\0\x03\0\x01a",
            b"\x01\0\x06\x01a\0\0",
            b"\x02\0\x02\x01a\x02\x01a",
            b"\x02\0\x02\x01b\x02\x01a",
            b"\x03\0\x02\x01a\x02\x03a-b\x03\x01a\x01c",
        ];
        for b in broken {
            assert_eq!(bundle_entries(b), None, "{b:?}");
        }
    }

    #[test]
    fn sheets() {
        let good: [&[u8]; 8] = [
            b"",
            b"\x00",
            b"\x08",
            b"\x03\x01\0x\x02\x0010",
            b"\x00\x01\x01\0a",
            b"\x04\0\0",
            b"\x05\x01\0d\x02\0\x00\x03\x03\0a-b\x01\0q",
            b"\x05\x01\0d\x01\0\x04\x01\0\x08\x01\x01\0e",
        ];
        for b in good {
            assert!(is_sheet(b), "{b:?}");
        }
        let broken: [&[u8]; 13] = [
            b"\x00\x00",
            b"\x10",
            b"\x06\x01\0a\0\0",
            b"\x0a\x01\0a",
            b"\x0c\0\0",
            b"\x01\0\0",
            b"\x02\0\0",
            b"\x01\x01\0-",
            b"\x02\x01\0\x80",
            b"\x01\x01\0b\x01\x01\0a",
            b"\x04\x01\0",
            b"\x04\x02\0\x08\x08",
            b"\x03\x01\0x\x03\x0010",
        ];
        for b in broken {
            assert!(!is_sheet(b), "{b:?}");
        }
    }

    #[test]
    fn levels_and_length() {
        let nested = |n: usize| b"\x04\x01\x00".repeat(n).into_iter().chain([8]).collect::<Vec<u8>>();
        assert!(is_sheet(&nested(6)));
        assert!(!is_sheet(&nested(7)));
        let text = |n: u16| [&[2][..], &n.to_le_bytes(), &vec![b'a'; usize::from(n)]].concat();
        assert!(is_sheet(&text(65_532)));
        assert!(!is_sheet(&text(65_533)));
    }
}
