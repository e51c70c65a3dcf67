//! Bundles and paths to find in them, from a grammar of fragments and at random; and bundles that break a rule.
use crate::damage::{damaged, few};
use crate::rng::Rng;
use oracle::Files;
use oracle::bundle::{Found, encode, find};

const SEGMENTS: [&str; 20] = [
    "a", "b", "c", "ab", "a-b", "a.b", "a_b", "...", "-", "_", ".a", "a.", "..a", "A", "0", "main.typ", "defs.typ",
    "CITATION.cff", "x", "zz",
];
const PATH: &[u8] = b"ABCDEFGHIJKLMNOPQRSTUVWXYZabcdefghijklmnopqrstuvwxyz0123456789-_.";
/// On both sides of what a segment may hold.
const EDGES: &[u8] = b"AZaz09-_./:@[`{^ ,+\0\x7f\x80\xff";
const LONGEST_PATH: usize = 255;

/// Files that make a bundle which keeps the rules. Some few are large.
pub fn files(rng: &mut Rng) -> Files {
    let count = match rng.below(2000) {
        0 => rng.between(200, 700),
        1..50 => rng.between(9, 60),
        _ => rng.below(7),
    };
    let mut files = Files::new();
    for _ in 0..count {
        let path = path(rng);
        if fits(&files, &path) {
            files.insert(path, content(rng));
        }
    }
    files
}

/// Is the path free: neither there, nor a folder, nor inside a file.
pub fn fits(files: &Files, path: &[u8]) -> bool {
    find(files, path) == Found::Absent && folders(path).all(|folder| !files.contains_key(folder))
}

fn folders(path: &[u8]) -> impl Iterator<Item = &[u8]> {
    (0..path.len()).filter(|&i| path[i] == b'/').map(|i| &path[..i])
}

/// A path that keeps the rule.
fn path(rng: &mut Rng) -> Vec<u8> {
    let mut path = segment(rng);
    while rng.below(5) < 2 {
        path.push(b'/');
        path.extend(segment(rng));
    }
    if rng.one_in(100) {
        path = stretched(path, rng, LONGEST_PATH);
    }
    if path.len() <= LONGEST_PATH { path } else { segment(rng) }
}

pub fn segment(rng: &mut Rng) -> Vec<u8> {
    if rng.one_in(5) {
        let mut segment = rng.string(PATH, 3);
        segment.push(b'z');
        return segment;
    }
    rng.pick(&SEGMENTS).as_bytes().to_vec()
}

/// The path with more letters behind it, in one or many segments, n bytes long.
pub fn stretched(mut path: Vec<u8>, rng: &mut Rng, n: usize) -> Vec<u8> {
    let every = *rng.pick(&[2, 7, 1000]);
    while path.len() < n {
        let part = path.len() % every == 1 && path.len() + 1 < n && !path.ends_with(b"/");
        path.push(if part { b'/' } else { b'p' });
    }
    path
}

fn content(rng: &mut Rng) -> Vec<u8> {
    let n = match rng.below(1000) {
        0 => 65_535,
        1..15 => *rng.pick(&[255, 256, 257, 1000]),
        15..300 => 0,
        _ => rng.between(1, 12),
    };
    rng.bytes(n)
}

/// A path to find in a bundle: one that is there, one like it, or one at random.
pub fn asked(files: &Files, rng: &mut Rng) -> Vec<u8> {
    match rng.below(16) {
        0 => {
            let n = rng.below(8);
            rng.string(b"//..abxy-_", n)
        }
        1 => {
            let n = rng.below(8);
            rng.bytes(n)
        }
        2 => edge(rng),
        3 => path(rng),
        4..=7 => changed(present(files, rng), rng),
        _ => present(files, rng),
    }
}

/// A file or a folder that is there.
fn present(files: &Files, rng: &mut Rng) -> Vec<u8> {
    if files.is_empty() {
        return path(rng);
    }
    let file = files.keys().nth(rng.below(files.len())).expect("a file");
    let folders: Vec<&[u8]> = folders(file).collect();
    if folders.is_empty() || rng.one_in(2) { file.clone() } else { rng.pick(&folders).to_vec() }
}

pub fn changed(mut path: Vec<u8>, rng: &mut Rng) -> Vec<u8> {
    let i = rng.below(path.len() + 1);
    match rng.below(9) {
        0 => path.push(b'/'),
        1 => path.insert(0, b'/'),
        2 => path.insert(i, b'/'),
        3 => path.insert(i, *rng.pick(EDGES)),
        4 => path.truncate(i),
        5 => path.insert(i, rng.byte()),
        6 => path.extend([b"/", segment(rng).as_slice()].concat()),
        7 => path.extend(rng.pick(&["/.", "/..", "/../a", "./", "//a"]).as_bytes()),
        _ => path.make_ascii_uppercase(),
    }
    path
}

pub fn edge(rng: &mut Rng) -> Vec<u8> {
    if rng.one_in(2) {
        return rng
            .pick(&["", "/", ".", "..", "...", "/a", "a/", "a//b", "./a", "../a", "a/.", "a/.."])
            .as_bytes()
            .to_vec();
    }
    let n = rng.between(253, 258);
    stretched(path(rng), rng, n)
}

/// Bytes that mostly are no bundle, and a path to find in them.
pub fn damaged_bundle(rng: &mut Rng) -> (Vec<u8>, Vec<u8>) {
    let mut files = files(rng);
    let path = asked(&files, rng);
    let bundle = match rng.below(12) {
        0 => few(rng),
        1 => regrouped(&files, rng),
        2 | 3 => with_broken_entry(&files, rng),
        4 => {
            bad_path(&mut files, rng);
            encode(&files).unwrap_or_else(|| few(rng))
        }
        5 => {
            inside_a_file(&mut files, rng);
            encode(&files).expect("lengths that fit")
        }
        6 => encode(&files).expect("lengths that fit"),
        _ => damaged(encode(&files).expect("lengths that fit"), rng),
    };
    (bundle, path)
}

/// Each entry by itself.
fn single_entries(files: &Files) -> Vec<Vec<u8>> {
    let single = |(path, content): (&Vec<u8>, &Vec<u8>)| Files::from([(path.clone(), content.clone())]);
    files.iter().map(|file| encode(&single(file)).expect("lengths that fit")[2..].to_vec()).collect()
}

fn joined(entries: &[Vec<u8>], count: usize) -> Vec<u8> {
    [&(count as u16).to_le_bytes()[..], &entries.concat()].concat()
}

/// Entries swapped, doubled, lost or miscounted.
fn regrouped(files: &Files, rng: &mut Rng) -> Vec<u8> {
    let mut entries = single_entries(files);
    let mut count = entries.len();
    if entries.is_empty() {
        entries.push(b"\x02\x01a".to_vec());
    }
    let (i, j) = (rng.below(entries.len()), rng.below(entries.len()));
    match rng.below(4) {
        0 => entries.swap(i, j),
        1 => entries.insert(i, entries[j].clone()),
        2 => drop(entries.remove(i)),
        _ => count = count.wrapping_add(rng.below(3)).wrapping_sub(1) % 65_536,
    }
    if rng.one_in(2) {
        count = entries.len();
    }
    joined(&entries, count)
}

/// The entries with one between them that breaks a rule by itself, or may.
fn with_broken_entry(files: &Files, rng: &mut Rng) -> Vec<u8> {
    const BROKEN: [&[u8]; 18] = [
        b"\x02\x03a/b",
        b"\x03\x01a\x03b/c",
        b"\x02\0",
        b"\x03\0\x01a",
        b"\x03\x01a\0",
        b"\x06\x01a\0\0",
        b"\x01\x01a",
        b"\x00",
        b"\x05\x01a\x01\0b",
        b"\x0a\x01a",
        b"\x12\x01a",
        b"\x82\x01a",
        b"\x03\x02a/\x01b",
        b"\x03\x02/a\x01b",
        b"\x03\x04a//b\x01b",
        b"\x03\x02..\x01b",
        b"\x06\x01a\xff\xff",
        b"\x02\x01\x80",
    ];
    let mut entries = single_entries(files);
    let i = rng.below(entries.len() + 1);
    entries.insert(i, rng.pick(&BROKEN).to_vec());
    let count = entries.len();
    joined(&entries, count)
}

/// A file more, whose path breaks the rule or is near to that.
fn bad_path(files: &mut Files, rng: &mut Rng) {
    let mut added = present(files, rng);
    if rng.one_in(3) {
        let n = rng.between(253, 258);
        added.truncate(100);
        added = stretched(added, rng, n);
    } else {
        added = changed(added, rng);
    }
    files.insert(added, content(rng));
}

/// A file more inside one that is there; sometimes one between them by order.
fn inside_a_file(files: &mut Files, rng: &mut Rng) {
    let Some(file) = files.keys().nth(rng.below(files.len().max(1))).cloned() else { return };
    let inner = [&file, b"/".as_slice(), &segment(rng)].concat();
    if inner.len() > LONGEST_PATH {
        return;
    }
    files.insert(inner, content(rng));
    if rng.one_in(2) && file.len() < LONGEST_PATH {
        let between = [&file, rng.pick(&[b"-", b"."]).as_slice()].concat();
        files.insert(between, content(rng));
    }
}

#[cfg(test)]
mod tests {
    use super::*;
    use oracle::bundle::decode;
    use oracle::layout::{bundle_entries, is_path};

    #[test]
    fn files_keep_the_rules() {
        let mut rng = Rng::new(1);
        for _ in 0..20_000 {
            let files = files(&mut rng);
            let bytes = encode(&files).unwrap();
            let entries = bundle_entries(&bytes).unwrap();
            assert_eq!(entries.len(), files.len());
            for (entry, (path, content)) in entries.iter().zip(&files) {
                assert_eq!(&entry.path, path);
                assert_eq!(&bytes[entry.start..entry.start + entry.len], content);
            }
            assert_eq!(decode(&bytes), Some(files));
        }
    }

    // The walk of `layout`, and the way by the files: read, paths allowed, written back the same.
    #[test]
    fn two_checks_agree() {
        let mut rng = Rng::new(2);
        let mut kept = 0;
        for _ in 0..100_000 {
            let (bundle, _) = damaged_bundle(&mut rng);
            let files = decode(&bundle).filter(|files| {
                let free = |p: &Vec<u8>| folders(p).all(|folder| !files.contains_key(folder));
                files.keys().all(|p| is_path(p) && free(p))
            });
            let by_files = files.and_then(|files| encode(&files)).as_ref() == Some(&bundle);
            assert_eq!(bundle_entries(&bundle).is_some(), by_files, "{}", crate::case::hex(&bundle));
            kept += usize::from(by_files);
        }
        assert!((5_000..60_000).contains(&kept), "{kept} of the damaged bundles are bundles");
    }
}
