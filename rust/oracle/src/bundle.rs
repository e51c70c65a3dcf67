//! Bundles (01, section 1): files, their bytes, and a folder on the disk that holds them for the reference.
use crate::reader::Reader;
use std::collections::BTreeMap;
use std::io;
use std::path::{Path, PathBuf};
use std::sync::atomic::{AtomicU64, Ordering};
use std::{env, fs, process};

/// Paths with their contents, ordered by bytes.
pub type Files = BTreeMap<Vec<u8>, Vec<u8>>;

/// What a path is.
#[derive(Clone, Debug, PartialEq, Eq)]
pub enum Found {
    Absent,
    Folder,
    File(Vec<u8>),
}

const FOLDER: u8 = 1;
const NAME: u8 = 2;
const CONTENT: u8 = 4;

/// The files' bytes, in the one form that a bundle has. None where a length does not fit its field.
pub fn encode(files: &Files) -> Option<Vec<u8>> {
    let mut out = word(files.len())?.to_vec();
    for (path, content) in files {
        put_entry(path, content, &mut out)?;
    }
    Some(out)
}

fn put_entry(path: &[u8], content: &[u8], out: &mut Vec<u8>) -> Option<()> {
    let (folder, name) = parted(path);
    let foldered = if folder.is_some() { FOLDER } else { 0 };
    let filled = if content.is_empty() { 0 } else { CONTENT };
    out.push(foldered | NAME | filled);
    if let Some(folder) = folder {
        put_short(folder, out)?;
    }
    put_short(name, out)?;
    if !content.is_empty() {
        out.extend(word(content.len())?);
        out.extend(content);
    }
    Some(())
}

/// What stands before a path's last `/`, and the name behind it.
fn parted(path: &[u8]) -> (Option<&[u8]>, &[u8]) {
    match path.iter().rposition(|&c| c == b'/') {
        Some(i) => (Some(&path[..i]), &path[i + 1..]),
        None => (None, path),
    }
}

fn word(n: usize) -> Option<[u8; 2]> {
    Some(u16::try_from(n).ok()?.to_le_bytes())
}

fn put_short(bytes: &[u8], out: &mut Vec<u8>) -> Option<()> {
    out.push(u8::try_from(bytes.len()).ok()?);
    out.extend(bytes);
    Some(())
}

/// The files that the bytes name, read leniently, as `sheet::decode` does. None where the bytes end early or go on behind
/// the last entry, or an entry has no name.
pub fn decode(bytes: &[u8]) -> Option<Files> {
    let mut reader = Reader::new(bytes);
    let count = reader.word()?;
    let mut files = Files::new();
    for _ in 0..count {
        let (path, content) = take_entry(&mut reader)?;
        files.insert(path, content);
    }
    reader.is_empty().then_some(files)
}

fn take_entry(reader: &mut Reader) -> Option<(Vec<u8>, Vec<u8>)> {
    let map = reader.byte()?;
    let mut path = Vec::new();
    if map & FOLDER != 0 {
        let n = reader.short()?;
        path.extend(reader.take(n)?);
        path.push(b'/');
    }
    if map & NAME == 0 {
        return None;
    }
    let n = reader.short()?;
    path.extend(reader.take(n)?);
    let mut content = Vec::new();
    if map & CONTENT != 0 {
        let n = reader.word()?;
        content.extend(reader.take(n)?);
    }
    Some((path, content))
}

/// What a path is among the files.
pub fn find(files: &Files, path: &[u8]) -> Found {
    if let Some(content) = files.get(path) {
        return Found::File(content.clone());
    }
    let inside = [path, b"/"].concat();
    if files.keys().any(|p| p.starts_with(&inside)) { Found::Folder } else { Found::Absent }
}

/// A fresh folder that holds a bundle's files. It goes when this is dropped.
pub struct Unpacked {
    root: PathBuf,
}

impl Unpacked {
    /// Unpacks the files into a fresh folder, in memory where the system has a folder for that.
    pub fn new(files: &Files) -> io::Result<Unpacked> {
        let unpacked = Unpacked { root: fresh_folder()? };
        unpacked.change(&Files::new(), files)?;
        Ok(unpacked)
    }

    /// Makes the folder, which holds the files `from`, hold the files `to`. Only what differs is written or removed.
    pub fn change(&self, from: &Files, to: &Files) -> io::Result<()> {
        for path in from.keys().filter(|path| !to.contains_key(*path)) {
            let path = self.root.join(utf8(path)?);
            fs::remove_file(&path)?;
            // Folders that are empty now are no folders of the bundle. The first that is not ends this.
            let above = path.ancestors().skip(1).take_while(|above| *above != self.root);
            let _ = above.map(fs::remove_dir).take_while(Result::is_ok).count();
        }
        for (path, content) in to.iter().filter(|(path, content)| from.get(*path) != Some(content)) {
            let place = self.root.join(utf8(path)?);
            if !from.contains_key(path) {
                fs::create_dir_all(place.parent().expect("a path below the root"))?;
            }
            fs::write(place, content)?;
        }
        Ok(())
    }

    pub fn root(&self) -> &Path {
        &self.root
    }

    /// What a path is on the disk.
    pub fn find(&self, path: &[u8]) -> io::Result<Found> {
        let path = self.root.join(utf8(path)?);
        if path.is_dir() {
            Ok(Found::Folder)
        } else if path.exists() {
            Ok(Found::File(fs::read(path)?))
        } else {
            Ok(Found::Absent)
        }
    }
}

impl Drop for Unpacked {
    fn drop(&mut self) {
        let _ = fs::remove_dir_all(&self.root);
    }
}

fn utf8(path: &[u8]) -> io::Result<&str> {
    str::from_utf8(path).map_err(io::Error::other)
}

/// Where Linux keeps files in memory; else the system's folder for temporary files.
fn temporary() -> PathBuf {
    let memory = Path::new("/dev/shm");
    if memory.is_dir() { memory.to_path_buf() } else { env::temp_dir() }
}

/// An empty folder above which no `CITATION.cff` stands.
fn fresh_folder() -> io::Result<PathBuf> {
    static NEXT: AtomicU64 = AtomicU64::new(0);
    loop {
        let number = NEXT.fetch_add(1, Ordering::Relaxed);
        let folder = temporary().join(format!("wagtailfen-{}-{number}", process::id()));
        match fs::create_dir(&folder) {
            Ok(()) => return no_citation_above(folder),
            Err(e) if e.kind() == io::ErrorKind::AlreadyExists => {}
            Err(e) => return Err(e),
        }
    }
}

fn no_citation_above(folder: PathBuf) -> io::Result<PathBuf> {
    for above in folder.ancestors() {
        if above.join("CITATION.cff").exists() {
            return Err(io::Error::other(format!("a CITATION.cff stands in {}", above.display())));
        }
    }
    Ok(folder)
}

#[cfg(test)]
mod tests {
    use super::*;

    fn files(entries: &[(&str, &str)]) -> Files {
        entries.iter().map(|(p, c)| (p.as_bytes().to_vec(), c.as_bytes().to_vec())).collect()
    }

    #[test]
    fn bytes_of_a_bundle() {
        assert_eq!(encode(&files(&[])).unwrap(), b"\x00\x00");
        assert_eq!(encode(&files(&[("a", "")])).unwrap(), b"\x01\x00\x02\x01a");
        let both = files(&[("a/b/c", "hi"), ("z", "")]);
        assert_eq!(encode(&both).unwrap(), b"\x02\x00\x07\x03a/b\x01c\x02\x00hi\x02\x01z");
    }

    #[test]
    fn ascending_by_joined_paths() {
        let bytes = encode(&files(&[("a/b", ""), ("a-b/c", "")])).unwrap();
        assert_eq!(bytes, b"\x02\x00\x03\x03a-b\x01c\x03\x01a\x01b");
        assert_eq!(encode(&decode(&bytes).unwrap()), Some(bytes));
    }

    #[test]
    fn memory_and_disk_find_the_same() {
        let all = files(&[("a/b/c", "hi"), ("a-b/x", ""), ("z", "Z\n")]);
        let disk = Unpacked::new(&all).unwrap();
        for path in ["a", "a/b", "a/b/c", "a-b", "a-b/x", "z", "a/c", "b", "a/b/c/d", "z/z"] {
            assert_eq!(disk.find(path.as_bytes()).unwrap(), find(&all, path.as_bytes()), "{path}");
        }
        let other = files(&[("a", "now a file"), ("a-b/x", "longer"), ("b/c/d", "")]);
        disk.change(&all, &other).unwrap();
        for path in ["a", "a/b", "a/b/c", "a-b", "a-b/x", "z", "b", "b/c", "b/c/d"] {
            assert_eq!(disk.find(path.as_bytes()).unwrap(), find(&other, path.as_bytes()), "{path}");
        }
        let root = disk.root().to_path_buf();
        drop(disk);
        assert!(!root.exists());
    }
}
