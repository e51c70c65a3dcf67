//! `find_file` against the rules of 01 and, for some cases, against the files on the disk.
use super::{Mode, same};
use crate::bundles;
use crate::case::{Case, Form};
use crate::rng::Rng;
use oracle::layout::{Entry, bundle_entries, is_path};
use oracle::{Unpacked, bundle};
use wagtailfen::{ABSENT, FILE, FOLDER, Found, find_file};

pub struct Find {
    /// Bytes that mostly are no bundle.
    pub damaged: bool,
    /// Asks the disk as well.
    pub disk: bool,
}

impl Mode for Find {
    fn name(&self) -> &'static str {
        match (self.damaged, self.disk) {
            (false, false) => "files",
            (true, _) => "damaged-bundles",
            (false, true) => "files-on-disk",
        }
    }

    fn share(&self) -> u64 {
        if self.disk { 1000 } else { 1 }
    }

    fn case(&mut self, rng: &mut Rng) -> Case {
        let (bundle, path) = if self.damaged { bundles::damaged_bundle(rng) } else { kept(rng) };
        Case::default().input("bundle", Form::Bundle, bundle).input("path", Form::Plain, path)
    }

    fn run(&mut self, case: &Case) -> Result<&'static str, String> {
        let (bundle, path) = (case.bytes(0), case.bytes(1));
        let here = find_file(bundle, path);
        same("find_file", here, wanted(bundle, path)?)?;
        if self.disk && here.number == 0 {
            same("find_file", what(here, bundle), on_disk(bundle, path)?)?;
        }
        Ok(label(here))
    }
}

fn kept(rng: &mut Rng) -> (Vec<u8>, Vec<u8>) {
    let files = bundles::files(rng);
    let path = bundles::asked(&files, rng);
    (bundle::encode(&files).expect("lengths that fit"), path)
}

fn wanted(bytes: &[u8], path: &[u8]) -> Result<Found, String> {
    let found = |number, kind, start, len| Found { number, kind, start, len };
    let Some(entries) = entries_of(bytes)? else { return Ok(found(2, 0, 0, 0)) };
    if !is_path(path) {
        return Ok(found(4, 0, 0, 0));
    }
    let inside = [path, b"/"].concat();
    Ok(match entries.iter().find(|e| e.path == path) {
        Some(e) => found(0, FILE, e.start, e.len),
        None if entries.iter().any(|e| e.path.starts_with(&inside)) => found(0, FOLDER, 0, 0),
        None => found(0, ABSENT, 0, 0),
    })
}

/// None where a rule is broken. A bundle that keeps them is read, and written back as it is.
fn entries_of(bytes: &[u8]) -> Result<Option<Vec<Entry>>, String> {
    let Some(entries) = bundle_entries(bytes) else { return Ok(None) };
    let files = bundle::decode(bytes).ok_or("this driver: a bundle that cannot be read")?;
    if bundle::encode(&files).as_deref() != Some(bytes) {
        return Err("this driver: a bundle that is not written back as it was".into());
    }
    Ok(Some(entries))
}

/// What our answer says of the path.
fn what(found: Found, bundle: &[u8]) -> oracle::Found {
    match found.kind {
        FILE => oracle::Found::File(bundle[found.start..found.start + found.len].to_vec()),
        FOLDER => oracle::Found::Folder,
        _ => oracle::Found::Absent,
    }
}

fn on_disk(bytes: &[u8], path: &[u8]) -> Result<oracle::Found, String> {
    let files = bundle::decode(bytes).ok_or("this driver: a bundle that cannot be read")?;
    Unpacked::new(&files).and_then(|disk| disk.find(path)).map_err(|e| e.to_string())
}

fn label(found: Found) -> &'static str {
    match (found.number, found.kind) {
        (2, _) => "2 bundle",
        (4, _) => "4 path",
        (_, FILE) if found.len == 0 => "empty file",
        (_, FILE) => "file",
        (_, FOLDER) => "folder",
        _ => "absent",
    }
}
