//! The example manual: `examples/scoring.txt` is what the reference makes of `examples/scoring`.
use oracle::{Files, parse_definitions, preprocess_typst, resolve_includes};
use std::fs;
use std::path::Path;

const EXAMPLES: &str = concat!(env!("CARGO_MANIFEST_DIR"), "/../../examples");

fn collect(folder: &Path, prefix: &str, files: &mut Files) {
    for entry in fs::read_dir(folder).unwrap() {
        let entry = entry.unwrap();
        let path = format!("{prefix}{}", entry.file_name().into_string().unwrap());
        if entry.file_type().unwrap().is_dir() {
            collect(&entry.path(), &format!("{path}/"), files);
        } else {
            files.insert(path.into_bytes(), fs::read(entry.path()).unwrap());
        }
    }
}

#[test]
fn the_example_manual() {
    let mut files = Files::new();
    collect(&Path::new(EXAMPLES).join("scoring"), "", &mut files);
    let text = str::from_utf8(&files[&b"main.typ"[..]]).unwrap();
    let bindings = parse_definitions(&files, "defs.typ").unwrap();
    let middle = resolve_includes(&files, "", text).unwrap();
    let (out, _) = preprocess_typst(&files, &middle, &bindings).unwrap();
    assert_eq!(out, fs::read_to_string(Path::new(EXAMPLES).join("scoring.txt")).unwrap());
}
