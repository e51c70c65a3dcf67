//! Links the static library that the project's root makes.
use std::env;
use std::path::{Path, PathBuf};
use std::process::exit;

/// Where `rt lib` in crates/wagtailfen writes the library; the environment variable goes before it.
const FOLDER: &str = "../../crates/wagtailfen/out";
const VARIABLE: &str = "WAGTAILFEN_LIB";

fn main() {
    println!("cargo::rerun-if-changed=build.rs");
    println!("cargo::rerun-if-env-changed={VARIABLE}");
    let here = PathBuf::from(env::var("CARGO_MANIFEST_DIR").unwrap());
    let folder = here.join(env::var(VARIABLE).as_deref().unwrap_or(FOLDER));
    let library = folder.join("libwagtailfen.a");
    println!("cargo::rerun-if-changed={}", library.display());
    if !library.exists() {
        missing(&folder);
    }
    println!("cargo::rustc-link-search=native={}", folder.display());
    println!("cargo::rustc-link-lib=static=wagtailfen");
}

fn missing(folder: &Path) -> ! {
    println!(
        "cargo::error=libwagtailfen.a is not in {}. Make it by `rt lib` in crates/wagtailfen, or set {VARIABLE} to the folder that \
         holds it.",
        folder.display()
    );
    exit(1)
}
