//! Takes the reference's functions, unchanged, out of its sources and writes them as one file of modules.
//! Only the line marked ADDED and the few lines around the functions are ours.
use std::env;
use std::fs;
use std::path::{Path, PathBuf};
use std::process::exit;

/// The folder of the reference's sources; the environment variable goes before it.
const BESIDE_THE_PROJECT: &str = "../../../shared/docs/src";
const VARIABLE: &str = "ORACLE_SRC";

/// What is taken out of typst_parser.rs: `preprocess_typst`, `resolve_includes` and all they call there.
const FUNCTIONS: [&str; 8] = [
    "preprocess_typst",
    "parse_raw_call_chars",
    "parse_link_call_chars",
    "parse_concat_expr_chars",
    "parse_string_with_concat_chars",
    "parse_simple_string_chars",
    "resolve_includes",
    "find_project_root",
];

fn main() {
    println!("cargo::rerun-if-changed=build.rs");
    println!("cargo::rerun-if-env-changed={VARIABLE}");
    let folder = env::var(VARIABLE).map_or_else(|_| PathBuf::from(BESIDE_THE_PROJECT), PathBuf::from);
    let eval = source(&folder, "typst_eval.rs");
    let parser = source(&folder, "typst_parser.rs");
    let out = PathBuf::from(env::var("OUT_DIR").unwrap()).join("reference.rs");
    fs::write(out, modules(&eval, &parser)).unwrap();
}

fn source(folder: &Path, name: &str) -> String {
    let path = folder.join(name);
    println!("cargo::rerun-if-changed={}", path.display());
    fs::read_to_string(&path).unwrap_or_else(|e| {
        println!(
            "cargo::error=the reference's {name} cannot be read from {}: {e}. Set {VARIABLE} to the folder that holds it.",
            folder.display()
        );
        exit(1)
    })
}

/// typst_eval.rs whole, and the functions of typst_parser.rs, each in a module that finds `anyhow` in this crate.
fn modules(eval: &str, parser: &str) -> String {
    let functions: String = FUNCTIONS.iter().map(|name| function(parser, name)).collect();
    format!(
        "#[allow(warnings, clippy::all)]\n\
         pub mod typst_eval {{\n\
         {eval}\n\
         use crate::anyhow;\n\
         }}\n\n\
         #[allow(warnings, clippy::all)]\n\
         pub mod typst_parser {{\n\
         use crate::anyhow;\n\
         use super::typst_eval::{{EvalContext, TypstValue, parse_definitions}};\n\
         use anyhow::Result;\n\
         use std::path::Path;\n\n\
         {functions}\
         pub fn includes(content: &str, current_dir: &Path) -> Result<String> {{\n    \
             resolve_includes(content, current_dir)\n\
         }}\n\
         pub fn expansion(content: &str, ctx: &EvalContext, base_path: &Path) -> Result<String> {{\n    \
             preprocess_typst(content, ctx, base_path)\n\
         }}\n\
         }}\n"
    )
}

fn function(parser: &str, name: &str) -> String {
    let text = cut(parser, name);
    if name == "preprocess_typst" { handing_out(text) } else { text }
}

/// The function of that name: from its `fn` line at column 0 to the next `}` at column 0.
fn cut(source: &str, name: &str) -> String {
    let heads = [format!("fn {name}("), format!("pub fn {name}(")];
    let begins = |line: &str| heads.iter().any(|head| line.starts_with(head.as_str()));
    assert_eq!(source.lines().filter(|line| begins(line)).count(), 1, "one function {name}");
    let mut taken = String::new();
    for line in source.lines().skip_while(|line| !begins(line)) {
        taken.push_str(line);
        taken.push('\n');
        if line == "}" {
            taken.push('\n');
            return taken;
        }
    }
    panic!("no end of {name}")
}

/// `preprocess_typst` with one line more, which hands out `local_ctx` as it is at the end.
fn handing_out(text: String) -> String {
    let last = "    Ok(result)\n";
    assert_eq!(text.matches(last).count(), 1, "one end of preprocess_typst");
    assert!(text.ends_with(&format!("{last}}}\n\n")), "the end of preprocess_typst");
    let added = "    super::hand_out(&local_ctx); // ADDED: the bindings at the end\n";
    text.replace(last, &format!("{added}{last}"))
}
