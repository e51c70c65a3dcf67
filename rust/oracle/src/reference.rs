//! The reference itself, and the few steps from it to plain values.
use crate::lookup::Looked;
use crate::sheet::{Tree, Value};
use std::cell::RefCell;
use std::collections::HashMap;
use std::path::{Path, PathBuf};
use typst_eval::{EvalContext, TypstValue};

include!(concat!(env!("OUT_DIR"), "/reference.rs"));

thread_local! { static LEFT: RefCell<Option<EvalContext>> = const { RefCell::new(None) }; }

/// The line added to `preprocess_typst` calls this with `local_ctx`.
fn hand_out(context: &EvalContext) {
    LEFT.set(Some(context.clone()));
}

/// The reference's bindings, in its hash maps.
pub struct Context(EvalContext);

impl Context {
    /// None where a name or text is not UTF-8.
    pub fn new(tree: &Tree) -> Option<Context> {
        let mut context = EvalContext::new(Path::new(""));
        context.vars = map_of(tree)?;
        Some(Context(context))
    }

    /// `EvalContext::resolve`: 0 missing, 1 none, 2 text, 3 dictionary.
    pub fn resolve(&self, path: &str) -> u8 {
        match self.0.resolve(path) {
            None => 0,
            Some(TypstValue::None) => 1,
            Some(TypstValue::String(_)) => 2,
            Some(TypstValue::Dictionary(_)) => 3,
        }
    }

    /// `EvalContext::resolve_string`.
    pub fn resolve_string(&self, path: &str) -> String {
        self.0.resolve_string(path)
    }

    /// Both for one path: the reference has no one call for it.
    pub fn looked(&self, path: &str) -> Looked {
        Looked { kind: self.resolve(path), text: self.resolve_string(path).into_bytes() }
    }

    /// The bindings as a tree.
    pub fn tree(&self) -> Tree {
        tree_of(&self.0.vars)
    }
}

fn map_of(tree: &Tree) -> Option<HashMap<String, TypstValue>> {
    let string = |bytes: &[u8]| Some(str::from_utf8(bytes).ok()?.to_string());
    tree.iter()
        .map(|(name, value)| {
            let value = match value {
                Value::Text(text) => TypstValue::String(string(text)?),
                Value::None => TypstValue::None,
                Value::Dictionary(tree) => TypstValue::Dictionary(map_of(tree)?),
            };
            Some((string(name)?, value))
        })
        .collect()
}

fn tree_of(map: &HashMap<String, TypstValue>) -> Tree {
    map.iter()
        .map(|(name, value)| {
            let value = match value {
                TypstValue::String(text) => Value::Text(text.clone().into()),
                TypstValue::None => Value::None,
                TypstValue::Dictionary(map) => Value::Dictionary(tree_of(map)),
            };
            (name.clone().into_bytes(), value)
        })
        .collect()
}

fn below(root: &Path, path: &str) -> PathBuf {
    if path.is_empty() { root.to_path_buf() } else { root.join(path) }
}

/// `resolve_includes` with the files below `root`.
pub fn includes(root: &Path, folder: &str, text: &str) -> Result<String, String> {
    typst_parser::includes(text, &below(root, folder)).map_err(|e| e.0)
}

/// `preprocess_typst` with the files below `root`: its output and the bindings at its end.
pub fn expansion(root: &Path, text: &str, context: &Context) -> Result<(String, Context), String> {
    let out = typst_parser::expansion(text, &context.0, root).map_err(|e| e.0)?;
    let left = LEFT.take().expect("preprocess_typst hands out its bindings");
    Ok((out, Context(left)))
}

/// `parse_definitions` of a file below `root`.
pub fn definitions(root: &Path, path: &str) -> Result<Context, String> {
    typst_eval::parse_definitions(&below(root, path)).map(Context).map_err(|e| e.0)
}
