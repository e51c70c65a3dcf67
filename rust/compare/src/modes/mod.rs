//! A mode is a public call with a generator of cases. To add one: implement `Mode` and list it in `all`.
//! Calls of the reference that may hang run in `oracle::child::Runner`, which a mode can hold.
use crate::case::{Case, hex};
use crate::rng::Rng;
use std::fmt::Debug;

mod definitions;
mod expansion;
mod files;
mod includes;
mod loads;
mod lookup;
mod parts;
mod pass;
mod stalls;

pub trait Mode {
    fn name(&self) -> &'static str;

    /// Slow modes run one case where others run so many.
    fn share(&self) -> u64 {
        1
    }

    fn case(&mut self, rng: &mut Rng) -> Case;

    /// Runs both sides. The answer in a word or two, for the count; or the difference.
    fn run(&mut self, case: &Case) -> Result<&'static str, String>;

    /// More about the cases that were run, if there is more to say than the counts of the answers.
    fn summary(&self) -> Option<String> {
        None
    }
}

pub fn all() -> Vec<Box<dyn Mode>> {
    vec![
        Box::new(lookup::Lookup::default()),
        Box::new(lookup::Lookup::damaged()),
        Box::new(files::Find { damaged: false, disk: false }),
        Box::new(files::Find { damaged: true, disk: false }),
        Box::new(files::Find { damaged: false, disk: true }),
        Box::new(includes::Includes::default()),
        Box::new(expansion::Expansion::default()),
        Box::new(stalls::Stalls::new()),
        Box::new(definitions::Definitions::default()),
        Box::new(pass::Pass::default()),
        Box::new(parts::Parts::default()),
        Box::new(loads::Loads::default()),
    ]
}

/// All fields of two answers.
fn same<T: Debug + PartialEq>(call: &str, here: T, wanted: T) -> Result<(), String> {
    if here == wanted { Ok(()) } else { Err(format!("{call}: here {here:?}, wanted {wanted:?}")) }
}

/// Bytes, of which the first that differ are shown.
fn same_bytes(what: &str, here: &[u8], wanted: &[u8]) -> Result<(), String> {
    let at = here.iter().zip(wanted).take_while(|(a, b)| a == b).count();
    let shown = |bytes: &[u8]| hex(&bytes[at..bytes.len().min(at + 16)]);
    if here == wanted {
        return Ok(());
    }
    Err(format!(
        "{what}[{at}]: here {} of {} bytes, wanted {} of {}",
        shown(here),
        here.len(),
        shown(wanted),
        wanted.len()
    ))
}
