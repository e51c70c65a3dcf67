//! Writes the input of the program `lines` to standard output: cases of the public calls with the answers that they must have. What
//! `lines` must print goes to standard error. The form of a case stands in `record`.
//!
//!     vectors [FOLDER]        FOLDER: the one of the lines with given answers, where they are not in their place

mod definitions;
mod edge;
mod expansion;
mod includes;
mod loads;
mod lookups;
mod pass;
mod record;

use record::Record;
use std::io::{self, Write};
use std::{env, process};

/// Below the 196,608 bytes that the program reads.
const LONGEST: usize = 190_000;
const BESIDE_THE_PROJECT: &str = concat!(env!("CARGO_MANIFEST_DIR"), "/../../../shared/vectors");

fn main() {
    let given = env::args().nth(1).unwrap_or_else(|| BESIDE_THE_PROJECT.into());
    let all = records(&given).unwrap_or_else(|e| {
        eprintln!("vectors: {given}: {e}");
        process::exit(1)
    });
    let out: Vec<u8> = all.iter().flat_map(|record| record.0.iter().copied()).collect();
    assert!(out.len() < LONGEST, "{} bytes are too many", out.len());
    io::stdout().write_all(&out).expect("standard output");
    eprintln!("{} cases, 0 differ", all.len());
}

/// `given`: a folder with the lines of 01, `edge.jsonl`, and those of 02, `edge-02.txt`.
fn records(given: &str) -> io::Result<Vec<Record>> {
    let (of_01, of_02) = (&format!("{given}/edge.jsonl"), &format!("{given}/edge-02.txt"));
    let mut all: Vec<Record> = edge::lookups(of_02)?;
    all.extend(lookups::cases());
    all.extend(edge::includes(of_01)?);
    all.extend(includes::cases());
    all.extend(edge::expansions(of_01)?);
    all.extend(expansion::cases());
    all.extend(edge::definitions(of_01)?);
    all.extend(definitions::cases());
    all.extend(edge::passes(of_01)?);
    all.extend(pass::cases());
    all.extend(edge::loads(of_02)?);
    all.extend(loads::cases());
    Ok(all)
}
