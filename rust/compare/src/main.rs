//! Holds the proved calls against the Rust reference on generated inputs: every field of every answer and every byte of
//! every buffer. Prints the smallest failing case that it finds in hexadecimal, and exits with 1 on a difference.
//!
//!     compare [--cases N] [--seed N] [--mode NAME]
//!     compare --replay MODE NAME=VALUE ..        one case, as it was printed

mod buffer;
mod bundles;
mod case;
mod damage;
mod definitions;
mod expansions;
mod loose;
mod modes;
mod passes;
mod rng;
mod sheets;
mod shrink;
mod sums;
mod texts;

use case::Case;
use modes::Mode;
use rng::Rng;
use std::collections::BTreeMap;
use std::env;
use std::process::ExitCode;
use std::time::{Instant, SystemTime, UNIX_EPOCH};

struct Options {
    cases: u64,
    seed: u64,
    mode: Option<String>,
    /// A mode and its words.
    replay: Option<Vec<String>>,
}

fn main() -> ExitCode {
    oracle::child::serve_if_asked();
    match options().and_then(|options| run(&options)) {
        Ok(true) => ExitCode::SUCCESS,
        Ok(false) => ExitCode::from(1),
        Err(message) => {
            eprintln!("compare: {message}");
            ExitCode::from(2)
        }
    }
}

fn options() -> Result<Options, String> {
    let mut options = Options { cases: 100_000, seed: seed_by_time(), mode: None, replay: None };
    let mut words = env::args().skip(1);
    while let Some(word) = words.next() {
        let mut value = || words.next().ok_or_else(|| format!("{word} wants a value"));
        let number = |text: String| text.parse().map_err(|_| format!("{text} is no number"));
        match word.as_str() {
            "--cases" => options.cases = number(value()?)?,
            "--seed" => options.seed = number(value()?)?,
            "--mode" => options.mode = Some(value()?),
            "--replay" => options.replay = Some(words.by_ref().collect()),
            _ => {
                return Err(format!(
                    "{word} is not known; --cases N, --seed N, --mode NAME, --replay MODE NAME=VALUE .."
                ));
            }
        }
    }
    Ok(options)
}

fn seed_by_time() -> u64 {
    SystemTime::now().duration_since(UNIX_EPOCH).map_or(1, |t| t.as_nanos() as u64 % 1_000_000_000)
}

/// Do both sides agree on everything.
fn run(options: &Options) -> Result<bool, String> {
    if let Some((mode, words)) = options.replay.as_ref().and_then(|words| words.split_first()) {
        return replay(mode, words);
    }
    println!("seed {}", options.seed);
    let mut agree = true;
    for mut mode in chosen(options.mode.as_deref())? {
        agree &= run_mode(mode.as_mut(), options);
    }
    println!("{}", if agree { "no difference" } else { "DIFFERENT" });
    Ok(agree)
}

fn chosen(name: Option<&str>) -> Result<Vec<Box<dyn Mode>>, String> {
    let modes = modes::all();
    let names = modes.iter().map(|mode| mode.name()).collect::<Vec<_>>().join(", ");
    let chosen: Vec<_> = modes.into_iter().filter(|mode| name.is_none_or(|name| name == mode.name())).collect();
    if chosen.is_empty() { Err(format!("the modes are {names}")) } else { Ok(chosen) }
}

fn replay(name: &str, words: &[String]) -> Result<bool, String> {
    let mode = &mut chosen(Some(name))?[0];
    let case = mode.case(&mut Rng::new(0)).with(words)?;
    let answer = mode.run(&case);
    match &answer {
        Ok(label) => println!("no difference: {label}"),
        Err(difference) => println!("DIFFERENT: {difference}"),
    }
    Ok(answer.is_ok())
}

/// Up to the first difference, which is made small and printed.
fn run_mode(mode: &mut dyn Mode, options: &Options) -> bool {
    let started = Instant::now();
    let cases = options.cases.div_ceil(mode.share());
    let mut rng = Rng::new(options.seed);
    let mut counts: BTreeMap<&str, u64> = BTreeMap::new();
    for number in 0..cases {
        let case = mode.case(&mut rng);
        match mode.run(&case) {
            Ok(label) => *counts.entry(label).or_default() += 1,
            Err(_) => {
                report(mode, case, number);
                return false;
            }
        }
    }
    let counts = counts.iter().map(|(label, n)| format!("{label} {n}")).collect::<Vec<_>>().join(", ");
    println!("{}: {cases} cases in {:.1} s: {counts}", mode.name(), started.elapsed().as_secs_f64());
    if let Some(summary) = mode.summary() {
        println!("{summary}");
    }
    true
}

fn report(mode: &mut dyn Mode, case: Case, number: u64) {
    let small = shrink::shrink(case, &mut |case| mode.run(case).is_err());
    println!("{}: DIFFERENCE at case {number}, made small:", mode.name());
    println!("  {}", mode.run(&small).unwrap_err());
    println!("  --replay {} {small}", mode.name());
}
