//! Measures the trie beside sets behind locks, two copies of a set, and the same algorithm in plain Rust: see `README.md`.
mod apart;
mod aside;
mod calls;
mod case;
mod check;
mod column;
#[cfg(feature = "copies")]
mod copies;
mod count;
mod course;
mod engine;
mod engines;
mod fenwick;
mod locked;
mod operation;
mod options;
mod plain;
mod processors;
mod random;
mod runner;
mod scaling;
mod shared;
mod signals;
mod spread;
mod sums;
mod switches;
mod table;
mod tree;
mod users;
mod waits;
mod watch;
mod workload;

use options::{Options, USAGE};
use std::fs;
use std::process::ExitCode;

/// Measures all cases, and writes the tables.
fn measure(options: &Options) -> Result<(), String> {
    let (places, mut measured) = (processors::allowed().len(), Vec::new());
    for case in options.cases() {
        if case.processors() > places {
            eprintln!("bench: {case} are left out, since there are {places} processors");
        } else {
            eprintln!("bench: {case}");
            measured.push((case, case.measure(options)?));
        }
    }
    if measured.is_empty() {
        return Err("there is nothing to measure".into());
    }
    let table = table::table(options, &measured);
    print!("{table}");
    fs::create_dir_all(&options.into)
        .and_then(|()| fs::write(options.into.join("throughput.md"), table))
        .map_err(|cause| format!("{}: {cause}", options.into.display()))
}

fn run(options: &Options) -> Result<(), String> {
    let (lines, agree) = check::check(options.without);
    if options.check || !agree {
        print!("{lines}");
    }
    match (agree, options.check) {
        (false, _) => Err("the engines differ".into()),
        (true, true) => Ok(()),
        (true, false) if options.scaling => {
            scaling::print(options);
            Ok(())
        }
        (true, false) => measure(options),
    }
}

/// `count checked OPERATION TIMES`, or `unchecked`, makes operations of the plain algorithm.
fn count(words: &[String]) -> Option<()> {
    let [form, operation, times] = words else { return None };
    let times = times.parse().ok()?;
    let sum = match form.as_str() {
        "checked" => count::count::<true>(operation, times)?,
        "unchecked" => count::count::<false>(operation, times)?,
        _ => return None,
    };
    println!("{sum}");
    Some(())
}

fn main() -> ExitCode {
    let words: Vec<String> = std::env::args().skip(1).collect();
    let done = match words.split_first() {
        Some((word, rest)) if word == "count" => count(rest).map(Ok),
        _ => Options::of(words.into_iter()).map(|options| run(&options)),
    };
    match done {
        Some(Ok(())) => ExitCode::SUCCESS,
        Some(Err(why)) => {
            eprintln!("bench: {why}");
            ExitCode::FAILURE
        }
        None => {
            eprintln!("{USAGE}");
            ExitCode::from(2)
        }
    }
}
