//! The comparison of the number steps with Rust's own, of cards with a reading of documents 01 and 02, of the
//! passes with the original's, of program `station` with recorded answers and with a model of document
//! 01 over the original's pipeline, of program `card` with a text from that reading, of program `filter`
//! with the original's pipeline, of runs of calls, of run sheets and of a cabinet's sources with such a model, and of the totals of
//! rectangles with a model of document 02. Beside it the measurement of both.
//! Five scripts build and start it from the repository's root: `oracle/compare`, `oracle/bench`, `oracle/counts`,
//! `oracle/record` and `oracle/fuzz`. They set `with_original` where they find the original: without it there are
//! no passes to compare, and no model. `oracle/fuzz` compiles it once more, with `fuzz` set, as a library that
//! libFuzzer calls.
#![cfg_attr(any(fuzz, not(with_original)), allow(dead_code))]

// Not in the fuzzer: it calls the exports on a state.
#[cfg(not(fuzz))]
mod areas;
mod bench;
#[cfg_attr(fuzz, path = "guarded.rs")]
mod bridge;
mod cabinet;
mod cards;
mod constants;
#[cfg(fuzz)]
mod fuzz;
// In the fuzzer it stands in the place of `bridge`.
#[cfg(not(fuzz))]
#[allow(dead_code)]
mod guarded;
#[cfg(fuzz)]
mod inside;
// Not in the fuzzer, which is guided by the branches of all that is compiled: those of its allocator would be among them.
#[cfg(all(with_original, not(fuzz)))]
mod measure;
mod met;
mod pages;
#[cfg(with_original)]
mod passes;
mod patterns;
mod probe;
mod programs;
mod race;
mod random;
mod reports;
#[cfg(with_original)]
mod runs;
#[cfg(with_original)]
mod seeds;
mod share;
mod sheets;
mod station;
mod steps;
mod tally;

use std::path::Path;
use std::process::ExitCode;
use std::time::Instant;

use steps::Mode;
use tally::Total;

#[cfg(not(fuzz))]
fn main() -> ExitCode {
    let words: Vec<String> = std::env::args().skip(1).collect();
    let words: Vec<&str> = words.iter().map(String::as_str).collect();
    match words[..] {
        ["bench"] => time(),
        #[cfg(with_original)]
        ["measure", ref rest @ ..] => measure::run(rest),
        #[cfg(with_original)]
        ["record", file] => told(std::fs::write(file, station::record::all())),
        #[cfg(with_original)]
        ["seeds", target, folder] => told(seeds::write(target, Path::new(folder))),
        ["quick"] => compare(Mode::Quick, None),
        ["full"] => compare(Mode::Full, None),
        ["quick", original] => compare(Mode::Quick, Some(Path::new(original))),
        ["full", original] => compare(Mode::Full, Some(Path::new(original))),
        [part, "quick"] => only(part, Mode::Quick),
        [part, "full"] => only(part, Mode::Full),
        _ => misused(),
    }
}

fn misused() -> ExitCode {
    eprintln!(
        "expected: bench; measure and what; record and a file; seeds, a fuzz target and a folder; \
         steps, cards, areas, station, programs, passes, runs, still, sheets or cabinet, and quick or full; \
         quick or full and then the original's folder, if any"
    );
    ExitCode::from(2)
}

/// The parts of the comparison, in their order.
const PARTS: &[&str] = &[
    "steps",
    "cards",
    #[cfg(not(fuzz))]
    "areas",
    "station",
    "programs",
    #[cfg(with_original)]
    "passes",
    #[cfg(with_original)]
    "runs",
    #[cfg(with_original)]
    "still",
    #[cfg(all(with_original, not(fuzz)))]
    "sheets",
    #[cfg(all(with_original, not(fuzz)))]
    "cabinet",
];

fn compare(mode: Mode, original: Option<&Path>) -> ExitCode {
    let mut total = Total::default();
    // The constants first: if they cannot be read, that is known before minutes of number steps.
    if let Some(original) = original {
        if let Err(what) = constants::run(original, &mut total) {
            eprintln!("the constants were not compared: {what}");
            return ExitCode::FAILURE;
        }
    }
    these(PARTS, mode, total)
}

/// One part by itself.
fn only(part: &str, mode: Mode) -> ExitCode {
    if PARTS.contains(&part) {
        these(&[part], mode, Total::default())
    } else {
        misused()
    }
}

/// Compares these parts, and prints how long each took.
fn these(parts: &[&str], mode: Mode, mut total: Total) -> ExitCode {
    for part in parts {
        let start = Instant::now();
        if let Err(what) = run(part, mode, &mut total) {
            eprintln!("the programs were not compared: {what}");
            return ExitCode::FAILURE;
        }
        println!("({part}: {:.1} s)", start.elapsed().as_secs_f64());
    }
    verdict(&total)
}

/// An error where a program could not be run.
fn run(part: &str, mode: Mode, total: &mut Total) -> Result<(), String> {
    match part {
        "steps" => steps::run(mode, total),
        "cards" => cards::compare::run(mode, total),
        #[cfg(not(fuzz))]
        "areas" => areas::compare::run(mode, total),
        "station" => station::compare::run(mode, total)?,
        "programs" => programs::compare::run(mode, total)?,
        #[cfg(with_original)]
        "passes" => passes::compare::run(mode, total),
        #[cfg(with_original)]
        "runs" => runs::compare::run(mode, total),
        #[cfg(with_original)]
        "still" => runs::compare::still(mode, total),
        #[cfg(all(with_original, not(fuzz)))]
        "sheets" => sheets::compare::run(mode, total),
        #[cfg(all(with_original, not(fuzz)))]
        "cabinet" => cabinet::compare::run(mode, total),
        _ => unreachable!("{part} is not listed"),
    }
    Ok(())
}

fn verdict(total: &Total) -> ExitCode {
    println!("{total}");
    if total.different == 0 && total.unmet == 0 {
        ExitCode::SUCCESS
    } else {
        ExitCode::FAILURE
    }
}

/// Whether the files could be written.
#[cfg(with_original)]
fn told(written: std::io::Result<()>) -> ExitCode {
    match written {
        Ok(()) => ExitCode::SUCCESS,
        Err(error) => {
            eprintln!("the files were not written: {error}");
            ExitCode::FAILURE
        }
    }
}

/// The time of the steps, of the totals of rectangles, of a sheet's words, of enlarging and of the passes.
#[cfg(not(fuzz))]
fn time() -> ExitCode {
    let steps = bench::run();
    let areas = areas::bench::run();
    let sheets = sheets::bench::run();
    let cabinet = cabinet::bench::run();
    #[cfg(with_original)]
    let passes = measure::time();
    #[cfg(not(with_original))]
    let passes = ExitCode::SUCCESS;
    let failed = |status: &ExitCode| *status != ExitCode::SUCCESS;
    [steps, areas, sheets, cabinet, passes]
        .into_iter()
        .find(failed)
        .unwrap_or(ExitCode::SUCCESS)
}
