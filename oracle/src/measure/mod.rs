//! What a frame costs here and in the original: time, instructions, memory. Ours goes through the exports of
//! `bridge`, as a host's does; the original's through its pipeline.

mod bench;
mod cases;
mod counts;
mod growth;
mod heap;
mod memory;
mod stack;
mod stand;
mod time;

use std::process::ExitCode;

use stand::Side;

/// What the scripts ask for beside the time.
pub fn run(words: &[&str]) -> ExitCode {
    match words {
        ["memory"] => memory::run(),
        ["input"] => memory::input(),
        ["cases"] => counts::list(),
        ["once", "original", pass, setting] => counts::once(Side::Original, pass, setting),
        ["once", "ours", pass, setting] => counts::once(Side::Ours, pass, setting),
        _ => {
            eprintln!("expected: memory, input, cases, or once, a side, a pass and a setting");
            ExitCode::from(2)
        }
    }
}

/// Prints the times and how they grow. Fails where one is past its limit.
pub fn time() -> ExitCode {
    let status = bench::run();
    growth::run();
    status
}
