//! One frame for callgrind, which counts its instructions.

use std::process::ExitCode;

use super::cases;
use super::stand::{picture, Side, Stand, CONSOLE};

/// Prints the words that `once` takes: a line for each case.
pub fn list() -> ExitCode {
    println!("{}", CONSOLE.0 * CONSOLE.1);
    for case in cases::all() {
        println!("{} {}", case.pass, case.setting);
    }
    ExitCode::SUCCESS
}

/// Runs a frame of one case on one side, after one that fills the history and is not counted.
pub fn once(side: Side, pass: &str, setting: &str) -> ExitCode {
    let mut cases = cases::all().into_iter();
    let Some(case) = cases.find(|case| case.pass == pass && case.setting == setting) else {
        eprintln!("no case has pass {pass} and setting {setting}");
        return ExitCode::from(2);
    };
    let mut stand = Stand::new(&case, CONSOLE);
    let given = picture(CONSOLE);
    stand.frame(side, &mut given.clone());
    hedgemallow_counted(&mut stand, side, &mut given.clone());
    ExitCode::SUCCESS
}

/// What is counted: oracle/counts gives callgrind this name.
#[no_mangle]
#[inline(never)]
fn hedgemallow_counted(stand: &mut Stand, side: Side, words: &mut [u32]) {
    stand.frame(side, words);
}
