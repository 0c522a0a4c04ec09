//! The time of each pass alone and of the chains beside the original's, held to their limits.

use std::hint::black_box;
use std::process::ExitCode;
use std::time::Duration;

use super::cases::{self, Case};
use super::stand::{picture, Size, CONSOLE};
use super::time::{measured, Patience, Times};
use crate::race::timed;

/// That of the console, of the same three times as large, and the largest.
const SIZES: [Size; 3] = [CONSOLE, (768, 720), (1024, 1024)];

/// The median of an odd number of rounds.
const PATIENCE: Patience = Patience {
    rounds: [7, 201],
    time: Duration::from_millis(500),
};

/// A frame of a 60 Hz screen, in milliseconds.
const FRAME: f64 = 1000.0 / 60.0;

/// Prints a line for each case at each size. Fails where one is past its limit.
pub fn run() -> ExitCode {
    println!();
    println!("Passes and chains, through `bridge` and through the original's pipeline, on a random frame: nanoseconds per");
    println!("pixel, the median of rounds by turns, and frames a second. Chain: all ten passes, by ascending kind.");
    for size in SIZES {
        copy(size);
    }
    let mut status = ExitCode::SUCCESS;
    for case in cases::all() {
        for size in SIZES {
            if !within_limit(&case, size) {
                status = ExitCode::FAILURE;
            }
        }
    }
    status
}

/// Prints what memory alone takes, per pixel: where a frame is read and written once, and where the frames of the
/// longest history move by a place and one joins them.
fn copy(size: Size) {
    let given = picture(size);
    let count = given.len();
    let mut history = given.repeat(8);
    let frame = median(count, || {
        black_box(&mut history[..count]).copy_from_slice(black_box(&given));
    });
    let moved = median(count, || {
        let history = black_box(&mut history);
        history.copy_within(..7 * count, count);
        history[..count].copy_from_slice(black_box(&given));
    });
    println!(
        "copy size={}x{} frame_ns={frame:.3} history_ns={moved:.3}",
        size.0, size.1
    );
}

/// Of the time of a call, in nanoseconds per pixel.
fn median(pixels: usize, mut call: impl FnMut()) -> f64 {
    let mut times = [(); 51].map(|()| timed(&mut call));
    times.sort();
    times[times.len() / 2].as_secs_f64() * 1e9 / pixels as f64
}

/// Prints the line of a case at one size, and tells whether it is within its limit.
fn within_limit(case: &Case, size: Size) -> bool {
    let times = measured(case, size, PATIENCE);
    let (pass, (width, height), setting) = (case.pass, size, &case.setting);
    let what = format!("pass={pass} size={width}x{height} setting={setting}");
    let [original_fps, fps] = times.frames_a_second();
    println!("bench {what} {times} fps={fps:.1} original_fps={original_fps:.1}");
    if case.is_dearest() && size == CONSOLE {
        budget(&times);
    }
    let (ratio, limit) = (times.ratio(), case.limit);
    if ratio > limit {
        eprintln!("{what} takes {ratio:.3} times the original's time: more than {limit}");
    }
    ratio <= limit
}

/// What is left of a screen's frame. Nothing fails by it: it is the time of whatever machine this is.
fn budget(times: &Times) {
    println!("frame budget: {:.2} ms of {FRAME:.2} ms", times.ours_ms());
}
