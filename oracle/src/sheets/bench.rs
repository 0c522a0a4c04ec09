//! The time of reading a frame's words from a sheet beside that of plain readers in Rust, all in one process.

use std::hint::black_box;
use std::process::ExitCode;

use crate::probe;
use crate::race::{race, timed};
use crate::random::Random;

/// The words of the largest frame.
const SIDE: usize = 1024;
const WORDS: usize = SIDE * SIDE;

/// Rounds, of which the best counts. A disturbance makes a round slower, never faster.
const ROUNDS: usize = 60;

/// The bits before the first frame of a sheet: its event count, a number and two sides.
const BEFORE: usize = 16 + 3 + 22;

/// The most that it may take, in times of the faster reader.
const LIMIT: f64 = 1.5;

/// Reads as many words as there is room for from a bit of a sheet on.
type Reader = fn(&mut [u32], &[u8], usize);

/// Prints the table. Fails where the reading is past its limit.
pub fn run() -> ExitCode {
    let random = &mut Random::named("sheets bench");
    let bytes = (BEFORE + 8 + 24 * WORDS).div_ceil(8) + 1;
    let sheet: Vec<u8> = (0..bytes).map(|_| random.word() as u8).collect();
    println!();
    println!("The words of a frame of {SIDE} by {SIDE}, read from a sheet, in million words a second, beside plain readers by windows and by");
    println!("indices: best of {ROUNDS} rounds by turns. The ratios are of the times.");
    println!();
    println!("| from bit | here | by windows | ratio | limit | by indices | ratio |");
    println!("|---|---|---|---|---|---|---|");
    let mut status = ExitCode::SUCCESS;
    for offset in 0..8 {
        let from = BEFORE.next_multiple_of(8) + offset;
        let [ours, windows] = best(&sheet, from, by_windows);
        let [ours_again, indices] = best(&sheet, from, by_indices);
        let (ratio, other) = (ours / windows, ours_again / indices);
        let [here, windows, indices] =
            [ours, windows, indices].map(|seconds| WORDS as f64 / seconds / 1e6);
        println!("| {offset} of a byte | {here:.0} | {windows:.0} | {ratio:.2} | {LIMIT} | {indices:.0} | {other:.2} |");
        if ratio > LIMIT {
            eprintln!("words from bit {offset} of a byte: {ratio:.2} times the plain reader's time: more than {LIMIT}");
            status = ExitCode::FAILURE;
        }
    }
    status
}

/// The best times of ours and of a plain one, in seconds. They must read the same.
fn best(sheet: &[u8], from: usize, plain: Reader) -> [f64; 2] {
    let readers: [Reader; 2] = [probe::unpack, plain];
    let mut words = [vec![0; WORDS], vec![0; WORDS]];
    let times = race(ROUNDS, |which| {
        let (sheet, from) = (black_box(sheet), black_box(from));
        let words = black_box(&mut words[which]);
        timed(|| readers[which](words, sheet, from))
    });
    assert!(words[0] == words[1], "the words differ");
    times.map(|times| times[0].as_secs_f64())
}

/// Four bytes for each word, of which it is the 24 bits from its first bit on.
fn word(four: [u8; 4], offset: usize) -> u32 {
    u32::from_be_bytes(four) << offset >> 8
}

/// No index is checked at a word, and rustc makes vectors of the loop.
#[inline(never)]
fn by_windows(words: &mut [u32], sheet: &[u8], from: usize) {
    let fours = sheet[from / 8..].windows(4).step_by(3);
    for (place, four) in words.iter_mut().zip(fours) {
        *place = word([four[0], four[1], four[2], four[3]], from % 8);
    }
}

#[inline(never)]
fn by_indices(words: &mut [u32], sheet: &[u8], from: usize) {
    for (i, place) in words.iter_mut().enumerate() {
        let at = from / 8 + 3 * i;
        let four = [sheet[at], sheet[at + 1], sheet[at + 2], sheet[at + 3]];
        *place = word(four, from % 8);
    }
}
