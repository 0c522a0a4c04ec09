//! The time of enlarging a source beside that of plain loops in Rust, all in one process.

use std::hint::black_box;
use std::process::ExitCode;

use super::model::COLOURS;
use crate::bridge::Source;
use crate::probe;
use crate::race::{race, timed};
use crate::random::Random;

/// The largest source; the frame of a console, and a third of it, which is shown about as large as that.
const SIZES: [(usize, usize); 3] = [(341, 341), (256, 240), (85, 80)];

/// Rounds, of which the best counts. A disturbance makes a round slower, never faster.
const ROUNDS: usize = 200;

/// The most that it may take, in times of the faster loop.
const LIMIT: f64 = 1.2;

type Enlarging = fn(&mut [u32], Source);

/// Prints the table. Fails where the enlarging is past its limit.
pub fn run() -> ExitCode {
    let random = &mut Random::named("cabinet bench");
    let picture: Vec<u8> = (0..341 * 341).map(|_| random.word() as u8).collect();
    let colours: Vec<u32> = (0..COLOURS).map(|_| random.word()).collect();
    println!();
    println!("A source enlarged to three by three, in million words of the frame a second, beside plain loops that copy a line twice and that");
    println!("write each line: best of {ROUNDS} rounds by turns. The ratios are of the times.");
    println!();
    println!("| source | here | line copied | ratio | each line | ratio | limit, of the faster |");
    println!("|---|---|---|---|---|---|---|");
    let mut status = ExitCode::SUCCESS;
    for (width, height) in SIZES {
        let source = Source {
            picture: &picture[..width * height],
            width,
            height,
            colours: &colours,
        };
        let [ours, copied] = best(source, by_copies);
        let [ours_again, written] = best(source, by_lines);
        let ratios = [ours / copied, ours_again / written];
        let words = 9.0 * (width * height) as f64;
        let [here, copied, written] = [ours, copied, written].map(|seconds| words / seconds / 1e6);
        let [by_copies, by_lines] = ratios;
        println!("| {width} by {height} | {here:.0} | {copied:.0} | {by_copies:.2} | {written:.0} | {by_lines:.2} | {LIMIT} |");
        let ratio = by_copies.max(by_lines);
        if ratio > LIMIT {
            eprintln!("a source of {width} by {height}: {ratio:.2} times the faster plain loop's time: more than {LIMIT}");
            status = ExitCode::FAILURE;
        }
    }
    status
}

/// The best times of ours and of a plain one, in seconds. They must write the same.
fn best(source: Source, plain: Enlarging) -> [f64; 2] {
    let both: [Enlarging; 2] = [probe::enlarge, plain];
    let count = 9 * source.width * source.height;
    let mut frames = [vec![0; count], vec![0; count]];
    let times = race(ROUNDS, |which| {
        let source = black_box(source);
        let frame = black_box(&mut frames[which]);
        timed(|| both[which](frame, source))
    });
    assert!(frames[0] == frames[1], "the frames differ");
    times.map(|times| times[0].as_secs_f64())
}

/// One line of the enlarged frame.
fn line(out: &mut [u32], row: &[u8], colours: &[u32; COLOURS]) {
    for (three, &number) in out.chunks_exact_mut(3).zip(row) {
        three.fill(colours[usize::from(number) % COLOURS]);
    }
}

/// The first colours, by whose number no index has to be checked.
fn first(colours: &[u32]) -> &[u32; COLOURS] {
    colours[..COLOURS].try_into().expect("there are as many")
}

/// The first of three lines is written, and copied to the others.
#[inline(never)]
fn by_copies(out: &mut [u32], source: Source) {
    let (wide, colours) = (3 * source.width, first(source.colours));
    let rows = source.picture.chunks_exact(source.width);
    for (lines, row) in out.chunks_exact_mut(3 * wide).zip(rows) {
        let (top, rest) = lines.split_at_mut(wide);
        line(top, row, colours);
        let (middle, bottom) = rest.split_at_mut(wide);
        middle.copy_from_slice(top);
        bottom.copy_from_slice(top);
    }
}

/// Each line is written by itself.
#[inline(never)]
fn by_lines(out: &mut [u32], source: Source) {
    let (wide, colours) = (3 * source.width, first(source.colours));
    let rows = source.picture.chunks_exact(source.width);
    for (lines, row) in out.chunks_exact_mut(3 * wide).zip(rows) {
        for out in lines.chunks_exact_mut(wide) {
            line(out, row, colours);
        }
    }
}
