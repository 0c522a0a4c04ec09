//! The time of the call beside a plain loop over each rectangle, both in one process.

use std::hint::black_box;
use std::process::ExitCode;

use crate::bridge;
use crate::race::{race, timed};
use crate::random::Random;

const SIDE: usize = 1024;

/// Rounds, of which the best counts. A disturbance makes a round slower, never faster.
const ROUNDS: usize = 60;

/// Width and height of the pictures of the narrow stripes.
const SIZES: [(usize, usize); 3] = [(SIDE, SIDE), (64, 64), (256, 8)];

/// The most that the stripes may take, in times of a plain loop over 64 whole frames.
const OF_FRAMES: f64 = 0.6;

/// Words of a picture, row after row, and its width.
#[derive(Clone, Copy)]
struct Picture<'a> {
    words: &'a [u32],
    width: usize,
}

/// A list and what adds its totals up.
type Side<'a> = (fn(Picture, &[u16], &mut [u64]), &'a [u16]);

/// Prints the tables. Fails where the call is past a limit.
pub fn run() -> ExitCode {
    let words: Vec<u32> = {
        let random = &mut Random::named("areas bench");
        (0..SIDE * SIDE).map(|_| random.word()).collect()
    };
    let fine = [rectangles(&words), stripes(&words)];
    if fine.contains(&false) {
        return ExitCode::FAILURE;
    }
    ExitCode::SUCCESS
}

/// Rectangles of the largest picture. Tells whether each list is within its limit.
fn rectangles(words: &[u32]) -> bool {
    println!();
    println!("The totals of rectangles at {SIDE} by {SIDE}, beside a plain loop over each: best of {ROUNDS} rounds by turns.");
    println!();
    println!("| rectangles | µs, here | µs, plain loop | ratio | limit |");
    println!("|---|---|---|---|---|");
    let picture = Picture { words, width: SIDE };
    let mut fine = true;
    for (name, limit, list) in lists() {
        let [ours, theirs] = best(picture, [(here, &list), (plain, &list)]);
        let ratio = ours / theirs;
        let most = limit.map_or("none".to_string(), |limit| limit.to_string());
        println!("| {name} | {ours:.1} | {theirs:.1} | {ratio:.3} | {most} |");
        if limit.is_some_and(|limit| ratio > limit) {
            eprintln!("{name}: {ratio:.3} times the plain loop's time: more than {most}");
            fine = false;
        }
    }
    fine
}

/// What many rectangles cost whatever they hold, on pictures of several sizes: 64 stripes of one column, with as many
/// different edges as there can be. Tells whether each size is within the limit.
fn stripes(words: &[u32]) -> bool {
    println!();
    println!("64 stripes of one column that begin and end in different rows, beside plain loops over each and over 64 whole frames.");
    println!();
    println!("| picture | µs, here | µs, each stripe | µs, 64 frames | of 64 frames | limit |");
    println!("|---|---|---|---|---|---|");
    let mut fine = true;
    for (width, height) in SIZES {
        let picture = Picture {
            words: &words[..width * height],
            width,
        };
        let narrow = narrow(width, height);
        let frames = [0, 0, width as u16, height as u16].repeat(64);
        let [_, each] = best(picture, [(here, &narrow), (plain, &narrow)]);
        let [ours, whole] = best(picture, [(here, &narrow), (plain, &frames)]);
        let ratio = ours / whole;
        println!("| {width} by {height} | {ours:.1} | {each:.1} | {whole:.1} | {ratio:.3} | {OF_FRAMES} |");
        if ratio > OF_FRAMES {
            eprintln!("64 stripes at {width} by {height}: {ratio:.3} times the time of 64 frames: more than {OF_FRAMES}");
            fine = false;
        }
    }
    fine
}

/// 64 stripes of one column in a picture of that size, each of the half of its rows.
pub fn narrow(width: usize, height: usize) -> Vec<u16> {
    let (across, half) = (width as u16 / 64, height as u16 / 2);
    let stripe = |k| [across * k, half * k / 64, 1, half];
    (0..64).flat_map(stripe).collect()
}

/// Name, the most that it may take in times of the plain loop, and the list.
fn lists() -> Vec<(&'static str, Option<f64>, Vec<u16>)> {
    let side = SIDE as u16;
    let whole = [0, 0, side, side];
    let random = &mut Random::named("areas lists");
    let span = |random: &mut Random| {
        let (a, b) = (random.within(0, SIDE), random.within(0, SIDE));
        (a.min(b) as u16, a.abs_diff(b) as u16)
    };
    let mut any = Vec::new();
    for _ in 0..64 {
        let ((left, wide), (top, high)) = (span(random), span(random));
        any.extend([left, top, wide, high]);
    }
    let small: Vec<u16> = (0..64)
        .flat_map(|_| [random.below(1009) as u16, random.below(1009) as u16, 16, 16])
        .collect();
    let stripes = (0..64).flat_map(|k| [16 * k, 0, 8, side]).collect();
    let stairs = (0..64).flat_map(|k| [16 * k, 8 * k, 8, 512]).collect();
    vec![
        ("64, each the whole frame", Some(0.06), whole.repeat(64)),
        ("the whole frame", Some(2.0), whole.to_vec()),
        ("64 random", Some(0.6), any),
        ("one of 64 by 64", Some(4.0), vec![317, 501, 64, 64]),
        ("64 stripes of 8 columns", None, stripes),
        ("64 of 16 by 16, anywhere", None, small),
        (
            "64 stripes that begin and end in different rows",
            None,
            stairs,
        ),
    ]
}

/// The best times of two sides, in microseconds. Of one list both must give the same totals.
fn best(picture: Picture, sides: [Side; 2]) -> [f64; 2] {
    let mut results = [vec![0; 192], vec![0; 192]];
    let mut call = |which: usize| {
        let (side, list) = sides[which];
        let (picture, list) = (black_box(picture), black_box(list));
        let result = black_box(&mut results[which]);
        timed(|| side(picture, list, result))
    };
    let times = race(ROUNDS, &mut call);
    if sides[0].1 == sides[1].1 {
        assert!(results[0] == results[1], "the totals differ");
    }
    times.map(|times| times[0].as_secs_f64() * 1e6)
}

fn here(picture: Picture, list: &[u16], result: &mut [u64]) {
    let Picture { words, width } = picture;
    let answer = bridge::areas(
        (words.as_ptr(), words.len()),
        width,
        words.len() / width,
        list,
        result,
        &mut [0],
    );
    assert_eq!(answer, Ok(0), "the list was refused");
}

#[inline(never)]
fn plain(picture: Picture, list: &[u16], result: &mut [u64]) {
    for (four, totals) in list.chunks_exact(4).zip(result.chunks_exact_mut(3)) {
        let [left, top, wide, high] = [four[0], four[1], four[2], four[3]].map(usize::from);
        let (mut red, mut green, mut blue) = (0, 0, 0);
        for y in top..top + high {
            let at = y * picture.width + left;
            for &word in &picture.words[at..at + wide] {
                red += u64::from(word >> 16 & 255);
                green += u64::from(word >> 8 & 255);
                blue += u64::from(word & 255);
            }
        }
        totals.copy_from_slice(&[red, green, blue]);
    }
}
