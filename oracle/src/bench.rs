//! The time of the steps beside that of Rust's own, both over the same array in one process.

use std::hint::black_box;
use std::process::ExitCode;

use crate::probe;
use crate::race::{race, timed};

/// Values in the array.
const LEN: usize = 4096;

/// Calls that are timed together: enough that reading the clock does not count.
const CALLS: usize = 16;

/// Rounds, of which the best counts. A disturbance makes a round slower, never faster.
const ROUNDS: usize = 400;

/// The most that cut, round and nearest may take, in times of Rust's.
const LIMIT: f64 = 1.1;

/// A step over slices.
type Loop<T> = fn(&[f32], &mut [T]);

/// Prints the table. Fails where a step is past its limit.
pub fn run() -> ExitCode {
    let channels = values(0.0, 255.0);
    let signed = values(-255.0, 255.0);
    let rows = [
        ("cut", best(&channels, [probe::cut, rust_cut])),
        ("round", best(&signed, [probe::round, rust_round])),
        ("nearest", best(&channels, [probe::nearest, rust_nearest])),
        ("root", best(&channels, [probe::root, rust_root])),
    ];

    println!("Arrays of {LEN} values, {CALLS} calls timed together, best of {ROUNDS} rounds.");
    println!();
    println!("| step | ns per value, here | ns per value, Rust | ratio |");
    println!("|---|---|---|---|");
    let mut status = ExitCode::SUCCESS;
    for (name, [here, rust]) in rows {
        let ratio = here / rust;
        println!("| {name} | {here:.3} | {rust:.3} | {ratio:.2} |");
        // Rust's root is one machine instruction. The root here is held to no time.
        if ratio > LIMIT && name != "root" {
            eprintln!("{name} takes {ratio:.3} times Rust's time: more than {LIMIT}");
            status = ExitCode::FAILURE;
        }
    }
    status
}

/// Values with fractions from `low` to `high`, in no order that a branch could be guessed from.
fn values(low: f32, high: f32) -> Vec<f32> {
    let mixed = (0..LEN as u32).map(|n| n.wrapping_mul(0x9e37_79b1) >> 8);
    mixed
        .map(|n| low + (high - low) * (n as f32 / (1 << 24) as f32))
        .collect()
}

/// The best times of two loops over `xs`, in nanoseconds per value.
fn best<T: Copy + Default + PartialEq>(xs: &[f32], loops: [Loop<T>; 2]) -> [f64; 2] {
    // To be compared, both must do the same work.
    let results = loops.map(|step| {
        let mut out = vec![T::default(); LEN];
        step(xs, &mut out);
        out
    });
    assert!(results[0] == results[1], "the results differ");

    let mut out = vec![T::default(); LEN];
    let times = race(ROUNDS, |which| {
        timed(|| {
            for _ in 0..CALLS {
                loops[which](black_box(xs), black_box(&mut out));
            }
        })
    });
    times.map(|times| times[0].as_secs_f64() * 1e9 / (CALLS * LEN) as f64)
}

#[inline(never)]
fn rust_cut(xs: &[f32], out: &mut [u32]) {
    for (out, &x) in out.iter_mut().zip(xs) {
        *out = x as u32;
    }
}

#[inline(never)]
fn rust_round(xs: &[f32], out: &mut [f32]) {
    for (out, &x) in out.iter_mut().zip(xs) {
        *out = x.round();
    }
}

#[inline(never)]
fn rust_nearest(xs: &[f32], out: &mut [u32]) {
    for (out, &x) in out.iter_mut().zip(xs) {
        *out = x.round() as u32;
    }
}

#[inline(never)]
fn rust_root(xs: &[f32], out: &mut [f32]) {
    for (out, &x) in out.iter_mut().zip(xs) {
        *out = x.sqrt();
    }
}
