//! The comparison of the number steps, each with the Rust that the passes were written with.

use std::hint::black_box;
use std::sync::atomic::{AtomicU64, Ordering};
use std::thread;
use std::time::Instant;

use crate::patterns::{boundaries, few, Sample};
use crate::probe;
use crate::tally::{Asked, Outcome, Tally, Total};

#[derive(Clone, Copy, PartialEq)]
pub enum Mode {
    /// Boundaries and a sample: seconds.
    Quick,
    /// Boundaries and every pattern: minutes.
    Full,
}

/// How many threads share the work.
pub const THREADS: usize = 2;

/// How many lines of progress full mode writes.
const LINES: u64 = 32;

pub fn run(mode: Mode, total: &mut Total) {
    let stride = match mode {
        Mode::Quick => 263, // some 16 million patterns
        Mode::Full => 1,
    };
    let boundaries = boundaries();
    match mode {
        Mode::Quick => println!("Number steps: boundaries, and one pattern in {stride}"),
        Mode::Full => println!("Number steps: all patterns, and boundaries once more"),
    }

    let mut single = Single::new();
    single.pieces(&boundaries);
    single.join(sample(Sample { stride }, mode == Mode::Full));
    total.add(&single.cut);
    total.add(&single.cut_clamped);
    total.add(&single.cut_unit);
    total.add(&single.round);
    total.add(&single.nearest);
    total.add(&single.root);
    total.add(&single.abs);

    let few = few();
    total.add(&clamp(&few));
    total.add(&min(&few));
    total.add(&max(&few));
    total.add(&limit(&boundaries));
    total.add(&power());
}

// ---- what is asked of each step

/// The whole part of x.
fn cut(x: f32) -> Asked<u32> {
    if x > 1023.0 {
        Asked::Listed(0, 0)
    } else {
        Asked::Rust(x as u32)
    }
}

const CUT: [&str; 1] = ["above 1023 (here 0, Rust the whole part)"];

/// The whole part of x clamped to 0..255.
fn cut_clamped(x: f32) -> Asked<u32> {
    Asked::Rust(x.clamp(0.0, 255.0) as u32)
}

/// The whole part of x clamped to 0..1, times 255.
fn cut_unit(x: f32) -> Asked<u32> {
    Asked::Rust((x.clamp(0.0, 1.0) * 255.0) as u32)
}

/// The whole number nearest to x, halves away from zero.
fn round(x: f32) -> Asked<f32> {
    Asked::Rust(x.round())
}

/// The same as a u32.
fn nearest(x: f32) -> Asked<u32> {
    // The least value that rounds to more than 1023.
    if x >= 1023.5 {
        Asked::Listed(0, 0)
    } else {
        Asked::Rust(x.round() as u32)
    }
}

const NEAREST: [&str; 1] = ["1023.5 and above (here 0, Rust the nearest whole number)"];

/// The square root.
fn root(x: f32) -> Asked<f32> {
    if x.is_nan() {
        Asked::Listed(3, 0.0)
    } else if x == f32::INFINITY {
        Asked::Listed(2, 0.0)
    } else if x < 0.0 {
        Asked::Listed(1, 0.0)
    } else if x.is_sign_negative() {
        Asked::Listed(0, 0.0)
    } else {
        Asked::Rust(x.sqrt())
    }
}

const ROOT: [&str; 4] = [
    "-0 (here 0, Rust -0)",
    "below 0, -infinity too (here 0, Rust NaN)",
    "infinity (here 0, Rust infinity)",
    "NaN (here 0, Rust NaN)",
];

fn abs(x: f32) -> Asked<f32> {
    Asked::Rust(x.abs())
}

/// What is asked where `rust` is Rust's minimum or maximum of a and b. Where Rust is free to return
/// either zero, or returns the one that is not a NaN, the step returns b.
fn chosen(a: f32, b: f32, rust: f32) -> Asked<f32> {
    if a == b && a.to_bits() != b.to_bits() {
        Asked::Listed(0, b)
    } else if b.is_nan() && !a.is_nan() {
        Asked::Listed(1, b)
    } else {
        Asked::Rust(rust)
    }
}

const CHOSEN: [&str; 2] = [
    "0 and -0 (here the second, Rust either)",
    "the second a NaN (here a NaN, Rust the first)",
];

// ---- steps of one operand

/// The counts of the steps of one operand, and room for their results.
struct Single {
    cut: Tally<1>,
    cut_clamped: Tally<1>,
    cut_unit: Tally<1>,
    round: Tally<1>,
    nearest: Tally<1>,
    root: Tally<1>,
    abs: Tally<1>,
    words: Vec<u32>,
    floats: Vec<f32>,
}

impl Single {
    fn new() -> Self {
        Single {
            cut: Tally::new("cut", &CUT),
            cut_clamped: Tally::new("cut_clamped", &[]),
            cut_unit: Tally::new("cut_unit", &[]),
            round: Tally::new("round", &[]),
            nearest: Tally::new("nearest", &NEAREST),
            root: Tally::new("root", &ROOT),
            abs: Tally::new("abs", &[]),
            words: Vec::new(),
            floats: Vec::new(),
        }
    }

    /// Compares all steps on `xs`, where each is lent `room` places for its results.
    fn block(&mut self, xs: &[f32], room: usize) {
        self.words.resize(room, 0);
        self.floats.resize(room, 0.0);
        let words = &mut self.words[..];
        let floats = &mut self.floats[..];
        slice(&mut self.cut, xs, words, probe::cut, cut);
        slice(&mut self.cut_clamped, xs, words, probe::cut_clamped, cut_clamped);
        slice(&mut self.cut_unit, xs, words, probe::cut_unit, cut_unit);
        slice(&mut self.nearest, xs, words, probe::nearest, nearest);
        slice(&mut self.round, xs, floats, probe::round, round);
        slice(&mut self.root, xs, floats, probe::root, root);
        for &x in &xs[..room.min(xs.len())] {
            self.abs.check([x], probe::abs(x), abs(x));
        }
    }

    /// Compares all steps on `xs` in pieces of each length from 0 to 67, since a loop over a slice
    /// may treat its last few values in another way than those before them, and of lengths about
    /// 132 and 264, since the root takes 132 values at a time. In turn there is as much room as
    /// values, or three places more, or three values more: a step goes as far as the shorter.
    fn pieces(&mut self, xs: &[f32]) {
        let lengths = (0..=67).chain(131..=133).chain(263..=265);
        let mut rest = xs;
        for (turn, length) in lengths.cycle().enumerate() {
            if rest.is_empty() {
                break;
            }
            let len = rest.len().min(length);
            match turn % 3 {
                0 => self.block(&rest[..len], len),
                1 => self.block(&rest[..len], len + 3),
                _ => self.block(&rest[..rest.len().min(len + 3)], len),
            }
            rest = &rest[len..];
        }
    }

    fn join(&mut self, other: Single) {
        self.cut.join(other.cut);
        self.cut_clamped.join(other.cut_clamped);
        self.cut_unit.join(other.cut_unit);
        self.round.join(other.round);
        self.nearest.join(other.nearest);
        self.root.join(other.root);
        self.abs.join(other.abs);
    }
}

/// Compares a step over slices: each value that has a place in `out`, and that the places past the
/// values are left alone.
fn slice<T: Outcome>(
    tally: &mut Tally<1>,
    xs: &[f32],
    out: &mut [T],
    step: impl Fn(&[f32], &mut [T]),
    asked: impl Fn(f32) -> Asked<T>,
) {
    out.fill(T::MARK);
    step(xs, out);
    for (&x, &here) in xs.iter().zip(out.iter()) {
        tally.check([x], here, asked(x));
    }
    for (place, here) in out.iter().enumerate().skip(xs.len()) {
        if !here.same(T::MARK) {
            let given = xs.len();
            tally.differ(|| format!("place {place}: written, though {given} values were given"));
        }
    }
}

/// Compares the steps of one operand on a sample, in threads that take block after block.
fn sample(sample: Sample, progress: bool) -> Single {
    let start = Instant::now();
    let blocks = sample.blocks();
    let next = AtomicU64::new(0);
    let work = || {
        let mut single = Single::new();
        let mut xs = Vec::new();
        loop {
            let block = next.fetch_add(1, Ordering::Relaxed);
            if block >= blocks {
                return single;
            }
            let part = blocks.div_ceil(LINES);
            if progress && block % part == 0 {
                let seconds = start.elapsed().as_secs();
                eprintln!("{} of {LINES} parts, {seconds} s", block / part);
            }
            sample.fill(block, &mut xs);
            single.block(&xs, xs.len());
        }
    };
    thread::scope(|scope| {
        let threads: Vec<_> = (0..THREADS).map(|_| scope.spawn(work)).collect();
        let mut single = Single::new();
        for thread in threads {
            single.join(thread.join().expect("a thread of the comparison panicked"));
        }
        single
    })
}

// ---- steps of two and three operands

fn clamp(few: &[f32]) -> Tally<3> {
    let mut tally = Tally::new("clamp", &CLAMP);
    for &lo in few {
        for &hi in few {
            for &x in few {
                let asked = if lo <= hi {
                    Asked::Rust(x.clamp(lo, hi))
                } else {
                    Asked::Listed(0, compared(x, lo, hi))
                };
                tally.check([x, lo, hi], probe::clamp(x, lo, hi), asked);
            }
        }
    }
    tally
}

const CLAMP: [&str; 1] = ["low above high, or an end a NaN (here by comparisons, Rust panics)"];

/// What the step promises at ends where Rust has no answer.
fn compared(x: f32, lo: f32, hi: f32) -> f32 {
    if x < lo {
        lo
    } else if hi < x {
        hi
    } else {
        x
    }
}

fn min(few: &[f32]) -> Tally<2> {
    pairs("min", few, probe::min, f32::min)
}

fn max(few: &[f32]) -> Tally<2> {
    pairs("max", few, probe::max, f32::max)
}

fn pairs(
    name: &'static str,
    few: &[f32],
    step: fn(f32, f32) -> f32,
    rust: fn(f32, f32) -> f32,
) -> Tally<2> {
    let mut tally = Tally::new(name, &CHOSEN);
    for &a in few {
        for &b in few {
            tally.check([a, b], step(a, b), chosen(a, b, rust(a, b)));
        }
    }
    tally
}

/// The ends that settings are limited to.
const LIMITS: [(f32, f32); 6] = [(0.0, 1.0), (0.0, 0.95), (0.0, 0.5), (0.0, 4.0), (0.01, 4.0), (-1.0, 1.0)];

fn limit(boundaries: &[f32]) -> Tally<3> {
    let mut tally = Tally::new("limit", &LIMIT);
    for (lo, hi) in LIMITS {
        for &x in boundaries {
            // Where 0 is below the low end, both zeros become that.
            let asked = if x == 0.0 && x.is_sign_negative() && lo <= 0.0 {
                Asked::Listed(0, 0.0)
            } else {
                Asked::Rust(x.clamp(lo, hi))
            };
            tally.check([x, lo, hi], probe::limit(x, lo, hi), asked);
        }
    }
    tally
}

const LIMIT: [&str; 1] = ["-0 (here 0, Rust -0)"];

/// Power with exponent 1.0, which is the operand itself here and needs no step; the powers with any other are lent as a curve. Rust
/// does not promise how precise `powf` is, so its own result is what is compared, for all that the original raises: a channel divided
/// by 255.
fn power() -> Tally<1> {
    let mut tally = Tally::new("power 1.0", &[]);
    for k in 0..=255 {
        let x = k as f32 / 255.0;
        tally.check([x], x, Asked::Rust(x.powf(black_box(1.0))));
    }
    tally
}
