//! The runs, the switches that are asked for, the trials of agreement and the frames that stand still, in threads that take one after
//! another.

use std::sync::atomic::{AtomicUsize, Ordering};
use std::time::Instant;

use super::cases::{Case, Point};
use super::run::Run;
use super::{agreement, asked, run, still};
use crate::met::{Listed, Met};
use crate::random::Random;
use crate::share::share;
use crate::steps::Mode;
use crate::tally::{RunTally, Total};

pub fn run(mode: Mode, total: &mut Total) {
    runs(mode, total);
    switches(mode, total);
    trials(mode, total);
}

fn runs(mode: Mode, total: &mut Total) {
    println!("Runs of calls on stations, with a model of document 01 over the original's pipeline");
    let runs = run::all(mode);
    let compare = |run: &Run, at, tally: &mut RunTally, met: &mut Met<Case>| {
        run::compare(run, at, tally, met);
    };
    let (tally, met) = told("runs", mode, &runs, compare);
    total.add_runs(&tally);
    total.unmet += met.report();
    total.add_turned(met.count(Case::Turned));
    total.add_resized(met.count(Case::AfterResizing));
    total.add_several(SEVERAL.iter().map(|&case| met.count(case)).sum());
    let curved = [true, false].map(|powers| met.count(Case::Curved(powers)));
    total.add_curved(curved.iter().sum());
}

/// A frame through more than one glow that is on.
const SEVERAL: [Case; 5] = [
    Case::Glows(2, 3),
    Case::Glows(3, 3),
    Case::Glows(3, 5),
    Case::Glows(3, 6),
    Case::Glows(3, 7),
];

fn switches(mode: Mode, total: &mut Total) {
    println!("Switches that are asked for and committed, by document 02");
    let (tally, met) = told("asked", mode, &asked::cards(mode), asked::compare);
    total.add_runs(&tally);
    total.unmet += met.report();
}

fn trials(mode: Mode, total: &mut Total) {
    println!("Agreement of two stations, from the point that document 01 gives");
    let random = &mut Random::named("agreement");
    let trials = match mode {
        Mode::Quick => 20_000,
        Mode::Full => 1_000_000,
    };
    let seeds: Vec<u64> = (0..trials).map(|_| random.next()).collect();
    let differed = AtomicUsize::new(0);
    let compare = |&seed: &u64, at, tally: &mut RunTally, met: &mut Met<Point>| {
        if agreement::compare(seed, at, tally, met) {
            differed.fetch_add(1, Ordering::Relaxed);
        }
    };
    let (tally, met) = told("agreement", mode, &seeds, compare);
    total.add_runs(&tally);
    total.unmet += met.report();
    let differed = differed.into_inner();
    println!("    {differed} of {trials} trials with another picture before the point");
    if differed < trials / LEAST {
        println!("    too few: less than one in {LEAST}");
        total.unmet += 1;
    }
}

/// The frames that stand still.
pub fn still(mode: Mode, total: &mut Total) {
    println!("Equal frames after a reset, with persistence alone");
    let (tally, met) = told("still", mode, &still::amounts(mode), still::compare);
    total.add_runs(&tally);
    total.unmet += met.report();
}

/// In one of so many trials at least the pictures have to differ before the point: else the trials show
/// nothing.
const LEAST: usize = 5;

/// How many lines of progress full mode writes.
const LINES: usize = 32;

/// Compares all of these, in full mode with lines of progress.
fn told<T: Sync, C: Listed + Send + Sync>(
    name: &'static str,
    mode: Mode,
    all: &[T],
    compare: impl Fn(&T, usize, &mut RunTally, &mut Met<C>) + Sync,
) -> (RunTally, Met<C>) {
    let start = Instant::now();
    let part = all.len().div_ceil(LINES);
    let compare = |one: &T, at: usize, tally: &mut RunTally, met: &mut Met<C>| {
        if mode == Mode::Full && at % part == 0 {
            let seconds = start.elapsed().as_secs();
            eprintln!("{name}: {} of {LINES} parts, {seconds} s", at / part);
        }
        compare(one, at, tally, met);
    };
    share(all, || RunTally::new(name), RunTally::join, compare)
}
