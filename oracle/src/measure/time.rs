//! The time of a frame on both sides, in one process.

use std::fmt;
use std::hint::black_box;
use std::time::Duration;

use super::cases::Case;
use super::stand::{picture, Size, Stand, SIDES};
use crate::race::{race, timed};

/// How long a case is looked at.
#[derive(Clone, Copy)]
pub struct Patience {
    /// The fewest rounds and the most.
    pub rounds: [usize; 2],
    /// What the rounds may take together, if they are not too few.
    pub time: Duration,
}

/// The median times of a frame.
pub struct Times {
    pixels: usize,
    samples: u32,
    original: Duration,
    ours: Duration,
}

impl Times {
    pub fn ratio(&self) -> f64 {
        self.ours.as_secs_f64() / self.original.as_secs_f64()
    }

    /// A frame of ours, in milliseconds.
    pub fn ours_ms(&self) -> f64 {
        self.ours.as_secs_f64() * 1e3
    }

    /// Of the original, and here.
    pub fn frames_a_second(&self) -> [f64; 2] {
        [self.original, self.ours].map(|time| 1.0 / time.as_secs_f64())
    }
}

/// In nanoseconds per pixel; where it blurs, here also per sample, all that the frame takes counted.
impl fmt::Display for Times {
    fn fmt(&self, f: &mut fmt::Formatter) -> fmt::Result {
        let [original, ours] =
            [self.original, self.ours].map(|time| time.as_secs_f64() * 1e9 / self.pixels as f64);
        let ratio = self.ratio();
        write!(
            f,
            "original_ns={original:.3} ours_ns={ours:.3} ratio={ratio:.2}"
        )?;
        if self.samples == 0 {
            return Ok(());
        }
        let sample = self.ours.as_secs_f64() * 1e9 / f64::from(self.samples);
        write!(f, " samples={} sample_ns={sample:.3}", self.samples)
    }
}

/// Each call gets a fresh copy of the frame, made before the clock is read. The lent buffers are made once; the
/// original makes its own in each call, in its time.
pub fn measured(case: &Case, size: Size, patience: Patience) -> Times {
    let mut stand = Stand::new(case, size);
    let given = picture(size);
    let mut frames = [given.clone(), given.clone()];
    let mut call = |which: usize, frames: &mut [Vec<u32>; 2]| {
        frames[which].copy_from_slice(&given);
        let words = black_box(&mut frames[which]);
        timed(|| stand.frame(SIDES[which], words))
    };

    // Once before the clock counts: the buffers are then in use, and a history is full. A second call tells
    // how many rounds there is time for.
    let mut spent = Duration::ZERO;
    for _ in 0..2 {
        spent = (0..2).map(|which| call(which, &mut frames)).sum();
        assert!(frames[0] == frames[1], "the pictures differ");
    }
    let [least, most] = patience.rounds;
    let rounds = patience.time.as_nanos() / spent.as_nanos().max(1);
    let rounds = (rounds as usize).clamp(least, most) | 1;

    let times = race(rounds, |which| call(which, &mut frames));
    let [original, ours] = times.map(|times| times[rounds / 2]);
    Times {
        pixels: given.len(),
        samples: stand.samples,
        original,
        ours,
    }
}
