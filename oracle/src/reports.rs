//! What a frame reports: the channels that its final conversions clip, and the samples that its blurs take. Both are counted in a copy
//! of the original, in which each final clamp and the weight of each sample go through here (oracle/build.sh).

use std::cell::Cell;

#[derive(Clone, Copy, Default, PartialEq, Debug)]
pub struct Reports {
    pub clipped: u32,
    pub samples: u32,
}

impl Reports {
    /// As they stand in the two places that are lent for them.
    pub fn places(self) -> [u32; 2] {
        [self.clipped, self.samples]
    }
}

thread_local! {
    static CLIPPED: Cell<u32> = const { Cell::new(0) };
    static SAMPLES: Cell<u32> = const { Cell::new(0) };
}

/// What stands in the copy for `x.clamp(0.0, top)`: the same value. Document 02 counts what is strictly below 0 or strictly above the
/// top end, which a NaN is not.
pub fn clamp(x: f32, top: f32) -> f32 {
    if x < 0.0 || top < x {
        CLIPPED.set(CLIPPED.get() + 1);
    }
    x.clamp(0.0, top)
}

/// What stands in the copy for the weight of a sample, where it is added to the other weights: the same weight. The original comes there
/// once for each offset that is inside, whatever channels it reads.
pub fn sample(weight: f32) -> f32 {
    SAMPLES.set(SAMPLES.get() + 1);
    weight
}

/// What is counted in this thread while `paint` runs.
pub fn counted(paint: impl FnOnce()) -> Reports {
    CLIPPED.set(0);
    SAMPLES.set(0);
    paint();
    Reports {
        clipped: CLIPPED.get(),
        samples: SAMPLES.get(),
    }
}
