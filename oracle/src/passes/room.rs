//! The buffers that are lent to a pass beside the frame.

use crate::cards::paper::{Size, NOTHING};

/// The most words that a frame has.
const LARGEST: usize = 1024 * 1024;

/// What stands in a buffer past the words that a pass needs, and in all of it at first.
const MARK: u32 = 0xa5a5_5a5a;

/// How many words past those are watched.
const PAST: usize = 16;

/// How many words a pass needs for each word of its frame.
#[derive(Clone, Copy)]
pub struct Needs {
    pub floats: usize,
    pub words: usize,
    /// With this a pass is compared in runs of frames, without it frame by frame.
    pub history: usize,
}

pub const FRAME_ONLY: Needs = Needs {
    floats: 0,
    words: 0,
    history: 0,
};

/// Buffers for one thread. The words that a pass may use hold what an earlier call left there.
pub struct Room {
    needs: Needs,
    floats: Vec<f32>,
    words: Vec<u32>,
    history: Vec<u32>,
    held: Size,
}

/// The part that is lent for one call.
pub struct Lent<'a> {
    pub floats: &'a mut [f32],
    pub words: &'a mut [u32],
    pub history: &'a mut [u32],
    /// The size of the frames in the history.
    pub held: &'a mut Size,
    pub curve: &'a [f32],
}

impl Room {
    /// Room for frames of every size.
    pub fn new(needs: Needs) -> Self {
        Room {
            needs,
            floats: vec![f32::from_bits(MARK); needs.floats * LARGEST + PAST],
            words: vec![MARK; needs.words * LARGEST + PAST],
            history: vec![MARK; needs.history * LARGEST],
            held: NOTHING,
        }
    }

    /// Lends what is needed for a frame of `count` words: just enough scratch or, by `seed`, up to
    /// 15 words more.
    pub fn lend(&mut self, count: usize, seed: u64) -> Lent<'_> {
        let (floats, words) = (self.needs.floats * count, self.needs.words * count);
        self.floats[floats..][..PAST].fill(f32::from_bits(MARK));
        self.words[words..][..PAST].fill(MARK);
        let more = (seed % PAST as u64) as usize;
        Lent {
            floats: &mut self.floats[..floats + more],
            words: &mut self.words[..words + more],
            history: &mut self.history,
            held: &mut self.held,
            curve: &[],
        }
    }

    /// The scratch word past the needed ones that the last call wrote, if any.
    pub fn written_past(&self, count: usize) -> Option<String> {
        let (floats, words) = (self.needs.floats * count, self.needs.words * count);
        let mut float = self.floats[floats..][..PAST].iter();
        let mut word = self.words[words..][..PAST].iter();
        let float = float.position(|float| float.to_bits() != MARK);
        let word = word.position(|&word| word != MARK);
        let float = float.map(|at| format!("f32 word {}", floats + at));
        let word = word.map(|at| format!("u32 word {}", words + at));
        float.or(word)
    }
}
