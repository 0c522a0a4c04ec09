//! The library's side of one call: a station's bytes, and copies of all that is lent to it beside them.

use super::noise::Noise;
use super::sides::{Scratch, Sides};
use super::station::Lengths;
use crate::bridge::{self, Answer, Lent, State, UNTOLD};
use crate::cards::paper::Size;
use crate::random::Random;

#[derive(Clone)]
pub struct Ours<'a> {
    pub state: State,
    pub framebuffer: Vec<u32>,
    pub history: Vec<u32>,
    /// How many words of the history are lent.
    lent: usize,
    pub scratch: Scratch,
    curve: &'a [f32],
    pub reports: [u32; 2],
}

impl<'a> Ours<'a> {
    /// With any words in the framebuffer and in the scratch.
    pub fn laid(sides: &Sides, lent: &Lengths, curve: &'a [f32], random: &mut Random) -> Self {
        Ours {
            state: sides.state,
            framebuffer: Noise::any(random.next()).words(lent.framebuffer),
            history: sides.history.clone(),
            lent: lent.history,
            scratch: Scratch::new(lent, random),
            curve,
            reports: UNTOLD,
        }
    }

    /// The state, and what a call on it is lent.
    pub fn parts(&mut self) -> (&mut State, Lent<'_>) {
        let lent = Lent {
            framebuffer: &mut self.framebuffer,
            history: &mut self.history[..self.lent],
            floats: &mut self.scratch.floats,
            ints: &mut self.scratch.ints,
            curve: self.curve,
            reports: &mut self.reports,
        };
        (&mut self.state, lent)
    }

    /// A frame as a host shows it, which has its words in the framebuffer: where it is refused, the framebuffer gets back what it had.
    pub fn frame(&mut self, (width, height): Size, words: &[u32]) -> Answer {
        let with_words = laid(words, &self.framebuffer);
        let kept = std::mem::replace(&mut self.framebuffer, with_words);
        let (state, lent) = self.parts();
        let answer = bridge::apply(state, width, height, lent);
        if answer.is_err() {
            self.framebuffer = kept;
        }
        answer
    }
}

/// The framebuffer with a frame's words at its start, as far as it goes.
pub fn laid(words: &[u32], framebuffer: &[u32]) -> Vec<u32> {
    let mut shown = framebuffer.to_vec();
    for (place, word) in shown.iter_mut().zip(words) {
        *place = *word;
    }
    shown
}
