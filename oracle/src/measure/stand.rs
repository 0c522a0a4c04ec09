//! A card on both sides, with all that a frame of one size needs.

use crate::bridge::{self, Lent, Source, State, STATE};
use crate::cards::paper::{curved, Opened};
use crate::passes::curves;
use crate::passes::effects::{built, effect};
use crate::passes::frames::{Kind, Picture};
use crate::passes::original::pipeline::PostProcessPipeline;
use crate::runs::station::float_room;

use super::cases::Case;

#[derive(Clone, Copy)]
pub enum Side {
    Original,
    Ours,
}

/// Both sides, by their turns.
pub const SIDES: [Side; 2] = [Side::Original, Side::Ours];

pub type Size = (usize, usize);

/// The console's.
pub const CONSOLE: Size = (256, 240);

pub struct Stand {
    size: Size,
    pipeline: PostProcessPipeline,
    state: State,
    pub history: Vec<u32>,
    pub floats: Vec<f32>,
    pub ints: Vec<u32>,
    curve: Vec<f32>,
    /// The blur samples that our last frame took.
    pub samples: u32,
}

/// The card of a case.
pub fn card(case: &Case) -> Vec<u8> {
    let records = case.records.clone();
    Opened { records }.written()
}

/// The frame that every side is given: each pixel by itself.
pub fn picture((width, height): Size) -> Vec<u32> {
    let picture = Picture {
        kind: Kind::Random,
        seed: 1,
    };
    picture.draw(width, height)
}

impl Stand {
    /// The card opened on both sides. The buffers have the words that a frame needs, and none past them.
    pub fn new(case: &Case, size: Size) -> Self {
        let mut state = [0; STATE];
        bridge::open(&card(case), &mut state).expect("a measured card is taken");
        let depth = bridge::depth(&state).expect("an opened station has a depth") as usize;
        let count = size.0 * size.1;
        Stand {
            size,
            pipeline: built(&case.records, &[], effect),
            state,
            history: vec![0; depth * count],
            floats: vec![0.0; float_room(size.0, size.1)],
            ints: vec![0; count],
            curve: curved(&case.records).map_or(Vec::new(), curves::power),
            samples: 0,
        }
    }

    /// One frame.
    pub fn frame(&mut self, side: Side, words: &mut [u32]) {
        let (width, height) = self.size;
        match side {
            Side::Original => self.pipeline.apply(words, width, height),
            Side::Ours => {
                let mut reports = [0; 2];
                let (state, lent) = self.lent(words, &mut reports);
                let answer = bridge::apply(state, width, height, lent);
                assert!(answer.is_ok(), "the frame was refused: {answer:?}");
                self.samples = reports[1];
            }
        }
    }

    /// A sheet, all of whose events have to be accepted.
    pub fn play(&mut self, sheet: &[u8], words: &mut [u32]) {
        let mut reports = [0; 2];
        let (state, lent) = self.lent(words, &mut reports);
        let answer = bridge::play(state, sheet, lent);
        assert!(answer.is_ok(), "the sheet was refused: {answer:?}");
        assert!(reports[1] == 0, "{} events were refused", reports[1]);
    }

    /// A source, which has to be accepted.
    pub fn show(&mut self, source: Source, words: &mut [u32]) {
        let mut reports = [0; 2];
        let (state, lent) = self.lent(words, &mut reports);
        let answer = bridge::show(state, source, lent);
        assert!(answer.is_ok(), "the source was refused: {answer:?}");
    }

    /// The next preset of a chain with a LUT.
    pub fn step(&mut self) {
        let answer = bridge::cycle_lut(&mut self.state);
        assert!(answer.is_ok(), "the step was refused: {answer:?}");
    }

    /// Our state, and what a call on it is lent.
    fn lent<'a>(
        &'a mut self,
        words: &'a mut [u32],
        reports: &'a mut [u32; 2],
    ) -> (&'a mut State, Lent<'a>) {
        let lent = Lent {
            framebuffer: words,
            history: &mut self.history,
            floats: &mut self.floats,
            ints: &mut self.ints,
            curve: &self.curve,
            reports,
        };
        (&mut self.state, lent)
    }
}
