//! The original's pipeline, and beside it the copy that counts: the picture is the original's, the counts the copy's, and
//! the copy has to paint the same picture. What comes to each glow of the original is kept.

use std::cell::RefCell;
use std::rc::Rc;

use super::chain::PERSISTENCE;
use super::counted::pipeline::PostProcessPipeline as Counting;
use super::original::effect::PostProcessEffect;
use super::original::pipeline::PostProcessPipeline;
use super::{counting, curves, effects};
use crate::cards::paper::{Record, Size};
use crate::reports::{self, Reports};

#[derive(Default)]
pub struct Both {
    original: PostProcessPipeline,
    counting: Counting,
    came: Came,
}

/// Frames that came to the glows that were on, by the order of the chain.
type Came = Rc<RefCell<Vec<Vec<u32>>>>;

/// What the history of a glow holds: frames of this size, the oldest first. None where it holds nothing.
#[derive(Clone, Default)]
pub struct Past {
    pub size: Size,
    pub frames: Vec<Vec<u32>>,
}

impl Both {
    pub fn built(records: &[Record]) -> Self {
        Both::resumed(records, &[])
    }

    /// The same whose glows remember these, by their order.
    pub fn resumed(records: &[Record], pasts: &[Past]) -> Self {
        let came = Came::default();
        let watched = |kind: u32, values: &[f32]| -> Box<dyn PostProcessEffect> {
            let effect = effects::with_curve(kind, values);
            if kind != PERSISTENCE {
                return effect;
            }
            Box::new(Watched {
                effect,
                came: came.clone(),
            })
        };
        Both {
            original: effects::built(records, pasts, watched),
            counting: counting::effects::built(records, pasts, counting::effects::with_curve),
            came,
        }
    }

    pub fn original(&self) -> &PostProcessPipeline {
        &self.original
    }

    /// Paints the frame with this curve, and gives what the copy counts.
    pub fn apply(&self, words: &mut [u32], width: usize, height: usize, curve: &[f32]) -> Reports {
        self.came.borrow_mut().clear();
        let mut copy = words.to_vec();
        let counted = curves::lent(curve, || {
            self.original.apply(words, width, height);
            reports::counted(|| self.counting.apply(&mut copy, width, height))
        });
        assert!(copy == words, "the copy that counts paints another picture");
        counted
    }

    /// What came to each glow that is on at the last frame. It is told once.
    pub fn came(&self) -> Vec<Vec<u32>> {
        self.came.take()
    }

    pub fn set_enabled(&mut self, name: &str, enabled: bool) {
        self.original.set_enabled(name, enabled);
        self.counting.set_enabled(name, enabled);
    }

    pub fn cycle_lut(&mut self) {
        self.original.cycle_lut();
        self.counting.cycle_lut();
    }
}

/// A glow of the original, of which it is kept what comes to it.
struct Watched {
    effect: Box<dyn PostProcessEffect>,
    came: Came,
}

impl PostProcessEffect for Watched {
    fn name(&self) -> &'static str {
        self.effect.name()
    }

    fn enabled(&self) -> bool {
        self.effect.enabled()
    }

    fn set_enabled(&mut self, enabled: bool) {
        self.effect.set_enabled(enabled);
    }

    fn apply(&self, framebuffer: &mut [u32], width: usize, height: usize) {
        let frame = framebuffer[..width * height].to_vec();
        self.came.borrow_mut().push(frame);
        self.effect.apply(framebuffer, width, height);
    }
}
