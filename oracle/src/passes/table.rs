//! The passes under comparison, a row for each: its settings, and how the pass here is called with them.

use super::chain::{BLOOM, NTSC};
use super::counted::effect::PostProcessEffect as Counting;
use super::original::effect::PostProcessEffect;
use super::room::{Lent, Needs, FRAME_ONLY};
use super::settings::{clamped, radius, Field, Setting};
use super::{counting, effects};
use crate::probe;
use crate::reports::Reports;

pub struct Pass {
    /// That of the original's file.
    pub name: &'static str,
    pub fields: &'static [Field],
    pub needs: Needs,
    /// Document 01's number.
    pub kind: u32,
    /// A call of the pass here, with the setting as it is once limited. Gives what it reports.
    pub ours: fn(&Setting, Frame, Lent) -> Reports,
    /// Nanoseconds that both sides together take for a word, very roughly: how many frames a budget
    /// of time allows.
    pub cost: fn(&Setting) -> usize,
    /// The settings that are measured.
    pub measured: &'static [&'static [f32]],
    /// The most time it may take, in times of the original's.
    pub limit: fn(&Setting) -> f64,
}

/// A frame on its way through a pass.
pub struct Frame<'a> {
    pub words: &'a mut [u32],
    pub width: usize,
    pub height: usize,
}

impl Pass {
    /// The original's effect, built by its `new` and switched on.
    pub fn original(&self, setting: &Setting) -> Box<dyn PostProcessEffect> {
        effects::effect(self.kind, setting.values())
    }

    /// The same effect of the copy that counts.
    pub fn counting(&self, setting: &Setting) -> Box<dyn Counting> {
        counting::effects::effect(self.kind, setting.values())
    }

    /// Which field is the radius, of a pass that blurs: the last one of both.
    pub fn radius(&self) -> Option<usize> {
        matches!(self.kind, NTSC | BLOOM).then_some(self.fields.len() - 1)
    }
}

/// What a pass reports that has neither a final clamp nor a blur.
const NOTHING: Reports = Reports {
    clipped: 0,
    samples: 0,
};

/// What a pass reports that has no blur.
fn clipped(clipped: u32) -> Reports {
    Reports { clipped, ..NOTHING }
}

pub static PASSES: &[Pass] = &[
    Pass {
        name: "auto_gradient",
        fields: &[
            clamped("strength", 1.0),
            clamped("vertical", 1.0),
            clamped("horizontal", 1.0),
        ],
        needs: FRAME_ONLY,
        kind: 3,
        ours: |s, f, _| {
            clipped(probe::auto_gradient(
                f.words,
                f.width,
                f.height,
                s.float(0),
                s.float(1),
                s.float(2),
            ))
        },
        cost: |_| 20,
        measured: &[&[0.8, 0.6, 0.35]],
        limit: |_| 1.0,
    },
    Pass {
        name: "bloom",
        fields: &[
            Field::Whole {
                name: "threshold",
                least: 0,
                most: 255,
                boundaries: &[0, 1, 100, 253, 254, 255],
            },
            clamped("strength", 1.0),
            radius("radius"),
        ],
        needs: Needs {
            floats: 3,
            ..FRAME_ONLY
        },
        kind: 2,
        ours: |s, f, lent| {
            probe::bloom(
                f.words,
                lent.floats,
                f.width,
                f.height,
                s.byte(0),
                s.float(1),
                s.whole(2),
            )
        },
        cost: |s| 40 + 7 * (2 * s.whole(2) + 1),
        measured: &[&[100.0, 0.5, 4.0], &[100.0, 0.5, 64.0]],
        limit: |s| blur_limit(s.whole(2)),
    },
    Pass {
        name: "color_correction",
        // The original clamps contrast and saturation below only, and brightness not at all.
        fields: &[
            Field::Float {
                name: "brightness",
                limits: [f32::NEG_INFINITY, f32::INFINITY],
                card: [-1.0, 1.0],
            },
            Field::Float {
                name: "contrast",
                limits: [0.0, f32::INFINITY],
                card: [0.0, 4.0],
            },
            Field::Float {
                name: "saturation",
                limits: [0.0, f32::INFINITY],
                card: [0.0, 4.0],
            },
            Field::Gamma,
        ],
        needs: FRAME_ONLY,
        kind: 7,
        ours: |s, f, lent| {
            clipped(probe::color_correction(
                f.words,
                lent.curve,
                s.float(0),
                s.float(1),
                s.float(2),
                s.float(3),
            ))
        },
        cost: |_| 45,
        measured: &[&[0.05, 1.1, 1.2, 1.0], &[0.05, 1.1, 1.2, 2.2]],
        limit: |s| if s.float(3) == 1.0 { 1.0 } else { 0.5 },
    },
    Pass {
        name: "crt",
        fields: &[clamped("strength", 1.0)],
        needs: FRAME_ONLY,
        kind: 8,
        ours: |s, f, _| {
            probe::crt(f.words, f.width, f.height, s.float(0));
            NOTHING
        },
        cost: |_| 30,
        measured: &[&[0.75]],
        limit: |_| 1.0,
    },
    Pass {
        name: "curvature",
        fields: &[clamped("amount", 0.5)],
        needs: Needs {
            words: 1,
            ..FRAME_ONLY
        },
        kind: 6,
        ours: |s, f, lent| {
            probe::curvature(f.words, lent.words, f.width, f.height, s.float(0));
            NOTHING
        },
        cost: |_| 30,
        measured: &[&[0.1]],
        limit: |_| 1.0,
    },
    Pass {
        name: "lut",
        fields: &[
            Field::Whole {
                name: "preset",
                least: 0,
                most: 6,
                boundaries: &[0, 1, 2, 3, 4, 5, 6],
            },
            clamped("strength", 1.0),
        ],
        needs: FRAME_ONLY,
        kind: 5,
        ours: |s, f, _| clipped(probe::lut(f.words, s.byte(0), s.float(1))),
        cost: |_| 20,
        measured: &[
            &[0.0, 0.75],
            &[1.0, 0.75],
            &[2.0, 0.75],
            &[3.0, 0.75],
            &[4.0, 0.75],
            &[5.0, 0.75],
            &[6.0, 0.75],
        ],
        limit: |_| 1.0,
    },
    Pass {
        name: "ntsc",
        fields: &[clamped("strength", 1.0), radius("bleed")],
        needs: FRAME_ONLY,
        kind: 1,
        ours: |s, f, _| probe::ntsc(f.words, f.width, f.height, s.float(0), s.whole(1)),
        cost: |s| 30 + 4 * (2 * s.whole(1) + 1),
        measured: &[&[0.75, 4.0], &[0.75, 64.0]],
        limit: |s| blur_limit(s.whole(1)),
    },
    Pass {
        name: "persistence",
        fields: &[
            clamped("amount", 0.95),
            Field::Whole {
                name: "depth",
                least: 1,
                most: 8,
                boundaries: &[0, 1, 2, 3, 4, 5, 6, 7, 8],
            },
        ],
        needs: Needs {
            words: 1,
            history: 8,
            ..FRAME_ONLY
        },
        kind: 4,
        ours: |s, f, lent| {
            let (amount, depth) = (s.float(0), s.byte(1));
            let (held, size) = (lent.held, (f.width, f.height));
            let before = std::mem::replace(held, size);
            clipped(probe::persistence(
                f.words,
                lent.history,
                lent.words,
                amount,
                depth,
                before,
                size,
            ))
        },
        cost: |s| 10 + 4 * s.whole(1),
        measured: &[&[0.35, 3.0], &[0.35, 8.0]],
        limit: |_| 1.0,
    },
    Pass {
        name: "scanlines",
        fields: &[clamped("strength", 1.0)],
        needs: FRAME_ONLY,
        kind: 10,
        ours: |s, f, _| {
            probe::scanlines(f.words, f.width, f.height, s.float(0));
            NOTHING
        },
        cost: |_| 10,
        measured: &[&[0.35]],
        limit: |_| 1.0,
    },
    Pass {
        name: "vignette",
        fields: &[clamped("strength", 1.0)],
        needs: Needs {
            floats: 1,
            ..FRAME_ONLY
        },
        kind: 9,
        ours: |s, f, lent| {
            probe::vignette(f.words, lent.floats, f.width, f.height, s.float(0));
            NOTHING
        },
        cost: |_| 30,
        measured: &[&[0.35]],
        limit: |_| 1.0,
    },
];

/// The row of document 01's kind.
pub fn of_kind(kind: u32) -> &'static Pass {
    let found = PASSES.iter().find(|pass| pass.kind == kind);
    found.expect("every kind has a row")
}

/// What a blur may take: less where its sums are all that counts.
fn blur_limit(radius: usize) -> f64 {
    if radius < 64 {
        0.35
    } else {
        0.2
    }
}
