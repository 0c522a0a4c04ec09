//! The original's effects from their settings, one by one and as the pipeline of a card's records. Compiled twice: for the
//! original, and for the copy of it that counts.

use super::original::auto_gradient::AutoGradient;
use super::original::bloom::Bloom;
use super::original::color_correction::ColorCorrection;
use super::original::crt::Crt;
use super::original::curvature::Curvature;
use super::original::effect::PostProcessEffect;
use super::original::lut::{Lut, LutPreset};
use super::original::ntsc::Ntsc;
use super::original::persistence::Persistence;
use super::original::pipeline::PostProcessPipeline;
use super::original::scanlines::Scanlines;
use super::original::vignette::Vignette;
use crate::cards::paper::{Record, Value};
use crate::passes::both::Past;
use crate::passes::chain::{COLOUR, PERSISTENCE};
use crate::passes::curves;

/// In the order of the enum: a card holds the place.
const PRESETS: [LutPreset; 7] = [
    LutPreset::Identity,
    LutPreset::WarmCrt,
    LutPreset::CoolCrt,
    LutPreset::Composite,
    LutPreset::GameBoy,
    LutPreset::Amber,
    LutPreset::HighContrast,
];

/// The effect of document 01's kind, by its `new` and switched on. The values are those of a card, in its order; whole numbers
/// are small enough for an f32.
pub fn effect(kind: u32, values: &[f32]) -> Box<dyn PostProcessEffect> {
    let float = |place: usize| values[place];
    let whole = |place: usize| values[place] as usize;
    let mut effect: Box<dyn PostProcessEffect> = match kind {
        1 => Box::new(Ntsc::new(float(0), whole(1))),
        2 => Box::new(Bloom::new(whole(0) as u8, float(1), whole(2))),
        3 => Box::new(AutoGradient::new(float(0), float(1), float(2))),
        4 => Box::new(Persistence::new(float(0), whole(1))),
        5 => Box::new(Lut::new(PRESETS[whole(0)], float(1))),
        6 => Box::new(Curvature::new(float(0))),
        7 => Box::new(ColorCorrection::new(float(0), float(1), float(2), float(3))),
        8 => Box::new(Crt::new(float(0))),
        9 => Box::new(Vignette::new(float(0))),
        10 => Box::new(Scanlines::new(float(0))),
        _ => panic!("there is no kind {kind}"),
    };
    effect.set_enabled(true);
    effect
}

/// The same, but that colour takes the curve that is lent to it (curves.rs).
pub fn with_curve(kind: u32, values: &[f32]) -> Box<dyn PostProcessEffect> {
    match *values {
        [brightness, contrast, saturation, gamma] if kind == COLOUR && gamma != 1.0 => {
            Box::new(Curved {
                original: effect(kind, values),
                settings: [brightness, contrast, saturation],
                powers: curves::power(gamma),
            })
        }
        _ => effect(kind, values),
    }
}

/// The pipeline of a card's records, each effect made by `make` and switched as its record says. What a glow is to remember, by
/// their order, is shown to it before: it keeps the frames as they come to it, and not its pictures.
pub fn built(
    records: &[Record],
    pasts: &[Past],
    make: impl Fn(u32, &[f32]) -> Box<dyn PostProcessEffect>,
) -> PostProcessPipeline {
    let mut pipeline = PostProcessPipeline::new();
    let mut pasts = pasts.iter();
    for record in records {
        let value = |value: &Value| match *value {
            Value::Float(x) => x,
            Value::Whole(n, _) => n as f32,
        };
        let values: Vec<f32> = record.settings.iter().map(value).collect();
        let mut effect = make(record.kind, &values);
        if record.kind == PERSISTENCE {
            let past = pasts.next().cloned().unwrap_or_default();
            let (width, height) = past.size;
            for mut frame in past.frames {
                effect.apply(&mut frame, width, height);
            }
        }
        effect.set_enabled(record.on);
        pipeline.add(Boxed(effect));
    }
    pipeline
}

/// Colour with a curve: the original's where the curve holds its powers, and the second writing of the pass where it does not.
struct Curved {
    original: Box<dyn PostProcessEffect>,
    settings: [f32; 3],
    powers: Vec<f32>,
}

impl PostProcessEffect for Curved {
    fn name(&self) -> &'static str {
        self.original.name()
    }

    fn enabled(&self) -> bool {
        self.original.enabled()
    }

    fn set_enabled(&mut self, enabled: bool) {
        self.original.set_enabled(enabled);
    }

    fn apply(&self, framebuffer: &mut [u32], width: usize, height: usize) {
        if !self.enabled() {
            return;
        }
        curves::with_lent(|curve| {
            if curves::same(&curve[..curves::READ], &self.powers) {
                self.original.apply(framebuffer, width, height);
            } else {
                curves::paint(&mut framebuffer[..width * height], curve, self.settings);
            }
        });
    }
}

/// An effect as a pipeline takes it.
struct Boxed(Box<dyn PostProcessEffect>);

impl PostProcessEffect for Boxed {
    fn name(&self) -> &'static str {
        self.0.name()
    }

    fn enabled(&self) -> bool {
        self.0.enabled()
    }

    fn set_enabled(&mut self, enabled: bool) {
        self.0.set_enabled(enabled);
    }

    fn cycle_lut(&mut self) {
        self.0.cycle_lut();
    }

    fn lut_label(&self) -> Option<&'static str> {
        self.0.lut_label()
    }

    fn apply(&self, framebuffer: &mut [u32], width: usize, height: usize) {
        self.0.apply(framebuffer, width, height);
    }
}
