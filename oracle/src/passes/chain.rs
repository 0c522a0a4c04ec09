//! What the original calls the kinds of document 01, and its presets.

use super::original::pipeline::PostProcessPipeline;

/// The kinds that calls look for, and the two that blur.
pub const NTSC: u32 = 1;
pub const BLOOM: u32 = 2;
pub const PERSISTENCE: u32 = 4;
pub const LUT: u32 = 5;
pub const COLOUR: u32 = 7;

/// What the original calls an effect.
pub fn name(kind: u32) -> &'static str {
    match kind {
        1 => "ntsc",
        2 => "bloom",
        3 => "auto_gradient",
        4 => "persistence",
        5 => "lut",
        6 => "curvature",
        7 => "color_correction",
        8 => "crt",
        9 => "vignette",
        10 => "scanlines",
        _ => panic!("there is no kind {kind}"),
    }
}

/// In the order of the enum.
const LABELS: [&str; 7] = [
    "IDENTITY",
    "WARM CRT",
    "COOL CRT",
    "COMPOSITE",
    "GAME BOY",
    "AMBER",
    "HIGH CONTRAST",
];

/// The preset of a pipeline with a LUT. The original tells it by a label alone.
pub fn preset(pipeline: &PostProcessPipeline) -> u32 {
    let label = pipeline.lut_label();
    let preset = LABELS.iter().position(|&other| Some(other) == label);
    preset.expect("the original has a label for each preset") as u32
}
