//! How the time per pixel grows with the radius of a blur and with the size of the frame.

use std::time::Duration;

use super::cases::{self, Case};
use super::stand::{Size, CONSOLE};
use super::time::{measured, Patience};
use crate::passes::table::{Pass, PASSES};

const RADII: [f32; 7] = [1.0, 2.0, 4.0, 8.0, 16.0, 32.0, 64.0];

/// Each with four times the pixels of the one before.
const SIZES: [Size; 5] = [(64, 60), (128, 120), CONSOLE, (512, 480), (1024, 960)];

/// Fewer rounds than the lines that are held to a limit.
const PATIENCE: Patience = Patience {
    rounds: [3, 51],
    time: Duration::from_millis(100),
};

pub fn run() {
    println!();
    println!("Growth with the radius, then with the size: nanoseconds per pixel, the median of fewer rounds.");
    for pass in PASSES {
        let Some(place) = pass.radius() else {
            continue;
        };
        for radius in RADII {
            let case = cases::alone(pass, &with_radius(pass, place, radius));
            line(&case, CONSOLE, &format!("radius={radius}"));
        }
    }
    let passes = PASSES
        .iter()
        .map(|pass| cases::alone(pass, pass.measured[0]));
    for case in passes.chain(cases::chains()) {
        for size in SIZES {
            line(&case, size, &format!("setting={}", case.setting));
        }
    }
}

fn line(case: &Case, size: Size, setting: &str) {
    let times = measured(case, size, PATIENCE);
    let (pass, (width, height)) = (case.pass, size);
    println!("growth pass={pass} size={width}x{height} {setting} {times}");
}

/// The first measured setting with another radius in its place.
fn with_radius(pass: &Pass, place: usize, radius: f32) -> Vec<f32> {
    let mut values = pass.measured[0].to_vec();
    values[place] = radius;
    values
}
