//! Which frames a pass without memory is compared on, and which curves colour.

use super::curves::Curve;
use super::frames::{Picture, KINDS};
use super::settings::{self, Setting};
use super::table::Pass;
use crate::random::Random;
use crate::steps::Mode;

/// One frame through one pass.
pub struct Case {
    pub width: usize,
    pub height: usize,
    pub setting: Setting,
    pub picture: Picture,
}

/// One frame through colour with any curve. At gamma 1 the curve is not looked at, and may be none that is taken.
pub struct Curved {
    pub frame: Case,
    pub curve: Curve,
}

/// Sides up to here are taken in every combination.
const SMALL: usize = 32;

/// Sides at which a loop may change its way, and those of a console.
const SIDES: [usize; 26] = [
    1, 2, 3, 31, 32, 33, 63, 64, 65, 127, 128, 129, 240, 255, 256, 257, 511, 512, 513, 720, 767,
    768, 769, 1022, 1023, 1024,
];

/// Sizes that no budget leaves out.
const LARGEST: [(usize, usize); 3] = [(1024, 1024), (1024, 1), (1, 1024)];

/// How much of each part is done.
struct Effort {
    /// Rounds through all small sizes, each with another setting and picture.
    rounds: usize,
    /// Frames for each combination of boundary settings, each of another kind; fewer where that would be more than so many together.
    frames: usize,
    together: usize,
    /// Frames with any curve.
    curved: usize,
    /// Nanoseconds, as the pass's row estimates them, for frames with sides up to 1024.
    budget: usize,
}

impl Effort {
    fn of(mode: Mode) -> Self {
        match mode {
            Mode::Quick => Effort {
                rounds: 4 * KINDS.len(),
                frames: KINDS.len(),
                together: 100_000,
                curved: 120_000,
                budget: 2_000_000_000,
            },
            Mode::Full => Effort {
                rounds: 40 * KINDS.len(),
                frames: 10 * KINDS.len(),
                together: 1_000_000,
                curved: 2_400_000,
                budget: 150_000_000_000,
            },
        }
    }
}

pub fn of(pass: &Pass, mode: Mode) -> Vec<Case> {
    let effort = Effort::of(mode);
    let random = &mut Random::named(pass.name);
    let mut cases = Vec::new();
    small_sizes(pass, &effort, random, &mut cases);
    boundary_settings(pass, &effort, random, &mut cases);
    large_sizes(pass, &effort, random, &mut cases);
    beside_the_radius(pass, random, &mut cases);
    cases
}

/// Every small size, each time with another setting.
fn small_sizes(pass: &Pass, effort: &Effort, random: &mut Random, cases: &mut Vec<Case>) {
    for round in 0..effort.rounds {
        for height in 1..=SMALL {
            for width in 1..=SMALL {
                cases.push(Case {
                    width,
                    height,
                    setting: settings::random(pass.fields, random),
                    picture: Picture {
                        kind: KINDS[(round + width + height) % KINDS.len()],
                        seed: random.next(),
                    },
                });
            }
        }
    }
}

/// Every boundary setting. One frame for each has room for the widest blur, where they are few enough.
fn boundary_settings(pass: &Pass, effort: &Effort, random: &mut Random, cases: &mut Vec<Case>) {
    let settings = settings::boundaries(pass.fields);
    let rounds = effort.frames.min(effort.together / settings.len());
    for (place, setting) in settings.into_iter().enumerate() {
        for round in 0..rounds {
            let wide = round == 0 && rounds == effort.frames;
            let longest = if wide { 4 * SMALL } else { SMALL };
            cases.push(Case {
                width: random.within(1, longest),
                height: random.within(1, longest),
                setting,
                picture: Picture {
                    kind: KINDS[(place * rounds + round) % KINDS.len()],
                    seed: random.next(),
                },
            });
        }
    }
}

/// Small frames of colour, each with another setting and another curve.
pub fn of_curves(pass: &Pass, mode: Mode) -> Vec<Curved> {
    let random = &mut Random::named("curves");
    let case = |random: &mut Random| {
        let setting = settings::random(pass.fields, random);
        let gamma = settings::limited(pass.fields, &setting).float(3);
        Curved {
            frame: Case {
                width: random.within(1, SMALL),
                height: random.within(1, SMALL),
                setting,
                picture: Picture::random(random),
            },
            curve: if gamma == 1.0 {
                Curve::any(random)
            } else {
                Curve::good(gamma, random)
            },
        }
    };
    (0..Effort::of(mode).curved).map(|_| case(random)).collect()
}

/// The largest frames with ordinary settings, then large ones for as long as the budget lasts, with
/// boundary sides and boundary settings among them.
fn large_sizes(pass: &Pass, effort: &Effort, random: &mut Random, cases: &mut Vec<Case>) {
    for (width, height) in LARGEST {
        for values in pass.measured {
            cases.push(Case {
                width,
                height,
                setting: settings::given(values),
                picture: Picture::random(random),
            });
        }
    }
    let mut spent = 0;
    loop {
        let (width, height) = (side(random), side(random));
        let setting = settings::random(pass.fields, random);
        spent += width * height * (pass.cost)(&setting);
        if spent > effort.budget {
            return;
        }
        cases.push(Case {
            width,
            height,
            setting,
            picture: Picture::random(random),
        });
    }
}

/// The widest blur of a card.
const WIDEST: usize = 64;

/// Of a blur, for each radius a side one below it, at it and one above it, as the width and as the height.
fn beside_the_radius(pass: &Pass, random: &mut Random, cases: &mut Vec<Case>) {
    let Some(field) = pass.radius() else {
        return;
    };
    for radius in 1..=WIDEST {
        for side in radius.max(2) - 1..=radius + 1 {
            let other = random.within(1, SMALL);
            for (width, height) in [(side, other), (other, side)] {
                let setting = settings::random(pass.fields, random);
                cases.push(Case {
                    width,
                    height,
                    setting: setting.with(field, radius as f32),
                    picture: Picture::random(random),
                });
            }
        }
    }
}

/// A side of a large frame.
pub fn side(random: &mut Random) -> usize {
    if random.one_in(2) {
        random.choose(&SIDES)
    } else {
        random.within(1, 1024)
    }
}
