//! The settings of a pass: what its fields are called, where their boundaries lie, and what is left
//! of a value once it is limited.

use crate::random::Random;

/// The most fields that a pass has.
pub const FIELDS: usize = 4;

/// A value for each field, in the order of the fields. Whole numbers are small enough for an f32.
#[derive(Clone, Copy, PartialEq)]
pub struct Setting {
    values: [f32; FIELDS],
}

impl Setting {
    pub fn float(&self, field: usize) -> f32 {
        self.values[field]
    }

    pub fn whole(&self, field: usize) -> usize {
        self.values[field] as usize
    }

    pub fn byte(&self, field: usize) -> u8 {
        self.values[field] as u8
    }

    pub fn values(&self) -> &[f32] {
        &self.values
    }

    /// The same with another value in one field.
    pub fn with(mut self, field: usize, value: f32) -> Self {
        self.values[field] = value;
        self
    }
}

/// One setting of a pass.
pub enum Field {
    Float {
        name: &'static str,
        /// The ends that the original's `new` sets, infinite where it sets none.
        limits: [f32; 2],
        /// The ends of what a card may hold once it is normalised.
        card: [f32; 2],
    },
    Whole {
        name: &'static str,
        /// The least value once it is limited. No high end is set: what is above is refused.
        least: usize,
        /// The highest value of a card.
        most: usize,
        boundaries: &'static [usize],
    },
    /// The exponent of colour's power. The original's `new` sets the low end alone.
    Gamma,
}

/// The ends of what a card may hold as its gamma.
const GAMMA: [f32; 2] = [0.01, 4.0];

/// A float that `new` clamps to 0..high.
pub const fn clamped(name: &'static str, high: f32) -> Field {
    Field::Float {
        name,
        limits: [0.0, high],
        card: [0.0, high],
    }
}

/// The width of a blur: 0 becomes 1.
pub const fn radius(name: &'static str) -> Field {
    Field::Whole {
        name,
        least: 1,
        most: 64,
        boundaries: &[0, 1, 2, 3, 4, 31, 63, 64],
    }
}

impl Field {
    fn name(&self) -> &'static str {
        match self {
            Field::Float { name, .. } | Field::Whole { name, .. } => name,
            Field::Gamma => "gamma",
        }
    }

    /// The ends, what lies one step inside and outside of them, both zeros, the ends of the
    /// subnormal values, 1, a tiny and a middle value, and far outside where that is limited. Of a gamma also what lies one step
    /// beside 1.
    fn boundaries(&self) -> Vec<f32> {
        let mut values: Vec<f32> = SUBNORMAL.map(f32::from_bits).to_vec();
        match self {
            Field::Float { limits, card, .. } => {
                let [low, high] = *card;
                values.extend([0.0, -0.0, 1e-10, 1.0, low + (high - low) * 0.5]);
                values.extend(card.iter().flat_map(|&end| beside(end)));
                if limits[0].is_finite() {
                    values.extend([low - 1.0, f32::MIN]);
                }
                if limits[1].is_finite() {
                    values.extend([high + 1.0, f32::MAX]);
                }
            }
            Field::Gamma => {
                let [low, high] = GAMMA;
                values.extend([0.0, -0.0, 2.2, low - 1.0, f32::MIN]);
                values.extend([low, 1.0, high].into_iter().flat_map(beside));
            }
            Field::Whole { boundaries, .. } => {
                return boundaries.iter().map(|&n| n as f32).collect();
            }
        }
        values.sort_by(f32::total_cmp);
        values.dedup_by_key(|value| value.to_bits());
        values
    }

    /// Half of the time any value of a card, else a boundary or, for a float, any size of number. A gamma is 1 in one case of four.
    fn random(&self, random: &mut Random) -> f32 {
        let ordinary = random.one_in(2);
        match self {
            Field::Gamma if random.one_in(4) => 1.0,
            Field::Gamma if ordinary => inside(GAMMA, random),
            Field::Float { card, .. } if ordinary => inside(*card, random),
            Field::Gamma if random.one_in(2) => any_size(GAMMA, random),
            Field::Float { card, .. } if random.one_in(2) => any_size(*card, random),
            Field::Whole { most, .. } if ordinary => random.within(0, *most) as f32,
            _ => random.choose(&self.boundaries()),
        }
    }

    /// As document 01 normalises it.
    fn limited(&self, value: f32) -> f32 {
        match self {
            Field::Float { .. } if value == 0.0 => 0.0,
            Field::Float { limits, .. } => value.clamp(limits[0], limits[1]),
            Field::Gamma => value.max(GAMMA[0]),
            Field::Whole { least, .. } => value.max(*least as f32),
        }
    }
}

/// The ends of the subnormal numbers, and the first that is none.
const SUBNORMAL: [u32; 3] = [0x0000_0001, 0x007f_ffff, 0x0080_0000];

/// A value, and one step beside it on either side.
fn beside(value: f32) -> [f32; 3] {
    [value.next_down(), value, value.next_up()]
}

fn inside([low, high]: [f32; 2], random: &mut Random) -> f32 {
    low + (high - low) * random.unit()
}

/// Any pattern from 0 to the high end.
fn any_size([_, high]: [f32; 2], random: &mut Random) -> f32 {
    f32::from_bits(random.within(0, high.to_bits() as usize) as u32)
}

/// The setting with these values, as they stand in the table of the passes.
pub fn given(values: &[f32]) -> Setting {
    let mut setting = Setting {
        values: [0.0; FIELDS],
    };
    setting.values[..values.len()].copy_from_slice(values);
    setting
}

/// Every combination of boundary values.
pub fn boundaries(fields: &[Field]) -> Vec<Setting> {
    let mut all = vec![given(&[])];
    for (place, field) in fields.iter().enumerate() {
        let values = field.boundaries();
        let longer = all
            .iter()
            .flat_map(|setting| values.iter().map(move |&value| setting.with(place, value)));
        all = longer.collect();
    }
    all
}

pub fn random(fields: &[Field], random: &mut Random) -> Setting {
    let values: Vec<f32> = fields.iter().map(|field| field.random(random)).collect();
    given(&values)
}

/// What the pass here is given, where the original's `new` is given `raw`.
pub fn limited(fields: &[Field], raw: &Setting) -> Setting {
    let pairs = fields.iter().zip(raw.values);
    let values: Vec<f32> = pairs.map(|(field, value)| field.limited(value)).collect();
    given(&values)
}

/// With the patterns of the floats, to be built again.
pub fn shown(fields: &[Field], setting: &Setting) -> String {
    let pairs = fields.iter().zip(setting.values);
    let texts = pairs.map(|(field, value)| match field {
        Field::Whole { name, .. } => format!("{name} {value}"),
        _ => format!("{} {:#010x} ({value:?})", field.name(), value.to_bits()),
    });
    texts.collect::<Vec<_>>().join(", ")
}

/// In one word.
pub fn short(fields: &[Field], setting: &Setting) -> String {
    let pairs = fields.iter().zip(setting.values);
    let texts = pairs.map(|(field, value)| format!("{}:{value}", field.name()));
    texts.collect::<Vec<_>>().join(",")
}
