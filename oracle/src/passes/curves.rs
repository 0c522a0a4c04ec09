//! The curves that are lent to colour, by document 02's P3: how they are drawn, which of them are taken, and what colour makes of any of
//! them. The original has no curve: it works out a power for each channel. So it is beside ours where the curve holds these powers, and
//! the pass written here a second time where it holds anything else.

use std::cell::RefCell;

use crate::random::Random;
use crate::reports::clamp;

/// How many words of a curve are read.
pub const READ: usize = 256;

/// What the original starts a channel from.
pub fn power(gamma: f32) -> Vec<f32> {
    (0..READ).map(|k| (k as f32 / 255.0).powf(gamma)).collect()
}

/// Whether a word may stand where a curve is read. By value: -0 is in 0..1, no NaN is.
pub fn is_taken(word: &f32) -> bool {
    (0.0..=1.0).contains(word)
}

/// Whether a chain that reads this curve takes it.
pub fn is_good(curve: &[f32]) -> bool {
    curve
        .get(..READ)
        .is_some_and(|read| read.iter().all(is_taken))
}

/// Whether both hold the same patterns.
pub fn same(one: &[f32], other: &[f32]) -> bool {
    one.iter()
        .map(|x| x.to_bits())
        .eq(other.iter().map(|x| x.to_bits()))
}

/// Colour, written from document 01's order of steps with document 02's curve: the second writing of the pass. Counts as a copy of the
/// original does.
pub fn paint(words: &mut [u32], curve: &[f32], settings: [f32; 3]) {
    let [brightness, contrast, saturation] = settings;
    for word in words {
        let [_, channels @ ..] = word.to_be_bytes();
        let levels = channels.map(|k| (curve[usize::from(k)] + brightness - 0.5) * contrast + 0.5);
        let luminance = 0.2126 * levels[0] + 0.7152 * levels[1] + 0.0722 * levels[2];
        let shown = levels.map(|x| luminance + (x - luminance) * saturation);
        let [r, g, b] = shown.map(|x| (clamp(x, 1.0) * 255.0) as u8);
        *word = u32::from_be_bytes([0, r, g, b]);
    }
}

thread_local! {
    static LENT: RefCell<Vec<f32>> = const { RefCell::new(Vec::new()) };
}

/// What `paint` gives while this curve is lent: the original's pipeline cannot hand it to an effect.
pub fn lent<T>(curve: &[f32], paint: impl FnOnce() -> T) -> T {
    LENT.set(curve.to_vec());
    paint()
}

/// Shows the curve that is lent in this thread.
pub fn with_lent<T>(look: impl FnOnce(&[f32]) -> T) -> T {
    LENT.with_borrow(|curve| look(curve))
}

/// What the first words of a curve are.
#[derive(Clone, Copy, Debug)]
pub enum Shape {
    /// The powers of this gamma.
    Power(f32),
    /// The channels as they are, divided by 255; and from the highest to the lowest.
    Share,
    Falling,
    /// Each by itself, from 0 to 1.
    Random,
    /// The same of any size, subnormal and tiny ones too.
    AnySize,
    /// Each the end of a range, and one of them everywhere.
    Edges,
    Flat,
    /// A share, but for one word.
    OneOther,
    /// Any pattern: no curve that can be read.
    Noise,
}

/// Where a step of colour, or the test of a curve, may change its way. All are taken.
const EDGES: [u32; 9] = [
    0x0000_0000, // 0
    0x8000_0000, // -0
    0x0000_0001, // the smallest above 0
    0x007f_ffff, // the largest subnormal
    0x0080_0000,
    0x3f00_0000, // 0.5
    0x3f7f_ffff, // the largest below 1
    0x3f80_0000, // 1
    0x3f80_0000,
];

/// A word beside the limits, in place of one that is drawn.
#[derive(Clone, Copy, PartialEq, Debug)]
pub enum Odd {
    /// One step above 1, and one step below 0.
    Above,
    Below,
    /// Quiet ones, and one that signals.
    Nan,
    NegativeNan,
    SignallingNan,
    Infinity,
    NegativeInfinity,
    /// This one is taken.
    MinusZero,
}

pub const ODD: [Odd; 8] = [
    Odd::Above,
    Odd::Below,
    Odd::Nan,
    Odd::NegativeNan,
    Odd::SignallingNan,
    Odd::Infinity,
    Odd::NegativeInfinity,
    Odd::MinusZero,
];

impl Odd {
    pub fn word(self) -> f32 {
        f32::from_bits(match self {
            Odd::Above => 0x3f80_0001,
            Odd::Below => 0x8000_0001,
            Odd::Nan => 0x7fc0_0000,
            Odd::NegativeNan => 0xffc0_0000,
            Odd::SignallingNan => 0x7f80_0001,
            Odd::Infinity => 0x7f80_0000,
            Odd::NegativeInfinity => 0xff80_0000,
            Odd::MinusZero => 0x8000_0000,
        })
    }
}

/// Whether one of these is the odd word, by its pattern.
pub fn has(words: &[f32], odd: Odd) -> bool {
    let pattern = odd.word().to_bits();
    words.iter().any(|word| word.to_bits() == pattern)
}

/// A curve, by what it is drawn from.
#[derive(Clone, Copy, Debug)]
pub struct Curve {
    pub shape: Shape,
    pub seed: u64,
    /// How many words are lent.
    pub len: usize,
    /// A word that stands at a place of its own.
    pub odd: Option<(usize, Odd)>,
}

/// Lengths that are enough, and such as are not.
const ENOUGH: [usize; 8] = [256, 256, 256, 256, 257, 258, 300, 512];
const SHORT: [usize; 8] = [0, 0, 1, 128, 254, 255, 255, 255];

/// Where an odd word stands: at the ends of what is read, beside them, and past it.
const PLACES: [usize; 8] = [0, 1, 127, 128, 254, 255, 255, 256];

impl Curve {
    /// One that a chain with this gamma takes: in half of the cases the powers of Rust.
    pub fn good(gamma: f32, random: &mut Random) -> Self {
        Curve {
            shape: if random.one_in(2) {
                Shape::Power(gamma)
            } else {
                any_shape(random)
            },
            seed: random.next(),
            len: random.choose(&ENOUGH),
            odd: random
                .one_in(16)
                .then(|| (random.below(READ), Odd::MinusZero)),
        }
    }

    /// One that is too short, or has an odd word. A few of them are taken all the same: by -0, or by the place.
    pub fn bad(random: &mut Random) -> Self {
        let short = random.one_in(3);
        let len = random.choose(if short { &SHORT } else { &ENOUGH });
        let (edge, any) = (random.choose(&PLACES), random.below(READ));
        let place = random.choose(&[edge, any]);
        Curve {
            shape: any_shape(random),
            seed: random.next(),
            len,
            odd: (!short).then(|| (place, random.choose(&ODD))),
        }
    }

    /// One of any kind: for a chain that reads none.
    pub fn any(random: &mut Random) -> Self {
        let any = random.below(600);
        let good = any_shape(random);
        Curve {
            shape: random.choose(&[Shape::Noise, Shape::Noise, good]),
            seed: random.next(),
            len: random.choose(&[0, 0, 1, 255, 256, any]),
            odd: None,
        }
    }

    /// Its words. Those past the ones that are read are drawn apart, any patterns.
    pub fn words(&self, past: u64) -> Vec<f32> {
        let mut words = self.shape.words(self.seed);
        let random = &mut Random::new(past);
        words.resize_with(self.len.max(READ), || f32::from_bits(random.word()));
        if let Some((place, odd)) = self.odd {
            if let Some(word) = words.get_mut(place) {
                *word = odd.word();
            }
        }
        words.truncate(self.len);
        words
    }

    /// As a file holds it: the least significant byte of a word first.
    pub fn bytes(&self) -> Vec<u8> {
        let words = self.words(self.seed);
        words.iter().flat_map(|word| word.to_le_bytes()).collect()
    }
}

fn any_shape(random: &mut Random) -> Shape {
    let gamma = 4.0 * random.unit();
    random.choose(&[
        Shape::Power(gamma),
        Shape::Share,
        Shape::Falling,
        Shape::Random,
        Shape::Random,
        Shape::AnySize,
        Shape::Edges,
        Shape::Flat,
        Shape::OneOther,
    ])
}

impl Shape {
    /// The words that are read.
    fn words(self, seed: u64) -> Vec<f32> {
        let random = &mut Random::new(seed);
        let share = |k: usize| k as f32 / 255.0;
        let edge = |random: &mut Random| f32::from_bits(random.choose(&EDGES));
        let all = 0..READ;
        match self {
            Shape::Power(gamma) => power(gamma),
            Shape::Share => all.map(share).collect(),
            Shape::Falling => all.rev().map(share).collect(),
            Shape::Random => all.map(|_| random.unit()).collect(),
            Shape::AnySize => all
                .map(|_| f32::from_bits(random.within(0, 0x3f80_0000) as u32))
                .collect(),
            Shape::Edges => all.map(|_| edge(random)).collect(),
            Shape::Flat => vec![edge(random); READ],
            Shape::OneOther => {
                let mut words: Vec<f32> = all.map(share).collect();
                words[random.below(READ)] = random.unit();
                words
            }
            Shape::Noise => all.map(|_| f32::from_bits(random.word())).collect(),
        }
    }
}
