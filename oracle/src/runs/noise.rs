//! Words that stand in a buffer before a call: every word can be told again from its place, so that what was
//! written is seen without a copy.

use crate::random::Random;

#[derive(Clone, Copy)]
enum Kind {
    /// Any pattern.
    Any,
    /// One NaN in every place: quiet or signalling, of either sign.
    Same(u32),
    /// Patterns that a float step may trip over.
    Odd,
}

#[derive(Clone, Copy)]
pub struct Noise {
    kind: Kind,
    seed: u64,
}

const NANS: [u32; 4] = [0x7fc0_0000, 0xffc0_0000, 0x7f80_0001, 0xffbf_ffff];

/// NaN, infinities, zeros, the largest and the smallest numbers.
const ODD: [u32; 12] = [
    0x7fc0_0000,
    0xffc0_0000,
    0x7f80_0001,
    0xffff_ffff,
    0x7f80_0000,
    0xff80_0000,
    0x8000_0000,
    0x0000_0000,
    0x7f7f_ffff,
    0xff7f_ffff,
    0x0000_0001,
    0x8000_0001,
];

impl Noise {
    pub fn of(seed: u64) -> Self {
        let kind = match seed % 4 {
            0 => Kind::Same(NANS[(seed / 4 % NANS.len() as u64) as usize]),
            1 => Kind::Odd,
            _ => Kind::Any,
        };
        Noise { kind, seed }
    }

    /// Any patterns: for words that are pixels.
    pub fn any(seed: u64) -> Self {
        Noise {
            kind: Kind::Any,
            seed,
        }
    }

    fn word(&self, place: usize) -> u32 {
        let any = || Random::new(self.seed ^ (place as u64) << 20).word();
        match self.kind {
            Kind::Any => any(),
            Kind::Same(word) => word,
            Kind::Odd => ODD[any() as usize % ODD.len()],
        }
    }

    pub fn words(&self, count: usize) -> Vec<u32> {
        (0..count).map(|place| self.word(place)).collect()
    }

    pub fn floats(&self, count: usize) -> Vec<f32> {
        (0..count)
            .map(|place| f32::from_bits(self.word(place)))
            .collect()
    }

    /// The first of these words, counted from place `from` on, that is another than it was.
    pub fn changed(&self, from: usize, words: impl Iterator<Item = u32>) -> Option<usize> {
        let mut places = words.enumerate();
        let found = places.find(|&(place, word)| word != self.word(from + place));
        found.map(|(place, _)| from + place)
    }
}
