//! The frames that the passes are compared on.

use std::fmt;

use crate::random::Random;

#[derive(Clone, Copy, Debug)]
pub enum Kind {
    /// Each word by itself.
    Random,
    /// One colour.
    Flat,
    Black,
    White,
    /// Each word by itself, its channels equal.
    Greys,
    /// Channels that grow along rows, columns or both.
    Gradient,
    /// One word on black or on white.
    Single,
    /// Channels of 0 to 3.
    Dark,
    /// Channels of 252 to 255.
    Light,
    /// Blocks of a few colours, as a game shows them.
    Blocks,
    /// Two colours by turns.
    Checks,
}

pub const KINDS: [Kind; 11] = [
    Kind::Random,
    Kind::Flat,
    Kind::Black,
    Kind::White,
    Kind::Greys,
    Kind::Gradient,
    Kind::Single,
    Kind::Dark,
    Kind::Light,
    Kind::Blocks,
    Kind::Checks,
];

/// A frame of any size, by kind and seed.
#[derive(Clone, Copy)]
pub struct Picture {
    pub kind: Kind,
    pub seed: u64,
}

impl Picture {
    pub fn random(random: &mut Random) -> Self {
        Picture {
            kind: random.choose(&KINDS),
            seed: random.next(),
        }
    }

    /// The words of the picture. By the seed, the top bytes are 0, all the same or each by itself:
    /// a pass must not take them for a channel.
    pub fn draw(&self, width: usize, height: usize) -> Vec<u32> {
        let mut random = Random::new(self.seed);
        let top = random.below(4);
        let mut words = self.colours(width, height, &mut random);
        let all = random.word() | 1 << 24;
        for word in &mut words {
            let over = match top {
                0 | 1 => 0,
                2 => all,
                _ => random.word(),
            };
            *word = *word & 0xff_ffff | over & 0xff00_0000;
        }
        words
    }

    fn colours(&self, width: usize, height: usize, random: &mut Random) -> Vec<u32> {
        let count = width * height;
        match self.kind {
            Kind::Random => (0..count).map(|_| random.word()).collect(),
            Kind::Flat => vec![random.word(); count],
            Kind::Black => vec![0; count],
            Kind::White => vec![0xff_ffff; count],
            Kind::Greys => (0..count)
                .map(|_| (random.word() >> 24) * 0x1_0101)
                .collect(),
            Kind::Gradient => gradient(width, height, random),
            Kind::Single => {
                let mut words = vec![random.choose(&[0, 0xff_ffff]); count];
                let colour = random.word();
                words[random.below(count)] = random.choose(&[0, 0xff_ffff, colour]);
                words
            }
            Kind::Dark => (0..count).map(|_| random.word() & 0x03_0303).collect(),
            Kind::Light => (0..count).map(|_| random.word() | 0xfc_fcfc).collect(),
            Kind::Blocks => blocks(width, height, random),
            Kind::Checks => {
                let colours = [random.word(), random.word()];
                places(width, height)
                    .map(|(x, y)| colours[(x + y) % 2])
                    .collect()
            }
        }
    }
}

impl fmt::Display for Picture {
    fn fmt(&self, f: &mut fmt::Formatter) -> fmt::Result {
        write!(f, "{:?} with seed {:#018x}", self.kind, self.seed)
    }
}

/// Column and row of each word.
fn places(width: usize, height: usize) -> impl Iterator<Item = (usize, usize)> {
    (0..height).flat_map(move |y| (0..width).map(move |x| (x, y)))
}

fn gradient(width: usize, height: usize, random: &mut Random) -> Vec<u32> {
    let along = random.below(3);
    let steps: [usize; 3] = [(); 3].map(|()| random.within(1, 9));
    places(width, height)
        .map(|(x, y)| {
            let at = match along {
                0 => x,
                1 => y,
                _ => x + y,
            };
            let [r, g, b] = steps.map(|step| (at * step % 256) as u32);
            r << 16 | g << 8 | b
        })
        .collect()
}

fn blocks(width: usize, height: usize, random: &mut Random) -> Vec<u32> {
    let side = random.within(2, 16);
    let colours: [u32; 8] = [(); 8].map(|()| random.word());
    let seed = random.next();
    places(width, height)
        .map(|(x, y)| {
            let block = (y / side << 16 | x / side) as u64;
            colours[Random::new(seed ^ block).below(colours.len())]
        })
        .collect()
}
