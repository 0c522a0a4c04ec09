//! The inputs: boundary values, and samples of all 2^32 patterns.

/// How many patterns an f32 has.
const ALL: u64 = 1 << 32;

/// Patterns at even distances, handed out in blocks.
pub struct Sample {
    /// The distance from one pattern to the next. It is odd, so that the low bits of the sample
    /// run through all their values.
    pub stride: u64,
}

impl Sample {
    /// Values in a block: few enough that a block and its results stay in a near cache.
    const BLOCK: u64 = 1 << 13;

    pub fn blocks(&self) -> u64 {
        ALL.div_ceil(self.stride).div_ceil(Self::BLOCK)
    }

    /// Puts a block into `xs`. The last one may be shorter than the others.
    pub fn fill(&self, block: u64, xs: &mut Vec<f32>) {
        let first = block * Self::BLOCK;
        let patterns = (first..first + Self::BLOCK).map(|n| n * self.stride);
        xs.clear();
        xs.extend(
            patterns
                .take_while(|&pattern| pattern < ALL)
                .map(|pattern| f32::from_bits(pattern as u32)),
        );
    }
}

/// The first and last pattern of each class, without their sign: zero, subnormal, normal, infinite,
/// signalling NaN, quiet NaN.
const CLASS_ENDS: [u32; 10] = [
    0x0000_0000,
    0x0000_0001,
    0x007f_ffff,
    0x0080_0000,
    0x7f7f_ffff,
    0x7f80_0000,
    0x7f80_0001,
    0x7fbf_ffff,
    0x7fc0_0000,
    0x7fff_ffff,
];

/// Wherever one of the steps turns from one case to another, with what stands beside it. In
/// ascending order of patterns, each once.
pub fn boundaries() -> Vec<f32> {
    let mut set = chosen();
    for exponent in 0..=255 {
        for mantissa in [0, 1, 2, 3] {
            set.add(exponent << 23 | mantissa);
        }
        for mantissa in 0x40_0000 - 2..=0x40_0000 + 2 {
            set.add(exponent << 23 | mantissa);
        }
        for mantissa in [0x7f_fffd, 0x7f_fffe, 0x7f_ffff] {
            set.add(exponent << 23 | mantissa);
        }
    }
    // Whole numbers and halves, past 1023, 1023.5 and 1024, where cut and nearest end.
    for halves in 0..=2 * 1030 {
        set.add_near(halves as f32 / 2.0, 3);
    }
    // From 2^22 on an f32 has no finer part than halves, from 2^23 on none at all, and from 2^24 on
    // not every whole number.
    for power in [22, 23, 24] {
        set.add_near((1 << power) as f32, 3);
    }
    for k in 0..=4096 {
        // A channel divided by 255, and the squares, whose roots are exact.
        set.add_near(k as f32 / 255.0, 3);
        set.add_near((k * k) as f32, 3);
    }
    set.sorted()
}

/// 150 of the boundaries, few enough to try every three of them together.
pub fn few() -> Vec<f32> {
    chosen().sorted()
}

fn chosen() -> Set {
    let mut set = Set::default();
    for pattern in CLASS_ENDS {
        set.add(pattern);
    }
    for value in [
        0.01, 0.25, 0.5, 0.95, 1.0, 1.5, 2.0, 2.5, 3.0, 4.0, 64.0, 127.5, 255.0, 256.0, 1023.0,
        1023.5, 1024.0, 4194304.0, 8388608.0, 16777216.0,
    ] {
        set.add_near(value, 1);
    }
    // Values of no particular place.
    for value in [0.1, 0.7, 100.3, 1e10, 1e-10] {
        set.add_near(value, 0);
    }
    set
}

/// Patterns with both signs.
#[derive(Default)]
struct Set {
    patterns: Vec<u32>,
}

impl Set {
    fn add(&mut self, pattern: u32) {
        self.patterns.push(pattern);
        self.patterns.push(pattern ^ 1 << 31);
    }

    /// A value that is not negative, and up to `beside` patterns on each side of it.
    fn add_near(&mut self, value: f32, beside: u32) {
        let pattern = value.to_bits();
        for near in pattern.saturating_sub(beside)..=pattern + beside {
            self.add(near);
        }
    }

    fn sorted(mut self) -> Vec<f32> {
        self.patterns.sort();
        self.patterns.dedup();
        self.patterns.into_iter().map(f32::from_bits).collect()
    }
}
