//! The sizes at which program `card` tells samples: 256 by 240, and the one behind `--size`. They are counted as document 02's P9
//! says what a sample is, place by place and offset by offset, and not by its formula.

use crate::cards::paper::{Record, Size, Value};
use crate::random::Random;

pub const OPTION: &str = "--size";

/// Told of every card that is taken.
pub const ALWAYS: Size = (256, 240);

/// What is said of words that are no size.
pub const NONE: &str = "no size: it is WIDTHxHEIGHT, each from 1 to 1024";

/// Why they are none.
#[derive(Clone, Copy, PartialEq, Debug)]
pub enum Fault {
    /// A byte that is neither a digit nor an `x`.
    Byte,
    /// No `x`, or more than one.
    NoCross,
    Crosses,
    NoDigit,
    Zero,
    /// A side above 1024, and one that has no room in 64 bits.
    Above,
    Huge,
}

pub fn read(words: &str) -> Result<Size, Fault> {
    if words.bytes().any(|b| b != b'x' && !b.is_ascii_digit()) {
        return Err(Fault::Byte);
    }
    match words.split('x').collect::<Vec<_>>()[..] {
        [_] => Err(Fault::NoCross),
        [width, height] => Ok((side(width)?, side(height)?)),
        _ => Err(Fault::Crosses),
    }
}

fn side(digits: &str) -> Result<usize, Fault> {
    if digits.is_empty() {
        return Err(Fault::NoDigit);
    }
    match digits.parse::<u64>() {
        Ok(0) => Err(Fault::Zero),
        Ok(side @ 1..=1024) => Ok(side as usize),
        Ok(_) => Err(Fault::Above),
        Err(_) => Err(Fault::Huge),
    }
}

/// The samples that the passes that are on take of a frame of this size.
pub fn samples(records: &[Record], size: Size) -> usize {
    lines(records, size)
        .map(|(lines, length, radius)| lines * inside(length, radius))
        .sum()
}

/// The blurs that are on: how many lines, of which length, at which radius.
pub fn lines(records: &[Record], size: Size) -> impl Iterator<Item = (usize, usize, usize)> + '_ {
    let (width, height) = size;
    let blurs = records.iter().filter(|record| record.on).map(radius);
    blurs.flatten().flat_map(move |(kind, radius)| {
        // NTSC blurs the rows alone.
        let columns = (kind == 2).then_some((width, height, radius));
        [(height, width, radius)].into_iter().chain(columns)
    })
}

/// The kind and the radius of a record that blurs: its last setting.
fn radius(record: &Record) -> Option<(u32, usize)> {
    match (record.kind, &record.settings[..]) {
        (kind @ 1..=2, &[.., Value::Whole(radius, _)]) => Some((kind, radius as usize)),
        _ => None,
    }
}

/// The offsets from -radius to radius that are inside of a line, at all of its places.
fn inside(length: usize, radius: usize) -> usize {
    let (length, radius) = (length as i64, radius as i64);
    let mut count = 0;
    for place in 0..length {
        for offset in -radius..=radius {
            if (0..length).contains(&(place + offset)) {
                count += 1;
            }
        }
    }
    count
}

/// What stands behind the option, where it is given: sides about the radii of a card's blurs, the smallest and the largest; or
/// words that are no size.
pub fn words(records: &[Record], random: &mut Random) -> Option<String> {
    match random.below(16) {
        0..8 => None,
        8..13 => Some(good(records, random)),
        13 | 14 => Some(random.choose(&BAD).to_string()),
        _ => Some(torn(good(records, random), random)),
    }
}

fn good(records: &[Record], random: &mut Random) -> String {
    let radii: Vec<usize> = records
        .iter()
        .filter_map(radius)
        .map(|(_, radius)| radius)
        .collect();
    let side = |random: &mut Random| {
        let any = random.within(1, 1024);
        let near = match radii[..] {
            [] => any,
            _ => random.choose(&radii),
        };
        let side = random.choose(&[1, 2, 1023, 1024, any, near - 1, near, near, near + 1]);
        side.clamp(1, 1024)
    };
    let zeros = |random: &mut Random| "0".repeat(random.choose(&[0, 0, 0, 0, 1, 3, 40]));
    let (before, width) = (zeros(random), side(random));
    let (between, height) = (zeros(random), side(random));
    format!("{before}{width}x{between}{height}")
}

/// One byte more, less or another: a size still, at times.
fn torn(mut words: String, random: &mut Random) -> String {
    let place = random.below(words.len());
    let other = random.choose(&["x", "0", "9", "X", " ", "-", "+", ",", "a", ".", "\t", "\n"]);
    match random.below(3) {
        0 => words.insert_str(place, other),
        1 => words.replace_range(place..=place, ""),
        _ => words.replace_range(place..=place, other),
    }
    words
}

/// The numbers that are too large are 1 modulo 2 ^ 8, 2 ^ 16, 2 ^ 32 and 2 ^ 64.
const BAD: [&str; 38] = [
    "",
    "x",
    "xx",
    "640",
    "640x",
    "x480",
    "640x480x",
    "x640x480",
    "640xx480",
    "1x2x3",
    "0x480",
    "640x0",
    "000x1",
    "1x000",
    "1025x1",
    "1x1025",
    "01025x1",
    "1281x1",
    "65537x1",
    "1x65537",
    "4294967297x1",
    "1x18446744073709551617",
    "99999999999999999999x1",
    "+1x1",
    "1x+1",
    "-1x1",
    "1x-1",
    " 1x1",
    "1x1 ",
    "1 x1",
    "1x 1",
    "1X1",
    "1,1",
    "1.0x1",
    "1xA",
    "1×1",
    "--size",
    "1x1 1x1",
];
