//! Cards to be opened: good ones with settings of every kind, and what may become of them.

use super::paper::{fields, put, Field, GLOW, GLOWS};
use crate::random::Random;

/// Floats where the paper's rules change, or a reader may slip.
const FLOATS: [u32; 26] = [
    0x0000_0000, // 0
    0x8000_0000, // -0
    0x0000_0001, // the smallest above 0
    0x8000_0001, // the largest below 0
    0x007f_ffff, // the largest subnormal
    0x3c23_d709,
    0x3c23_d70a, // 0.01
    0x3c23_d70b,
    0x3f00_0000, // 0.5
    0x3f00_0001,
    0x3f73_3333, // 0.95
    0x3f73_3334,
    0x3f7f_ffff,
    0x3f80_0000, // 1
    0x3f80_0001,
    0xbf80_0000, // -1
    0xbf80_0001,
    0x4000_0000, // 2
    0x407f_ffff,
    0x4080_0000, // 4
    0x4080_0001,
    0x7f7f_ffff, // the largest
    0x7f80_0000, // infinity
    0xff80_0000,
    0x7f80_0001, // a NaN
    0xffc0_0000,
];

/// How many of them are finite.
const FINITE: usize = 22;

/// Bytes where a count is limited or refused.
const BYTES: [u32; 9] = [0, 1, 2, 7, 8, 9, 64, 65, 255];

/// A card of records of random kinds, in most cases no kind too often and ascending, then damaged or not.
pub fn card(random: &mut Random) -> Vec<u8> {
    match random.below(64) {
        0..4 => return (0..random.below(96)).map(|_| random.word() as u8).collect(),
        4 => return cut_after_a_kind(random),
        5 => return overfull(random),
        _ => {}
    }
    let mut kinds = match random.below(16) {
        0 => any_order(random),
        1 => swapped(random),
        2 => four_glows(random),
        _ => chain(random),
    };
    if !kinds.is_empty() && random.one_in(16) {
        // Any kind number: unknown, perhaps a second of its kind, perhaps out of order.
        let place = random.below(kinds.len());
        kinds[place] = random.below(16) as u32;
    }
    // Mostly what a card may hold: else few cards of twelve records would be taken.
    let bits = written(&kinds, random, |random| random.one_in(24));
    damaged(bits, random)
}

/// A card that is taken, of records of random kinds.
pub fn good(random: &mut Random) -> Vec<u8> {
    let kinds = chain(random);
    let bits = written(&kinds, random, |_| false);
    bytes(&bits)
}

/// Kinds in ascending order, each at most once but up to three glows: what a card may name.
pub fn chain(random: &mut Random) -> Vec<u32> {
    let mut kinds = any_order(random);
    kinds.sort();
    kinds
}

/// The same with two neighbours exchanged, where there are two: one kind alone is out of order, if they are not two glows.
pub fn swapped(random: &mut Random) -> Vec<u32> {
    let mut kinds = chain(random);
    if kinds.len() > 1 {
        let place = random.below(kinds.len() - 1);
        kinds.swap(place, place + 1);
    }
    kinds
}

/// Kinds in any order, each at most once but up to three glows.
pub fn any_order(random: &mut Random) -> Vec<u32> {
    let mut kinds: Vec<u32> = (1..=10).collect();
    kinds.extend(vec![GLOW; random.choose(&[0, 0, 1, 2])]);
    for place in (1..kinds.len()).rev() {
        kinds.swap(place, random.below(place + 1));
    }
    kinds.truncate(random.below(kinds.len() + 1));
    kinds
}

/// Kinds in ascending order with one glow too many, which may stand elsewhere. There may be one pass too many, too.
pub fn four_glows(random: &mut Random) -> Vec<u32> {
    let mut kinds = chain(random);
    kinds.retain(|&kind| kind != GLOW);
    kinds.extend([GLOW; GLOWS]);
    kinds.sort();
    let place = if random.one_in(2) {
        kinds.iter().position(|&kind| kind == GLOW)
    } else {
        None
    };
    let place = place.unwrap_or_else(|| random.below(kinds.len() + 1));
    kinds.insert(place, GLOW);
    kinds
}

/// A card that says it had more passes than a card may have.
fn overfull(random: &mut Random) -> Vec<u8> {
    let mut card = good(random);
    card[0] = 0x10 | random.within(13, 15) as u8;
    card
}

/// The bits of a card of these kinds, up to its padding. `odd` says which settings may be any.
fn written(kinds: &[u32], random: &mut Random, odd: fn(&mut Random) -> bool) -> Vec<bool> {
    let mut bits = Vec::new();
    put(&mut bits, 1, 4);
    put(&mut bits, kinds.len() as u32, 4);
    for &kind in kinds {
        put(&mut bits, kind, 4);
        put(&mut bits, random.below(2) as u32, 1);
        for field in fields(kind).unwrap_or_default() {
            let odd = odd(random);
            setting(*field, &mut bits, random, odd);
        }
    }
    bits
}

/// A card that ends with a kind, at the end of a byte, so that the on bit after it is torn off. The kind is good, or refused.
fn cut_after_a_kind(random: &mut Random) -> Vec<u8> {
    loop {
        let mut kinds = chain(random);
        let Some(last) = kinds.pop() else { continue };
        let mut bits = written(&kinds, random, |_| false);
        // The card says that there is a record more.
        bits.splice(4..8, nibble(kinds.len() as u32 + 1));
        let any = random.below(16) as u32;
        bits.extend(nibble(random.choose(&[last, any, any, any])));
        if bits.len() % 8 == 0 {
            return bytes(&bits);
        }
    }
}

fn nibble(value: u32) -> Vec<bool> {
    let mut bits = Vec::new();
    put(&mut bits, value, 4);
    bits
}

/// The bits in bytes, with zero bits to the last byte's end.
pub fn bytes(bits: &[bool]) -> Vec<u8> {
    let byte = |eight: &[bool]| {
        let bits = (0..8).map(|place| eight.get(place).copied().unwrap_or_default());
        bits.fold(0, |b, bit| b << 1 | u8::from(bit))
    };
    bits.chunks(8).map(byte).collect()
}

/// A setting that a card may hold, or any where it is odd.
fn setting(field: Field, bits: &mut Vec<bool>, random: &mut Random, odd: bool) {
    match field {
        Field::Byte => put(bits, random.word(), 8),
        Field::Preset => put(bits, random.below(if odd { 8 } else { 7 }) as u32, 3),
        Field::Count(_) if odd => put(bits, random.word(), 8),
        Field::Count(most) => {
            let value = random.choose(&BYTES).min(most);
            put(bits, value, 8);
        }
        Field::Limited(_) | Field::Within(..) | Field::Raised(..) if odd => {
            let patterns = [random.word(), random.choose(&FLOATS)];
            put(bits, random.choose(&patterns), 32);
        }
        Field::Limited(_) => {
            let wide = (random.unit() - 0.25) * 2.0;
            let edge = f32::from_bits(random.choose(&FLOATS[..FINITE]));
            put(bits, random.choose(&[wide, edge]).to_bits(), 32);
        }
        Field::Within(low, high) => {
            let inside = low + (high - low) * random.unit();
            put(bits, random.choose(&[inside, low, high]).to_bits(), 32);
        }
        Field::Raised(low, high) => {
            let value = (random.unit() - 0.25) * high;
            let edge = f32::from_bits(random.choose(&FLOATS[..FINITE])).min(high);
            // A gamma is mostly 1: program `station` refuses each frame at any other.
            let mostly = if low > 0.0 { 1.0 } else { value };
            let values = [mostly, mostly, mostly, mostly, mostly, value, edge, edge];
            put(bits, random.choose(&values).to_bits(), 32);
        }
    }
}

/// The card's bytes, as they are in most cases; else torn at any bit, with a bit changed, with a
/// padding bit set or with bytes left over.
pub fn damaged(mut bits: Vec<bool>, random: &mut Random) -> Vec<u8> {
    match random.below(8) {
        0 => bits.truncate(random.below(bits.len() + 1)),
        1 => {
            let place = random.below(bits.len());
            bits[place] = !bits[place];
        }
        _ => {}
    }
    let padding = bits.len().next_multiple_of(8) - bits.len();
    bits.resize(bits.len() + padding, false);
    if padding > 0 && random.one_in(16) {
        let place = bits.len() - 1 - random.below(padding);
        bits[place] = true;
    }
    let mut card = bytes(&bits);
    if random.one_in(16) {
        card.extend((0..random.within(1, 3)).map(|_| random.choose(&[0, 0xff])));
    }
    card
}
