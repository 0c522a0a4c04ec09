//! Calls: pictures of all sizes and lists of rectangles, good ones and such that are refused.

use crate::random::Random;

pub struct Call {
    pub picture: Vec<u32>,
    pub width: usize,
    pub height: usize,
    pub list: Vec<u16>,
    pub result: Vec<u64>,
}

/// The call of this seed. `large` asks for a picture of several pages.
pub fn call(seed: u64, large: bool) -> Call {
    let random = &mut Random::new(seed);
    let (width, height) = if large {
        large_size(random)
    } else {
        size(random)
    };
    let list = list(width, height, random);
    let words = match random.below(48) {
        0 => (width * height).saturating_sub(random.within(1, 3)),
        1..8 => width * height + random.within(1, 9),
        _ => width * height,
    };
    let totals = 3 * (list.len() / 4);
    let room = match random.below(32) {
        0 => totals.saturating_sub(random.within(1, 3)),
        1..8 => totals + random.within(1, 5),
        _ => totals,
    };
    Call {
        // A refused size needs no picture, and none of it is looked at.
        picture: picture(words.min(1 << 20), random),
        width,
        height,
        list,
        result: (0..room).map(|_| random.next()).collect(),
    }
}

fn list(width: usize, height: usize, random: &mut Random) -> Vec<u16> {
    let count = if random.one_in(16) {
        random.choose(&[0, 64, 64, 65, 66])
    } else {
        random.choose(&[1, 1, 2, 3, 5, 9, 20])
    };
    let mut list: Vec<u16> = Vec::new();
    for _ in 0..count {
        let area = if list.is_empty() || !random.one_in(6) {
            area(width, height, random)
        } else {
            // One that stands there already.
            let place = 4 * random.below(list.len() / 4);
            [
                list[place],
                list[place + 1],
                list[place + 2],
                list[place + 3],
            ]
        };
        list.extend(area);
    }
    if random.one_in(24) {
        list.extend((0..random.within(1, 3)).map(|_| random.choose(&[0, 1, 65535])));
    }
    if !list.is_empty() && random.one_in(16) {
        let place = random.below(list.len());
        list[place] = random.choose(&[1, 2, 1023, 1024, 1025, 32768, 65534, 65535]);
    }
    list
}

/// Of one colour, of three, or of any.
fn picture(words: usize, random: &mut Random) -> Vec<u32> {
    let palette = random.choose(&[1, 3, 64]);
    let colour = |random: &mut Random| {
        let any = random.word();
        random.choose(&[0, u32::MAX, 0xffffff, 0xff, 0xff00, 0xff0000, any])
    };
    let colours: Vec<u32> = (0..palette).map(|_| colour(random)).collect();
    let drawn = &mut Random::new(random.next());
    let word = |_| {
        if palette == 64 {
            drawn.word()
        } else {
            drawn.choose(&colours)
        }
    };
    (0..words).map(word).collect()
}

fn size(random: &mut Random) -> (usize, usize) {
    let side = |random: &mut Random| match random.below(64) {
        0 => random.choose(&[0, 1025, 65536, usize::MAX]),
        1..9 => 1,
        9..16 => random.within(30, 70),
        _ => random.within(2, 24),
    };
    match random.below(64) {
        0 => (random.within(1, 3), random.within(1022, 1024)),
        1 => (random.within(1022, 1024), random.within(1, 3)),
        _ => (side(random), side(random)),
    }
}

/// Of some 8 to 60 pages, of 1,024 words each; in the half of them a row is a page.
fn large_size(random: &mut Random) -> (usize, usize) {
    match random.below(2) {
        0 => (1024, random.within(8, 60)),
        _ => (random.within(300, 1000), random.within(20, 60)),
    }
}

/// A rectangle that lies in the picture, or leaves it by little.
fn area(width: usize, height: usize, random: &mut Random) -> [u16; 4] {
    let (left, wide) = span(width.min(1024), random);
    let (top, high) = span(height.min(1024), random);
    [left, top, wide, high].map(|number| number as u16)
}

fn span(side: usize, random: &mut Random) -> (usize, usize) {
    let from = random.within(0, side);
    let rest = side - from;
    match random.below(256) {
        0 => (from, rest + 1),
        1 => (side + 1, 0),
        2..32 => (from, 0),
        32..64 => (from, rest),
        64..80 => (0, side),
        80..112 => (from.min(side.saturating_sub(1)), 1.min(side)),
        _ => (from, random.within(0, rest)),
    }
}
