//! Sources: drawn for a station, most of them good, with enough lent; and such as are at the limits, written out.

use super::both::Show;
use super::model::{COLOURS, LONGEST};
use crate::cards::paper::Size;
use crate::passes::curves::{Curve, Odd, READ};
use crate::passes::frames::{Kind, Picture};
use crate::random::Random;
use crate::runs::calls::{self, Call, Sizes};
use crate::runs::sides::needed;
use crate::runs::station::{Lengths, Station};

/// How many numbers are lent past a picture, and how many colours are lent.
const PAST: [usize; 6] = [0, 0, 0, 1, 2, 100];
const LENT_COLOURS: [usize; 8] = [64, 64, 64, 65, 65, 66, 128, 256];

/// The sides of the frame that a source of this size is shown as.
pub fn enlarged((width, height): Size) -> Size {
    (3 * width, 3 * height)
}

/// A source for a station whose own history buffer has `room` words: one in three has something wrong, or too little is lent for it.
pub fn show(station: &Station, sizes: &mut Sizes, room: usize, random: &mut Random) -> Show {
    let size = sizes.next(random);
    let mut show = good(station, size, room, random);
    if random.one_in(3) {
        damage(&mut show, station, room, random);
    }
    show
}

/// One of this size with enough of everything, as far as the own history buffer goes.
pub fn good(station: &Station, size: Size, room: usize, random: &mut Random) -> Show {
    let count = size.0 * size.1 + random.choose(&PAST);
    let colours = random.choose(&LENT_COLOURS);
    Show {
        picture: numbers(count, random),
        size,
        colours: colours_of(colours, random),
        lent: calls::enough(station, enlarged(size), room, random),
        curve: calls::taken(station, random),
    }
}

/// Numbers of a picture: any, one after another, one alone, such as name their colour at once, and a few.
fn numbers(count: usize, random: &mut Random) -> Vec<u8> {
    let (kind, first) = (random.below(8), random.word() as u8);
    let few: [u8; 4] = [(); 4].map(|()| random.word() as u8);
    let number = |place: usize| match kind {
        0..3 => random.word() as u8,
        3..5 => first.wrapping_add(place as u8),
        5 => first,
        6 => random.below(COLOURS) as u8,
        _ => random.choose(&few),
    };
    (0..count).map(number).collect()
}

/// So many colours, with top bytes or without: mostly each by itself.
fn colours_of(count: usize, random: &mut Random) -> Vec<u32> {
    if count == 0 {
        return Vec::new();
    }
    let mut picture = Picture::random(random);
    if !random.one_in(3) {
        picture.kind = Kind::Random;
    }
    picture.draw(count, 1)
}

/// Makes something wrong with a good source, or with what is lent for it: one thing in most cases, else any, to see which is told first.
fn damage(show: &mut Show, station: &Station, room: usize, random: &mut Random) {
    let one = random.below(9);
    let several = random.one_in(4);
    let mut has = |fault: usize| fault == one || several && random.one_in(3);
    let faults = [0, 1, 2, 3, 4, 5, 6, 7, 8].map(&mut has);
    let [all, own] = [enlarged(show.size), show.size].map(|size| needed(station, size));
    if faults[0] {
        show.lent.framebuffer = short(all.framebuffer, own.framebuffer, random);
    }
    if faults[1] {
        show.lent.history = short(all.history, own.history, random).min(room);
    }
    if faults[2] {
        show.lent.floats = short(all.floats, own.floats, random);
    }
    if faults[3] {
        show.lent.ints = short(all.ints, own.ints, random);
    }
    if faults[4] {
        show.curve = Curve::bad(random);
    }
    if faults[5] {
        let count = show.size.0 * show.size.1;
        show.picture.truncate(short(count, 0, random));
    }
    if faults[6] {
        show.colours.truncate(short(COLOURS, 0, random));
    }
    if faults[7] || faults[8] {
        bad_size(show, random);
    }
}

/// Mostly one less than is needed; else what the source's own sides would take, or any number below.
fn short(needed: usize, own: usize, random: &mut Random) -> usize {
    let any = random.below(needed.max(1));
    let less = needed.saturating_sub(1);
    random.choose(&[less, less, own.min(less), any])
}

/// Sides that no source has, among them such as have a product that is no number here.
const SIDES: [usize; 10] = [
    0,
    0,
    342,
    342,
    343,
    1024,
    1 << 16,
    1 << 32,
    1 << 63,
    usize::MAX,
];

/// The most numbers that are lent to a source with a bad side: those of 342 by 342 at least.
const MOST: usize = 1 << 17;

/// Gives a source a bad side, or two. Where they are not too many, as many numbers are lent as the sides ask for.
fn bad_size(show: &mut Show, random: &mut Random) {
    let (width, height) = show.size;
    let bad = random.choose(&SIDES);
    show.size = random.choose(&[(bad, height), (width, bad), (bad, bad)]);
    let product = show.size.0.checked_mul(show.size.1);
    if let Some(count) = product.filter(|&count| count <= MOST) {
        show.picture.resize(count.max(show.picture.len()), 7);
    }
}

/// A call between two sources: mostly a frame of words, of the sides of the last enlarged frame, which is mixed with it.
pub fn between(station: &Station, last: Size, room: usize, random: &mut Random) -> Call {
    match random.below(12) {
        0..5 => calls::of_size(station, last, room, random),
        5 => Call::Reset,
        6 => calls::set_depth(station, room, random),
        7 => Call::Step,
        8..10 => {
            let (kind, on) = calls::switch(station, random);
            Call::Switch(kind, on)
        }
        10 => {
            let (kind, on) = calls::switch(station, random);
            Call::Ask(kind, on)
        }
        _ => Call::Commit,
    }
}

/// Sizes at the limits: good ones, and such as no source has.
const GOOD: [Size; 8] = [
    (1, 1),
    (2, 1),
    (1, 2),
    (2, 2),
    (LONGEST, 1),
    (1, LONGEST),
    (LONGEST, 2),
    (2, LONGEST),
];
const BAD: [Size; 14] = [
    (0, 0),
    (0, 1),
    (1, 0),
    (0, LONGEST),
    (LONGEST, 0),
    (LONGEST + 1, 1),
    (1, LONGEST + 1),
    (LONGEST + 1, LONGEST),
    (LONGEST, LONGEST + 1),
    (LONGEST + 1, LONGEST + 1),
    (1 << 32, 1 << 32),
    (1 << 63, 2),
    (usize::MAX, 1),
    (usize::MAX, usize::MAX),
];

/// The words of the largest of the good ones, enlarged.
pub const WRITTEN_OUT: usize = 9 * 2 * LONGEST;

/// Sources at the limits, for a station with a history for frames of so many words: of each size with exactly what it takes, and with one
/// thing less.
pub fn written_out(station: &Station, random: &mut Random) -> Vec<Show> {
    let mut all = Vec::new();
    for size in GOOD {
        all.extend(at_limits(&exact(station, size, random)));
    }
    for size in BAD {
        let mut show = exact(station, (1, 1), random);
        show.size = size;
        let product = size.0.checked_mul(size.1);
        let count = product.filter(|&count| count <= MOST).unwrap_or(9);
        show.picture = vec![3; count.max(1)];
        all.push(show);
    }
    all
}

/// A source of this size with exactly what it takes: any numbers, and any colours.
pub fn exact(station: &Station, size: Size, random: &mut Random) -> Show {
    let count = size.0 * size.1;
    Show {
        picture: (0..count).map(|_| random.word() as u8).collect(),
        size,
        colours: (0..COLOURS).map(|_| random.word()).collect(),
        lent: needed(station, enlarged(size)),
        curve: Curve {
            len: READ,
            odd: None,
            ..calls::taken(station, random)
        },
    }
}

/// It as it is, with more of what is read, and with one thing less.
pub fn at_limits(exact: &Show) -> Vec<Show> {
    let with = |change: fn(&mut Show)| {
        let mut show = exact.clone();
        change(&mut show);
        show
    };
    vec![
        exact.clone(),
        with(|show| show.picture.push(1)),
        with(|show| show.colours.push(0x1234_5678)),
        with(|show| show.lent.framebuffer += 1),
        with(|show| show.picture.truncate(show.picture.len() - 1)),
        with(|show| show.picture.clear()),
        with(|show| show.colours.truncate(COLOURS - 1)),
        with(|show| show.colours.clear()),
        with(|show| show.lent.framebuffer -= 1),
        with(|show| less(&mut show.lent.history)),
        with(|show| show.lent.floats -= 1),
        with(|show| show.lent.ints -= 1),
        with(|show| show.curve.len -= 1),
        with(|show| show.curve.odd = Some((READ - 1, Odd::Above))),
        // As a frame of the source's own sides would take.
        with(|show| show.lent = own(show)),
        // All at once: the first is told.
        with(|show| {
            show.colours.truncate(COLOURS - 1);
            show.lent = Lengths::default();
            show.curve.len = 0;
        }),
    ]
}

/// A chain without a glow asks for no history.
fn less(history: &mut usize) {
    *history = history.saturating_sub(1);
}

/// A ninth of what the enlarged frame takes, and of the scratch what its own sides do.
fn own(show: &Show) -> Lengths {
    let (width, height) = show.size;
    Lengths {
        framebuffer: show.lent.framebuffer / 9,
        history: show.lent.history / 9,
        floats: 3 * width * height + 3 * width,
        ints: show.lent.ints / 9,
    }
}
