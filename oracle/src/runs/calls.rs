//! The calls of a run, drawn for a station: most of them accepted, with refused ones between.

use std::fmt;

use super::cases::Which;
use super::noise::Noise;
use super::station::{float_room, Lengths, Station, DEEPEST};
use crate::cards::paper::Size;
use crate::passes::chain::PERSISTENCE;
use crate::passes::curves::Curve;
use crate::passes::frames::Picture;
use crate::random::Random;

#[derive(Clone)]
pub enum Call {
    Frame(Frame),
    Reset,
    /// A kind, and a position: 0 is off, any other byte on. At once, or asked for.
    Switch(u8, u8),
    Ask(u8, u8),
    Commit,
    Step,
    /// A new depth, and how many words of the history are lent.
    SetDepth(u8, usize),
    /// Into a buffer of this length.
    Write(usize),
    Depth,
}

#[derive(Clone)]
pub struct Frame {
    pub size: (usize, usize),
    pub picture: Picture,
    pub lent: Lengths,
    pub curve: Curve,
}

impl Frame {
    /// The framebuffer's words: the picture where it has room for one, and noise.
    pub fn words(&self, noise: u64) -> Vec<u32> {
        let (width, height) = self.size;
        let mut words = Noise::any(noise).words(self.lent.framebuffer);
        let count = width.checked_mul(height).filter(|&count| count > 0);
        if let Some(front) = count.and_then(|count| words.get_mut(..count)) {
            front.copy_from_slice(&self.picture.draw(width, height));
        }
        words
    }
}

impl Call {
    pub fn which(&self) -> Which {
        match self {
            Call::Frame(_) => Which::Frame,
            Call::Reset => Which::Reset,
            Call::Switch(..) => Which::Switch,
            Call::Ask(..) => Which::Ask,
            Call::Commit => Which::Commit,
            Call::Step => Which::Step,
            Call::SetDepth(..) => Which::SetDepth,
            Call::Write(_) => Which::Write,
            Call::Depth => Which::Depth,
        }
    }
}

impl fmt::Display for Call {
    fn fmt(&self, f: &mut fmt::Formatter) -> fmt::Result {
        match self {
            Call::Frame(Frame {
                size,
                lent,
                picture,
                curve,
            }) => {
                let (width, height) = size;
                write!(f, "frame {width}x{height} {picture}, {lent:?}, {curve:x?}")
            }
            Call::Reset => write!(f, "reset"),
            Call::Switch(kind, on) => write!(f, "switch {kind} {on}"),
            Call::Ask(kind, on) => write!(f, "ask {kind} {on}"),
            Call::Commit => write!(f, "commit"),
            Call::Step => write!(f, "step"),
            Call::SetDepth(depth, words) => write!(f, "new depth {depth} with {words} words"),
            Call::Write(room) => write!(f, "write {room}"),
            Call::Depth => write!(f, "depth"),
        }
    }
}

/// Which sizes the frames of a list have.
pub struct Sizes {
    /// The longest side of a frame.
    pub longest: usize,
    /// Sizes that are taken in place of random ones.
    pub given: &'static [(usize, usize)],
    pub last: (usize, usize),
}

impl Sizes {
    pub fn new(longest: usize, given: &'static [(usize, usize)], random: &mut Random) -> Self {
        let mut sizes = Sizes {
            longest,
            given,
            last: (1, 1),
        };
        sizes.last = sizes.any(random);
        sizes
    }

    /// Mostly that of the last frame, so that a history is met; often turned, or of the same count.
    pub fn next(&mut self, random: &mut Random) -> (usize, usize) {
        let (width, height) = self.last;
        self.last = match random.below(16) {
            0..9 => self.last,
            9..11 => (height, width),
            11 => self.reshaped(1),
            12 => self.reshaped(random.within(1, self.longest)),
            _ => self.any(random),
        };
        self.last
    }

    /// As many words in another shape: of this width or of this height, where there is one.
    fn reshaped(&self, side: usize) -> (usize, usize) {
        let (width, height) = self.last;
        let other = width * height / side;
        if side * other != width * height || other > self.longest {
            return self.last;
        }
        if width == side {
            (other, side)
        } else {
            (side, other)
        }
    }

    fn any(&self, random: &mut Random) -> (usize, usize) {
        if !self.given.is_empty() {
            return random.choose(self.given);
        }
        let side = |random: &mut Random| match random.below(16) {
            0 => 1,
            1 => self.longest,
            _ => random.within(1, self.longest),
        };
        (side(random), side(random))
    }
}

/// How many words at most are lent past a limit.
const PAST: usize = 16;

/// The next call on a station whose own history buffer has `room` words. None changes the depth.
pub fn next(station: &Station, sizes: &mut Sizes, room: usize, random: &mut Random) -> Call {
    match random.below(80) {
        0..50 => good(station, sizes, room, random),
        50..57 => faulty(station, sizes, room, random),
        57..59 => Call::Reset,
        59..66 => {
            let (kind, on) = switch(station, random);
            Call::Switch(kind, on)
        }
        66..70 => Call::Step,
        70..73 => write(station, random),
        73 => Call::Depth,
        74..78 => {
            let (kind, on) = switch(station, random);
            Call::Ask(kind, on)
        }
        _ => Call::Commit,
    }
}

/// A frame with enough of everything, as far as the own history buffer goes.
pub fn good(station: &Station, sizes: &mut Sizes, room: usize, random: &mut Random) -> Call {
    of_size(station, sizes.next(random), room, random)
}

/// The same of this size.
pub fn of_size(station: &Station, size: Size, room: usize, random: &mut Random) -> Call {
    Call::Frame(Frame {
        size,
        picture: Picture::random(random),
        lent: enough(station, size, room, random),
        curve: taken(station, random),
    })
}

/// By turns not a word more than is needed, and some more.
pub fn enough(
    station: &Station,
    (width, height): (usize, usize),
    room: usize,
    random: &mut Random,
) -> Lengths {
    let count = width * height;
    let exact = random.one_in(3);
    let mut more = |needed: usize| {
        if exact {
            return needed;
        }
        needed + random.choose(&[0, 1, PAST, 3 * PAST])
    };
    let framebuffer = more(count);
    let history = more(station.frames() * count);
    let floats = more(float_room(width, height));
    let ints = more(count);
    let all = !exact && random.one_in(2);
    Lengths {
        framebuffer,
        history: if all { room } else { history.min(room) },
        floats,
        ints,
    }
}

/// A curve that the station takes.
pub fn taken(station: &Station, random: &mut Random) -> Curve {
    match station.curved() {
        Some(gamma) => Curve::good(gamma, random),
        None => Curve::any(random),
    }
}

/// A frame with a fault or several: a bad size, a buffer that is too short, or a bad curve, which is none where the chain does not read
/// it.
fn faulty(station: &Station, sizes: &mut Sizes, room: usize, random: &mut Random) -> Call {
    let mut size = sizes.last;
    let count = size.0 * size.1;
    let mut lent = enough(station, size, room, random);
    let floats = float_room(size.0, size.1);
    // One fault in most cases; else any, to see which is told first.
    let one = random.below(6);
    let several = random.one_in(4);
    let mut has = |fault: usize| fault == one || several && random.one_in(2);
    let faults = [0, 1, 2, 3, 4, 5].map(&mut has);
    if faults[0] {
        size = bad_size(size, random);
    }
    if faults[1] {
        lent.framebuffer = short(count, random);
    }
    if faults[2] {
        lent.history = short_history(station, count, random).min(room);
    }
    if faults[3] {
        lent.floats = short(floats, random);
    }
    if faults[4] {
        lent.ints = short(count, random);
    }
    let curve = if faults[5] {
        Curve::bad(random)
    } else {
        taken(station, random)
    };
    Call::Frame(Frame {
        size,
        picture: Picture::random(random),
        lent,
        curve,
    })
}

/// Mostly a word less than this.
fn short(needed: usize, random: &mut Random) -> usize {
    if random.one_in(4) {
        random.below(needed + 1).min(needed.saturating_sub(1))
    } else {
        needed.saturating_sub(1)
    }
}

/// The same of the histories of all glows: of several also what would be enough for the deepest, or for those that are on.
fn short_history(station: &Station, count: usize, random: &mut Random) -> usize {
    let glows = station.glows();
    let depths = glows.iter().map(|&place| station.depth_at(place));
    let deepest = depths.max().unwrap_or_default();
    let lit = station.frames_of(&station.lit());
    let less = short(station.frames() * count, random);
    let enough = random.choose(&[deepest, lit]) * count;
    if glows.len() > 1 && random.one_in(4) {
        enough
    } else {
        less
    }
}

/// A side of 0, one above the limit, or so long that a product of two passes all numbers.
fn bad_size((width, height): (usize, usize), random: &mut Random) -> (usize, usize) {
    let bad = random.choose(&[
        0,
        0,
        1025,
        1025,
        2048,
        1 << 16,
        1 << 32,
        1 << 63,
        usize::MAX,
    ]);
    random.choose(&[(bad, height), (width, bad), (bad, bad)])
}

/// Mostly of a kind in the chain. A glow is switched on more often than off, so that a history is met.
pub fn switch(station: &Station, random: &mut Random) -> (u8, u8) {
    let any = random.word() as u8;
    let kinds = station.kinds();
    let known = random.within(1, 10) as u8;
    let kind = match random.below(16) {
        0 => random.choose(&[0, 11, 15, 16, 255, any]),
        1..4 => known,
        4..7 => PERSISTENCE as u8,
        _ if kinds.is_empty() => known,
        _ => random.choose(&kinds),
    };
    let off = random.one_in(if u32::from(kind) == PERSISTENCE { 4 } else { 2 });
    let on = random.choose(&[1, 1, 2, 128, 255]);
    (kind, if off { 0 } else { on })
}

/// A new depth of the first glow: mostly one that a card may name, 0 among them, often the present one, at times a number above. It is
/// lent about as many words as it asks for, or as the present depth would.
pub fn set_depth(station: &Station, room: usize, random: &mut Random) -> Call {
    let present = station.depth().unwrap_or(1) as u8;
    let any = random.word() as u8;
    let depth = match random.below(16) {
        0..2 => random.choose(&[9, 9, 10, 255, any]),
        2..4 => present,
        _ => random.below(DEEPEST + 1) as u8,
    };
    let [needed, before] = station.words_of(depth);
    let some = random.below(room + 1);
    let lent = random.choose(&[
        needed,
        needed,
        needed + PAST,
        needed.saturating_sub(1),
        before,
        0,
        some,
        room,
        room,
    ]);
    Call::SetDepth(depth, lent.min(room))
}

/// Into a buffer with room for the card, in most cases, or one byte short of it.
fn write(station: &Station, random: &mut Random) -> Call {
    let length = station.opened.written().len();
    let any = random.below(96);
    Call::Write(random.choose(&[length, length - 1, length + 1, 83, any]))
}
