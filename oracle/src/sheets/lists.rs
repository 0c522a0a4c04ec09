//! Sheets: drawn for a station, with refused events between accepted ones, and what may become of them; and such as are written out.

use super::both::Show;
use super::paper::{self, Event, LONGEST, MOST};
use crate::cards::paper::Size;
use crate::passes::chain::PERSISTENCE;
use crate::passes::curves::Curve;
use crate::passes::frames::Picture;
use crate::random::Random;
use crate::runs::calls::Sizes;
use crate::runs::station::{float_room, Lengths, Station};

/// A sheet for a station whose own history buffer has `room` words; one in four is damaged.
pub fn show(station: &Station, sizes: &mut Sizes, room: usize, random: &mut Random) -> Show {
    let events = events(station, sizes, random);
    let mut sheet = paper::write(&events);
    if random.one_in(4) {
        sheet = damaged(sheet, &events, random);
    }
    Show {
        sheet,
        lent: lent(station, &events, room, random),
        curve: curve(station, random),
    }
}

/// The most bits of the events of a short sheet.
const SHORT: usize = 320;

/// A few small events, for a sheet that is damaged in every place.
pub fn short(station: &Station, random: &mut Random) -> Vec<Event> {
    let sizes = &mut Sizes::new(2, &[], random);
    let (mut events, mut left) = (Vec::new(), SHORT);
    for _ in 0..random.within(1, 8) {
        let next = event(station, sizes, random);
        if let Some(rest) = left.checked_sub(next.bits()) {
            left = rest;
            events.push(next);
        }
    }
    events
}

fn events(station: &Station, sizes: &mut Sizes, random: &mut Random) -> Vec<Event> {
    let count = match random.below(32) {
        0 => 0,
        1..5 => 1,
        5..30 => random.within(2, 8),
        _ => random.within(9, 40),
    };
    (0..count).map(|_| event(station, sizes, random)).collect()
}

fn event(station: &Station, sizes: &mut Sizes, random: &mut Random) -> Event {
    match random.below(40) {
        0..18 => any_frame(next_size(sizes, random), random),
        18..21 => Event::Reset,
        21..27 => {
            let (kind, on) = switch(station, random);
            Event::Switch(kind, on)
        }
        27..30 => Event::Step,
        30..35 => {
            let (kind, on) = switch(station, random);
            Event::Ask(kind, on)
        }
        _ => Event::Commit,
    }
}

/// Mostly of the last size, so that a history is met; at times of one that no station takes.
fn next_size(sizes: &mut Sizes, random: &mut Random) -> Size {
    if !random.one_in(24) {
        return sizes.next(random);
    }
    let any = random.within(0, LONGEST);
    random.choose(&[
        (0, 0),
        (0, any),
        (any, 0),
        (1025, 1),
        (1, 1025),
        (LONGEST, 1),
        (1, LONGEST),
    ])
}

fn any_frame(size: Size, random: &mut Random) -> Event {
    frame(size, Picture::random(random))
}

/// A frame with the words of a picture: a sheet has no place for their top bytes.
pub fn frame(size: Size, picture: Picture) -> Event {
    let (width, height) = size;
    if width * height == 0 {
        return Event::Frame(size, Vec::new());
    }
    let mut words = picture.draw(width, height);
    for word in &mut words {
        *word &= 0xff_ffff;
    }
    Event::Frame(size, words)
}

/// Mostly of a kind in the chain. A glow is switched on more often than off, so that a history is met.
fn switch(station: &Station, random: &mut Random) -> (u8, bool) {
    let kinds = station.kinds();
    let any = random.below(16) as u8;
    let kind = match random.below(8) {
        0..2 => any,
        2 => PERSISTENCE as u8,
        _ if kinds.is_empty() => any,
        _ => random.choose(&kinds),
    };
    let off = random.one_in(if u32::from(kind) == PERSISTENCE { 4 } else { 2 });
    (kind, !off)
}

/// How many words at most are lent past what is needed.
const PAST: usize = 16;

/// What a frame of this size takes of a station.
fn needed(station: &Station, (width, height): Size) -> Lengths {
    Lengths {
        framebuffer: width * height,
        history: station.frames() * width * height,
        floats: float_room(width, height),
        ints: width * height,
    }
}

/// What each frame needs whose size is taken.
fn all_needed(station: &Station, events: &[Event]) -> Vec<Lengths> {
    let fine = |side: &usize| (1..=1024).contains(side);
    let sizes = events.iter().filter_map(|event| match event {
        Event::Frame((width, height), _) if fine(width) && fine(height) => Some((*width, *height)),
        _ => None,
    });
    sizes.map(|size| needed(station, size)).collect()
}

/// The same for all frames.
pub fn needed_by(station: &Station, events: &[Event]) -> Lengths {
    let all = all_needed(station, events);
    let most = |part: fn(&Lengths) -> usize| all.iter().map(part).max().unwrap_or_default();
    Lengths {
        framebuffer: most(|lent| lent.framebuffer),
        history: most(|lent| lent.history),
        floats: most(|lent| lent.floats),
        ints: most(|lent| lent.ints),
    }
}

/// Mostly enough for every frame of these events, by turns not a word more; else enough for one of them, or one buffer too short.
fn lent(station: &Station, events: &[Event], room: usize, random: &mut Random) -> Lengths {
    let all = all_needed(station, events);
    let needed = needed_by(station, events);
    let mut lent = needed;
    if !all.is_empty() && random.one_in(6) {
        lent = random.choose(&all);
    }
    if !random.one_in(3) {
        let mut more = || random.choose(&[0, 1, PAST, 3 * PAST]);
        lent.framebuffer += more();
        lent.history += more();
        lent.floats += more();
        lent.ints += more();
    }
    if random.one_in(3) {
        shorten(&mut lent, needed, random);
    }
    if random.one_in(8) {
        lent.history = room;
    }
    lent.history = lent.history.min(room);
    lent
}

/// One buffer has a word less than is needed, or any number.
fn shorten(lent: &mut Lengths, needed: Lengths, random: &mut Random) {
    let any = random.one_in(4);
    let mut short = |needed: usize| {
        if any {
            random.below(needed + 1)
        } else {
            needed.saturating_sub(1)
        }
    };
    let less = [
        short(needed.framebuffer),
        short(needed.history),
        short(needed.floats),
        short(needed.ints),
    ];
    match random.below(4) {
        0 => lent.framebuffer = less[0],
        1 => lent.history = less[1],
        2 => lent.floats = less[2],
        _ => lent.ints = less[3],
    }
}

/// Mostly one that the station takes.
fn curve(station: &Station, random: &mut Random) -> Curve {
    match station.curved() {
        Some(_) if random.one_in(6) => Curve::bad(random),
        Some(gamma) => Curve::good(gamma, random),
        None => Curve::any(random),
    }
}

/// The sheet of these events cut, lengthened or changed in some place: what comes out may be a good one.
fn damaged(mut sheet: Vec<u8>, events: &[Event], random: &mut Random) -> Vec<u8> {
    let places = paper::places(events);
    let end = places.last().copied().unwrap_or_default();
    let last = sheet.len();
    match random.below(8) {
        0 => sheet.truncate(random.below(last)),
        1 => sheet.truncate(last - 1),
        2 => flip(&mut sheet, random.below(8 * last)),
        3 if end < 8 * last => flip(&mut sheet, random.within(end, 8 * last - 1)),
        4 => {
            let (count, any) = (events.len() as u16, random.word() as u16);
            let others = [count.wrapping_sub(1), count.wrapping_add(1), u16::MAX, any];
            sheet[..2].copy_from_slice(&random.choose(&others).to_be_bytes());
        }
        5 if !events.is_empty() => {
            // 6 or 7 for the number of an event.
            let place = places[random.below(events.len())];
            set(&mut sheet, place, true);
            set(&mut sheet, place + 1, true);
            set(&mut sheet, place + 2, random.one_in(2));
        }
        6 => sheet = (0..random.below(24)).map(|_| random.word() as u8).collect(),
        _ => sheet.extend((0..random.within(1, 3)).map(|_| random.choose(&[0, 0, 1, 0x80, 0xff]))),
    }
    sheet
}

pub fn flip(sheet: &mut [u8], place: usize) {
    sheet[place / 8] ^= 0x80 >> (place % 8);
}

fn set(sheet: &mut [u8], place: usize, bit: bool) {
    sheet[place / 8] &= !(0x80 >> (place % 8));
    sheet[place / 8] |= u8::from(bit) << (7 - place % 8);
}

/// The sheet of these events, with exactly what its frames take.
pub fn exact(station: &Station, events: &[Event], room: usize, random: &mut Random) -> Show {
    let mut lent = needed_by(station, events);
    lent.history = lent.history.min(room);
    let curve = match station.curved() {
        Some(gamma) => Curve::good(gamma, random),
        None => Curve::any(random),
    };
    Show {
        sheet: paper::write(events),
        lent,
        curve,
    }
}

/// Sheets at the limits, written out, for a station with a history for frames of 2,048 words.
pub fn written_out(random: &mut Random) -> Vec<Vec<u8>> {
    let one = |random: &mut Random| any_frame((1, 1), random);
    let mut all = vec![worked()];
    // No event, and one of each number.
    all.push(paper::write(&[]));
    let few = [
        Event::Reset,
        Event::Switch(10, false),
        Event::Step,
        Event::Ask(4, false),
        Event::Commit,
        one(random),
    ];
    all.extend(few.iter().map(|event| paper::write(&[event.clone()])));
    // Counts with nothing behind them, and with zeros, which are the beginning of a frame; and less than a count.
    for count in [1, 2, 255, 256, 32767, 32768, 65535u16] {
        let [high, low] = count.to_be_bytes();
        all.extend([
            vec![high, low],
            vec![high, low, 0],
            vec![high, low, 0, 0, 0],
        ]);
    }
    all.extend([vec![], vec![0], vec![0xff]]);
    // Each size between two frames that are taken, and behind a step, without its last byte.
    for size in SIZES {
        let middle = any_frame(size, random);
        let sheet = paper::write(&[one(random), middle, one(random)]);
        let behind = paper::write(&[Event::Step, any_frame(size, random)]);
        all.push(behind[..behind.len() - 1].to_vec());
        all.push(sheet);
    }
    all
}

/// The sheet that docs/REFERENCE.md works out.
fn worked() -> Vec<u8> {
    let events = [
        Event::Frame((1, 1), vec![0xff_ffff]),
        Event::Reset,
        Event::Switch(4, false),
        Event::Step,
        Event::Ask(4, true),
        Event::Commit,
    ];
    let bytes = [0, 6, 0, 4, 0, 0xff, 0xff, 0xff, 0x94, 0x87, 0x13, 0x40];
    let sheet = paper::write(&events);
    assert!(sheet == bytes, "the worked sheet is another one");
    sheet
}

/// Sizes at the limits, and such as no station takes.
const SIZES: [Size; 15] = [
    (0, 0),
    (0, 1),
    (1, 0),
    (0, 1024),
    (0, LONGEST),
    (LONGEST, 0),
    (1024, 1),
    (1, 1024),
    (1025, 1),
    (1, 1025),
    (1024, 2),
    (1536, 2),
    (LONGEST, 1),
    (1, LONGEST),
    (3, 2),
];

/// As many events as there can be: commits, and others by turns; and the same with the last byte missing.
pub fn most() -> Vec<Vec<u8>> {
    let others = [
        Event::Reset,
        Event::Switch(4, false),
        Event::Step,
        Event::Ask(4, true),
        Event::Commit,
    ];
    let sheets = [&others[4..], &others].map(|few| {
        let events: Vec<Event> = few.iter().cycle().take(MOST).cloned().collect();
        paper::write(&events)
    });
    let cut = |sheet: &Vec<u8>| sheet[..sheet.len() - 1].to_vec();
    [sheets.each_ref().map(cut), sheets.clone()].concat()
}

/// The largest frame that a station takes, twice, and the largest that a sheet can name.
pub fn largest(random: &mut Random) -> Vec<Vec<u8>> {
    let mut square = |side: usize| any_frame((side, side), random);
    let twice = [square(1024), Event::Commit, square(1024)];
    let above = [square(1), square(LONGEST), Event::Step];
    vec![paper::write(&twice), paper::write(&above)]
}
