//! Files for program `sheet`: sheets of events that are drawn for a station, such as are damaged, and such as are as long as a file may be or
//! longer; and the same of program `station`'s events.

use super::LONGEST;
use crate::cards::paper::Size;
use crate::passes::frames::Picture;
use crate::random::Random;
use crate::runs::calls::Sizes;
use crate::runs::station::Station;
use crate::sheets::lists;
use crate::sheets::paper::{self, Event, MOST};
use crate::station::inputs;

/// The longest side of the frames, but for those at the limits.
const SIDE: usize = 16;

/// Sizes of as many pixels: a frame is turned beside the one before it.
const ALIKE: [Size; 6] = [(12, 1), (1, 12), (6, 2), (2, 6), (4, 3), (3, 4)];

/// One that is taken, or a damaged one.
pub fn sheet(station: &Station, random: &mut Random) -> Vec<u8> {
    match random.below(200) {
        0 | 1 => one_of(lists::most(), random),
        2 | 3 => longest(random),
        4..16 => one_of(lists::written_out(random), random),
        16..32 => cut(paper::write(&lists::short(station, random)), random),
        _ => {
            let given: &[Size] = if random.one_in(4) { &ALIKE } else { &[] };
            let sizes = &mut Sizes::new(SIDE, given, random);
            // How much history is lent is the program's to say.
            lists::show(station, sizes, 0, random).sheet
        }
    }
}

fn one_of(mut sheets: Vec<Vec<u8>>, random: &mut Random) -> Vec<u8> {
    sheets.swap_remove(random.below(sheets.len()))
}

/// In any of its fields.
fn cut(mut sheet: Vec<u8>, random: &mut Random) -> Vec<u8> {
    sheet.truncate(random.below(sheet.len()));
    sheet
}

/// Sizes at the limits of what is lent: the largest ones, such as have too many pixels or a side that is too long, and some of which a deep
/// history has too many.
const LARGE: [Size; 12] = [
    (256, 240),
    (60, 1024),
    (1024, 60),
    (240, 256),
    (256, 241),
    (257, 240),
    (991, 62),
    (1025, 1),
    (1, 1025),
    (128, 161),
    (161, 128),
    (256, 80),
];

/// Few frames of such sizes, and of small ones.
pub fn large(random: &mut Random) -> Vec<u8> {
    let mut size = random.choose(&LARGE);
    let events: Vec<Event> = (0..random.within(1, 4))
        .map(|_| {
            size = match random.below(4) {
                0 => random.choose(&LARGE),
                1 => (random.within(1, SIDE), random.within(1, SIDE)),
                2 => (size.1, size.0),
                _ => size,
            };
            lists::frame(size, Picture::random(random))
        })
        .collect();
    paper::write(&events)
}

/// As many bytes as a file may have, or one more: a frame of more pixels than are lent, and resets to the end.
fn longest(random: &mut Random) -> Vec<u8> {
    let mut events = vec![lists::frame((1024, 682), Picture::random(random))];
    let end = paper::places(&events).pop().unwrap_or_default();
    let more = (8 * LONGEST - end) / Event::Reset.bits();
    events.extend(vec![Event::Reset; more]);
    one_more(paper::write(&events), random)
}

/// At times with another byte behind it.
fn one_more(mut bytes: Vec<u8>, random: &mut Random) -> Vec<u8> {
    assert!(bytes.len() == LONGEST, "{} bytes", bytes.len());
    if random.one_in(2) {
        bytes.push(0);
    }
    bytes
}

/// A card and events, as program `station` takes them or nearly so.
pub fn events(random: &mut Random) -> Vec<u8> {
    match random.below(64) {
        0 => many(random),
        1 | 2 => squares(random),
        3 => (0..random.below(3)).map(|_| random.word() as u8).collect(),
        4..7 => switches(random),
        _ => inputs::input(random.next()),
    }
}

/// The card of no pass, behind its length.
const HEAD: [u8; 2] = [1, 0x10];

/// About as many events as a sheet can have.
fn many(random: &mut Random) -> Vec<u8> {
    let count = MOST - 1 + random.below(4);
    let few = random.choose(&[&b"R"[..], b"L", b"RL", b"S\x04\x01"]);
    let events = [few].into_iter().cycle().take(count).flatten().copied();
    HEAD.into_iter().chain(events).collect()
}

/// About as many frames of 32 by 32 as a file can hold: on a sheet each takes a bit more.
fn squares(random: &mut Random) -> Vec<u8> {
    let mut bytes = HEAD.to_vec();
    let mut square = b"F\x20\x20".to_vec();
    square.extend((0..3 * 32 * 32).map(|_| random.word() as u8));
    let full = (LONGEST - HEAD.len()) / square.len();
    let count = random.choose(&[full - 1, full, full]);
    bytes.extend([&square[..]].into_iter().cycle().take(count).flatten());
    if count < full {
        return bytes;
    }
    one_more(bytes, random)
}

/// Switches of any kind, for which a sheet has room or has none, at times to a position that is none.
fn switches(random: &mut Random) -> Vec<u8> {
    let mut bytes = HEAD.to_vec();
    for _ in 0..random.within(1, 8) {
        let (kinds, positions) = random.choose(&[(16, 2), (16, 2), (16, 2), (16, 2), (32, 4)]);
        let (kind, position) = (random.below(kinds), random.below(positions));
        bytes.extend([b'S', kind as u8, position as u8]);
    }
    bytes
}
