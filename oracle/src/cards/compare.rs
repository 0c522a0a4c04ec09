//! Opening and writing, compared with the papers on many cards.

use super::cases::Case;
use super::paper::{Held, Opened, Size, GLOW, NOTHING, PASSES};
use super::{cases, damage, paper};
use crate::met::Met;
use crate::probe;
use crate::random::Random;
use crate::steps::Mode;
use crate::tally::{CardTally, Total};

/// What stands in the buffer before a card is written.
const MARK: u8 = 0xa5;

/// The longest card has 83 bytes.
const ROOM: usize = 96;

/// What a place of a station is made to remember, where it is something: sizes at the limits, and such as none may remember.
const HELD: [Size; 12] = [
    (1, 1),
    (1, 1024),
    (1024, 1),
    (1024, 1024),
    (1025, 1),
    (1, 1025),
    (0, 1),
    (1, 0),
    (0, 1025),
    (65535, 1),
    (1, 65535),
    (65535, 65535),
];

pub fn run(mode: Mode, total: &mut Total) {
    println!("Cards, with a reading of documents 01 and 02");
    let count = match mode {
        Mode::Quick => 400_000,
        Mode::Full => 20_000_000,
    };
    let random = &mut Random::named("cards");
    let (mut tally, mut met) = (CardTally::new(), Met::new());
    for _ in 0..count {
        let card = damage::card(random);
        one(&card, random, &mut tally, &mut met);
    }
    // Every length of one card of all twelve passes, cut at each byte.
    let whole = full();
    for length in 0..=whole.len() {
        one(&whole[..length], random, &mut tally, &mut met);
    }
    total.add_cards(&tally);
    total.unmet += met.report();
}

/// A card of all twelve passes, of 83 bytes.
fn full() -> Vec<u8> {
    let mut bits = Vec::new();
    paper::put(&mut bits, 1, 4);
    paper::put(&mut bits, 12, 4);
    for kind in [1, 2, 3, 4, 4, 4, 5, 6, 7, 8, 9, 10] {
        paper::put(&mut bits, kind, 4);
        paper::put(&mut bits, 1, 1);
        for field in paper::fields(kind).unwrap_or_default() {
            match field {
                paper::Field::Preset => paper::put(&mut bits, 6, 3),
                paper::Field::Byte | paper::Field::Count(_) => paper::put(&mut bits, 8, 8),
                _ => paper::put(&mut bits, 1.0f32.to_bits(), 32),
            }
        }
    }
    bits.resize(bits.len().next_multiple_of(8), false);
    let byte = |eight: &[bool]| eight.iter().fold(0, |b, &bit| b << 1 | u8::from(bit));
    bits.chunks(8).map(byte).collect()
}

/// A place of a card's chain: mostly that of a glow; else any, also such as a chain does not have.
fn place(card: &[u8], random: &mut Random) -> usize {
    let records = paper::open(card).map_or(Vec::new(), |opened| opened.records);
    let places = records.iter().enumerate();
    let glows = places.filter(|(_, record)| record.kind == GLOW);
    let glows: Vec<usize> = glows.map(|(place, _)| place).collect();
    if glows.is_empty() || random.one_in(4) {
        random.below(PASSES + 2)
    } else {
        random.choose(&glows)
    }
}

/// What a station of this chain remembers, where the pass at a place is made to remember this. What stands past the chain is read by no
/// call.
fn remembered(opened: &Opened, (at, size): (usize, Size)) -> Held {
    let mut held = [NOTHING; PASSES];
    if at < opened.records.len() {
        held[at] = size;
    }
    held
}

/// Opens and writes one card on both sides. Some buffers are too short, and some stations are
/// handed back with a history that they cannot have.
fn one(card: &[u8], random: &mut Random, tally: &mut CardTally, met: &mut Met<Case>) {
    let at = place(card, random);
    let held = if random.one_in(2) {
        random.choose(&HELD)
    } else {
        NOTHING
    };
    let room = if random.one_in(4) {
        random.below(ROOM)
    } else {
        ROOM
    };
    let mut asked = vec![MARK; room];
    let mut stopped = 8 * card.len();
    let number = match paper::read(card) {
        Err(refusal) => {
            stopped = refusal.at;
            Err(refusal.number)
        }
        Ok(opened) if !opened.may_hold(&remembered(&opened, (at, held))) => Err(13),
        Ok(opened) => {
            let written = opened.written();
            match asked.get_mut(..written.len()) {
                None => Err(14),
                Some(front) => {
                    front.copy_from_slice(&written);
                    Ok(written.len())
                }
            }
        }
    };
    cases::note(card, number, stopped, met);
    if held != NOTHING {
        cases::note_held(card, at, number, met);
    }
    let mut here = vec![MARK; room];
    let answer = probe::card(card, at, held, &mut here);
    tally.check(card, (at, held), (answer, &here), (number, &asked));
}
