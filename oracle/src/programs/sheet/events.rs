//! What program `sheet` records of a file that document 01's program `station` takes: a card behind its length, and events behind it. The
//! card is looked at, and not recorded.

use super::cases::OfSheet;
use super::LONGEST;
use crate::cards::paper as cards;
use crate::met::Met;
use crate::programs::card::refused;
use crate::sheets::cases::Which;
use crate::sheets::paper::{self, Event, MOST};

/// Why an event has no place on a sheet.
#[derive(Clone, Copy, PartialEq, Debug)]
pub enum Fault {
    Cut,
    Letter,
    Size,
    Kind,
    Position,
    Room,
    Count,
}

impl Fault {
    fn words(self) -> &'static str {
        match self {
            Fault::Cut => "is cut off",
            Fault::Letter => "is none: it begins with another letter than F, R, S or L",
            Fault::Size => "is a frame of a bad size: each side is from 1 to 32",
            Fault::Kind => "is a switch of a kind above 15, for which a sheet has no room",
            Fault::Position => "is a switch to a position other than 0 and 1",
            Fault::Room => "does not fit: the sheet would have more than 2097152 bytes",
            Fault::Count => "is one too many: a sheet has at most 65535",
        }
    }
}

/// The sheet of a file, or why there is none.
pub fn recorded(file: &[u8], met: &mut Met<OfSheet>) -> Result<Vec<u8>, String> {
    let cut = "cut off in its card".to_string();
    let Some((&length, rest)) = file.split_first() else {
        met.note(OfSheet::NoLength);
        return Err(cut);
    };
    let Some((card, rest)) = rest.split_at_checked(length.into()) else {
        met.note(OfSheet::CutCard);
        return Err(cut);
    };
    look_at(card, met)?;
    let events = all(rest).map_err(|(before, fault)| {
        met.note(OfSheet::NoPlace(fault));
        format!("event {} {}", before + 1, fault.words())
    })?;
    note(&events, met);
    Ok(paper::write(&events))
}

/// Why the card is refused, where it is: program `station` reads no event behind it then.
fn look_at(card: &[u8], met: &mut Met<OfSheet>) -> Result<(), String> {
    match cards::read(card) {
        Ok(_) => Ok(()),
        Err(refusal) => {
            met.note(OfSheet::CardIn);
            Err(format!("card {}", refused(refusal)))
        }
    }
}

/// The events, or how many stand before one that has a fault.
fn all(mut rest: &[u8]) -> Result<Vec<Event>, (usize, Fault)> {
    let mut events = Vec::new();
    let mut end = paper::Field::Count.bits();
    while !rest.is_empty() {
        let before = events.len();
        let (event, after) = next(rest, before).map_err(|fault| (before, fault))?;
        end += event.bits();
        if end > 8 * LONGEST {
            return Err((before, Fault::Room));
        }
        events.push(event);
        rest = after;
    }
    Ok(events)
}

/// The next event behind so many, and the bytes behind it.
fn next(bytes: &[u8], before: usize) -> Result<(Event, &[u8]), Fault> {
    if before == MOST {
        return Err(Fault::Count);
    }
    match bytes {
        [b'F', rest @ ..] => frame(rest),
        [b'R', rest @ ..] => Ok((Event::Reset, rest)),
        [b'L', rest @ ..] => Ok((Event::Step, rest)),
        [b'S', kind, position, rest @ ..] => Ok((switch(*kind, *position)?, rest)),
        [b'S', ..] => Err(Fault::Cut),
        _ => Err(Fault::Letter),
    }
}

fn frame(bytes: &[u8]) -> Result<(Event, &[u8]), Fault> {
    let [width, height, rest @ ..] = bytes else {
        return Err(Fault::Cut);
    };
    let fine = |side: &u8| (1..=32).contains(side);
    if !fine(width) || !fine(height) {
        return Err(Fault::Size);
    }
    let size = (usize::from(*width), usize::from(*height));
    let pixels = rest.split_at_checked(3 * size.0 * size.1);
    let (pixels, rest) = pixels.ok_or(Fault::Cut)?;
    let word = |rgb: &[u8]| u32::from_be_bytes([0, rgb[0], rgb[1], rgb[2]]);
    let words = pixels.chunks(3).map(word).collect();
    Ok((Event::Frame(size, words), rest))
}

fn switch(kind: u8, position: u8) -> Result<Event, Fault> {
    match (kind, position) {
        (16.., _) => Err(Fault::Kind),
        (_, 2..) => Err(Fault::Position),
        _ => Ok(Event::Switch(kind, position == 1)),
    }
}

fn note(events: &[Event], met: &mut Met<OfSheet>) {
    met.note_listed(OfSheet::Recorded(events.len()));
    for event in events {
        met.note(OfSheet::Put(Which::of(event)));
        if let Event::Switch(kind, _) = event {
            met.note(OfSheet::PutKind(*kind));
        }
    }
}
