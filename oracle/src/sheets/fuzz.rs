//! Sheets inside the fuzzer, for the calls of runs/fuzz.rs: any bytes, or events that its bytes name, on whatever station there is.

use super::both::{self, Show};
use super::cases::Case;
use super::lists;
use super::paper::{self, Event, LONGEST};
use crate::cards::paper::Size;
use crate::fuzz::Tape;
use crate::met::Met;
use crate::passes::curves::Curve;
use crate::passes::frames::{Picture, KINDS};
use crate::random::Random;
use crate::runs::sides::{Checked, Sides};
use crate::runs::station::{Lengths, Station};
use crate::tally::SheetTally;

/// The most events that are named one by one.
const EVENTS: usize = 12;

/// Sizes that the highest bytes stand for.
const SIZES: [Size; 12] = [
    (0, 0),
    (0, 7),
    (7, 0),
    (0, LONGEST),
    (1024, 1),
    (1, 1024),
    (1025, 1),
    (1, 1025),
    (LONGEST, 1),
    (1, LONGEST),
    (32, 32),
    (1, 33),
];

/// Plays a sheet on both sides. Gives how many words of frames it was lent.
pub fn play(
    tape: &mut Tape,
    sides: &mut Sides,
    curve: Curve,
    random: &mut Random,
    met: &mut Met<Case>,
) -> Checked<usize> {
    let sheet = if tape.byte() % 4 == 0 {
        let length = tape.byte();
        tape.bytes(length.into())
    } else {
        named(tape)
    };
    let show = Show {
        lent: lent(tape, sides, &sheet),
        sheet,
        curve,
    };
    both::play(sides, &show, random, &mut SheetTally::new("fuzz"), met)
        .map_err(|text| format!("sheet {:02x?}, lent {:?}: {text}", show.sheet, show.lent))?;
    Ok(show.lent.framebuffer)
}

/// The sheet of some events, at times with a bit changed.
fn named(tape: &mut Tape) -> Vec<u8> {
    let count = usize::from(tape.byte()) % (EVENTS + 1);
    let events: Vec<Event> = (0..count).map(|_| event(tape)).collect();
    let mut sheet = paper::write(&events);
    if tape.byte() % 4 == 0 {
        let place = u16::from_le_bytes([tape.byte(), tape.byte()]);
        let places = 8 * sheet.len();
        lists::flip(&mut sheet, usize::from(place) % places);
    }
    sheet
}

fn event(tape: &mut Tape) -> Event {
    match tape.byte() % 10 {
        0..4 => frame(tape),
        4 => Event::Reset,
        5 => Event::Step,
        6 => Event::Commit,
        7 => Event::Ask(tape.byte() % 16, tape.byte() % 2 == 1),
        _ => Event::Switch(tape.byte() % 16, tape.byte() % 2 == 1),
    }
}

/// Of mostly short sides.
fn frame(tape: &mut Tape) -> Event {
    let byte = usize::from(tape.byte());
    let size = match byte {
        0..64 => (1 + byte % 8, 1 + byte / 8),
        64..244 => (2, 1),
        _ => SIZES[byte - 244],
    };
    let picture = Picture {
        kind: KINDS[usize::from(tape.byte()) % KINDS.len()],
        seed: tape.byte().into(),
    };
    lists::frame(size, picture)
}

/// Exactly what its frames take, or about as much.
fn lent(tape: &mut Tape, sides: &Sides, sheet: &[u8]) -> Lengths {
    let events = paper::read(sheet).events;
    let room = sides.history.len();
    let station = sides.machine.station();
    let needed = station.map(|station: &Station| lists::needed_by(station, &events));
    let mut lent = needed.unwrap_or_default();
    if tape.byte() % 2 == 1 {
        lent.framebuffer = tape.near(lent.framebuffer);
        lent.history = tape.near(lent.history);
        lent.floats = tape.near(lent.floats);
        lent.ints = tape.near(lent.ints);
    }
    lent.history = lent.history.min(room);
    lent
}
