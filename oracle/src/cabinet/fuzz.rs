//! Sources inside the fuzzer, for the calls of runs/fuzz.rs: of any sides, with about as much lent as they take, on whatever station there
//! is.

use super::both::{self, Show};
use super::cases::Case;
use super::lists::enlarged;
use super::model::{COLOURS, LONGEST};
use crate::cards::paper::Size;
use crate::fuzz::Tape;
use crate::met::Met;
use crate::passes::curves::Curve;
use crate::random::Random;
use crate::runs::sides::{needed, Checked, Sides};
use crate::runs::station::Lengths;
use crate::tally::RunTally;

/// Sides that the highest bytes stand for: with a short one they make the longest enlarged frames for which the history has room.
const SIDES: [usize; 12] = [
    0,
    0,
    9,
    11,
    37,
    113,
    LONGEST,
    LONGEST + 1,
    1 << 32,
    1 << 62,
    1 << 63,
    usize::MAX,
];

/// The most numbers that are lent.
const NUMBERS: usize = 512;

/// The words of the longest enlarged frame for which enough is lent.
const FRAME: usize = 1024;

/// Shows a source on both sides. Gives how many words of frames it was lent.
pub fn show(
    tape: &mut Tape,
    sides: &mut Sides,
    curve: Curve,
    random: &mut Random,
    met: &mut Met<Case>,
) -> Checked<usize> {
    let size = (side(tape), side(tape));
    let count = size.0.saturating_mul(size.1).min(NUMBERS);
    let [numbers, colours] = [count, COLOURS].map(|needed| match tape.byte() {
        0..192 => needed,
        _ => tape.near(needed),
    });
    let draw = &mut Random::new(tape.byte().into());
    let show = Show {
        picture: (0..numbers).map(|_| draw.word() as u8).collect(),
        size,
        colours: (0..colours).map(|_| draw.word()).collect(),
        lent: lent(tape, sides, size),
        curve,
    };
    both::show(sides, &show, random, &mut RunTally::new("fuzz"), met).map_err(|text| {
        format!(
            "source {size:?}, {numbers} numbers, {colours} colours, lent {:?}: {text}",
            show.lent
        )
    })?;
    Ok(show.lent.framebuffer)
}

/// Mostly a short one.
fn side(tape: &mut Tape) -> usize {
    match usize::from(tape.byte()) {
        byte @ 0..244 => 1 + byte % 4,
        byte => SIDES[byte - 244],
    }
}

/// Exactly what the enlarged frame takes, or about as much. One that is too large is lent too little.
fn lent(tape: &mut Tape, sides: &Sides, size: Size) -> Lengths {
    let fine = |side: usize| (1..=LONGEST).contains(&side);
    let shown = match size {
        (width, height) if fine(width) && fine(height) && 9 * width * height <= FRAME => size,
        _ => (1, 1),
    };
    let station = sides.machine.station();
    let mut lent = station.map_or(Lengths::default(), |station| {
        needed(station, enlarged(shown))
    });
    if tape.byte() % 2 == 1 {
        lent.framebuffer = tape.near(lent.framebuffer);
        lent.history = tape.near(lent.history);
        lent.floats = tape.near(lent.floats);
        lent.ints = tape.near(lent.ints);
    }
    lent.history = lent.history.min(sides.history.len());
    lent
}
