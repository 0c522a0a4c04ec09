//! The library `bridge` inside the fuzzer. Its bytes are read as a card or a state and a list of calls, sheets and sources, good and
//! bad, which are made, played and shown on both sides, as those of a run are. Buffers are lent through guarded.rs.

use super::calls::{Call, Frame};
use super::cases::Case;
use super::noise::Noise;
use super::run::open_both;
use super::sides::{Checked, Sides};
use super::station::{float_room, Lengths, Station, MOST_FRAMES};
use crate::bridge::{State, STATE};
use crate::cabinet;
use crate::cards::paper::Size;
use crate::fuzz::{self, Tape};
use crate::met::{Listed, Met};
use crate::passes::curves::{Curve, ODD, READ};
use crate::passes::frames::{Picture, KINDS};
use crate::random::Random;
use crate::seeds;
use crate::sheets;
use crate::tally::RunTally;

/// The words of the longest frame that is accepted, and those that an input takes in all: more would make it slow.
const FRAME: usize = 1024;
const ALL: usize = 4 * FRAME;

/// Words of the history buffer: past those of the deepest histories too.
const HISTORY: usize = MOST_FRAMES * FRAME + 64;

/// Sides that the highest bytes stand for.
const SIDES: [usize; 12] = [
    256,
    512,
    1023,
    1024,
    1024,
    1025,
    1 << 16,
    1 << 31,
    1 << 32,
    1 << 62,
    1 << 63,
    usize::MAX,
];

/// A side of a frame: mostly a short one.
fn side(tape: &mut Tape) -> usize {
    let byte = usize::from(tape.byte());
    match byte {
        0..160 => 1 + byte % 16,
        160..244 => byte - 160,
        _ => SIDES[byte - 244],
    }
}

#[no_mangle]
extern "C" fn fuzz_bridge(data: *const u8, len: usize) -> i32 {
    // SAFETY: libFuzzer calls this.
    let input = unsafe { fuzz::input(data, len) };
    let mut met = AllMet {
        calls: Met::new(),
        sheets: Met::new(),
        sources: Met::new(),
    };
    if let Err(text) = play(input, &mut met) {
        panic!("different: {text}");
    }
    let sheets = Case::ALL.len();
    let sources = sheets + sheets::cases::Case::ALL.len();
    fuzz::guide(&met.calls);
    fuzz::guide_from(sheets, &met.sheets);
    fuzz::guide_from(sources, &met.sources);
    0
}

/// What was met by calls, by sheets and by sources.
struct AllMet {
    calls: Met<Case>,
    sheets: Met<sheets::cases::Case>,
    sources: Met<cabinet::cases::Case>,
}

fn play(input: &[u8], met: &mut AllMet) -> Checked {
    let AllMet {
        calls: met,
        sheets: met_by_sheets,
        sources: met_by_sources,
    } = met;
    let tape = &mut Tape { rest: input };
    let random = &mut Random::new(tape.byte().into());
    let Some(state) = begin(tape, random, met)? else {
        return Ok(());
    };
    let mut sides = Sides::new(state, Noise::any(random.next()).words(HISTORY));
    let tally = &mut RunTally::new("fuzz");
    // Of the last frame.
    let mut size = (1, 1);
    let mut words = 0;
    while !tape.rest.is_empty() && words < ALL {
        match tape.byte() % 16 {
            15 => {
                // Another state, for good: calls on a bad one are refused from here on.
                sides = sides.damaged(damaged(sides.state, tape));
                let good = sides.machine.station().is_some();
                met.note(if good { Case::Another } else { Case::Bad });
            }
            12..15 => {
                let curve = curve(tape, &sides);
                words += sheets::fuzz::play(tape, &mut sides, curve, random, met_by_sheets)?;
                continue;
            }
            9..12 => {
                let curve = curve(tape, &sides);
                words += cabinet::fuzz::show(tape, &mut sides, curve, random, met_by_sources)?;
                continue;
            }
            _ => {}
        }
        let call = call(tape, &mut size, &sides);
        if let Call::Frame(frame) = &call {
            words += frame.lent.framebuffer;
        }
        sides
            .call(&call, random, tally, met)
            .map_err(|text| format!("{call}: {text}"))?;
    }
    Ok(())
}

/// The state that the bytes begin with, or that of their card; none where the card is refused.
fn begin(tape: &mut Tape, random: &mut Random, met: &mut Met<Case>) -> Checked<Option<State>> {
    let length = tape.byte();
    if length >= seeds::STATE {
        let mut state = [0; STATE];
        state.copy_from_slice(&tape.bytes(STATE));
        return Ok(Some(state));
    }
    open_both(&tape.bytes(length.into()), random, met)
}

/// The state with some bits of one byte changed.
fn damaged(mut state: State, tape: &mut Tape) -> State {
    let place = usize::from(tape.byte()) % state.len();
    state[place] ^= tape.byte();
    state
}

fn call(tape: &mut Tape, size: &mut Size, sides: &Sides) -> Call {
    match tape.byte() % 16 {
        0..4 => Call::Frame(frame(tape, *size, sides)),
        4 => {
            *size = (size.1, size.0);
            Call::Frame(frame(tape, *size, sides))
        }
        5..8 => {
            *size = (side(tape), side(tape));
            Call::Frame(frame(tape, *size, sides))
        }
        8 => Call::Reset,
        9 => Call::Switch(tape.byte(), tape.byte()),
        10 => Call::Ask(tape.byte(), tape.byte()),
        11 => set_depth(tape, sides),
        12 => Call::Commit,
        13 => Call::Step,
        14 => Call::Write(tape.byte().into()),
        _ => Call::Depth,
    }
}

/// Mostly a depth that a card may name, or 9, with exactly the words that it asks for, or with about as many.
fn set_depth(tape: &mut Tape, sides: &Sides) -> Call {
    let byte = tape.byte();
    let depth = if byte < 240 { byte % 10 } else { byte };
    let station = sides.machine.station();
    let [needed, _] = station.map_or([0; 2], |station| station.words_of(depth));
    let exact = tape.byte() % 2 == 0;
    let words = if exact { needed } else { tape.near(needed) };
    Call::SetDepth(depth, words.min(HISTORY))
}

/// A frame with exactly what it needs, or with lengths near it. One that is too large is lent too little.
fn frame(tape: &mut Tape, size: Size, sides: &Sides) -> Frame {
    let count = size.0.saturating_mul(size.1).min(FRAME);
    let frames = sides.machine.station().map_or(0, Station::frames);
    let floats = float_room(size.0.min(FRAME), 0) + 3 * count;
    let needed = [count, frames * count, floats, count];
    let exact = tape.byte() % 2 == 0;
    let [framebuffer, history, floats, ints] =
        needed.map(|needed| if exact { needed } else { tape.near(needed) });
    Frame {
        size,
        picture: Picture {
            kind: KINDS[usize::from(tape.byte()) % KINDS.len()],
            seed: tape.byte().into(),
        },
        lent: Lengths {
            framebuffer,
            history: history.min(HISTORY),
            floats,
            ints,
        },
        curve: curve(tape, sides),
    }
}

/// Mostly one that the chain takes, of 256 words, at the end of its pages; else of another length, or with an odd word somewhere.
fn curve(tape: &mut Tape, sides: &Sides) -> Curve {
    let random = &mut Random::new(tape.byte().into());
    let gamma = sides.machine.station().and_then(Station::curved);
    let good = Curve::good(gamma.unwrap_or(1.0), random);
    match tape.byte() {
        0..128 => Curve { len: READ, ..good },
        128..160 => Curve {
            len: tape.near(READ),
            ..good
        },
        160..192 => Curve {
            odd: Some((tape.near(READ), random.choose(&ODD))),
            ..good
        },
        192..224 => Curve::bad(random),
        _ => Curve::any(random),
    }
}
