//! The calls under comparison, from the static library `bridge`, as safe functions.

/// A station as the library lends it.
pub const STATE: usize = 134;
pub type State = [u8; STATE];

/// What a call reports, or a refusal's number.
pub type Answer = Result<u32, u32>;

// The declarations are those of the bindings, which oracle/hosts compares with the exports. The bindings' own types cannot
// say what is asked here: a damaged state, a buffer that is too short.
#[allow(dead_code)]
#[path = "../../bindings/rust/src/lib.rs"]
#[rustfmt::skip]
mod hedgemallow;

use hedgemallow::exports;

/// What is added to a refusal's number: no call reports so much.
const REFUSED: u32 = 256;

/// What stands in the two places for what a frame or a sheet reports, before it does: none has so much to report.
pub const UNTOLD: [u32; 2] = [0xa5a5_5a5a; 2];

fn answer(given: u32) -> Answer {
    match given.checked_sub(REFUSED) {
        None => Ok(given),
        Some(number) => Err(number),
    }
}

/// The buffers that are lent to a frame, and the places for what it reports: the clipped channels, then the samples. A source is lent the
/// same beside itself, and reports the same; a sheet too, and it reports the accepted events, then the refused ones.
pub struct Lent<'a> {
    pub framebuffer: &'a mut [u32],
    pub history: &'a mut [u32],
    pub floats: &'a mut [f32],
    pub ints: &'a mut [u32],
    pub curve: &'a [f32],
    pub reports: &'a mut [u32; 2],
}

/// A picture of numbers with its sides and its colours, as it is lent to a cabinet.
#[derive(Clone, Copy)]
pub struct Source<'a> {
    pub picture: &'a [u8],
    pub width: usize,
    pub height: usize,
    pub colours: &'a [u32],
}

// What is safe of a call is the same for all: each buffer is a slice or an array of its own, goes with its own
// length and is not kept; the exports take every number and all bytes.

pub fn open(card: &[u8], state: &mut State) -> Answer {
    // SAFETY: as above.
    answer(unsafe { exports::hedgemallow_open(card.as_ptr(), card.len(), state.as_mut_ptr()) })
}

pub fn write(state: &State, buffer: &mut [u8]) -> Answer {
    // SAFETY: as above.
    answer(unsafe { exports::hedgemallow_write(state.as_ptr(), buffer.as_mut_ptr(), buffer.len()) })
}

pub fn apply(state: &mut State, width: usize, height: usize, lent: Lent) -> Answer {
    // SAFETY: as above.
    let given = unsafe {
        exports::hedgemallow_apply(
            state.as_mut_ptr(),
            lent.framebuffer.as_mut_ptr(),
            lent.framebuffer.len(),
            width,
            height,
            lent.history.as_mut_ptr(),
            lent.history.len(),
            lent.floats.as_mut_ptr(),
            lent.floats.len(),
            lent.ints.as_mut_ptr(),
            lent.ints.len(),
            lent.curve.as_ptr(),
            lent.curve.len(),
            lent.reports.as_mut_ptr(),
        )
    };
    answer(given)
}

pub fn show(state: &mut State, source: Source, lent: Lent) -> Answer {
    // SAFETY: as above.
    answer(unsafe {
        exports::hedgemallow_show(
            state.as_mut_ptr(),
            source.picture.as_ptr(),
            source.picture.len(),
            source.width,
            source.height,
            source.colours.as_ptr(),
            source.colours.len(),
            lent.framebuffer.as_mut_ptr(),
            lent.framebuffer.len(),
            lent.history.as_mut_ptr(),
            lent.history.len(),
            lent.floats.as_mut_ptr(),
            lent.floats.len(),
            lent.ints.as_mut_ptr(),
            lent.ints.len(),
            lent.curve.as_ptr(),
            lent.curve.len(),
            lent.reports.as_mut_ptr(),
        )
    })
}

pub fn reset(state: &mut State) -> Answer {
    // SAFETY: as above.
    answer(unsafe { exports::hedgemallow_reset(state.as_mut_ptr()) })
}

pub fn set_enabled(state: &mut State, kind: u8, on: u8) -> Answer {
    // SAFETY: as above.
    answer(unsafe { exports::hedgemallow_set_enabled(state.as_mut_ptr(), kind, on) })
}

pub fn ask(state: &mut State, kind: u8, on: u8) -> Answer {
    // SAFETY: as above.
    answer(unsafe { exports::hedgemallow_ask(state.as_mut_ptr(), kind, on) })
}

pub fn commit(state: &mut State) -> Answer {
    // SAFETY: as above.
    answer(unsafe { exports::hedgemallow_commit(state.as_mut_ptr()) })
}

pub fn cycle_lut(state: &mut State) -> Answer {
    // SAFETY: as above.
    answer(unsafe { exports::hedgemallow_cycle_lut(state.as_mut_ptr()) })
}

pub fn set_depth(state: &mut State, history: &mut [u32], depth: u8) -> Answer {
    let (words, len) = (history.as_mut_ptr(), history.len());
    // SAFETY: as above.
    answer(unsafe { exports::hedgemallow_set_depth(state.as_mut_ptr(), words, len, depth) })
}

pub fn depth(state: &State) -> Answer {
    // SAFETY: as above.
    answer(unsafe { exports::hedgemallow_depth(state.as_ptr()) })
}

pub fn enabled(state: &State, kind: u8) -> Answer {
    // SAFETY: as above.
    answer(unsafe { exports::hedgemallow_enabled(state.as_ptr(), kind) })
}

pub fn preset(state: &State) -> Answer {
    // SAFETY: as above.
    answer(unsafe { exports::hedgemallow_preset(state.as_ptr()) })
}

pub fn play(state: &mut State, sheet: &[u8], lent: Lent) -> Answer {
    // SAFETY: as above.
    answer(unsafe {
        exports::hedgemallow_play(
            state.as_mut_ptr(),
            sheet.as_ptr(),
            sheet.len(),
            lent.framebuffer.as_mut_ptr(),
            lent.framebuffer.len(),
            lent.history.as_mut_ptr(),
            lent.history.len(),
            lent.floats.as_mut_ptr(),
            lent.floats.len(),
            lent.ints.as_mut_ptr(),
            lent.ints.len(),
            lent.curve.as_ptr(),
            lent.curve.len(),
            lent.reports.as_mut_ptr(),
        )
    })
}

/// The totals of rectangles, and in `read` how many words were read. The picture is a place in memory and its words: not all of it
/// may be readable.
pub fn areas(
    picture: (*const u32, usize),
    width: usize,
    height: usize,
    list: &[u16],
    result: &mut [u64],
    read: &mut [u32; 1],
) -> Answer {
    // SAFETY: as above; the picture's words are there, and those that a rectangle holds can be read.
    answer(unsafe {
        exports::hedgemallow_areas(
            picture.0,
            picture.1,
            width,
            height,
            list.as_ptr(),
            list.len(),
            result.as_mut_ptr(),
            result.len(),
            read.as_mut_ptr(),
        )
    })
}
