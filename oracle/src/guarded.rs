//! The calls under comparison, each made twice, on copies of all that it is lent. The first copies end, the second begin
//! at a page that nobody may touch, so an access past what was lent ends the process at once. Both calls have to give the
//! same, in every byte and word that was lent. So the fuzzer makes every call, and the comparison plays every sheet and shows every
//! source.

#[cfg(fuzz)]
#[path = "bridge.rs"]
mod plain;

#[cfg(fuzz)]
pub use plain::{STATE, UNTOLD};

#[cfg(not(fuzz))]
use crate::bridge as plain;

pub use plain::{Answer, Lent, Source, State};

use crate::pages::{Guard, Room};

/// A room for each argument of a call.
struct Rooms {
    state: Room,
    bytes: Room,
    colours: Room,
    framebuffer: Room,
    history: Room,
    floats: Room,
    ints: Room,
    curve: Room,
    reports: Room,
}

thread_local! {
    static ROOMS: std::cell::RefCell<Rooms> = std::cell::RefCell::new(Rooms {
        state: Room::new(),
        bytes: Room::new(),
        colours: Room::new(),
        framebuffer: Room::new(),
        history: Room::new(),
        floats: Room::new(),
        ints: Room::new(),
        curve: Room::new(),
        reports: Room::new(),
    });
}

/// Makes a call with each guard. It gives all that it left.
fn twice<T: PartialEq>(call: impl Fn(&mut Rooms, Guard) -> T) -> T {
    ROOMS.with_borrow_mut(|rooms| {
        let first = call(rooms, Guard::After);
        let second = call(rooms, Guard::Before);
        assert!(first == second, "the same call twice gave different things");
        first
    })
}

fn array(bytes: &mut [u8]) -> &mut State {
    bytes.try_into().expect("a state has 134 bytes")
}

/// A call on a state alone.
fn on_state(state: &mut State, call: impl Fn(&mut State) -> Answer) -> Answer {
    let (answer, after) = twice(|rooms, guard| {
        let copy = array(rooms.state.lay(&*state, guard));
        (call(copy), *copy)
    });
    *state = after;
    answer
}

pub fn open(card: &[u8], state: &mut State) -> Answer {
    let (answer, after) = twice(|rooms, guard| {
        let copy = array(rooms.state.lay(&*state, guard));
        let laid = rooms.bytes.lay(card, guard);
        let answer = plain::open(laid, copy);
        assert!(laid == card, "the card was written");
        (answer, *copy)
    });
    *state = after;
    answer
}

pub fn write(state: &State, buffer: &mut [u8]) -> Answer {
    let (answer, after) = twice(|rooms, guard| {
        let copy = array(rooms.state.lay(state, guard));
        let laid = rooms.bytes.lay(buffer, guard);
        let answer = plain::write(copy, laid);
        assert!(copy == state, "the state was written");
        (answer, laid.to_vec())
    });
    buffer.copy_from_slice(&after);
    answer
}

/// As words, since no NaN is equal to itself.
fn bits(floats: &[f32]) -> Vec<u32> {
    floats.iter().map(|x| x.to_bits()).collect()
}

pub fn apply(state: &mut State, width: usize, height: usize, lent: Lent) -> Answer {
    with_lent(state, &[], &[], lent, |state, _, _, laid| {
        plain::apply(state, width, height, laid)
    })
}

pub fn show(state: &mut State, source: Source, lent: Lent) -> Answer {
    let Source {
        picture, colours, ..
    } = source;
    with_lent(
        state,
        picture,
        colours,
        lent,
        |state, picture, colours, laid| {
            let source = Source {
                picture,
                colours,
                ..source
            };
            plain::show(state, source, laid)
        },
    )
}

pub fn play(state: &mut State, sheet: &[u8], lent: Lent) -> Answer {
    with_lent(state, sheet, &[], lent, |state, sheet, _, laid| {
        plain::play(state, sheet, laid)
    })
}

/// A call that is lent all that a frame is, and beside it a sheet, or a source's numbers and colours, which are only read.
fn with_lent(
    state: &mut State,
    bytes: &[u8],
    colours: &[u32],
    lent: Lent,
    call: impl Fn(&mut State, &[u8], &[u32], Lent) -> Answer,
) -> Answer {
    let (answer, after, [framebuffer, history, floats, ints, reports]) = twice(|rooms, guard| {
        let copy = array(rooms.state.lay(&*state, guard));
        let read = rooms.bytes.lay(bytes, guard);
        let words = rooms.colours.lay(colours, guard);
        let framebuffer = rooms.framebuffer.lay(lent.framebuffer, guard);
        let history = rooms.history.lay(lent.history, guard);
        let floats = rooms.floats.lay(lent.floats, guard);
        let ints = rooms.ints.lay(lent.ints, guard);
        let curve = rooms.curve.lay(lent.curve, guard);
        let reports = rooms.reports.lay(&*lent.reports, guard);
        let laid = Lent {
            framebuffer: &mut *framebuffer,
            history: &mut *history,
            floats: &mut *floats,
            ints: &mut *ints,
            curve: &*curve,
            reports: (&mut *reports).try_into().expect("there are two places"),
        };
        let answer = call(copy, read, words, laid);
        assert!(read == bytes, "the sheet or the picture was written");
        assert!(words == colours, "the colours were written");
        assert!(bits(curve) == bits(lent.curve), "the curve was written");
        let left = [
            framebuffer.to_vec(),
            history.to_vec(),
            bits(floats),
            ints.to_vec(),
            reports.to_vec(),
        ];
        (answer, *copy, left)
    });
    *state = after;
    lent.framebuffer.copy_from_slice(&framebuffer);
    lent.history.copy_from_slice(&history);
    for (x, word) in lent.floats.iter_mut().zip(floats) {
        *x = f32::from_bits(word);
    }
    lent.ints.copy_from_slice(&ints);
    lent.reports.copy_from_slice(&reports);
    answer
}

pub fn reset(state: &mut State) -> Answer {
    on_state(state, plain::reset)
}

pub fn set_enabled(state: &mut State, kind: u8, on: u8) -> Answer {
    on_state(state, |state| plain::set_enabled(state, kind, on))
}

pub fn ask(state: &mut State, kind: u8, on: u8) -> Answer {
    on_state(state, |state| plain::ask(state, kind, on))
}

pub fn commit(state: &mut State) -> Answer {
    on_state(state, plain::commit)
}

pub fn cycle_lut(state: &mut State) -> Answer {
    on_state(state, plain::cycle_lut)
}

pub fn set_depth(state: &mut State, history: &mut [u32], depth: u8) -> Answer {
    let (answer, after, words) = twice(|rooms, guard| {
        let copy = array(rooms.state.lay(&*state, guard));
        let laid = rooms.history.lay(history, guard);
        let answer = plain::set_depth(copy, laid, depth);
        (answer, *copy, laid.to_vec())
    });
    *state = after;
    history.copy_from_slice(&words);
    answer
}

/// A question, which leaves the state.
fn of_state(state: &State, question: impl Fn(&State) -> Answer) -> Answer {
    let mut copy = *state;
    let answer = on_state(&mut copy, |state| question(state));
    assert!(copy == *state, "the state was written");
    answer
}

pub fn depth(state: &State) -> Answer {
    of_state(state, plain::depth)
}

pub fn enabled(state: &State, kind: u8) -> Answer {
    of_state(state, |state| plain::enabled(state, kind))
}

pub fn preset(state: &State) -> Answer {
    of_state(state, plain::preset)
}
