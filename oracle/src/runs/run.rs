//! Runs: one card and many calls, on the library and on the machine.

use super::calls::{self, Call, Sizes};
use super::cards;
use super::cases::{Broken, Case};
use super::noise::Noise;
use super::sides::{Checked, Sides};
use super::station::{held_bytes, sized, Station, HELD_END};
use crate::bridge::{self, State, STATE};
use crate::cards::damage;
use crate::cards::paper::{Opened, Record, Size, Value, NOTHING, PASSES};
use crate::met::Met;
use crate::passes::chain::{BLOOM, NTSC, PERSISTENCE};
use crate::random::Random;
use crate::steps::Mode;
use crate::tally::RunTally;

pub struct Run {
    card: Vec<u8>,
    seed: u64,
    calls: usize,
    /// The longest side of its frames.
    longest: usize,
    /// The sizes of its frames, where they are not random.
    sizes: &'static [(usize, usize)],
    /// Whether some of its calls change the depth: from the first one on its pictures are not the original's as it stands.
    resizes: bool,
}

/// Words of the history buffer past the most that a run needs.
const PAST: usize = 64;

/// Sizes that no budget leaves out: the longest sides, and those of an ordinary picture.
const LARGE: [(usize, usize); 5] = [
    (1024, 1024),
    (640, 480),
    (480, 640),
    (1023, 1024),
    (1024, 768),
];

/// The largest of them.
const LARGEST: [(usize, usize); 1] = [(1024, 1024)];

/// A row and a column.
const THIN: [(usize, usize); 4] = [(1024, 1), (1, 1024), (512, 2), (1, 1)];

/// One run of so many has new depths, as one call of so many.
const RESIZING: usize = 3;
const RESIZED: usize = 8;

/// Nanoseconds, as the rows of the passes estimate them.
struct Effort {
    /// For a run of the largest frames, and for all of these.
    large: usize,
    all_large: usize,
    /// For all others.
    others: usize,
}

impl Effort {
    fn of(mode: Mode) -> Self {
        match mode {
            Mode::Quick => Effort {
                large: 3_000_000_000,
                all_large: 40_000_000_000,
                others: 60_000_000_000,
            },
            Mode::Full => Effort {
                large: 20_000_000_000,
                all_large: 2_000_000_000_000,
                others: 3_000_000_000_000,
            },
        }
    }
}

/// The runs of a comparison: those of the largest frames first, since they take long.
pub fn all(mode: Mode) -> Vec<Run> {
    let random = &mut Random::named("runs");
    let effort = Effort::of(mode);
    let mut runs = vec![dearest()];
    let mut spent = 0;
    while spent < effort.all_large {
        spent += large(&effort, random, &mut runs);
    }
    spent = 0;
    while spent < effort.others {
        spent += other(random, &mut runs);
    }
    runs
}

/// Both blurs at their widest on the largest frames: no frame takes more samples.
fn dearest() -> Run {
    let [strength, radius] = [Value::Float(0.5), Value::Whole(64, 8)];
    let record = |kind: u32, settings: &[Value]| Record {
        kind,
        on: true,
        settings: settings.to_vec(),
    };
    let records = vec![
        record(NTSC, &[strength, radius]),
        record(BLOOM, &[Value::Whole(100, 8), strength, radius]),
    ];
    Run {
        card: Opened { records }.written(),
        seed: Random::named("dearest").next(),
        calls: 3,
        longest: 1024,
        sizes: &LARGEST,
        resizes: false,
    }
}

/// As many frames as a run's part of the time allows, and at least a few. Gives the time.
fn large(effort: &Effort, random: &mut Random, runs: &mut Vec<Run>) -> usize {
    let card = cards::card(random);
    let cost = cost(&card) * 700_000;
    let calls = (effort.large / cost).clamp(3, 40);
    runs.push(Run {
        card,
        seed: random.next(),
        calls,
        longest: 1024,
        sizes: &LARGE,
        resizes: random.one_in(RESIZING),
    });
    calls * cost
}

/// A run of frames that are small in most cases. Gives the time.
fn other(random: &mut Random, runs: &mut Vec<Run>) -> usize {
    let card = cards::card(random);
    let (longest, calls, sizes): (_, _, &[_]) = match random.below(32) {
        0..12 => (8, random.within(64, 512), &[]),
        12..22 => (32, random.within(64, 512), &[]),
        22..26 => (100, random.within(32, 128), &[]),
        26..29 => (1024, random.within(32, 128), &THIN),
        29..31 => (256, random.within(16, 32), &[]),
        _ => (1024, random.within(4, 8), &[]),
    };
    let words = if sizes.is_empty() {
        longest * longest / 4
    } else {
        1024
    };
    let time = calls * (cost(&card) * words + 10_000);
    runs.push(Run {
        card,
        seed: random.next(),
        calls,
        longest,
        sizes,
        resizes: random.one_in(RESIZING),
    });
    time
}

fn cost(card: &[u8]) -> usize {
    let station = Station::open(card).expect("the card is a good one");
    cards::cost(station.records())
}

/// Feeds one run to both sides.
pub fn compare(run: &Run, at: usize, tally: &mut RunTally, met: &mut Met<Case>) {
    let random = &mut Random::new(run.seed);
    tally.begin();
    let mut called = Vec::new();
    if let Err(text) = play(run, random, tally, met, &mut called) {
        tally.differ(at, || {
            let Run { card, seed, .. } = run;
            let last = called.len().saturating_sub(12);
            let called = called[last..].join(", ");
            format!("run {at}, seed {seed:#018x}, card {card:02x?}, after {called}: {text}")
        });
    }
}

/// Plays a run up to its first difference: from there on every picture may differ.
fn play(
    run: &Run,
    random: &mut Random,
    tally: &mut RunTally,
    met: &mut Met<Case>,
    called: &mut Vec<String>,
) -> Checked {
    for _ in 0..8 {
        open_damaged(random, met)?;
    }
    let mut sides = opened(run, random)?;
    let mut sizes = Sizes::new(run.longest, run.sizes, random);
    for _ in 0..run.calls {
        let station = sides.machine.station().expect("a good station stays good");
        let call = next(run, station, &mut sizes, sides.history.len(), random);
        if random.one_in(8) {
            let state = match out_of_order(station, random) {
                Some(state) => {
                    met.note(Case::OutOfOrder(call.which()));
                    state
                }
                None => damaged(station, random, met),
            };
            let mut other = sides.damaged(state);
            called.push(format!("with a damaged state {call}"));
            other.call(&call, random, tally, met)?;
            let good = other.machine.station().is_some();
            met.note(if good { Case::Another } else { Case::Bad });
            called.pop();
        }
        called.push(call.to_string());
        sides.call(&call, random, tally, met)?;
    }
    sides.look_at_every_switch(met)?;
    every_bit(&sides.state, tally)
}

fn next(run: &Run, station: &Station, sizes: &mut Sizes, room: usize, random: &mut Random) -> Call {
    // A first glow that holds nothing beside one that does soon holds something again: it is switched on, and gets another depth.
    let beside = station.count() == 0 && station.holds();
    match random.below(RESIZED) {
        0 if run.resizes => calls::set_depth(station, room, random),
        1..4 if run.resizes && beside => calls::set_depth(station, room, random),
        4..6 if run.resizes && beside => Call::Switch(PERSISTENCE as u8, 1),
        _ => calls::next(station, sizes, room, random),
    }
}

/// Opens the run's card on both sides, with any words in the history buffer.
fn opened(run: &Run, random: &mut Random) -> Checked<Sides> {
    let station = Station::open(&run.card).expect("the card is a good one");
    // Whatever stands there before is overwritten.
    let mut state = noise_state(random);
    let answer = bridge::open(&run.card, &mut state);
    if (answer, state) != (Ok(0), station.state()) {
        return Err(format!("opening: here {answer:?} and {state:02x?}"));
    }
    let frames = if run.resizes {
        station.frames_at_most()
    } else {
        station.frames()
    };
    let largest = run.sizes.iter().map(|(width, height)| width * height).max();
    let largest = largest.unwrap_or(run.longest * run.longest);
    let history = Noise::any(random.next()).words(frames.max(1) * largest + PAST);
    Ok(Sides::new(state, history))
}

fn noise_state(random: &mut Random) -> State {
    [(); STATE].map(|()| random.word() as u8)
}

/// Opens a card that is damaged in most cases.
fn open_damaged(random: &mut Random, met: &mut Met<Case>) -> Checked {
    let card = damage::card(random);
    open_both(&card, random, met).map(drop)
}

/// The state of a card as both sides open it; none where both refuse it by the same number, and leave
/// the state as it was.
pub fn open_both(card: &[u8], random: &mut Random, met: &mut Met<Case>) -> Checked<Option<State>> {
    let before = noise_state(random);
    let mut state = before;
    let answer = bridge::open(card, &mut state);
    let asked = match Station::open(card) {
        Ok(station) => (Ok(0), station.state()),
        Err(number) => {
            met.note(Case::Open(number));
            (Err(number), before)
        }
    };
    if (answer, state) == asked {
        return Ok(answer.is_ok().then_some(state));
    }
    Err(format!(
        "opening {card:02x?}: here {answer:?} and {state:02x?}, by the model {asked:02x?}"
    ))
}

/// In one of eight cases the state with two records of its card exchanged, and all else as it is: the kinds do not ascend then.
fn out_of_order(station: &Station, random: &mut Random) -> Option<State> {
    let mut other = station.clone();
    let records = &mut other.opened.records;
    if records.len() < 2 || !random.one_in(8) {
        return None;
    }
    let place = random.below(records.len() - 1);
    let behind = random.within(place + 1, records.len() - 1);
    if records[place].kind == records[behind].kind {
        // Two glows may stand in either order.
        return None;
    }
    records.swap(place, behind);
    Some(other.state())
}

/// The state with one bit changed; or with another byte; or with another size remembered, at one place or by all glows that are on; or
/// with another pending switch.
fn damaged(station: &Station, random: &mut Random, met: &mut Met<Case>) -> State {
    let mut state = station.state();
    let place = random.below(state.len());
    match random.below(6) {
        0 => state[place] = random.word() as u8,
        1 => {
            let (place, held) = (some_place(station, random), another(station, random));
            state[held_bytes(place)].copy_from_slice(&sized(held));
            met.note(other_held(station, place, held));
        }
        2 => {
            let held = another(station, random);
            let lit = station.lit();
            for &place in &lit {
                state[held_bytes(place)].copy_from_slice(&sized(held));
            }
            if lit.len() > 1 && is_size(held) {
                met.note(Case::HeldOtherByAll);
            }
        }
        3 => {
            let (pending, case) = other_pending(station, random);
            state[HELD_END..].copy_from_slice(&pending);
            met.note(case);
        }
        _ => state[place] ^= 1 << random.below(8),
    }
    state
}

/// Mostly that of a glow.
fn some_place(station: &Station, random: &mut Random) -> usize {
    let glows = station.glows();
    if glows.is_empty() || random.one_in(4) {
        random.below(PASSES)
    } else {
        random.choose(&glows)
    }
}

/// A size at the limits, or the remembered one, as it is or turned.
fn another(station: &Station, random: &mut Random) -> Size {
    const MOST: usize = u16::MAX as usize;
    let held = station.shape();
    let turned = (held.1, held.0);
    random.choose(&[
        NOTHING,
        NOTHING,
        (1, 1),
        (1024, 1024),
        (1025, 1),
        (1, 1025),
        (0, 1),
        (1, 0),
        (MOST, 1),
        (1, MOST),
        (MOST, MOST),
        held,
        held,
        turned,
        turned,
        turned,
        turned,
    ])
}

fn is_size((width, height): Size) -> bool {
    let fine = |side: usize| (1..=1024).contains(&side);
    fine(width) && fine(height)
}

/// What it is that the pass at a place, which may not be there, is made to remember this.
fn other_held(station: &Station, place: usize, held: Size) -> Case {
    let others = (0..PASSES).filter(|&other| other != place);
    let mut beside = others.map(|other| station.held[other]);
    match held {
        (1025.., _) | (_, 1025..) => Case::HeldAbove,
        (0, 1..) | (1.., 0) => Case::HeldHalf,
        NOTHING if station.held[place] != NOTHING && beside.any(|held| held != NOTHING) => {
            Case::HeldForgotten
        }
        NOTHING => Case::HeldOther,
        _ if place >= station.records().len() => Case::HeldPast,
        _ if !station.glows().contains(&place) => Case::HeldByAnother,
        _ if !station.lit().contains(&place) => Case::HeldOff,
        _ if beside.any(|other| other != NOTHING && other != held) => Case::HeldDiffers,
        _ => Case::HeldOther,
    }
}

/// The bytes of another pending switch: such as no station has, or good ones.
fn other_pending(station: &Station, random: &mut Random) -> ([u8; 2], Case) {
    let kinds = station.kinds();
    let absent: Vec<u8> = (1..=11).filter(|kind| !kinds.contains(kind)).collect();
    // An empty chain has no kind to be switched.
    let kind = if kinds.is_empty() {
        0
    } else {
        random.choose(&kinds)
    };
    let on = random.below(2) as u8;
    let any = random.within(2, 255) as u8;
    let any = random.choose(&[2, any]);
    let broken = Case::PendingBroken;
    match random.below(8) {
        0 | 1 => ([random.choose(&absent), on], broken(Broken::Kind)),
        2 => ([0, 1], broken(Broken::NoKind)),
        3 | 4 => ([kind, any], broken(Broken::Position)),
        _ if kind == 0 => ([0, 0], Case::PendingOther),
        _ => ([kind, on], Case::PendingOther),
    }
}

/// Each of the 1,072 bits changed in turn: the state is a bad one, or another good station's, whose card is
/// written.
fn every_bit(state: &State, tally: &mut RunTally) -> Checked {
    for bit in 0..8 * state.len() {
        let mut state = *state;
        state[bit / 8] ^= 0x80 >> (bit % 8);
        let (mut here, mut asked) = ([0; 83], [0; 83]);
        let number = match Station::read(&state) {
            None => Err(13),
            Some(station) => {
                let card = station.opened.written();
                asked[..card.len()].copy_from_slice(&card);
                Ok(card.len() as u32)
            }
        };
        let answer = bridge::write(&state, &mut here);
        if (answer, here) != (number, asked) {
            return Err(format!(
                "writing with bit {bit} of the state changed: here {answer:?}, by the model {number:?}"
            ));
        }
        tally.called(number, 0);
    }
    Ok(())
}
