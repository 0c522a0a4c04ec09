//! Many sources, in threads that take one station after another.

use super::both::{self, Show};
use super::cases::Case;
use super::enlarge;
use super::lists::{self, WRITTEN_OUT};
use super::model::LONGEST;
use crate::bridge::{self, State, STATE};
use crate::met::Met;
use crate::random::Random;
use crate::runs::calls::{Call, Sizes};
use crate::runs::cards;
use crate::runs::cases::Case as CallCase;
use crate::runs::noise::Noise;
use crate::runs::sides::{Checked, Sides};
use crate::runs::station::Station;
use crate::share::share;
use crate::steps::Mode;
use crate::tally::{RunTally, Total};

/// What is shown on one station, of which all that is random is drawn from the seed.
struct Work {
    seed: u64,
    shows: Shows,
}

type Shows = fn(&mut Stand, &mut RunTally, &mut Met<Case>) -> Checked;

/// How many sources a station shows one after another.
const SOURCES: usize = 10;

/// How many cards the sources that are written out are shown under.
const CARDS: usize = 12;

/// Words of the history buffer past the most that the frames of a station need.
const PAST: usize = 64;

/// A row and a column, and what is between them: 342 numbers at most.
const THIN: [(usize, usize); 6] = [
    (LONGEST, 1),
    (1, LONGEST),
    (170, 2),
    (2, 170),
    (114, 3),
    (1, 1),
];

pub fn run(mode: Mode, total: &mut Total) {
    println!(
        "Sources of a cabinet, with a model of document 02's P14 over the original's pipeline"
    );
    enlarge::run(total);
    let new = || RunTally::new("cabinet");
    let (tally, met) = share(&all(mode), new, RunTally::join, compare);
    total.add_runs(&tally);
    total.unmet += met.report();
    total.add_turned(met.count(Case::Turned));
    total.add_several([2, 3].map(|lit| met.count(Case::Glows(lit))).iter().sum());
    let curved = [true, false].map(|powers| met.count(Case::Curved(powers)));
    total.add_curved(curved.iter().sum());
}

/// The largest first, since they take long.
fn all(mode: Mode) -> Vec<Work> {
    let random = &mut Random::named("cabinet");
    let stations = match mode {
        Mode::Quick => 3_200,
        Mode::Full => 32_000,
    };
    let lists: [(usize, Shows); 3] = [(1, largest), (CARDS, written_out), (stations, sources)];
    let mut all = Vec::new();
    for (count, shows) in lists {
        all.extend((0..count).map(|_| Work {
            seed: random.next(),
            shows,
        }));
    }
    all
}

fn compare(work: &Work, at: usize, tally: &mut RunTally, met: &mut Met<Case>) {
    let seed = work.seed;
    let mut stand = Stand::new(seed);
    tally.begin();
    if let Err(text) = (work.shows)(&mut stand, tally, met) {
        tally.differ(at, || {
            let Stand { card, told, .. } = stand;
            format!("station {at}, seed {seed:#018x}, card {card:02x?}, {told}: {text}")
        });
    }
}

/// What a station's sources are drawn from, and of a difference its card and the source in words.
struct Stand {
    random: Random,
    card: Vec<u8>,
    told: String,
    /// Of the calls between the sources, which have a comparison of their own.
    calls: RunTally,
    met_by_calls: Met<CallCase>,
}

impl Stand {
    fn new(seed: u64) -> Self {
        Stand {
            random: Random::new(seed),
            card: Vec::new(),
            told: String::new(),
            calls: RunTally::new("calls"),
            met_by_calls: Met::new(),
        }
    }

    /// Opens a card, with a history buffer for frames of so many words, and any words in it.
    fn open(&mut self, card: Vec<u8>, largest: usize) -> Sides {
        let mut state = [0; STATE];
        bridge::open(&card, &mut state).expect("the card is a good one");
        let station = Station::open(&card).expect("the card is a good one");
        let words = station.frames_at_most().max(1) * largest + PAST;
        self.card = card;
        Sides::new(state, Noise::any(self.random.next()).words(words))
    }

    /// Shows a source, which is told where something differs. Gives whether it was accepted.
    fn show(
        &mut self,
        sides: &mut Sides,
        show: &Show,
        tally: &mut RunTally,
        met: &mut Met<Case>,
    ) -> Checked<bool> {
        let shown = both::show(sides, show, &mut self.random, tally, met);
        if shown.is_err() {
            let Show {
                picture,
                size: (width, height),
                colours,
                lent,
                curve,
            } = show;
            let (numbers, colours) = (picture.len(), colours.len());
            let few = &picture[..numbers.min(SHOWN)];
            self.told = format!(
                "source of {width} by {height}, {numbers} numbers {few:02x?}, {colours} colours, lent {lent:?}, curve {curve:x?}"
            );
        }
        shown
    }

    /// Makes another call on both sides.
    fn call(&mut self, sides: &mut Sides, call: &Call) -> Checked {
        let made = sides.call(
            call,
            &mut self.random,
            &mut self.calls,
            &mut self.met_by_calls,
        );
        made.inspect_err(|_| self.told = format!("{call}"))
    }
}

/// How many numbers of a differing source are printed.
const SHOWN: usize = 64;

/// The station of these sides, which is a good one.
fn station(sides: &Sides) -> Station {
    let station = sides.machine.station();
    station.expect("a good station stays good").clone()
}

/// Whether a frame of this size would be mixed with what the first lit glow holds.
fn meets(station: &Station, size: (usize, usize)) -> bool {
    let lit = station.lit();
    lit.first().is_some_and(|&first| station.meets(first, size))
}

/// What came before a source.
#[derive(Clone, Copy, PartialEq)]
enum Last {
    /// A frame of words that was accepted, a source that was refused, and all else.
    Frame,
    Refused,
    Other,
}

/// Sources one after another, with other calls between them. One in eight is shown on a copy of the station of which something was changed.
fn sources(stand: &mut Stand, tally: &mut RunTally, met: &mut Met<Case>) -> Checked {
    let card = cards::card(&mut stand.random);
    let (longest, given): (usize, &[_]) = match stand.random.below(32) {
        0..24 => (6, &[]),
        24..31 => (18, &[]),
        _ => (LONGEST, &THIN),
    };
    let words = match given {
        [] => 9 * longest * longest,
        _ => 9 * 342,
    };
    let mut sides = stand.open(card, words);
    let mut sizes = Sizes::new(longest, given, &mut stand.random);
    let (mut last, room) = (Last::Other, sides.history.len());
    for _ in 0..SOURCES {
        if stand.random.one_in(3) {
            let size = lists::enlarged(sizes.last);
            let call = lists::between(&station(&sides), size, room, &mut stand.random);
            stand.call(&mut sides, &call)?;
            last = match call {
                Call::Frame(_) => Last::Frame,
                _ => Last::Other,
            };
        }
        let before = station(&sides);
        let show = lists::show(&before, &mut sizes, room, &mut stand.random);
        if stand.random.one_in(8) {
            let mut other = sides.damaged(changed(sides.state, &mut stand.random));
            if other.machine.station().is_some() {
                met.note(Case::Another);
            }
            stand.show(&mut other, &show, tally, met)?;
            continue;
        }
        let accepted = stand.show(&mut sides, &show, tally, met)?;
        last = follow(last, accepted, (&before, &show), met);
    }
    Ok(())
}

/// Notes what an accepted source met of what came before it, and gives what comes before the next one.
fn follow(
    last: Last,
    accepted: bool,
    (before, show): (&Station, &Show),
    met: &mut Met<Case>,
) -> Last {
    if !accepted {
        return Last::Refused;
    }
    if meets(before, lists::enlarged(show.size)) {
        match last {
            Last::Frame => met.note(Case::BlendFrame),
            Last::Refused => met.note(Case::BlendRefused),
            Last::Other => {}
        }
    }
    Last::Other
}

/// The state with another bit, or another byte.
fn changed(mut state: State, random: &mut Random) -> State {
    let place = random.below(state.len());
    let byte = 1 << random.below(8);
    let any = random.within(1, 255) as u8;
    state[place] ^= random.choose(&[byte, byte, any]);
    state
}

/// The sources at the limits, one after another, and each on a bad station.
fn written_out(stand: &mut Stand, tally: &mut RunTally, met: &mut Met<Case>) -> Checked {
    let card = cards::card(&mut stand.random);
    let mut sides = stand.open(card, WRITTEN_OUT);
    let all = lists::written_out(&station(&sides), &mut stand.random);
    show_each(stand, &mut sides, all, tally, met)
}

/// The largest source, at its limits, through a chain of which a pass has a history and one has none.
fn largest(stand: &mut Stand, tally: &mut RunTally, met: &mut Met<Case>) -> Checked {
    let side = 3 * LONGEST;
    let mut sides = stand.open(LARGE.to_vec(), side * side);
    let exact = lists::exact(&station(&sides), (LONGEST, LONGEST), &mut stand.random);
    let all = lists::at_limits(&exact);
    show_each(stand, &mut sides, all, tally, met)
}

/// Persistence 0.5 with depth 1 and scanlines 0.5, both on.
const LARGE: [u8; 12] = [0x12, 0x49, 0xf8, 0, 0, 0, 0x0d, 0x4f, 0xc0, 0, 0, 0];

/// Shows each of these, and once more where the bytes are no station.
fn show_each(
    stand: &mut Stand,
    sides: &mut Sides,
    all: Vec<Show>,
    tally: &mut RunTally,
    met: &mut Met<Case>,
) -> Checked {
    for show in all {
        let mut state = sides.state;
        state[0] = 0;
        stand.show(&mut sides.damaged(state), &show, tally, met)?;
        stand.show(sides, &show, tally, met)?;
    }
    Ok(())
}
