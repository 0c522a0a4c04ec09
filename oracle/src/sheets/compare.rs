//! Many sheets, in threads that take one station after another.

use super::both::{play, Show};
use super::cases::Case;
use super::lists;
use super::paper;
use super::unpack;
use crate::bridge::{self, State, STATE};
use crate::met::Met;
use crate::random::Random;
use crate::runs::calls::Sizes;
use crate::runs::cards;
use crate::runs::noise::Noise;
use crate::runs::sides::{Checked, Sides};
use crate::runs::station::{Lengths, Station};
use crate::share::share;
use crate::steps::Mode;
use crate::tally::{SheetTally, Total};

/// What is played on one station, of which all that is random is drawn from the seed.
struct Work {
    seed: u64,
    plays: Plays,
}

type Plays = fn(&mut Stand, &mut SheetTally, &mut Met<Case>) -> Checked;

/// How many sheets a station plays one after another.
const SHEETS: usize = 10;

/// How many cards the sheets that are written out are played on.
const CARDS: usize = 12;

/// Words of the history buffer past the most that the frames of a station need.
const PAST: usize = 64;

/// A row and a column, and what is between them.
const THIN: [(usize, usize); 5] = [(1024, 1), (1, 1024), (512, 2), (2, 512), (1, 1)];

pub fn run(mode: Mode, total: &mut Total) {
    println!("Run sheets, with a model of document 02's P13 over the original's pipeline");
    unpack::run(total);
    let new = || SheetTally::new("sheets");
    let (tally, met) = share(&all(mode), new, SheetTally::join, compare);
    total.add_sheets(&tally);
    total.unmet += met.report();
    total.add_turned(met.count(Case::Turned));
    total.add_several([2, 3].map(|lit| met.count(Case::Glows(lit))).iter().sum());
    let curved = [true, false].map(|powers| met.count(Case::Curved(powers)));
    total.add_curved(curved.iter().sum());
}

/// The largest first, since they take long.
fn all(mode: Mode) -> Vec<Work> {
    let random = &mut Random::named("sheets");
    let (stations, short) = match mode {
        Mode::Quick => (5_000, 200),
        Mode::Full => (100_000, 4_000),
    };
    let lists: [(usize, Plays); 5] = [
        (1, largest),
        (1, most),
        (CARDS, written_out),
        (short, damaged),
        (stations, sheets),
    ];
    let mut all = Vec::new();
    for (count, plays) in lists {
        all.extend((0..count).map(|_| Work {
            seed: random.next(),
            plays,
        }));
    }
    all
}

fn compare(work: &Work, at: usize, tally: &mut SheetTally, met: &mut Met<Case>) {
    let seed = work.seed;
    let mut stand = Stand::new(seed);
    if let Err(text) = (work.plays)(&mut stand, tally, met) {
        tally.differ(at, || {
            let Stand { card, told, .. } = stand;
            format!("station {at}, seed {seed:#018x}, card {card:02x?}, {told}: {text}")
        });
    }
}

/// What a station's sheets are drawn from, and of a difference its card and the sheet in words.
struct Stand {
    random: Random,
    card: Vec<u8>,
    told: String,
}

impl Stand {
    fn new(seed: u64) -> Self {
        Stand {
            random: Random::new(seed),
            card: Vec::new(),
            told: String::new(),
        }
    }

    /// Opens a card, with a history buffer for frames of so many words, and any words in it.
    fn open(&mut self, card: Vec<u8>, largest: usize) -> Sides {
        let mut state = [0; STATE];
        bridge::open(&card, &mut state).expect("the card is a good one");
        let station = Station::open(&card).expect("the card is a good one");
        let words = station.frames().max(1) * largest + PAST;
        self.card = card;
        Sides::new(state, Noise::any(self.random.next()).words(words))
    }

    /// Plays a sheet, which is told where something differs.
    fn play(
        &mut self,
        sides: &mut Sides,
        show: &Show,
        tally: &mut SheetTally,
        met: &mut Met<Case>,
    ) -> Checked {
        let played = play(sides, show, &mut self.random, tally, met);
        if played.is_err() {
            let Show { sheet, lent, curve } = show;
            let bytes = &sheet[..sheet.len().min(SHOWN)];
            let length = sheet.len();
            self.told =
                format!("sheet of {length} bytes {bytes:02x?}, lent {lent:?}, curve {curve:x?}");
        }
        played
    }
}

/// How many bytes of a differing sheet are printed.
const SHOWN: usize = 120;

/// The station of these sides, which is a good one.
fn station(sides: &Sides) -> Station {
    let station = sides.machine.station();
    station.expect("a good station stays good").clone()
}

/// Sheets one after another. One in eight is played on a copy of the station of which something was changed.
fn sheets(stand: &mut Stand, tally: &mut SheetTally, met: &mut Met<Case>) -> Checked {
    let card = cards::card(&mut stand.random);
    let (longest, given): (usize, &[_]) = match stand.random.below(32) {
        0..24 => (8, &[]),
        24..31 => (20, &[]),
        _ => (1024, &THIN),
    };
    let words = match given {
        [] => longest * longest,
        _ => 1024,
    };
    let mut sides = stand.open(card, words);
    let mut sizes = Sizes::new(longest, given, &mut stand.random);
    for _ in 0..SHEETS {
        let room = sides.history.len();
        let show = lists::show(&station(&sides), &mut sizes, room, &mut stand.random);
        if !stand.random.one_in(8) {
            stand.play(&mut sides, &show, tally, met)?;
            continue;
        }
        let mut other = sides.damaged(changed(sides.state, &mut stand.random));
        if other.machine.station().is_some() {
            met.note(Case::Another);
        }
        stand.play(&mut other, &show, tally, met)?;
    }
    Ok(())
}

/// The state with another bit, or another byte.
fn changed(mut state: State, random: &mut Random) -> State {
    let place = random.below(state.len());
    let byte = 1 << random.below(8);
    let any = random.within(1, 255) as u8;
    state[place] ^= random.choose(&[byte, byte, any]);
    state
}

/// A short sheet: as it is, cut at each byte, lengthened, and with each bit changed, each time on a copy of the station.
fn damaged(stand: &mut Stand, tally: &mut SheetTally, met: &mut Met<Case>) -> Checked {
    let card = cards::card(&mut stand.random);
    let mut sides = stand.open(card, 4);
    let room = sides.history.len();
    // So that something may be held, and something pending.
    let before = lists::short(&station(&sides), &mut stand.random);
    let show = lists::exact(&station(&sides), &before, room, &mut stand.random);
    stand.play(&mut sides, &show, tally, met)?;
    let events = lists::short(&station(&sides), &mut stand.random);
    let good = lists::exact(&station(&sides), &events, room, &mut stand.random);
    let Show { sheet, lent, curve } = &good;
    let mut plays = |sheet: Vec<u8>| {
        let show = Show {
            sheet,
            // A frame that was changed may be larger.
            lent: more(*lent, room),
            curve: *curve,
        };
        let mut copy = sides.damaged(sides.state);
        stand.play(&mut copy, &show, tally, met)
    };
    plays(sheet.clone())?;
    for length in 0..sheet.len() {
        plays(sheet[..length].to_vec())?;
    }
    for behind in [&[0][..], &[1], &[0x80], &[0xff], &[0, 0], &[0, 1]] {
        plays([sheet, behind].concat())?;
    }
    for place in 0..8 * sheet.len() {
        let mut other = sheet.clone();
        lists::flip(&mut other, place);
        plays(other)?;
    }
    note_bits(sheet, met);
    Ok(())
}

/// What frames of up to four words more take.
fn more(lent: Lengths, room: usize) -> Lengths {
    Lengths {
        framebuffer: lent.framebuffer + 4,
        history: room,
        floats: lent.floats + 18,
        ints: lent.ints + 4,
    }
}

/// Notes which single bits make a bad sheet of a good one.
fn note_bits(sheet: &[u8], met: &mut Met<Case>) {
    for place in 0..8 * sheet.len() {
        let mut other = sheet.to_vec();
        lists::flip(&mut other, place);
        let bad = paper::read(&other).fault.is_some();
        met.note(if bad { Case::BitBad } else { Case::BitGood });
    }
}

/// The sheets at the limits, one after another.
fn written_out(stand: &mut Stand, tally: &mut SheetTally, met: &mut Met<Case>) -> Checked {
    let card = cards::card(&mut stand.random);
    let sheets = lists::written_out(&mut stand.random);
    let mut sides = stand.open(card, 2 * 1024);
    play_each(stand, &mut sides, sheets, tally, met)
}

/// The largest frames, on a chain of which a pass has a history and one has none.
fn largest(stand: &mut Stand, tally: &mut SheetTally, met: &mut Met<Case>) -> Checked {
    let sheets = lists::largest(&mut stand.random);
    let mut sides = stand.open(LARGE.to_vec(), 1024 * 1024);
    play_each(stand, &mut sides, sheets, tally, met)
}

/// Persistence 0.5 with depth 1 and scanlines 0.5, both on; persistence 0.5 with depth 2, on, and a LUT with preset 3 and strength 0, off.
const LARGE: [u8; 12] = [0x12, 0x49, 0xf8, 0, 0, 0, 0x0d, 0x4f, 0xc0, 0, 0, 0];
const FEW: [u8; 12] = [0x12, 0x49, 0xf8, 0, 0, 0, 0x12, 0x98, 0, 0, 0, 0];

/// As many events as a sheet has, on a chain that takes each of them.
fn most(stand: &mut Stand, tally: &mut SheetTally, met: &mut Met<Case>) -> Checked {
    let mut sides = stand.open(FEW.to_vec(), 1);
    play_each(stand, &mut sides, lists::most(), tally, met)
}

/// Plays these sheets with enough for all their frames.
fn play_each(
    stand: &mut Stand,
    sides: &mut Sides,
    sheets: Vec<Vec<u8>>,
    tally: &mut SheetTally,
    met: &mut Met<Case>,
) -> Checked {
    for sheet in sheets {
        let events = paper::read(&sheet).events;
        let room = sides.history.len();
        let show = lists::exact(&station(sides), &events, room, &mut stand.random);
        stand.play(sides, &Show { sheet, ..show }, tally, met)?;
    }
    Ok(())
}
