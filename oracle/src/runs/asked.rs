//! A switch that is asked for and then committed, by document 02's P7: lists of calls on stations of many cards, held to what is
//! written out here, with no model beside them.

use super::cards;
use super::sides::Checked;
use super::station::{held_bytes, HELD_END, MOST_FRAMES};
use super::still;
use crate::bridge::{self, Answer, Lent, State, STATE, UNTOLD};
use crate::cards::paper::{self, Record, Size};
use crate::met::{Listed, Met};
use crate::passes::chain::PERSISTENCE;
use crate::passes::curves::READ;
use crate::random::Random;
use crate::steps::Mode;
use crate::tally::RunTally;

/// What a call answered.
#[derive(Clone, Copy, PartialEq, Debug)]
pub enum Told {
    Accepted,
    Refused(u32),
}

impl Listed for Told {
    const ALL: &'static [Told] = &[
        Told::Accepted,
        Told::Refused(6),
        Told::Refused(8),
        Told::Refused(9),
        Told::Refused(10),
        Told::Refused(11),
        Told::Refused(12),
        Told::Refused(13),
        Told::Refused(14),
        Told::Refused(16),
        Told::Refused(17),
        Told::Refused(18),
    ];
}

/// Document 01's persistence of 0.5 and depth 1 twice, both on.
const TWICE: [u8; 13] = [0x12, 0x49, 0xf8, 0, 0, 0, 0x0a, 0x4f, 0xc0, 0, 0, 0, 0x40];

/// Document 01's persistence of 0.5 and depth 1, the same twice, then any cards.
pub fn cards(mode: Mode) -> Vec<Vec<u8>> {
    let random = &mut Random::named("asked");
    let count = match mode {
        Mode::Quick => 200,
        Mode::Full => 4_000,
    };
    let first = [still::card(0.5, 1).to_vec(), TWICE.to_vec()];
    let drawn = std::iter::repeat_with(|| cards::card(random));
    first.into_iter().chain(drawn).take(count).collect()
}

/// Plays every list on a station of the card.
pub fn compare(card: &Vec<u8>, at: usize, tally: &mut RunTally, met: &mut Met<Told>) {
    for (name, list) in LISTS {
        tally.begin();
        let opened = Tested::opened(card, tally, met);
        if let Err(text) = opened.and_then(|mut station| list(&mut station)) {
            tally.differ(at, || format!("{name}, card {card:02x?}: {text}"));
        }
    }
}

const LISTS: [(&str, fn(&mut Tested) -> Checked); 9] = [
    ("asked once", once),
    ("asked for what is not there", absent),
    ("asked for as it stands", present),
    ("switched in between", between),
    ("kept by every other call", kept),
    ("shown until the commit", shown),
    ("the first of several glows", first),
    ("the first of two shown until the commit", first_shown),
    ("pending switches that no station has", bad),
];

/// One switch is asked for, and no other until it is committed.
fn once(station: &mut Tested) -> Checked {
    station.refuses("commit", 18, COMMIT)?;
    for kind in station.kinds() {
        for on in [0, 1, 255] {
            station.frame()?;
            station.ask(kind, on)?;
            for other in station.kinds() {
                station.refuses_to_ask(other, on, 17)?;
                station.refuses_to_ask(other, 1 - on.min(1), 17)?;
            }
            for other in [0, 11, 255] {
                station.refuses_to_ask(other, on, 12)?;
            }
            station.commit()?;
            station.is_on(kind, on != 0)?;
            station.refuses("commit", 18, COMMIT)?;
        }
    }
    Ok(())
}

/// A kind that is not in the chain, and bytes that are no kind.
fn absent(station: &mut Tested) -> Checked {
    for kind in 0..=255 {
        if !station.kinds().contains(&kind) {
            station.refuses_to_ask(kind, 0, 12)?;
            station.refuses_to_ask(kind, 1, 12)?;
        }
    }
    Ok(())
}

/// The position in which a switch stands: nothing is another after the commit, not even what is held.
fn present(station: &mut Tested) -> Checked {
    for kind in station.kinds() {
        station.frame()?;
        let before = station.state;
        let on = bridge::enabled(&before, kind).unwrap_or_default();
        station.ask(kind, on as u8)?;
        station.commit()?;
        station.stands(&before)?;
    }
    Ok(())
}

/// A plain switch leaves what is pending, and the commit still does what was asked.
fn between(station: &mut Tested) -> Checked {
    for kind in station.kinds() {
        for on in [0, 1] {
            station.ask(kind, on)?;
            for position in [on, 1 - on] {
                let pending = station.pending();
                station.takes("switch", |state, _| {
                    bridge::set_enabled(state, kind, position)
                })?;
                station.is_on(kind, position != 0)?;
                same("pending switch", station.pending(), pending)?;
            }
            station.frame()?;
            station.commit()?;
            station.is_on(kind, on != 0)?;
        }
    }
    Ok(())
}

/// Each other call gives what it gives where nothing is pending, and leaves what is pending. So a card shows the switches as they are.
fn kept(station: &mut Tested) -> Checked {
    for kind in station.kinds() {
        for on in [0, 1] {
            station.ask(kind, on)?;
            for (what, call) in OTHERS {
                let pending = station.pending();
                let mut state = with_pending(&station.state, NONE);
                let mut lent = station.lent.clone();
                let asked = call(&mut state, &mut lent);
                station.call(what, asked, call)?;
                station.stands(&with_pending(&state, pending))?;
                if station.lent != lent {
                    return Err(format!("{what}: another picture, history, card or report"));
                }
            }
            station.commit()?;
        }
    }
    Ok(())
}

/// Persistence of 0.5 and depth 1 that is to be off: the ghost is shown up to the commit, and the frame after it as it is.
fn shown(station: &mut Tested) -> Checked {
    if station.state[1..8] != still::card(0.5, 1) {
        return Ok(());
    }
    station.shows(0xff_ffff, 0xff_ffff)?;
    station.ask(PERSISTENCE as u8, 0)?;
    station.shows(0x00_0000, 0x55_5555)?;
    station.shows(0xff_ffff, 0xaa_aaaa)?;
    station.commit()?;
    station.shows(0x00_0000, 0x00_0000)?;
    // On again, it begins anew.
    station.ask(PERSISTENCE as u8, 1)?;
    station.commit()?;
    station.shows(0xff_ffff, 0xff_ffff)?;
    station.shows(0x00_0000, 0x55_5555)
}

/// Of several glows the first is switched, and forgets where it is switched off: the others stand as on the card, and what they remember
/// stays.
fn first(station: &mut Tested) -> Checked {
    if station.glows().len() < 2 {
        return Ok(());
    }
    let kinds = station.records().into_iter().map(|record| record.kind);
    let place = kinds.take_while(|&kind| kind < PERSISTENCE).count();
    for on in [0, 1, 0] {
        station.frame()?;
        let mut sizes = station.state[held_bytes(0).start..HELD_END].to_vec();
        let mut asked = station.glows();
        if asked[0] && on == 0 {
            sizes[4 * place..][..4].fill(0);
        }
        asked[0] = on != 0;
        station.ask(PERSISTENCE as u8, on)?;
        station.commit()?;
        same("glows", station.glows(), asked)?;
        let here = station.state[held_bytes(0).start..HELD_END].to_vec();
        same("remembered sizes", here, sizes)?;
    }
    Ok(())
}

/// The first of two glows of 0.5 and depth 1 that is to be off: both ghosts are shown up to the commit, and the second one's after it.
fn first_shown(station: &mut Tested) -> Checked {
    if station.state[1..14] != TWICE {
        return Ok(());
    }
    station.shows(0xff_ffff, 0xff_ffff)?;
    station.ask(PERSISTENCE as u8, 0)?;
    // 555555 comes to the second one, which remembers white.
    station.shows(0x00_0000, 0x8d_8d8d)?;
    station.commit()?;
    station.shows(0x00_0000, 0x1c_1c1c)?;
    station.shows(0x00_0000, 0x00_0000)?;
    // On again, the first one begins anew, and the second goes on.
    station.ask(PERSISTENCE as u8, 1)?;
    station.commit()?;
    station.shows(0xff_ffff, 0xaa_aaaa)?;
    station.shows(0x00_0000, 0x8d_8d8d)
}

/// A pending switch that no station has: of a kind that is not in the chain, with a position but no kind, with a position above 1.
fn bad(station: &mut Tested) -> Checked {
    let kinds = station.kinds();
    let mut switches = vec![[255, 1], [0, 1], [0, 2], [0, 255]];
    for kind in 1..=11 {
        switches.extend(if kinds.contains(&kind) {
            [[kind, 2], [kind, 255]]
        } else {
            [[kind, 0], [kind, 1]]
        });
    }
    for pending in switches {
        station.state = with_pending(&station.state, pending);
        let asking: (&str, Call) = ("ask", |state, _| bridge::ask(state, PERSISTENCE as u8, 1));
        for (what, call) in OTHERS.into_iter().chain([asking, ("commit", COMMIT)]) {
            station.refuses(what, 13, call)?;
        }
    }
    Ok(())
}

type Call = fn(&mut State, &mut Buffers) -> Answer;

const COMMIT: Call = |state, _| bridge::commit(state);

/// Every call on a state but these two, accepted and refused.
#[rustfmt::skip]
const OTHERS: [(&str, Call); 22] = [
    ("frame", |state, lent| lent.frame(state, SIZE)),
    ("another frame", |state, lent| lent.frame(state, SIZE)),
    ("turned frame", |state, lent| lent.frame(state, (SIZE.1, SIZE.0))),
    ("frame without a column", |state, lent| lent.frame(state, (0, 1))),
    ("frame past its words", |state, lent| lent.frame(state, (7, 7))),
    ("frame without history", |state, lent| lent.lend(state, SIZE, [0, ENOUGH, READ])),
    ("frame without scratch", |state, lent| lent.lend(state, SIZE, [ENOUGH, 0, READ])),
    ("frame without a curve", |state, lent| lent.lend(state, SIZE, [ENOUGH, ENOUGH, 0])),
    ("reset", |state, _| bridge::reset(state)),
    ("step", |state, _| bridge::cycle_lut(state)),
    ("deepest history", |state, lent| bridge::set_depth(state, &mut lent.history, 8)),
    ("frame of the deepest history", |state, lent| lent.frame(state, SIZE)),
    ("smaller depth", |state, lent| bridge::set_depth(state, &mut lent.history, 2)),
    ("new depth without history", |state, _| bridge::set_depth(state, &mut [], 3)),
    ("depth above the limit", |state, lent| bridge::set_depth(state, &mut lent.history, 9)),
    ("switch on", |state, _| bridge::set_enabled(state, PERSISTENCE as u8, 1)),
    ("switch of no kind", |state, _| bridge::set_enabled(state, 0, 0)),
    ("depth", |state, _| bridge::depth(state)),
    ("is on", |state, _| bridge::enabled(state, PERSISTENCE as u8)),
    ("preset", |state, _| bridge::preset(state)),
    ("write", |state, lent| bridge::write(state, &mut lent.card)),
    ("write into no byte", |state, _| bridge::write(state, &mut [])),
];

/// Of the frames.
const SIZE: Size = (3, 2);
const COUNT: usize = SIZE.0 * SIZE.1;

/// Words that are enough for the deepest histories, and for either scratch.
const ENOUGH: usize = MOST_FRAMES * COUNT;

/// What is lent to the calls, and is looked at after them.
#[derive(Clone, PartialEq)]
struct Buffers {
    framebuffer: [u32; COUNT],
    history: [u32; ENOUGH],
    card: [u8; 83],
    reports: [u32; 2],
}

impl Buffers {
    fn new() -> Self {
        Buffers {
            framebuffer: [0x12_3456, 0xff_ffff, 0, 0x80_4020, 0xff_00ff, 0x01_0203],
            history: [0x55_aa33; ENOUGH],
            card: [0xa5; 83],
            reports: UNTOLD,
        }
    }

    fn frame(&mut self, state: &mut State, size: Size) -> Answer {
        self.lend(state, size, [ENOUGH, ENOUGH, READ])
    }

    /// A frame that is lent so many words of history, of either scratch and of a curve.
    fn lend(&mut self, state: &mut State, size: Size, words: [usize; 3]) -> Answer {
        let [history, scratch, curve] = words;
        let curve: Vec<f32> = (0..curve).map(|k| k as f32 / 255.0).collect();
        let lent = Lent {
            framebuffer: &mut self.framebuffer,
            history: &mut self.history[..history],
            floats: &mut vec![f32::NAN; scratch],
            ints: &mut vec![u32::MAX; scratch],
            curve: &curve,
            reports: &mut self.reports,
        };
        bridge::apply(state, size.0, size.1, lent)
    }
}

/// The two bytes in which nothing is pending.
const NONE: [u8; 2] = [0; 2];

/// The state with these bytes for its pending switch.
fn with_pending(state: &State, pending: [u8; 2]) -> State {
    let mut state = *state;
    state[HELD_END..].copy_from_slice(&pending);
    state
}

/// The station that is tested, what is lent to it, and the counts.
struct Tested<'a> {
    state: State,
    lent: Buffers,
    tally: &'a mut RunTally,
    met: &'a mut Met<Told>,
}

impl<'a> Tested<'a> {
    fn opened(card: &[u8], tally: &'a mut RunTally, met: &'a mut Met<Told>) -> Checked<Self> {
        let mut station = Tested {
            state: [0xa5; STATE],
            lent: Buffers::new(),
            tally,
            met,
        };
        station.takes("open", |state, _| bridge::open(card, state))?;
        same("pending switch", station.pending(), NONE)?;
        Ok(station)
    }

    /// The records of the chain, by the card that the state holds.
    fn records(&self) -> Vec<Record> {
        let card = &self.state[1..][..self.state[0].into()];
        paper::open(card).map_or(Vec::new(), |opened| opened.records)
    }

    /// Each kind of the chain once.
    fn kinds(&self) -> Vec<u8> {
        let records = self.records();
        let mut kinds: Vec<u8> = records.iter().map(|record| record.kind as u8).collect();
        kinds.dedup();
        kinds
    }

    /// Whether each glow of the chain is on.
    fn glows(&self) -> Vec<bool> {
        let records = self.records().into_iter();
        let glows = records.filter(|record| record.kind == PERSISTENCE);
        glows.map(|record| record.on).collect()
    }

    /// The two bytes of the pending switch.
    fn pending(&self) -> [u8; 2] {
        let [.., kind, on] = self.state;
        [kind, on]
    }

    /// Makes a call that has to answer this. A refused one leaves the state and what is lent.
    fn call(
        &mut self,
        what: &str,
        asked: Answer,
        call: impl FnOnce(&mut State, &mut Buffers) -> Answer,
    ) -> Checked {
        let (state, lent) = (self.state, self.lent.clone());
        let here = call(&mut self.state, &mut self.lent);
        same(what, here, asked)?;
        let told = asked.map_or_else(Told::Refused, |_| Told::Accepted);
        if !self.met.listed(told) {
            return Err(format!("{what}: {told:?}"));
        }
        self.met.note(told);
        self.tally.called(asked, 0);
        if asked.is_err() && (self.state != state || self.lent != lent) {
            return Err(format!("{what}: refused, and something is another"));
        }
        Ok(())
    }

    /// One that is accepted and reports nothing.
    fn takes(
        &mut self,
        what: &str,
        call: impl FnOnce(&mut State, &mut Buffers) -> Answer,
    ) -> Checked {
        self.call(what, Ok(0), call)
    }

    fn refuses(&mut self, what: &str, number: u32, call: Call) -> Checked {
        self.call(what, Err(number), call)
    }

    fn refuses_to_ask(&mut self, kind: u8, on: u8, number: u32) -> Checked {
        let what = format!("ask {kind} {on}");
        self.call(&what, Err(number), |state, _| bridge::ask(state, kind, on))
    }

    /// Asks for a switch: what is pending is another, and nothing else.
    fn ask(&mut self, kind: u8, on: u8) -> Checked {
        let after = with_pending(&self.state, [kind, u8::from(on != 0)]);
        let what = format!("ask {kind} {on}");
        self.takes(&what, |state, _| bridge::ask(state, kind, on))?;
        self.stands(&after)
    }

    /// Commits: the state is that of a switch at once, and nothing is pending.
    fn commit(&mut self) -> Checked {
        let [kind, on] = self.pending();
        let mut after = with_pending(&self.state, NONE);
        same("switch", bridge::set_enabled(&mut after, kind, on), Ok(0))?;
        self.takes("commit", COMMIT)?;
        self.stands(&after)
    }

    fn is_on(&mut self, kind: u8, on: bool) -> Checked {
        let what = format!("the switch of kind {kind}");
        self.call(&what, Ok(on.into()), |state, _| {
            bridge::enabled(state, kind)
        })
    }

    fn stands(&self, asked: &State) -> Checked {
        same("state", self.state, *asked)
    }

    /// A frame, so that something is held where persistence is on.
    fn frame(&mut self) -> Checked {
        still::accepted(self.lent.frame(&mut self.state, SIZE), self.tally)?;
        self.tally.frame(COUNT);
        Ok(())
    }

    /// A frame of one word, and what is shown of it.
    fn shows(&mut self, word: u32, picture: u32) -> Checked {
        self.lent.framebuffer[0] = word;
        still::accepted(self.lent.frame(&mut self.state, (1, 1)), self.tally)?;
        self.tally.frame(1);
        same("picture", self.lent.framebuffer[0], picture)
    }
}

fn same<T: PartialEq + std::fmt::Debug>(what: &str, here: T, asked: T) -> Checked {
    if here == asked {
        return Ok(());
    }
    Err(format!("{what}: here {here:02x?}, asked {asked:02x?}"))
}
