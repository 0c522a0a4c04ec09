//! What may happen to a sheet. A comparison that does not meet all of it has failed.

use super::model::{Lending, Played, Turn};
use super::paper::{self, Event, Fault, Field, Read};
use crate::met::{Listed, Met};
use crate::passes::chain::{COLOUR, LUT};
use crate::passes::curves;
use crate::runs::station::{Lengths, Station};

/// Which event it is.
#[derive(Clone, Copy, PartialEq, Debug)]
pub enum Which {
    Frame,
    Reset,
    Switch,
    Step,
    Ask,
    Commit,
}

impl Which {
    pub fn of(event: &Event) -> Self {
        match event {
            Event::Frame(..) => Which::Frame,
            Event::Reset => Which::Reset,
            Event::Switch(..) => Which::Switch,
            Event::Step => Which::Step,
            Event::Ask(..) => Which::Ask,
            Event::Commit => Which::Commit,
        }
    }
}

#[derive(Clone, Copy, PartialEq, Debug)]
pub enum Case {
    /// A sheet that is played: with so many events, and with so many bits of padding.
    Events(usize),
    Padding(usize),
    /// One of which all events are accepted, all are refused, and some of each.
    AllAccepted,
    AllRefused,
    SomeRefused,
    /// An event that is accepted, and one that is refused by this number.
    Accepted(Which),
    Refused(Which, u32),
    /// One that is refused between two accepted frames.
    Between(Which),
    /// A switch or an ask of a kind that no pass has.
    Unknown(Which, u8),
    /// An accepted frame whose words begin at this bit of a byte.
    Offset(usize),
    /// A frame of this size, which is refused or accepted; and one of which a side is 0, or both are.
    Size(usize, usize),
    NoWidth,
    NoHeight,
    NoSides,
    /// A frame that is refused by this number, whose words the framebuffer had some room for.
    Unwritten(u32),
    /// An accepted frame that leaves words of the framebuffer past it, and one that leaves words of a picture before it.
    Past,
    Smaller,
    /// A sheet with accepted frames, for which not a word more is lent than they take; and one for which more of both scratches is.
    Exact,
    ScratchPast,
    /// An accepted frame through a chain in which so many glows are on; one that fills the history of the first of these, meets it, and
    /// fills it since it was turned; and the first one of a sheet, which meets what stood in the history before it.
    Glows(usize),
    Refill,
    Blend,
    Turned,
    BlendAcross,
    /// An accepted frame whose channels start from a curve: that of the original's powers, and another one.
    Curved(bool),
    /// A reset while something is held.
    ResetHeld,
    /// A sheet that begins with a pending switch, one that ends with one, and one that commits what it asked for.
    PendingBefore,
    PendingAfter,
    AskedAndCommitted,
    /// A sheet that is refused: by this, also where an event before it would have changed something.
    Bad(Fault),
    BadBehind(Fault),
    /// One of which this bit of the padding alone is set; one with zero bytes left over and nothing else; one of so few bytes.
    PaddingBit(usize),
    ZerosLeftOver,
    Bytes(usize),
    /// A frame of a size that no station takes, whose words are cut off: 20, and not 8.
    CutOfRefused,
    /// So many events, and nothing behind their count.
    NothingBehind(usize),
    /// A sheet on a bad station: one that could be played, and one that could not.
    BadStation(bool),
    /// One on a state that was changed, and is another good station's.
    Another,
    /// A sheet of which one bit was changed: a bad one, and another that is played.
    BitBad,
    BitGood,
}

impl Listed for Case {
    const ALL: &'static [Case] = &[
        Case::Events(0),
        Case::Events(1),
        Case::Events(paper::MOST),
        Case::Padding(0),
        Case::Padding(1),
        Case::Padding(2),
        Case::Padding(3),
        Case::Padding(4),
        Case::Padding(5),
        Case::Padding(6),
        Case::Padding(7),
        Case::AllAccepted,
        Case::AllRefused,
        Case::SomeRefused,
        Case::Accepted(Which::Frame),
        Case::Accepted(Which::Reset),
        Case::Accepted(Which::Switch),
        Case::Accepted(Which::Step),
        Case::Accepted(Which::Ask),
        Case::Accepted(Which::Commit),
        Case::Refused(Which::Frame, 8),
        Case::Refused(Which::Frame, 9),
        Case::Refused(Which::Frame, 10),
        Case::Refused(Which::Frame, 11),
        Case::Refused(Which::Frame, 16),
        Case::Refused(Which::Reset, 12),
        Case::Refused(Which::Switch, 12),
        Case::Refused(Which::Step, 12),
        Case::Refused(Which::Ask, 12),
        Case::Refused(Which::Ask, 17),
        Case::Refused(Which::Commit, 18),
        Case::Between(Which::Frame),
        Case::Between(Which::Reset),
        Case::Between(Which::Switch),
        Case::Between(Which::Step),
        Case::Between(Which::Ask),
        Case::Between(Which::Commit),
        Case::Unknown(Which::Switch, 0),
        Case::Unknown(Which::Switch, 11),
        Case::Unknown(Which::Switch, 12),
        Case::Unknown(Which::Switch, 13),
        Case::Unknown(Which::Switch, 14),
        Case::Unknown(Which::Switch, 15),
        Case::Unknown(Which::Ask, 0),
        Case::Unknown(Which::Ask, 11),
        Case::Unknown(Which::Ask, 12),
        Case::Unknown(Which::Ask, 13),
        Case::Unknown(Which::Ask, 14),
        Case::Unknown(Which::Ask, 15),
        Case::Offset(0),
        Case::Offset(1),
        Case::Offset(2),
        Case::Offset(3),
        Case::Offset(4),
        Case::Offset(5),
        Case::Offset(6),
        Case::Offset(7),
        Case::Size(1, 1),
        Case::Size(1024, 1),
        Case::Size(1, 1024),
        Case::Size(1024, 1024),
        Case::Size(1025, 1),
        Case::Size(1, 1025),
        Case::Size(paper::LONGEST, 1),
        Case::Size(1, paper::LONGEST),
        Case::Size(paper::LONGEST, paper::LONGEST),
        Case::NoWidth,
        Case::NoHeight,
        Case::NoSides,
        Case::Unwritten(8),
        Case::Unwritten(9),
        Case::Unwritten(10),
        Case::Unwritten(11),
        Case::Unwritten(16),
        Case::Past,
        Case::Smaller,
        Case::Exact,
        Case::ScratchPast,
        Case::Glows(0),
        Case::Glows(1),
        Case::Glows(2),
        Case::Glows(3),
        Case::Refill,
        Case::Blend,
        Case::Turned,
        Case::BlendAcross,
        Case::Curved(false),
        Case::Curved(true),
        Case::ResetHeld,
        Case::PendingBefore,
        Case::PendingAfter,
        Case::AskedAndCommitted,
        Case::Bad(Fault::Cut(Field::Count)),
        Case::Bad(Fault::Cut(Field::Number)),
        Case::Bad(Fault::Cut(Field::Width)),
        Case::Bad(Fault::Cut(Field::Height)),
        Case::Bad(Fault::Cut(Field::Word)),
        Case::Bad(Fault::Cut(Field::Kind)),
        Case::Bad(Fault::Cut(Field::Position)),
        Case::Bad(Fault::Number(6)),
        Case::Bad(Fault::Number(7)),
        Case::Bad(Fault::Padding),
        Case::Bad(Fault::LeftOver),
        Case::BadBehind(Fault::Cut(Field::Number)),
        Case::BadBehind(Fault::Cut(Field::Width)),
        Case::BadBehind(Fault::Cut(Field::Height)),
        Case::BadBehind(Fault::Cut(Field::Word)),
        Case::BadBehind(Fault::Cut(Field::Kind)),
        Case::BadBehind(Fault::Cut(Field::Position)),
        Case::BadBehind(Fault::Number(6)),
        Case::BadBehind(Fault::Number(7)),
        Case::BadBehind(Fault::Padding),
        Case::BadBehind(Fault::LeftOver),
        Case::PaddingBit(0),
        Case::PaddingBit(1),
        Case::PaddingBit(2),
        Case::PaddingBit(3),
        Case::PaddingBit(4),
        Case::PaddingBit(5),
        Case::PaddingBit(6),
        Case::ZerosLeftOver,
        Case::Bytes(0),
        Case::Bytes(1),
        Case::CutOfRefused,
        Case::NothingBehind(1),
        Case::NothingBehind(paper::MOST),
        Case::BadStation(false),
        Case::BadStation(true),
        Case::Another,
        Case::BitBad,
        Case::BitGood,
    ];
}

/// A sheet, as its bytes and as what they say.
type Sheet<'a> = (&'a [u8], &'a Read);

/// What playing it answers, and what happened at each of its events.
type Done<'a> = (Result<Played, u32>, &'a [Turn<'a>]);

/// Notes what happened to a sheet on a station that stood so before it and stands so now, or is a bad one.
pub fn note(
    sheet: Sheet,
    (played, turns): Done,
    lent: &Lending,
    stations: [Option<&Station>; 2],
    met: &mut Met<Case>,
) {
    let [Some(before), Some(after)] = stations else {
        return met.note(Case::BadStation(sheet.1.fault.is_none()));
    };
    let Ok(played) = played else {
        return note_bad(sheet, lent, before, met);
    };
    let mut watch = Watch::new(lent, met);
    for turn in turns {
        watch.event(turn);
    }
    note_played(sheet, played, &lent.lengths, [before, after], met);
}

/// A sheet that is looked at event by event.
struct Watch<'a> {
    met: &'a mut Met<Case>,
    lent: &'a Lending<'a>,
    /// The first bit of the next event.
    at: usize,
    /// The words of the largest picture so far, and which events were refused since the last one.
    largest: usize,
    refused: Vec<Which>,
    /// Whether an ask was accepted.
    asked: bool,
}

impl<'a> Watch<'a> {
    fn new(lent: &'a Lending, met: &'a mut Met<Case>) -> Self {
        Watch {
            met,
            lent,
            at: Field::Count.bits(),
            largest: 0,
            refused: Vec::new(),
            asked: false,
        }
    }

    fn event(&mut self, turn: &Turn) {
        match turn.answer {
            Ok(_) => self.accepted(&turn.before, turn.event),
            Err(number) => self.refused(turn.event, number),
        }
        self.at += turn.event.bits();
    }

    fn accepted(&mut self, before: &Station, event: &Event) {
        self.met.note(Case::Accepted(Which::of(event)));
        match event {
            Event::Frame(size, words) => {
                let offset = self.at + Event::Frame(*size, Vec::new()).bits();
                self.met.note(Case::Offset(offset % 8));
                self.met.note_listed(Case::Size(size.0, size.1));
                self.shown(before, *size, words.len());
            }
            Event::Reset if before.holds() => self.met.note(Case::ResetHeld),
            Event::Ask(..) => self.asked = true,
            Event::Commit if self.asked => self.met.note(Case::AskedAndCommitted),
            _ => {}
        }
    }

    /// A frame of so many words.
    fn shown(&mut self, before: &Station, size: (usize, usize), count: usize) {
        if self.largest > 0 {
            for which in self.refused.drain(..) {
                self.met.note(Case::Between(which));
            }
        }
        self.refused.clear();
        if self.lent.lengths.framebuffer > count {
            self.met.note(Case::Past);
        }
        if self.largest > count {
            self.met.note(Case::Smaller);
        }
        let lit = before.lit();
        self.met.note(Case::Glows(lit.len()));
        let meets = lit.first().map(|&first| before.meets(first, size));
        match meets {
            None => {}
            Some(true) => self.met.note(Case::Blend),
            Some(false) if before.turned(size) => self.met.note(Case::Turned),
            Some(false) => self.met.note(Case::Refill),
        }
        if self.largest == 0 && meets == Some(true) {
            self.met.note(Case::BlendAcross);
        }
        if let Some(gamma) = before.curved().filter(|_| before.is_on(COLOUR)) {
            let powers = curves::power(gamma);
            let read = &self.lent.curve[..curves::READ];
            self.met.note(Case::Curved(curves::same(read, &powers)));
        }
        self.largest = self.largest.max(count);
    }

    fn refused(&mut self, event: &Event, number: u32) {
        self.met.note(Case::Refused(Which::of(event), number));
        self.refused.push(Which::of(event));
        match event {
            Event::Frame((width, height), words) => {
                self.met.note_listed(Case::Size(*width, *height));
                match (width, height) {
                    (0, 0) => self.met.note(Case::NoSides),
                    (0, _) => self.met.note(Case::NoWidth),
                    (_, 0) => self.met.note(Case::NoHeight),
                    _ => {}
                }
                if !words.is_empty() && self.lent.lengths.framebuffer > 0 {
                    self.met.note(Case::Unwritten(number));
                }
            }
            Event::Switch(kind, _) => self.met.note_listed(Case::Unknown(Which::Switch, *kind)),
            Event::Ask(kind, _) => self.met.note_listed(Case::Unknown(Which::Ask, *kind)),
            _ => {}
        }
    }
}

fn note_played(
    (sheet, read): Sheet,
    played: Played,
    lent: &Lengths,
    [before, after]: [&Station; 2],
    met: &mut Met<Case>,
) {
    met.note_listed(Case::Events(read.events.len()));
    met.note_listed(Case::Padding(8 * sheet.len() - end(&read.events)));
    match played.places() {
        [0, 0] => {}
        [_, 0] => met.note(Case::AllAccepted),
        [0, _] => met.note(Case::AllRefused),
        _ => met.note(Case::SomeRefused),
    }
    let taken = Lengths {
        framebuffer: played.ints,
        history: before.frames() * played.ints,
        floats: played.floats,
        ints: played.ints,
    };
    if played.ints > 0 && *lent == taken {
        met.note(Case::Exact);
    }
    if played.ints > 0 && lent.floats > taken.floats && lent.ints > taken.ints {
        met.note(Case::ScratchPast);
    }
    if before.pending.is_some() {
        met.note(Case::PendingBefore);
    }
    if after.pending.is_some() {
        met.note(Case::PendingAfter);
    }
}

/// The bit behind the last of these events.
fn end(events: &[Event]) -> usize {
    paper::places(events).pop().unwrap_or_default()
}

/// Notes a sheet that was refused on a good station.
fn note_bad((sheet, read): Sheet, lent: &Lending, station: &Station, met: &mut Met<Case>) {
    let Read { events, fault } = read;
    let fault = fault.expect("a good station plays a good sheet");
    met.note(Case::Bad(fault));
    if events.iter().any(|event| changes(station, event, lent)) {
        met.note(Case::BadBehind(fault));
    }
    met.note_listed(Case::Bytes(sheet.len()));
    if let [high, low] = *sheet {
        let count = u16::from_be_bytes([high, low]);
        met.note_listed(Case::NothingBehind(count.into()));
    }
    let end = end(events);
    let behind = || (end..8 * sheet.len()).filter(|&place| is_set(sheet, place));
    match fault {
        Fault::LeftOver if behind().next().is_none() => met.note(Case::ZerosLeftOver),
        Fault::Padding => {
            let mut set = behind();
            if let (Some(place), None) = (set.next(), set.next()) {
                met.note_listed(Case::PaddingBit(place - end));
            }
        }
        Fault::Cut(Field::Word) if is_too_long(sheet, end) => met.note(Case::CutOfRefused),
        _ => {}
    }
}

fn is_set(sheet: &[u8], place: usize) -> bool {
    sheet[place / 8] >> (7 - place % 8) & 1 == 1
}

/// Whether the frame at this bit has a side above 1024.
fn is_too_long(sheet: &[u8], at: usize) -> bool {
    let width = at + Field::Number.bits();
    let height = width + Field::Width.bits();
    let side = |from: usize| {
        let places = from..from + Field::Width.bits();
        places.fold(0, |side, place| {
            2 * side + usize::from(is_set(sheet, place))
        })
    };
    side(width) > 1024 || side(height) > 1024
}

/// Whether an event would change something that can be seen, were it the first.
fn changes(station: &Station, event: &Event, lent: &Lending) -> bool {
    let has = |kind: u8| station.has(kind.into());
    match event {
        Event::Frame((width, height), _) => station
            .frame(*width, *height, &lent.lengths, lent.curve)
            .is_ok(),
        Event::Reset => station.holds(),
        Event::Switch(kind, on) => has(*kind) && station.is_on((*kind).into()) != *on,
        Event::Step => station.has(LUT),
        Event::Ask(kind, _) => has(*kind) && station.pending.is_none(),
        Event::Commit => station.pending.is_some(),
    }
}
