//! One station on both sides, from call to call: the library's 134 bytes and lent buffers, and the machine.

use std::cmp::Ordering;

use super::calls::{Call, Frame};
use super::cases::{Bad, Case, Line, Short};
use super::machine::Machine;
use super::noise::Noise;
use super::station::{float_room, Lengths, Pending, Station, DEEPEST};
use crate::bridge::{self, Answer, Lent, State, UNTOLD};
use crate::cards::paper::{Size, NOTHING};
use crate::met::Met;
use crate::passes::chain::{BLOOM, COLOUR, LUT, NTSC, PERSISTENCE};
use crate::passes::curves::{self, Odd, ODD};
use crate::random::Random;
use crate::reports::Reports;
use crate::tally::RunTally;

pub struct Sides {
    pub machine: Machine,
    pub state: State,
    pub history: Vec<u32>,
    /// How many calls were made: the switch of which kind is looked at after each.
    made: usize,
    /// How the last call changed the depth, if it did, and whether any did.
    last_resized: Option<Ordering>,
    ever_resized: bool,
}

/// What a check gives, or the difference in words.
pub type Checked<T = ()> = Result<T, String>;

/// The kinds whose switches are looked at, and two bytes that are none.
const LOOKED_AT: [u8; 12] = [1, 2, 3, 4, 5, 6, 7, 8, 9, 10, 0, 11];

/// What stands in a card buffer before a card is written.
const MARK: u8 = 0xa5;

/// The bytes of the longest card.
const CARD: usize = 83;

impl Sides {
    /// Both sides at this state, with these words in the history buffer.
    pub fn new(state: State, history: Vec<u32>) -> Self {
        Sides {
            machine: Machine::resumed(&state, history.clone()),
            state,
            history,
            made: 0,
            last_resized: None,
            ever_resized: false,
        }
    }

    /// The same with another state.
    pub fn damaged(&self, state: State) -> Self {
        Sides {
            made: self.made,
            ..Sides::new(state, self.history.clone())
        }
    }

    /// Makes one call on both sides and holds all that it gives to the machine's. Then a switch is looked at, one kind after
    /// another, and the preset.
    pub fn call(
        &mut self,
        call: &Call,
        random: &mut Random,
        tally: &mut RunTally,
        met: &mut Met<Case>,
    ) -> Checked {
        let before = self.machine.station().cloned();
        let asked = match call {
            Call::Frame(frame) => self.frame(frame, random, tally, met)?,
            Call::Reset => {
                let asked = self.machine.reset();
                answered(bridge::reset(&mut self.state), asked)?
            }
            Call::Switch(kind, on) => {
                let asked = self.machine.switch(*kind, *on != 0);
                let here = bridge::set_enabled(&mut self.state, *kind, *on);
                answered(here, asked)?
            }
            Call::Ask(kind, on) => {
                let asked = self.machine.ask(*kind, *on != 0);
                answered(bridge::ask(&mut self.state, *kind, *on), asked)?
            }
            Call::Commit => {
                let asked = self.machine.commit();
                answered(bridge::commit(&mut self.state), asked)?
            }
            Call::Step => {
                let asked = self.machine.step();
                answered(bridge::cycle_lut(&mut self.state), asked)?
            }
            Call::SetDepth(depth, words) => self.set_depth(*depth, *words)?,
            Call::Write(room) => self.write(*room)?,
            Call::Depth => {
                let here = bridge::depth(&self.state);
                answered(here, self.machine.depth())?
            }
        };
        same("state", self.state, self.machine.state())?;
        same_words("history", &self.history, &self.machine.history)?;
        tally.called(asked, self.history.len());
        note(call, before.as_ref(), asked, met);
        self.follow(call, before.as_ref(), asked, met);
        self.look_at_switch(LOOKED_AT[self.made % LOOKED_AT.len()], met)?;
        self.look_at_preset(met)?;
        self.made += 1;
        Ok(())
    }

    /// The switch of every byte, kind or not.
    pub fn look_at_every_switch(&self, met: &mut Met<Case>) -> Checked {
        (0..=255).try_for_each(|kind| self.look_at_switch(kind, met))
    }

    fn look_at_switch(&self, kind: u8, met: &mut Met<Case>) -> Checked {
        let here = bridge::enabled(&self.state, kind);
        let asked = answered(here, self.machine.enabled(kind))
            .map_err(|text| format!("the switch of kind {kind}, {text}"))?;
        met.note(match asked {
            Ok(on) => Case::Enabled(on != 0),
            Err(12) if !(1..=10).contains(&kind) => Case::EnabledUnknown,
            Err(number) => Case::EnabledRefused(number),
        });
        if let (Ok(on), Some(station)) = (asked, self.machine.station()) {
            let mut later = station.later_glows().into_iter();
            let otherwise = later.any(|place| station.records()[place].on != (on != 0));
            if u32::from(kind) == PERSISTENCE && otherwise {
                met.note(Case::EnabledBeside(on != 0));
            }
        }
        Ok(())
    }

    fn look_at_preset(&self, met: &mut Met<Case>) -> Checked {
        let here = bridge::preset(&self.state);
        let asked =
            answered(here, self.machine.preset()).map_err(|text| format!("the preset, {text}"))?;
        met.note(asked.map_or_else(Case::PresetRefused, Case::Preset));
        Ok(())
    }

    /// Tells the list of cases what a call was after a new depth, and keeps whether it is one.
    fn follow(
        &mut self,
        call: &Call,
        before: Option<&Station>,
        asked: Answer,
        met: &mut Met<Case>,
    ) {
        let last = self.last_resized.take();
        let (Ok(_), Some(before)) = (asked, before) else {
            return;
        };
        if let Some(last) = last {
            note_after(last, call, before, met);
        }
        match call {
            Call::Frame(_) if self.ever_resized => met.note(Case::AfterResizing),
            Call::SetDepth(depth, _) => {
                self.last_resized = Some(before.beside(*depth));
                self.ever_resized = true;
            }
            _ => {}
        }
    }

    /// A new depth, and what tells of it beside the state: the depth that is reported, and the card that is written.
    fn set_depth(&mut self, depth: u8, words: usize) -> Checked<Answer> {
        let asked = self.machine.set_depth(depth, words);
        let lent = &mut self.history[..words];
        let asked = answered(bridge::set_depth(&mut self.state, lent, depth), asked)?;
        same("depth", bridge::depth(&self.state), self.machine.depth())?;
        self.write(CARD).map(|_| asked)
    }

    fn write(&self, room: usize) -> Checked<Answer> {
        let (mut here, mut asked) = (vec![MARK; room], vec![MARK; room]);
        let answer = self.machine.write(&mut asked);
        let given = answered(bridge::write(&self.state, &mut here), answer)?;
        same("card buffer", here, asked)?;
        Ok(given)
    }

    fn frame(
        &mut self,
        frame: &Frame,
        random: &mut Random,
        tally: &mut RunTally,
        met: &mut Met<Case>,
    ) -> Checked<Answer> {
        let Frame { size, lent, .. } = frame;
        let mut here = frame.words(random.next());
        let mut asked = here.clone();
        let curve = frame.curve.words(random.next());
        let counted = self.machine.frame(&mut asked, *size, lent, &curve);
        let answer = counted.map(|_| 0);
        note_curve(&curve, self.machine.station(), answer, met);

        let mut reports = UNTOLD;
        let mut scratch = Scratch::new(lent, random);
        let buffers = Lent {
            framebuffer: &mut here,
            history: &mut self.history[..lent.history],
            floats: &mut scratch.floats,
            ints: &mut scratch.ints,
            curve: &curve,
            reports: &mut reports,
        };
        let given = bridge::apply(&mut self.state, size.0, size.1, buffers);
        let answer = answered(given, answer)?;
        same("reports", reports, counted.map_or(UNTOLD, Reports::places))?;
        same_words("framebuffer", &here, &asked)?;
        // Only the first words of the scratch are free, and only after an accepted frame.
        scratch.unchanged_past(answer.map_or((0, 0), |_| *size))?;
        if let Ok(counted) = counted {
            tally.frame(size.0 * size.1);
            self.by_the_paper(counted, *size)?;
            note_reports(counted, met);
        }
        Ok(answer)
    }

    /// That the original takes the samples of document 02's P9 for a frame of this size. A frame changes no setting and no switch, so the
    /// station may be that of after it.
    fn by_the_paper(&self, counted: Reports, size: Size) -> Checked {
        let paper = self.machine.station().map(|station| station.samples(size));
        if paper == Some(counted.samples) {
            return Ok(());
        }
        Err(format!(
            "{counted:?} of the original, by the paper {paper:?} samples"
        ))
    }
}

/// Tells the list of cases what this was.
fn note(call: &Call, before: Option<&Station>, asked: Answer, met: &mut Met<Case>) {
    if let Some(before) = before {
        note_pending(call, before, asked, met);
    }
    match (call, asked, before) {
        (Call::Frame(frame), Ok(_), Some(before)) => note_taken(frame, before, met),
        (Call::Frame(frame), Err(number), _) => {
            met.note(Case::Frame(number));
            if let Some(fault) = before.and_then(|before| fault(before, frame)) {
                met.note(fault);
            }
        }
        (Call::Switch(kind, on), Ok(_), Some(before)) => {
            note_switch((*kind).into(), *on != 0, before, met);
        }
        (Call::Switch(kind, _), Err(number), _) => {
            met.note(Case::SwitchRefused(number));
            if number == 12 && !(1..=10).contains(kind) {
                met.note(Case::SwitchUnknown);
            }
        }
        (Call::Ask(kind, on), Ok(_), Some(before)) => {
            met.note(Case::Asked(before.is_on((*kind).into()), *on != 0));
        }
        (Call::Ask(kind, _), Err(number), _) => {
            met.note(Case::AskRefused(number));
            if number == 12 && !(1..=10).contains(kind) {
                met.note(Case::AskUnknown);
            }
        }
        // Noted with what was pending.
        (Call::Commit, Ok(_), Some(_)) => {}
        (Call::Commit, Err(number), _) => met.note(Case::CommitRefused(number)),
        (Call::Reset, Ok(_), Some(before)) => note_reset(before, met),
        (Call::Reset, Err(number), _) => met.note(Case::ResetRefused(number)),
        (Call::Step, Ok(preset), Some(before)) => note_step(preset, before, met),
        (Call::Step, Err(number), _) => met.note(Case::StepRefused(number)),
        (Call::SetDepth(depth, words), Ok(_), Some(before)) => {
            note_resized(*depth, *words, before, met);
        }
        (Call::SetDepth(depth, words), Err(number), _) => {
            met.note(Case::SetDepthRefused(number));
            if let Some(before) = before {
                note_not_resized(*depth, *words, before, number, met);
            }
        }
        (Call::Write(_), Ok(_), _) => met.note(Case::Written),
        (Call::Write(room), Err(number), _) => {
            met.note(Case::WriteRefused(number));
            if before.is_some_and(|before| before.opened.written().len() == room + 1) {
                met.note(Case::OneShort(Short::Card));
            }
        }
        (Call::Depth, Ok(_), Some(before)) => {
            met.note(Case::Depth);
            if before.glows().len() > 1 {
                met.note(Case::DepthOfSeveral);
            }
        }
        (Call::Depth, Err(number), _) => met.note(Case::DepthRefused(number)),
        (_, Ok(_), None) => panic!("a bad station takes no call"),
    }
}

/// Whether a glow behind the first is on.
fn later_lit(station: &Station) -> bool {
    let mut later = station.later_glows().into_iter();
    later.any(|place| station.records()[place].on)
}

/// Whether one holds frames.
fn later_holds(station: &Station) -> bool {
    let mut later = station.later_glows().into_iter();
    later.any(|place| station.held[place] != NOTHING)
}

fn note_reset(before: &Station, met: &mut Met<Case>) {
    let holding = before.held.iter().filter(|&&held| held != NOTHING).count();
    met.note(match holding {
        0 => Case::Reset,
        1 => Case::ResetHeld,
        _ => Case::ResetSeveral,
    });
}

/// The most samples of any frame, by document 02's P9: at 1024 by 1024 with both blurs on, at 64.
const MOST: u32 = 393_019_392;

fn note_reports(counted: Reports, met: &mut Met<Case>) {
    met.note(Case::Clipped(counted.clipped > 0));
    met.note(Case::Sampled(counted.samples > 0));
    if counted.samples == MOST {
        met.note(Case::MostSampled);
    }
}

/// Tells the list of cases how the blurs of an accepted frame go along its sides.
fn note_blurs((width, height): Size, station: &Station, met: &mut Met<Case>) {
    let [bleed, radius] = [NTSC, BLOOM].map(|kind| station.radius(kind));
    let lines = [
        (Line::NtscRow, bleed, width),
        (Line::BloomRow, radius, width),
        (Line::BloomColumn, radius, height),
    ];
    for (line, radius, places) in lines {
        let Some(radius) = radius else {
            continue;
        };
        met.note(Case::Radius(line, radius.cmp(&places)));
        if places == 1 {
            met.note(Case::OnePlace(line));
        }
    }
    if bleed.is_some() && radius.is_some() {
        met.note(Case::BothBlurs);
    }
}

fn note_taken(frame: &Frame, before: &Station, met: &mut Met<Case>) {
    met.note(taken(frame.size, before));
    if before.has(PERSISTENCE) {
        let glows = before.glows();
        let lit = before.lit().into_iter();
        let bits = lit.map(|place| 1usize << (place - glows[0]));
        met.note(Case::Glows(glows.len(), bits.sum()));
    }
    note_blurs(frame.size, before, met);
    let curve = before.curved().map_or(0, |_| curves::READ);
    if (frame.lent, frame.curve.len) == (needed(before, frame.size), curve) {
        met.note(Case::Exact);
    }
    met.note_listed(Case::Size(frame.size.0, frame.size.1));
}

/// Tells the list of cases what a frame was with this curve. A frame changes no setting and no switch, so the station may be that of
/// before or of after it.
fn note_curve(curve: &[f32], station: Option<&Station>, answer: Answer, met: &mut Met<Case>) {
    let Some(station) = station else {
        if !curves::is_good(curve) {
            met.note(Case::CurveToo(13));
        }
        return;
    };
    match (answer, station.curved()) {
        (Ok(_), Some(gamma)) => note_read(curve, gamma, station, met),
        (Ok(_), None) => note_unread(curve, station, met),
        (Err(16), _) => note_refused(curve, station, met),
        (Err(number), Some(_)) if !curves::is_good(curve) => met.note(Case::CurveToo(number)),
        _ => {}
    }
}

fn note_read(curve: &[f32], gamma: f32, station: &Station, met: &mut Met<Case>) {
    let (read, past) = curve.split_at(curves::READ);
    met.note(if station.is_on(COLOUR) {
        Case::Curved(curves::same(read, &curves::power(gamma)))
    } else {
        Case::CurveOff
    });
    met.note_listed(Case::CurveOf(curve.len()));
    if curves::has(read, Odd::MinusZero) {
        met.note(Case::CurveMinusZero);
    }
    if past.first().is_some_and(|word| !curves::is_taken(word)) {
        met.note(Case::CurvePast);
    }
}

fn note_refused(curve: &[f32], station: &Station, met: &mut Met<Case>) {
    if !station.is_on(COLOUR) {
        met.note(Case::CurveBadOff);
    }
    let Some(read) = curve.get(..curves::READ) else {
        return met.note_listed(Case::CurveShort(curve.len()));
    };
    let mut bad = (0..).zip(read).filter(|(_, word)| !curves::is_taken(word));
    let (Some((place, &word)), None) = (bad.next(), bad.next()) else {
        return;
    };
    let odd = ODD.into_iter().find(|&odd| curves::has(&[word], odd));
    let cases = [odd.map(Case::CurveWord), Some(Case::CurveWordAt(place))];
    for case in cases.into_iter().flatten() {
        met.note_listed(case);
    }
}

fn note_unread(curve: &[f32], station: &Station, met: &mut Met<Case>) {
    let bad = match curve.len() {
        0 => Bad::Empty,
        1..curves::READ => Bad::Short,
        _ if curves::is_good(curve) => return,
        _ => Bad::Word,
    };
    met.note(if station.has(COLOUR) {
        Case::Unread(bad)
    } else {
        Case::UnreadAbsent(bad)
    });
}

/// Which case an accepted frame is.
fn taken(size: Size, before: &Station) -> Case {
    if !before.has(PERSISTENCE) {
        return Case::FrameAbsent;
    }
    let lit = before.lit();
    let Some((&first, later)) = lit.split_first() else {
        return Case::FrameOff;
    };
    if before.turned(size) {
        return Case::Turned;
    }
    let meets = before.meets(first, size);
    let otherwise = |&place: &usize| before.meets(place, size) != meets;
    match (meets, later.iter().any(otherwise)) {
        (true, false) => Case::Blend,
        (false, false) => Case::Refill,
        (true, true) => Case::LaterRefills,
        (false, true) => Case::FirstRefills,
    }
}

fn note_switch(kind: u32, on: bool, before: &Station, met: &mut Met<Case>) {
    let was = before.is_on(kind);
    met.note(Case::Switch(was, on));
    if kind != PERSISTENCE {
        return;
    }
    if before.glows().len() > 1 {
        met.note(if later_lit(before) {
            Case::FirstSwitched(was, on)
        } else {
            Case::FirstSwitchedAlone(was, on)
        });
    }
    if was && !on && before.count() > 0 {
        met.note(if later_holds(before) {
            Case::ForgetBeside
        } else {
            Case::Forget
        });
    }
}

/// Tells the list of cases what a call was while a switch was pending.
fn note_pending(call: &Call, before: &Station, asked: Answer, met: &mut Met<Case>) {
    let Some(Pending { kind, on }) = before.pending else {
        return;
    };
    let was = before.is_on(kind.into());
    let off = u32::from(kind) == PERSISTENCE && was && !on;
    if let Call::Commit = call {
        met.note(Case::Committed(was, on));
        if off && before.count() > 0 {
            met.note(if later_holds(before) {
                Case::CommitForgetsBeside
            } else {
                Case::CommitForgets
            });
        }
        return;
    }
    met.note(Case::Kept(call.which(), asked.is_ok()));
    match (call, asked) {
        (Call::Ask(..), Err(12)) => met.note(Case::AskAbsentPending),
        (Call::Switch(other, _), Ok(_)) if *other == kind => met.note(Case::SwitchBetween),
        (Call::Frame(frame), Ok(_)) if off && before.held_by_first() == frame.size => {
            met.note(Case::BlendPending);
        }
        (Call::Write(_), Ok(_)) if was != on => met.note(Case::WrittenPending),
        _ => {}
    }
}

fn note_step(preset: u32, before: &Station, met: &mut Met<Case>) {
    met.note(if preset == 0 {
        Case::StepRound
    } else {
        Case::Step
    });
    if !before.is_on(LUT) {
        met.note(Case::StepOff);
    }
}

fn note_resized(depth: u8, words: usize, before: &Station, met: &mut Met<Case>) {
    let beside = before.beside(depth);
    let holds = before.count() > 0;
    met.note(match (holds, before.is_on(PERSISTENCE)) {
        (true, _) => Case::Resized(beside),
        (false, true) => Case::ResizedEmpty(beside),
        (false, false) => Case::ResizedOff(beside),
    });
    if later_holds(before) {
        met.note(match (holds, before.is_on(PERSISTENCE)) {
            (true, _) => Case::ResizedBeside(beside),
            (false, true) => Case::ResizedEmptyBeside(beside),
            (false, false) => Case::ResizedOffBeside(beside),
        });
    }
    met.note_listed(Case::ResizedTo(depth));
    let [asked, as_before] = before.words_of(depth);
    if holds && words == asked {
        met.note(Case::ResizedExact);
    }
    if !holds && words == 0 {
        met.note(Case::ResizedUnlent);
    }
    if words < as_before {
        met.note(Case::ResizedBelow);
    }
}

fn note_not_resized(depth: u8, words: usize, before: &Station, number: u32, met: &mut Met<Case>) {
    let [asked, as_before] = before.words_of(depth);
    if number == 10 && words + 1 == asked {
        met.note(Case::OneShort(Short::NewDepth));
    }
    if number == 10 && words >= as_before {
        met.note(Case::ShortAsBefore);
    }
    if number == 12 && usize::from(depth) > DEEPEST {
        met.note(Case::AboveAbsent);
    }
    if number == 6 && words < asked {
        met.note(Case::AboveShort);
    }
}

/// Tells the list of cases what an accepted call was straight after a new depth, which was so beside the one before it.
fn note_after(beside: Ordering, call: &Call, before: &Station, met: &mut Met<Case>) {
    match call {
        Call::SetDepth(..) => met.note(Case::ResizedAgain),
        Call::Frame(frame) if before.count() > 0 => {
            met.note(if before.held_by_first() == frame.size {
                Case::BlendResized(beside)
            } else {
                Case::RefillResized(beside)
            })
        }
        _ => {}
    }
}

/// Exactly what a frame needs.
pub fn needed(station: &Station, (width, height): (usize, usize)) -> Lengths {
    let count = width * height;
    Lengths {
        framebuffer: count,
        history: station.frames() * count,
        floats: float_room(width, height),
        ints: count,
    }
}

/// Which fault of a refused frame is looked for among the cases: a side, or one word less than the limit of one
/// buffer where all else is enough.
fn fault(station: &Station, frame: &Frame) -> Option<Case> {
    let (width, height) = frame.size;
    if width == 0 || height == 0 {
        return Some(Case::SideZero);
    }
    if width.checked_mul(height).is_none() {
        return Some(Case::SideHuge);
    }
    if width > 1024 || height > 1024 {
        return (width == 1025 || height == 1025).then_some(Case::Side1025);
    }
    let (lent, needed) = (&frame.lent, needed(station, frame.size));
    let history = if station.remembers() {
        Short::History
    } else {
        Short::HistoryOff
    };
    let lengths = [
        (lent.framebuffer, needed.framebuffer, Short::Framebuffer),
        (lent.history, needed.history, history),
        (lent.floats, needed.floats, Short::Floats),
        (lent.ints, needed.ints, Short::Ints),
    ];
    let short: Vec<_> = lengths
        .iter()
        .filter(|(lent, needed, _)| lent < needed)
        .collect();
    match short[..] {
        [&(lent, needed, which)] if lent + 1 == needed => Some(Case::OneShort(which)),
        [&(lent, _, Short::History | Short::HistoryOff)] => {
            of_several(station, lent, width * height)
        }
        _ => None,
    }
}

/// Which fault a history of so many words is, if there are several glows: enough for the deepest alone, or for those that are on.
fn of_several(station: &Station, lent: usize, count: usize) -> Option<Case> {
    let glows = station.glows();
    let mut depths = glows.iter().map(|&place| station.depth_at(place));
    let lit = station.frames_of(&station.lit());
    match lent / count {
        _ if glows.len() < 2 || lent % count != 0 => None,
        frames if frames == lit => Some(Case::ShortOfAll),
        frames if depths.all(|depth| depth <= frames) => Some(Case::ShortOfSum),
        _ => None,
    }
}

/// The two scratch buffers of a call.
#[derive(Clone)]
pub struct Scratch {
    pub floats: Vec<f32>,
    pub ints: Vec<u32>,
    noise: [Noise; 2],
}

impl Scratch {
    pub fn new(lent: &Lengths, random: &mut Random) -> Self {
        let noise = [Noise::of(random.next()), Noise::of(random.next())];
        Scratch {
            floats: noise[0].floats(lent.floats),
            ints: noise[1].words(lent.ints),
            noise,
        }
    }

    /// That no word past those that a frame of that size may use was written.
    pub fn unchanged_past(&self, (width, height): (usize, usize)) -> Checked {
        self.unchanged_from(float_room(width, height), width * height)
    }

    /// That no word from these places on was written.
    pub fn unchanged_from(&self, free: usize, count: usize) -> Checked {
        let floats = self.floats[free..].iter().map(|x| x.to_bits());
        let ints = self.ints[count..].iter().copied();
        if let Some(place) = self.noise[0].changed(free, floats) {
            return Err(format!("f32 word {place} of the scratch written"));
        }
        if let Some(place) = self.noise[1].changed(count, ints) {
            return Err(format!("u32 word {place} of the scratch written"));
        }
        Ok(())
    }
}

/// Gives what had to be answered, if it was.
fn answered(here: Answer, asked: Answer) -> Checked<Answer> {
    same("answer", here, asked)?;
    Ok(asked)
}

pub fn same<T: PartialEq + std::fmt::Debug>(what: &str, here: T, asked: T) -> Checked {
    if here == asked {
        return Ok(());
    }
    Err(format!(
        "{what}: here {here:02x?}, by the model {asked:02x?}"
    ))
}

pub fn same_words(what: &str, here: &[u32], asked: &[u32]) -> Checked {
    if here == asked {
        return Ok(());
    }
    let place = (0..).find(|&place| here.get(place) != asked.get(place));
    let place = place.unwrap_or_default();
    let different = here.iter().zip(asked).filter(|(a, b)| a != b).count();
    Err(format!(
        "{different} words of the {what}, the first at {place}: here {:08x?}, by the model {:08x?}",
        here.get(place),
        asked.get(place)
    ))
}
