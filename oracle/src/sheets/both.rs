//! One sheet on both sides: played by the library, on guarded copies of all that it is lent, and by the model; and its calls made one by
//! one through the library.

use super::cases::{self, Case};
use super::model::{self, Lending, Played};
use super::paper::{self, Event};
use crate::bridge::{self, Answer, UNTOLD};
#[cfg(not(fuzz))]
use crate::guarded;
use crate::met::Met;
use crate::passes::curves::Curve;
use crate::random::Random;
use crate::runs::ours::Ours;
use crate::runs::sides::{same, same_words, Checked, Sides};
use crate::runs::station::Lengths;
use crate::tally::SheetTally;

// The fuzzer's calls are all guarded.
#[cfg(fuzz)]
use crate::bridge as guarded;

/// A sheet, and what is lent for all its events.
pub struct Show {
    pub sheet: Vec<u8>,
    pub lent: Lengths,
    pub curve: Curve,
}

/// Plays a sheet on both sides, and holds all that it leaves to what the model leaves and to what its calls leave. Where they agree, it is
/// noted what happened.
pub fn play(
    sides: &mut Sides,
    show: &Show,
    random: &mut Random,
    tally: &mut SheetTally,
    met: &mut Met<Case>,
) -> Checked {
    let Show { sheet, lent, curve } = show;
    let curve = curve.words(random.next());
    let ours = Ours::laid(sides, lent, &curve, random);
    let mut here = ours.clone();
    let given = here.play(sheet);

    let (read, mut turns) = (paper::read(sheet), Vec::new());
    let before = sides.machine.station().cloned();
    let mut asked = ours.framebuffer.clone();
    let lending = Lending {
        lengths: *lent,
        curve: &curve,
    };
    let keep = |turn, _: &[u32]| turns.push(turn);
    let played = model::play(&mut sides.machine, &read, &mut asked, &lending, keep);
    tally.sheet(played.map(|_| 0), here.history.len());
    same("answer", given, played.map(|_| 0))?;
    let reports = played.map_or(UNTOLD, Played::places);
    same("reports", here.reports, reports)?;
    same("state", here.state, sides.machine.state())?;
    same_words("framebuffer", &here.framebuffer, &asked)?;
    same_words("history", &here.history, &sides.machine.history)?;
    // Only the first words of the scratch are free, and only after an accepted frame.
    let free = played.unwrap_or_default();
    here.scratch.unchanged_from(free.floats, free.ints)?;
    if let Ok(played) = played {
        let called = one_by_one(ours, &read.events, played, &here);
        called.map_err(|text| format!("one by one, {text}"))?;
    }
    sides.state = here.state;
    sides.history = here.history;

    for turn in &turns {
        tally.event(turn.event, turn.answer);
    }
    let stations = [before.as_ref(), sides.machine.station()];
    cases::note((sheet, &read), (played, &turns), &lending, stations, met);
    Ok(())
}

/// Makes the calls of a sheet on what stood there before it. They have to leave what playing it left `here`.
fn one_by_one(mut ours: Ours, events: &[Event], played: Played, here: &Ours) -> Checked {
    let mut counts = [0; 2];
    for event in events {
        let refused = ours.call(event).is_err();
        counts[usize::from(refused)] += 1;
    }
    same("reports", here.reports, counts)?;
    same("state", here.state, ours.state)?;
    same_words("framebuffer", &here.framebuffer, &ours.framebuffer)?;
    same_words("history", &here.history, &ours.history)?;
    ours.scratch.unchanged_from(played.floats, played.ints)
}

impl Ours<'_> {
    fn play(&mut self, sheet: &[u8]) -> Answer {
        let (state, lent) = self.parts();
        guarded::play(state, sheet, lent)
    }

    /// The call that an event is.
    fn call(&mut self, event: &Event) -> Answer {
        let state = &mut self.state;
        match event {
            Event::Frame(size, words) => self.frame(*size, words),
            Event::Reset => bridge::reset(state),
            Event::Switch(kind, on) => bridge::set_enabled(state, *kind, (*on).into()),
            Event::Step => bridge::cycle_lut(state),
            Event::Ask(kind, on) => bridge::ask(state, *kind, (*on).into()),
            Event::Commit => bridge::commit(state),
        }
    }
}
