//! One source on both sides: shown by the library, on guarded copies of all that it is lent, and by the model; and its enlarged frame
//! shown by the library as any other.

use super::cases::{self, Case};
use super::model;
use crate::bridge::{Answer, Source, UNTOLD};
use crate::cards::paper::Size;
#[cfg(not(fuzz))]
use crate::guarded;
use crate::met::Met;
use crate::passes::curves::Curve;
use crate::random::Random;
use crate::reports::Reports;
use crate::runs::ours::Ours;
use crate::runs::sides::{same, same_words, Checked, Sides};
use crate::runs::station::Lengths;
use crate::tally::RunTally;

// The fuzzer's calls are all guarded.
#[cfg(fuzz)]
use crate::bridge as guarded;

/// A source, and what is lent beside it.
#[derive(Clone)]
pub struct Show {
    pub picture: Vec<u8>,
    pub size: Size,
    pub colours: Vec<u32>,
    pub lent: Lengths,
    pub curve: Curve,
}

impl Show {
    pub fn source(&self) -> Source<'_> {
        Source {
            picture: &self.picture,
            width: self.size.0,
            height: self.size.1,
            colours: &self.colours,
        }
    }
}

/// Shows a source on both sides, and holds all that it leaves to what the model leaves and to what its enlarged frame leaves. Where they
/// agree, it is noted what happened, and it gives whether it was accepted.
pub fn show(
    sides: &mut Sides,
    show: &Show,
    random: &mut Random,
    tally: &mut RunTally,
    met: &mut Met<Case>,
) -> Checked<bool> {
    let (source, lent) = (show.source(), &show.lent);
    let curve = show.curve.words(random.next());
    let ours = Ours::laid(sides, lent, &curve, random);
    let mut here = ours.clone();
    let given = here.show(source);

    let before = sides.machine.station().cloned();
    let mut asked = ours.framebuffer.clone();
    let counted = model::show(&mut sides.machine, source, &mut asked, lent, &curve);
    let answer = counted.map(|_| 0);
    tally.called(answer, here.history.len());
    same("answer", given, answer)?;
    same(
        "reports",
        here.reports,
        counted.map_or(UNTOLD, Reports::places),
    )?;
    same("state", here.state, sides.machine.state())?;
    same_words("framebuffer", &here.framebuffer, &asked)?;
    same_words("history", &here.history, &sides.machine.history)?;
    // Only the first words of the scratch are free, and only after an accepted frame.
    let free = counted.map_or((0, 0), |_| model::sides(source));
    here.scratch.unchanged_past(free)?;
    if !model::is_bad(source) {
        let applied = as_a_frame(ours, source, given, &here);
        applied.map_err(|text| format!("as a frame, {text}"))?;
    }
    sides.state = here.state;
    sides.history = here.history;

    if counted.is_ok() {
        tally.frame(free.0 * free.1);
    }
    cases::note(show, &curve, before.as_ref(), (answer, &asked), met);
    Ok(answer.is_ok())
}

/// Shows the enlarged frame of a good source as any other, on what stood there before. It has to leave what the source left `here`.
fn as_a_frame(mut ours: Ours, source: Source, given: Answer, here: &Ours) -> Checked {
    let size = model::sides(source);
    same("answer", ours.frame(size, &model::enlarged(source)), given)?;
    same("reports", here.reports, ours.reports)?;
    same("state", here.state, ours.state)?;
    same_words("framebuffer", &here.framebuffer, &ours.framebuffer)?;
    same_words("history", &here.history, &ours.history)?;
    ours.scratch.unchanged_past(given.map_or((0, 0), |_| size))
}

impl Ours<'_> {
    fn show(&mut self, source: Source) -> Answer {
        let (state, lent) = self.parts();
        guarded::show(state, source, lent)
    }
}
