//! What may happen at a card. A comparison that does not meet all of it has failed.

use super::paper::{self, fields, Field, Number, GLOW, GLOWS};
use crate::met::{Listed, Met};

#[derive(Clone, Copy, PartialEq, Debug)]
pub enum Case {
    Taken,
    /// One that is taken with so many glows, and with so many passes.
    Glows(usize),
    Passes(usize),
    /// Refused by this number: the card, its station (13) or the buffer (14).
    Refused(Number),
    /// A size that is remembered: by this glow, which is on and has so many before it; and where the chain has no pass.
    HeldBy(usize),
    HeldPast,
    /// One for which the station is refused: by a glow that is off, and by another pass.
    HeldOff,
    HeldByAnother,
    /// Refused by 3: so many passes.
    Overfull(u32),
    /// Refused by 15: the second kind stands after the first, which is above it.
    OutOfOrder(u32, u32),
    /// The same of a glow that is not the first one: a second or a third, so many of them before it.
    GlowOutOfOrder(usize),
    /// Refused by 5: the kind of the record before it, and one of an earlier record, which is below the one before it too.
    DoubledNext,
    DoubledBelow,
    /// The same of a fourth glow.
    FourthNext,
    FourthBelow,
    /// The card ends with a kind that is refused by this number, or with a good one, whose on bit is torn off (1).
    EndsWithKind(Number),
    /// A gamma that is taken, as it stands on the card.
    Gamma(Gamma),
    /// A gamma that is refused: one step above 4, far above it, and none that is finite.
    GammaAbove,
    GammaFarAbove,
    GammaNotFinite,
}

/// A gamma at the limits of document 02's P3, or any.
#[derive(Clone, Copy, PartialEq, Debug)]
pub enum Gamma {
    /// Raised to 0.01: below 0, -0, 0, subnormal, one step below 0.01, and any other that is below it.
    Negative,
    MinusZero,
    Zero,
    Subnormal,
    StepBelow,
    Below,
    /// 0.01, 1, what lies one step beside them, 4 and one step below it: as they are.
    Lowest,
    StepAboveLowest,
    StepBelowOne,
    One,
    StepAboveOne,
    StepBelowFour,
    Four,
    Other,
}

const GAMMAS: [Gamma; 14] = [
    Gamma::Negative,
    Gamma::MinusZero,
    Gamma::Zero,
    Gamma::Subnormal,
    Gamma::StepBelow,
    Gamma::Below,
    Gamma::Lowest,
    Gamma::StepAboveLowest,
    Gamma::StepBelowOne,
    Gamma::One,
    Gamma::StepAboveOne,
    Gamma::StepBelowFour,
    Gamma::Four,
    Gamma::Other,
];

/// The numbers that may be answered.
const NUMBERS: [Number; 10] = [1, 2, 3, 4, 5, 6, 7, 13, 14, 15];

/// Those of a kind, and that of the on bit after it.
const OF_A_KIND: [Number; 4] = [4, 5, 15, 1];

/// How many pairs ten kinds have.
const PAIRS: usize = 45;

/// How many passes a card has that is taken, at most.
const PASSES: usize = 12;

/// Those that stand by themselves.
const FIRST: [Case; 19] = [
    Case::Taken,
    Case::HeldBy(0),
    Case::HeldBy(1),
    Case::HeldBy(2),
    Case::HeldPast,
    Case::HeldOff,
    Case::HeldByAnother,
    Case::DoubledNext,
    Case::DoubledBelow,
    Case::FourthNext,
    Case::FourthBelow,
    Case::GlowOutOfOrder(1),
    Case::GlowOutOfOrder(2),
    Case::Overfull(13),
    Case::Overfull(14),
    Case::Overfull(15),
    Case::GammaAbove,
    Case::GammaFarAbove,
    Case::GammaNotFinite,
];

const COUNT: usize = FIRST.len()
    + (GLOWS + 1)
    + (PASSES + 1)
    + NUMBERS.len()
    + OF_A_KIND.len()
    + PAIRS
    + GAMMAS.len();

const ALL: [Case; COUNT] = {
    let mut all = [Case::Taken; COUNT];
    let mut place = 0;
    while place < FIRST.len() {
        all[place] = FIRST[place];
        place += 1;
    }
    let mut next = 0;
    while next <= GLOWS {
        all[place] = Case::Glows(next);
        place += 1;
        next += 1;
    }
    next = 0;
    while next <= PASSES {
        all[place] = Case::Passes(next);
        place += 1;
        next += 1;
    }
    next = 0;
    while next < NUMBERS.len() {
        all[place] = Case::Refused(NUMBERS[next]);
        place += 1;
        next += 1;
    }
    next = 0;
    while next < OF_A_KIND.len() {
        all[place] = Case::EndsWithKind(OF_A_KIND[next]);
        place += 1;
        next += 1;
    }
    next = 0;
    while next < GAMMAS.len() {
        all[place] = Case::Gamma(GAMMAS[next]);
        place += 1;
        next += 1;
    }
    let mut before = 2;
    while before <= 10 {
        let mut kind = 1;
        while kind < before {
            all[place] = Case::OutOfOrder(before, kind);
            place += 1;
            kind += 1;
        }
        before += 1;
    }
    assert!(place == COUNT);
    all
};

impl Listed for Case {
    const ALL: &'static [Case] = &ALL;
}

/// Notes what happened at a card: what was answered, and where reading it stopped.
pub fn note(card: &[u8], answer: Result<usize, Number>, stopped: usize, met: &mut Met<Case>) {
    if let Some(gamma) = gamma(card, stopped) {
        met.note(gamma);
    }
    let number = match answer {
        Ok(_) => return note_taken(card, met),
        Err(number) => number,
    };
    met.note(Case::Refused(number));
    if let (3, &[first, ..]) = (number, card) {
        met.note_listed(Case::Overfull(u32::from(first) & 15));
    }
    note_kinds(number, &kinds(card, stopped), met);
    // Reading stops at the kind, or at the on bit after it.
    let end = if number == 1 { stopped } else { stopped + 4 };
    if OF_A_KIND.contains(&number) && end == 8 * card.len() && ends_with_kind(card, end) {
        met.note(Case::EndsWithKind(number));
    }
}

/// Notes how many glows and passes a card has that is taken.
fn note_taken(card: &[u8], met: &mut Met<Case>) {
    let opened = paper::open(card).expect("the card is taken");
    met.note(Case::Taken);
    met.note_listed(Case::Glows(opened.glows().count()));
    met.note_listed(Case::Passes(opened.records.len()));
}

/// Notes what a size is that a place is made to remember, where the card is a good one.
pub fn note_held(card: &[u8], at: usize, answer: Result<usize, Number>, met: &mut Met<Case>) {
    let Ok(opened) = paper::open(card) else {
        return;
    };
    let glows = opened.records.iter().take(at).filter(|r| r.kind == GLOW);
    let case = match (opened.records.get(at), answer) {
        (None, Ok(_)) => Case::HeldPast,
        (Some(record), Err(13)) if record.kind != GLOW => Case::HeldByAnother,
        (Some(record), Err(13)) if !record.on => Case::HeldOff,
        (Some(_), Ok(_)) => Case::HeldBy(glows.count()),
        _ => return,
    };
    met.note_listed(case);
}

/// Notes what was refused at the last of these kinds.
fn note_kinds(number: Number, kinds: &[u32], met: &mut Met<Case>) {
    let &[.., before, kind] = kinds else {
        return;
    };
    let glows = kinds.iter().filter(|&&kind| kind == GLOW).count();
    match number {
        15 => {
            met.note(Case::OutOfOrder(before, kind));
            if kind == GLOW && glows > 1 {
                met.note_listed(Case::GlowOutOfOrder(glows - 1));
            }
        }
        5 if kind == GLOW && kind < before => met.note(Case::FourthBelow),
        5 if kind == GLOW => met.note(Case::FourthNext),
        5 if kind < before => met.note(Case::DoubledBelow),
        5 if kind == before => met.note(Case::DoubledNext),
        _ => {}
    }
}

/// What the gamma of a card is, where reading came so far.
fn gamma(card: &[u8], stopped: usize) -> Option<Case> {
    let (record, _) = places(card).find(|&(_, kind)| kind == 7)?;
    // The kind, the switch and three settings stand before it.
    let at = record + 5 + 3 * 32;
    if stopped < at {
        return None;
    }
    let x = f32::from_bits(number(card, at, 32)?);
    Some(match x {
        _ if !x.is_finite() => Case::GammaNotFinite,
        _ if x == 4.0f32.next_up() => Case::GammaAbove,
        _ if x > 4.0 => Case::GammaFarAbove,
        _ => Case::Gamma(listed(x)),
    })
}

fn listed(x: f32) -> Gamma {
    const LOWEST: f32 = 0.01;
    match x {
        _ if x < 0.0 => Gamma::Negative,
        _ if x == 0.0 && x.is_sign_negative() => Gamma::MinusZero,
        _ if x == 0.0 => Gamma::Zero,
        _ if x.is_subnormal() => Gamma::Subnormal,
        _ if x == LOWEST.next_down() => Gamma::StepBelow,
        _ if x < LOWEST => Gamma::Below,
        _ if x == LOWEST => Gamma::Lowest,
        _ if x == LOWEST.next_up() => Gamma::StepAboveLowest,
        _ if x == 1.0f32.next_down() => Gamma::StepBelowOne,
        _ if x == 1.0 => Gamma::One,
        _ if x == 1.0f32.next_up() => Gamma::StepAboveOne,
        _ if x == 4.0f32.next_down() => Gamma::StepBelowFour,
        _ if x == 4.0 => Gamma::Four,
        _ => Gamma::Other,
    }
}

/// The bits of a card from this place on, so many of them, where they are all there.
fn number(card: &[u8], at: usize, width: usize) -> Option<u32> {
    (at..at + width).try_fold(0, |value, place| {
        let byte = card.get(place / 8)?;
        Some(value << 1 | u32::from(byte >> (7 - place % 8) & 1))
    })
}

/// The kinds of the records that begin up to this bit.
pub fn kinds(card: &[u8], upto: usize) -> Vec<u32> {
    places(card)
        .take_while(|&(at, _)| at <= upto)
        .map(|(_, kind)| kind)
        .collect()
}

fn ends_with_kind(card: &[u8], end: usize) -> bool {
    places(card).any(|(at, _)| at + 4 == end)
}

/// Where the kinds of a card's records stand, by the widths of the records before them, and which they are.
fn places(card: &[u8]) -> impl Iterator<Item = (usize, u32)> + '_ {
    let mut at = 8;
    std::iter::from_fn(move || {
        let kind = number(card, at, 4)?;
        let found = (at, kind);
        let width = |field: &Field| match field {
            Field::Preset => 3,
            Field::Byte | Field::Count(_) => 8,
            Field::Limited(_) | Field::Within(..) | Field::Raised(..) => 32,
        };
        // After a kind that is none nothing is found.
        at = fields(kind).map_or(usize::MAX - 8, |fields| {
            at + 5 + fields.iter().map(width).sum::<usize>()
        });
        Some(found)
    })
}
