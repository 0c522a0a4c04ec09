//! Document 01's program, as the paper says it, over the original's pipeline: with nothing of the library.
//! What differs between the original and the paper (docs/DIFFERENCES.md) is done here: an absent kind is
//! refused; the card's on bit decides, also for the CRT; a reset, which the original's pipeline cannot
//! reach, and a turned frame, which the original would mix with the frames before the turn, build the effects anew, with their
//! present switches and preset. Of several glows the original switches the first.

use super::cases::Case;
use crate::cards::paper::{self, Opened, Record, Size, Value, GLOWS};
use crate::met::Met;
use crate::passes::chain::{name, preset, COLOUR, LUT, PERSISTENCE};
use crate::passes::effects::{built, effect};
use crate::passes::original::pipeline::PostProcessPipeline;

/// What is printed for an input. `met` is told what happened.
pub fn run(input: &[u8], met: &mut Met<Case>) -> Vec<u8> {
    let mut printed = Printed(String::new());
    // The paper's program prints a line before it ends: that is the error.
    if let Err(number) = play(input, &mut printed, met, |_, _| {}) {
        printed.refusal(number);
    }
    printed.0.into_bytes()
}

/// The card and each event that is taken or refused by the station, with what is printed of it. What
/// ends the reading is left out.
pub fn answers(input: &[u8]) -> Vec<(Vec<u8>, Vec<u8>)> {
    let mut printed = Printed(String::new());
    let mut all = Vec::new();
    let (mut read, mut wrote) = (0, 0);
    let each = |left: usize, printed: &Printed| {
        let end = input.len() - left;
        let line = printed.0.as_bytes()[wrote..].to_vec();
        all.push((input[read..end].to_vec(), line));
        (read, wrote) = (end, printed.0.len());
    };
    // Why the reading ended is no answer of the station.
    let _ = play(input, &mut printed, &mut Met::new(), each);
    all
}

struct Printed(String);

impl Printed {
    fn line(&mut self, line: &str) {
        self.0.push_str(line);
        self.0.push('\n');
    }

    fn refusal(&mut self, number: u32) {
        self.line(&format!("E {number}"));
    }
}

/// Reads the card and the events. `each` is told, after each of them, how many bytes are left and what
/// was printed so far. An error is the number that ends the reading.
fn play(
    input: &[u8],
    printed: &mut Printed,
    met: &mut Met<Case>,
    mut each: impl FnMut(usize, &Printed),
) -> Result<(), u32> {
    let Some((&length, rest)) = input.split_first() else {
        met.note(Case::NoLength);
        return Err(1);
    };
    let Some((card, mut rest)) = rest.split_at_checked(length.into()) else {
        met.note(Case::CutCard);
        return Err(1);
    };
    let opened = paper::open(card).inspect_err(|&number| met.note(Case::CardRefused(number)))?;
    met.note(Case::CardTaken);
    let mut station = Station::new(opened);
    each(rest.len(), printed);
    while let Some((&letter, after)) = rest.split_first() {
        rest = match letter {
            b'F' => station.frame(after, printed, met)?,
            b'R' => {
                station.reset(printed, met);
                after
            }
            b'S' => station.switch(after, printed, met)?,
            b'L' => {
                station.step(printed, met);
                after
            }
            _ => {
                met.note(Case::UnknownLetter);
                return Err(1);
            }
        };
        each(rest.len(), printed);
    }
    met.note(Case::End);
    Ok(())
}

/// The history words that are lent to each frame.
const HISTORY: usize = 8192;

struct Station {
    opened: Opened,
    pipeline: PostProcessPipeline,
    /// The size of the frame that each glow took last, if it holds any.
    held: [Option<Size>; GLOWS],
}

impl Station {
    fn new(opened: Opened) -> Self {
        let pipeline = built(&opened.records, &[], effect);
        Station {
            opened,
            pipeline,
            held: [None; GLOWS],
        }
    }

    fn records(&self) -> &[Record] {
        &self.opened.records
    }

    /// The place of the first record of that kind.
    fn place(&self, kind: u32) -> Option<usize> {
        self.records().iter().position(|record| record.kind == kind)
    }

    /// Which glows are on.
    fn lit(&self) -> Vec<usize> {
        let glows = self.opened.glows().enumerate();
        glows.filter(|(_, r)| r.on).map(|(glow, _)| glow).collect()
    }

    /// How many frames the histories of all glows hold, on or off.
    fn frames(&self) -> usize {
        let depth = |record: &Record| match record.settings[..] {
            [_, Value::Whole(depth, _)] => depth as usize,
            _ => panic!("a glow has a depth"),
        };
        self.opened.glows().map(depth).sum()
    }

    /// Gives the bytes after the frame, or why the reading ends.
    fn frame<'a>(
        &mut self,
        bytes: &'a [u8],
        printed: &mut Printed,
        met: &mut Met<Case>,
    ) -> Result<&'a [u8], u32> {
        let fine = |side: u8| (1..=32).contains(&side);
        let [width, height, rest @ ..] = bytes else {
            met.note(match bytes {
                [width] if !fine(*width) => Case::CutSizeBadWidth,
                _ => Case::CutSize,
            });
            return Err(1);
        };
        if !fine(*width) || !fine(*height) {
            met.note(Case::BadSize);
            return Err(8);
        }
        let (width, height) = (usize::from(*width), usize::from(*height));
        let Some((pixels, rest)) = rest.split_at_checked(3 * width * height) else {
            met.note(Case::CutPixels);
            return Err(1);
        };
        if let Some((number, case)) = self.refuses(width * height) {
            // The next event is read.
            met.note(case);
            printed.refusal(number);
            return Ok(rest);
        }
        let case = self.taken((width, height), met);
        if case == Case::Turned {
            self.pipeline = built(self.records(), &[], effect);
        }
        let word = |rgb: &[u8]| u32::from_be_bytes([0, rgb[0], rgb[1], rgb[2]]);
        let mut words: Vec<u32> = pixels.chunks(3).map(word).collect();
        self.pipeline.apply(&mut words, width, height);
        let mut line = String::from("F");
        for word in words {
            line.push_str(&format!(" {word:06X}"));
        }
        printed.line(&line);
        Ok(rest)
    }

    /// Why a frame of so many words is refused: what is lent is not enough for the histories, or a curve is read, which is lent empty.
    fn refuses(&self, count: usize) -> Option<(u32, Case)> {
        let curved = paper::curved(self.records()).is_some();
        if self.frames() * count > HISTORY {
            let case = match self.lit()[..] {
                _ if curved => Case::ShortHistoryCurved,
                [] => Case::ShortHistoryOff,
                _ => Case::ShortHistory,
            };
            return Some((10, case));
        }
        let on = self.records().iter().any(|r| r.kind == COLOUR && r.on);
        curved.then_some((16, Case::BadCurve(on)))
    }

    /// Which case a frame of this size is. The glows that are on take it.
    fn taken(&mut self, size: Size, met: &mut Met<Case>) -> Case {
        let count = |(width, height): Size| width * height;
        let lit = self.lit();
        if lit.len() > 1 {
            met.note(Case::Several(lit.len()));
        }
        if self.frames() * count(size) == HISTORY && !lit.is_empty() {
            met.note(Case::LongestHistory);
        }
        let before: Vec<Option<Size>> = lit.iter().map(|&glow| self.held[glow]).collect();
        let turned = |held: &Option<Size>| {
            held.is_some_and(|held| held != size && count(held) == count(size))
        };
        let meets = |held: &Option<Size>| *held == Some(size);
        let case = match before[..] {
            [] => Case::Frame,
            _ if before.iter().any(turned) => Case::Turned,
            _ if before.iter().all(meets) => Case::Blend,
            _ if before.iter().any(meets) => Case::FirstRefills,
            _ => Case::Refill,
        };
        met.note(case);
        for glow in lit {
            self.held[glow] = Some(size);
        }
        case
    }

    fn reset(&mut self, printed: &mut Printed, met: &mut Met<Case>) {
        if self.place(PERSISTENCE).is_none() {
            met.note(Case::ResetAbsent);
            return printed.refusal(12);
        }
        met.note(match self.held.iter().flatten().count() {
            0 => Case::Reset,
            1 => Case::ResetHeld,
            _ => Case::ResetSeveral,
        });
        self.held = [None; GLOWS];
        self.pipeline = built(self.records(), &[], effect);
        printed.line("R");
    }

    /// Gives the bytes after the switch, or why the reading ends.
    fn switch<'a>(
        &mut self,
        bytes: &'a [u8],
        printed: &mut Printed,
        met: &mut Met<Case>,
    ) -> Result<&'a [u8], u32> {
        let [kind, position, rest @ ..] = bytes else {
            met.note(Case::CutSwitch);
            return Err(1);
        };
        let on = match position {
            0 => false,
            1 => true,
            _ => {
                met.note(Case::SwitchByte);
                return Err(1);
            }
        };
        let Some(place) = self.place((*kind).into()) else {
            met.note(match kind {
                1..=10 => Case::SwitchAbsent,
                _ => Case::SwitchUnknown,
            });
            printed.refusal(12);
            return Ok(rest);
        };
        let later = self.lit().iter().any(|&glow| glow > 0);
        let record = &mut self.opened.records[place];
        let was = std::mem::replace(&mut record.on, on);
        met.note(Case::Switch(was, on));
        if record.kind == PERSISTENCE {
            if later {
                met.note(Case::FirstSwitched(was, on));
            }
            if was && !on && self.held[0].take().is_some() {
                met.note(Case::Forget);
            }
        }
        self.pipeline.set_enabled(name((*kind).into()), on);
        printed.line("S");
        Ok(rest)
    }

    fn step(&mut self, printed: &mut Printed, met: &mut Met<Case>) {
        let Some(place) = self.place(LUT) else {
            met.note(Case::StepAbsent);
            return printed.refusal(12);
        };
        self.pipeline.cycle_lut();
        let preset = preset(&self.pipeline);
        met.note(if preset == 0 {
            Case::StepRound
        } else {
            Case::Step
        });
        self.opened.records[place].settings[0] = Value::Whole(preset, 3);
        printed.line(&format!("L {preset}"));
    }
}
