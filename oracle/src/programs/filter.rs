//! What program `filter` writes: the files as ppm.rs reads them, under the original's pipeline of the card, with the curve that is given. The frames
//! of a run go through one pipeline, which begins anew at a turned frame, and each picture stands in the file of its frame, with the
//! header as it was.

use super::card::refused;
use super::cases::OfRun;
use super::curve::{self, Fault};
use super::files::{Flag, Run};
use super::ppm::{self, Frame};
use super::process::{Said, PIPE};
use crate::cards::paper::{self, Opened, Size};
use crate::met::Met;
use crate::passes::both::Both;
use crate::passes::chain::COLOUR;
use crate::reports::Reports;

const USAGE: &str = "usage: filter [--counts] [--curve FILE] CARD FRAME..   \
    (a card as a file or in hexadecimal; frames as binary PPM, up to 61440 pixels, no side above 1024; a curve as 256 binary32)";

/// Why there is no picture, where no curve is named.
const NO_CURVE: &str = "refused: 16, bad curve: \
    the card has a gamma other than 1, so name a curve by --curve FILE";

/// What is written, and how many pixels the frames have, each of them.
pub fn run(run: &Run, met: &mut Met<OfRun>) -> (Said, Vec<usize>) {
    match played(run, met) {
        Ok(both) => both,
        Err(refusal) => (refusal, Vec::new()),
    }
}

fn played(run: &Run, met: &mut Met<OfRun>) -> Result<(Said, Vec<usize>), Said> {
    if twice(&run.options) {
        met.note(OfRun::Twice);
        return Err(Said::error(USAGE));
    }
    if run.card.is_option() {
        met.note(OfRun::Help);
        return Err(Said::error(USAGE));
    }
    let argument = &run.card.argument;
    let card = run.card.card.as_ref().map_err(|why| {
        met.note(OfRun::CardMissing);
        Said::refusal(argument, why)
    })?;
    let opened = paper::read(card).map_err(|refusal| {
        met.note(OfRun::CardRefused);
        Said::refusal(argument, &refused(refusal))
    })?;

    let curve = curve(run, &opened, met)?;

    // Every file is looked at before anything is written.
    let mut files = Vec::new();
    for (place, file) in run.files.iter().enumerate() {
        let at = if place == 0 {
            OfRun::First
        } else {
            OfRun::Later
        };
        let bytes = file.bytes.as_ref().map_err(|why| {
            met.note(at);
            met.note(OfRun::FileMissing);
            Said::refusal(&file.name, why)
        })?;
        let frame = ppm::taken(bytes).map_err(|fault| {
            met.note(at);
            met.note(OfRun::Refused(fault));
            Said::refusal(&file.name, fault.words())
        })?;
        files.push((frame, bytes));
    }
    let read = paper::curved(&opened.records).is_some();
    if read && !run.has(Flag::Curve) {
        // The station refuses the first frame.
        met.note(OfRun::NoCurve(is_on(&opened)));
        return Err(Said::refusal(&run.files[0].name, NO_CURVE));
    }

    let lit = opened.glows().filter(|glow| glow.on).count();
    let mut pipeline = Both::built(&opened.records);
    let mut written = Vec::new();
    let mut told = String::new();
    let mut counts = Vec::new();
    let mut held = None;
    for ((frame, bytes), file) in files.into_iter().zip(&run.files) {
        let case = taken(&frame, held, lit > 0);
        note(&frame, bytes, case, met);
        if lit > 1 {
            met.note(OfRun::Several(lit));
        }
        held = Some((frame.width, frame.height));
        if case == OfRun::Turned {
            pipeline = Both::built(&opened.records);
        }
        let (header, pixels) = bytes.split_at(frame.start);
        let word = |rgb: &[u8]| u32::from_be_bytes([0, rgb[0], rgb[1], rgb[2]]);
        let mut words: Vec<u32> = pixels.chunks(3).map(word).collect();
        let reports = pipeline.apply(&mut words, frame.width, frame.height, &curve);
        note_curve(run, &opened, met);
        if run.has(Flag::Counts) {
            told.push_str(&counted(&file.name, reports, met));
        }
        written.extend_from_slice(header);
        for word in &words {
            written.extend_from_slice(&word.to_be_bytes()[1..]);
        }
        counts.push(words.len());
    }
    met.note(OfRun::Frames(counts.len()));
    if run.files[0].name == PIPE {
        met.note(OfRun::Piped);
    }
    let said = Said {
        output: written,
        error: told.into_bytes(),
    };
    Ok((said, counts))
}

/// Whether an option stands there twice.
fn twice(options: &[Flag]) -> bool {
    let times = |flag| options.iter().filter(|&&other| other == flag).count();
    times(Flag::Counts) > 1 || times(Flag::Curve) > 1
}

/// The line of a picture with what its frame reported.
fn counted(name: &str, reports: Reports, met: &mut Met<OfRun>) -> String {
    let Reports { clipped, samples } = reports;
    met.note(OfRun::Clipped(clipped > 0));
    met.note(OfRun::Sampled(samples > 0));
    format!("{name}: {clipped} clipped channels, {samples} blur samples\n")
}

/// The curve that is named, which is looked at also where it is not read; else none.
fn curve(run: &Run, opened: &Opened, met: &mut Met<OfRun>) -> Result<Vec<f32>, Said> {
    let read = paper::curved(&opened.records).is_some();
    if !run.has(Flag::Curve) {
        return Ok(Vec::new());
    }
    curve::taken(&run.curve).map_err(|(fault, said)| {
        met.note(match fault {
            Fault::Missing => OfRun::CurveMissing,
            Fault::Length => OfRun::CurveLength(read),
            Fault::Word => OfRun::CurveWord(read),
        });
        said
    })
}

/// Whether colour is.
fn is_on(opened: &Opened) -> bool {
    opened.records.iter().any(|r| r.kind == COLOUR && r.on)
}

/// What a picture has to do with the curve.
fn note_curve(run: &Run, opened: &Opened, met: &mut Met<OfRun>) {
    met.note(match paper::curved(&opened.records) {
        Some(_) if is_on(opened) => OfRun::Curved,
        Some(_) => OfRun::CurveOff,
        None if run.has(Flag::Curve) => OfRun::CurveUnread,
        None => return,
    });
}

/// Which case a frame is. `held` is the size of the one before it.
fn taken(frame: &Frame, held: Option<Size>, remembers: bool) -> OfRun {
    let &Frame { width, height, .. } = frame;
    match held {
        _ if !remembers => OfRun::Frame,
        Some((w, h)) if w * h != width * height => OfRun::Refill,
        Some(before) if before != (width, height) => OfRun::Turned,
        Some(_) => OfRun::Blend,
        None => OfRun::Refill,
    }
}

/// What happens at a frame.
fn note(frame: &Frame, file: &[u8], case: OfRun, met: &mut Met<OfRun>) {
    let &Frame {
        width,
        height,
        start,
    } = frame;
    met.note(case);
    met.note_listed(OfRun::Size(width, height));
    if file.len() == ppm::ROOM {
        met.note(OfRun::Full);
    }
    let header = &file[..start];
    let other = |byte: &u8| matches!(byte, b'\t' | 0x0b | 0x0c | b'\r');
    met.note(if header.contains(&b'#') {
        OfRun::Comment
    } else if header.iter().any(other) {
        OfRun::OtherWhite
    } else {
        OfRun::Plain
    });
}
