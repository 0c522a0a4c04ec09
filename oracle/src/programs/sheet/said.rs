//! What program `sheet` writes, whichever of its three tasks it is given.

use super::cases::OfSheet;
use super::events;
use super::lines;
use super::played;
use super::runs::{Run, Task, BEFORE, BEHIND};
use super::LONGEST;
use crate::cards::paper as cards;
use crate::met::Met;
use crate::programs::card::refused;
use crate::programs::curve;
use crate::programs::files::File;
use crate::programs::process::{Said, PIPE};
use crate::runs::station::Station;
use crate::sheets::cases::Which;
use crate::sheets::paper::{self, Event, Read};

const USAGE: &str = "usage: sheet SHEET | sheet [--curve FILE] --play CARD SHEET | sheet --record EVENTS   \
    (a card as a file or in hexadecimal; a curve as 256 binary32; \
    sheets and events as files of up to 2097152 bytes; frames up to 61440 pixels, no side above 1024)";

const BAD_SHEET: &str = "refused: 20, bad sheet";

/// What the program writes.
pub fn run(run: &Run, met: &mut Met<OfSheet>) -> Said {
    let Some(task) = run.task() else {
        met.note(OfSheet::Usage);
        return Said::error(USAGE);
    };
    let card = task == Task::Play && run.card.is_option();
    if card || run.file.name.starts_with('-') {
        met.note(OfSheet::Help);
        return Said::error(USAGE);
    }
    let said = match task {
        Task::Print => printed(run, met),
        Task::Play => played(run, met),
        Task::Record => recorded(run, met),
    };
    said.unwrap_or_else(|refusal| refusal)
}

/// The bytes of the file that is printed, played or recorded.
fn loaded<'a>(task: Task, file: &'a File, met: &mut Met<OfSheet>) -> Result<&'a [u8], Said> {
    let File { name, bytes } = file;
    let bytes = bytes.as_ref().map_err(|why| {
        met.note(OfSheet::Missing(task));
        Said::refusal(name, why)
    })?;
    if bytes.len() > LONGEST {
        met.note(OfSheet::TooLong(task));
        return Err(Said::refusal(name, "too long: more than 2097152 bytes"));
    }
    if bytes.len() == LONGEST {
        met.note(OfSheet::Longest(task));
    }
    if name == PIPE {
        met.note(OfSheet::Piped(task));
    }
    Ok(bytes)
}

/// A title, and a line for each event.
fn printed(run: &Run, met: &mut Met<OfSheet>) -> Result<Said, Said> {
    let name = &run.file.name;
    let Read { events, fault } = paper::read(loaded(Task::Print, &run.file, met)?);
    if let Some(fault) = fault {
        met.note(OfSheet::Bad(Task::Print, fault));
        return Ok(Said::output(format!("{name}\n  {BAD_SHEET}\n")));
    }
    let count = match events.len() {
        1 => "1 event".to_string(),
        count => format!("{count} events"),
    };
    let mut text = format!("{name}: {count}\n");
    for (place, event) in events.iter().enumerate() {
        text += &format!("  {}  {}\n", place + 1, lines::named(event));
    }
    note_listed(&events, met);
    Ok(Said::output(text))
}

fn note_listed(events: &[Event], met: &mut Met<OfSheet>) {
    met.note_listed(OfSheet::Listed(events.len()));
    for event in events {
        met.note(OfSheet::Shown(Which::of(event)));
        if let Event::Switch(kind, _) | Event::Ask(kind, _) = event {
            met.note(OfSheet::Kind(*kind));
        }
    }
}

/// The card is looked at first, then the curve, and then the sheet.
fn played(run: &Run, met: &mut Met<OfSheet>) -> Result<Said, Said> {
    let argument = &run.card.argument;
    let card = run.card.card.as_ref().map_err(|why| {
        met.note(OfSheet::CardMissing);
        Said::refusal(argument, why)
    })?;
    cards::read(card).map_err(|refusal| {
        met.note(OfSheet::CardRefused);
        Said::refusal(argument, &refused(refusal))
    })?;
    let curve = lent(run, met)?;
    let read = paper::read(loaded(Task::Play, &run.file, met)?);
    if let Some(fault) = read.fault {
        met.note(OfSheet::Bad(Task::Play, fault));
        return Err(Said::refusal(&run.file.name, BAD_SHEET));
    }
    let station = Station::open(card).expect("the card is a good one");
    Ok(played::run(&station, &read, &curve, met))
}

/// The curve that is named, which is looked at also where it is not read; else an empty one.
fn lent(run: &Run, met: &mut Met<OfSheet>) -> Result<Vec<f32>, Said> {
    if !run.has_curve() {
        return Ok(Vec::new());
    }
    let curve = curve::taken(&run.curve).map_err(|(fault, said)| {
        met.note(OfSheet::NoCurve(fault));
        said
    })?;
    match run.words {
        BEFORE => met.note(OfSheet::CurveBefore),
        BEHIND => met.note(OfSheet::CurveBehind),
        words => panic!("{words:?} name no curve"),
    }
    Ok(curve)
}

fn recorded(run: &Run, met: &mut Met<OfSheet>) -> Result<Said, Said> {
    let file = loaded(Task::Record, &run.file, met)?;
    let sheet = events::recorded(file, met);
    let sheet = sheet.map_err(|why| Said::refusal(&run.file.name, &why))?;
    Ok(Said::output(sheet))
}
