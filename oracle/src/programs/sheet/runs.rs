//! Runs of program `sheet`: what stands among its arguments, and the files that these name.

use super::drawn;
use crate::cards::{damage, paper};
use crate::programs::cards::{self, Given};
use crate::programs::files::{self, File};
use crate::programs::process::{FOLDER, MISSING, PIPE};
use crate::random::Random;
use crate::runs::station::Station;

/// What the program does.
#[derive(Clone, Copy, PartialEq, Debug)]
pub enum Task {
    Print,
    Play,
    Record,
}

/// An argument: an option, or what is named.
#[derive(Clone, Copy, PartialEq, Debug)]
pub enum Word {
    Play,
    Curve,
    Record,
    Help,
    /// The curve's file, the card, and the file that is printed, played or recorded.
    Named,
    Card,
    File,
}

use Word::{Curve, Help, Named, Play, Record};

const PRINT: &[Word] = &[Word::File];
const PLAY: &[Word] = &[Play, Word::Card, Word::File];
pub const BEFORE: &[Word] = &[Curve, Named, Play, Word::Card, Word::File];
pub const BEHIND: &[Word] = &[Play, Curve, Named, Word::Card, Word::File];
const RECORD: &[Word] = &[Record, Word::File];

/// The good ones first.
pub const FORMS: [&[Word]; 24] = [
    PRINT,
    PLAY,
    BEFORE,
    BEHIND,
    RECORD,
    &[],
    &[Help],
    &[Word::File, Word::File],
    &[Word::File, Help],
    &[Word::File, Play, Word::Card],
    &[Word::File, Record],
    &[Play],
    &[Play, Word::Card],
    &[Play, Word::Card, Help],
    &[Play, Word::Card, Word::File, Word::File],
    &[Play, Play, Word::Card, Word::File],
    &[Curve, Named],
    &[Curve, Named, Word::File],
    &[Curve, Named, Record, Word::File],
    &[Curve, Named, Play, Word::Card],
    &[Play, Curve, Named, Word::Card],
    &[Curve, Named, Curve, Named, Play, Word::Card, Word::File],
    &[Record],
    &[Record, Word::File, Word::File],
];

/// How many of them are good.
pub const GOOD: usize = 5;

pub struct Run {
    pub words: &'static [Word],
    pub card: Given,
    pub curve: File,
    pub file: File,
}

impl Run {
    /// None where it is none that the usage names.
    pub fn task(&self) -> Option<Task> {
        match self.words {
            PRINT => Some(Task::Print),
            PLAY | BEFORE | BEHIND => Some(Task::Play),
            RECORD => Some(Task::Record),
            _ => None,
        }
    }

    pub fn has_curve(&self) -> bool {
        self.words.contains(&Named)
    }

    pub fn arguments(&self) -> Vec<&str> {
        let argument = |word: &Word| match word {
            Word::Play => "--play",
            Word::Curve => "--curve",
            Word::Record => "--record",
            Word::Help => "--help",
            Word::Named => self.curve.name.as_str(),
            Word::Card => self.card.argument.as_str(),
            Word::File => self.file.name.as_str(),
        };
        self.words.iter().map(argument).collect()
    }

    /// The files that are there.
    pub fn files(&self) -> Vec<(&str, &[u8])> {
        let stored = [&self.curve, &self.file].into_iter().filter_map(|file| {
            let bytes = file.bytes.as_deref().ok()?;
            Some((file.name.as_str(), bytes))
        });
        self.card.files().into_iter().chain(stored).collect()
    }
}

/// The pixels of all frames of a sheet for which a card is drawn: of most sheets, and of those with the largest frames.
const FEW: usize = 8_000;
const MANY: usize = 4 * 61_440;

/// The run of this seed.
pub fn run(seed: u64) -> Run {
    let random = &mut Random::new(seed);
    let task = random.choose(&[
        Task::Print,
        Task::Play,
        Task::Play,
        Task::Play,
        Task::Record,
    ]);
    let large = random.one_in(24);
    let card = card(large, random);
    let station = Station::open(&card).expect("the card is a good one");
    let bytes = match task {
        Task::Record => drawn::events(random),
        _ if large => drawn::large(random),
        _ => drawn::sheet(&station, random),
    };
    let card = if random.one_in(24) {
        damage::card(random)
    } else {
        card
    };
    let opened = paper::open(&card).ok();
    let gamma = opened.and_then(|opened| paper::curved(&opened.records));
    Run {
        words: words(task, gamma.is_some(), random),
        card: cards::given(&card, random),
        curve: files::curve(gamma.unwrap_or(2.2), random),
        file: file(bytes, random),
    }
}

/// Three glows of amount 0.5 and depth 8: the deepest history.
const DEEP: [u8; 18] = [
    0x13, 0x49, 0xf8, 0, 0, 0, 0x42, 0x4f, 0xc0, 0, 0, 0x02, 0x12, 0x7e, 0, 0, 0, 0x10,
];

/// A good card, for the largest frames at times the deepest.
fn card(large: bool, random: &mut Random) -> Vec<u8> {
    if large && random.one_in(4) {
        return DEEP.to_vec();
    }
    files::card(if large { MANY } else { FEW }, random)
}

/// Mostly with a curve where one is read; a few are no task.
fn words(task: Task, read: bool, random: &mut Random) -> &'static [Word] {
    if random.one_in(20) {
        return random.choose(&FORMS[GOOD..]);
    }
    match task {
        Task::Print => PRINT,
        Task::Play if random.one_in(8) == read => PLAY,
        Task::Play => random.choose(&[BEFORE, BEHIND]),
        Task::Record => RECORD,
    }
}

/// A file of these bytes, mostly.
fn file(bytes: Vec<u8>, random: &mut Random) -> File {
    let name = random.choose(&["a.sheet", "the sheet ", "#", "11A9FC000000", "0"]);
    let (name, bytes) = match random.below(64) {
        0 => ("no-such.sheet", MISSING),
        1 => (".", FOLDER),
        2 => (random.choose(&["-", "-h", "-1.sheet", "--size"]), Ok(bytes)),
        3..6 => (PIPE, Ok(bytes)),
        _ => (name, Ok(bytes)),
    };
    File {
        name: name.to_string(),
        bytes,
    }
}
