//! Cards for the programs: good ones with settings of every size, damaged ones, and pairs that are alike or differ in
//! one thing or two. And the ways in which an argument gives a card.

use super::process::{FOLDER, MISSING};
use crate::cards::damage::{self, any_order, bytes, chain, damaged, swapped};
use crate::cards::paper::{self, fields, put, Field, Opened, Record, GLOW, GLOWS};
use crate::cards::spelling::{head, respelt};
use crate::random::Random;

/// A card that is taken or not.
pub fn card(random: &mut Random) -> Vec<u8> {
    match random.below(64) {
        0..32 => good(random),
        32..40 => damaged(of(&chain(random), random), random),
        40 => Vec::new(),
        41 => {
            // Any version, or any number of passes.
            let mut card = good(random);
            let any = random.word() as u8;
            card[0] = random.choose(&[any, 0x10 | any >> 4]);
            card
        }
        42 => {
            // Far more bytes than a card has, or than the program reads.
            let mut card = good(random);
            card.resize(random.within(90, 5_000), random.choose(&[0, 0xff]));
            card
        }
        43 => bytes(&of(&swapped(random), random)),
        44 => damaged(of(&any_order(random), random), random),
        _ => damage::card(random),
    }
}

fn refused(random: &mut Random) -> Vec<u8> {
    loop {
        let card = card(random);
        if paper::open(&card).is_err() {
            return card;
        }
    }
}

pub fn good(random: &mut Random) -> Vec<u8> {
    bytes(&of(&chain(random), random))
}

/// The bits of a card of these kinds, up to its padding.
fn of(kinds: &[u32], random: &mut Random) -> Vec<bool> {
    let mut bits = head(kinds.len());
    for &kind in kinds {
        put(&mut bits, kind, 4);
        put(&mut bits, random.below(2) as u32, 1);
        for field in fields(kind).unwrap_or_default() {
            setting(*field, &mut bits, random);
        }
    }
    bits
}

/// A setting that a card may hold.
fn setting(field: Field, bits: &mut Vec<bool>, random: &mut Random) {
    let x = match field {
        Field::Byte => {
            let any = random.below(256) as u32;
            return put(bits, random.choose(&[0, 1, 254, 255, any, any]), 8);
        }
        Field::Count(most) => {
            let any = random.within(1, most as usize) as u32;
            return put(bits, random.choose(&[0, 1, 2, most - 1, most, any, any]), 8);
        }
        Field::Preset => return put(bits, random.below(7) as u32, 3),
        Field::Limited(high) => {
            let x = number(high, random);
            let outside = [-x, -0.0, high.next_up(), f32::MAX, f32::MIN];
            if random.one_in(4) {
                random.choose(&outside)
            } else {
                x
            }
        }
        // Brightness: from -1 to 1.
        Field::Within(_, high) => number(high, random) * random.choose(&[1.0, -1.0]),
        Field::Raised(low, high) => {
            let x = number(high, random);
            let edges = [low, low.next_down(), low.next_up(), -x, -0.0, f32::MIN];
            let edge = random.choose(&edges);
            random.choose(&[x, x, x, edge])
        }
    };
    put(bits, x.to_bits(), 32);
}

/// A number from 0 to `high`: an end, one step inside of it, subnormal, tiny, a decimal fraction, or of any size.
fn number(high: f32, random: &mut Random) -> f32 {
    let subnormal = f32::from_bits(random.within(1, 0x7f_ffff) as u32);
    let size = f32::from_bits(random.within(0, high.to_bits() as usize) as u32);
    let even = high * random.unit();
    let hundredths = random.below(100) as f32 / 100.0;
    let edges = [
        0.0,
        f32::from_bits(1),
        f32::from_bits(0x7f_ffff),
        f32::MIN_POSITIVE,
        1e-10,
        0.1,
        0.5,
        0.95,
        1.0,
        high.next_down(),
        high,
    ];
    let edge = random.choose(&edges);
    random
        .choose(&[edge, edge, subnormal, size, even, hundredths])
        .min(high)
}

/// Two cards: spelt differently, different in one thing or two, or in any.
pub fn pair(random: &mut Random) -> [Vec<u8>; 2] {
    let first = good(random);
    let mut opened = paper::open(&first).expect("the card is a good one");
    let second = match random.below(16) {
        0 => first.clone(),
        1..14 => {
            for _ in 0..random.choose(&[1, 1, 2]) {
                change(&mut opened, random);
            }
            respelt(&opened, random)
        }
        14 => good(random),
        _ => refused(random),
    };
    let first = if random.one_in(10) {
        refused(random)
    } else {
        first
    };
    if random.one_in(2) {
        [first, second]
    } else {
        [second, first]
    }
}

/// Changes one thing, or nothing.
fn change(opened: &mut Opened, random: &mut Random) {
    let records = &mut opened.records;
    let times = |kind: u32| records.iter().filter(|record| record.kind == kind).count();
    // Kinds that may stand there once more.
    let absent: Vec<u32> = (1..=10)
        .filter(|&kind| times(kind) < if kind == GLOW { GLOWS } else { 1 })
        .collect();
    if records.is_empty() {
        records.push(record(random.choose(&absent), random));
        return;
    }
    let place = random.below(records.len());
    match random.below(8) {
        0..4 => {
            let other = record(records[place].kind, random);
            let setting = random.below(other.settings.len());
            records[place].settings[setting] = other.settings[setting];
        }
        4 => records[place].on = !records[place].on,
        5 => {
            records.remove(place);
            if !absent.is_empty() {
                records.push(record(random.choose(&absent), random));
            }
            // Another pass stands at another place.
            records.sort_by_key(|record| record.kind);
        }
        6 => records.truncate(place),
        _ => {}
    }
}

/// A record of this kind, normalised.
fn record(kind: u32, random: &mut Random) -> Record {
    let alone = bytes(&of(&[kind], random));
    let opened = paper::open(&alone).expect("the card is a good one");
    opened.records[0].clone()
}

/// How an argument gives a card.
#[derive(Clone, Copy, PartialEq, Debug)]
pub enum Way {
    /// In hexadecimal, with no space, with one between two bytes, or with any number anywhere.
    Close,
    Spaced,
    Anyhow,
    /// The same in small letters, and in both.
    CloseSmall,
    SpacedSmall,
    AnyhowBoth,
    /// No byte: no text, or spaces alone.
    NoByte,
    /// In hexadecimal, while there is a file of that name, which holds another card.
    AlsoFile,
    File,
    /// A file whose name is nearly hexadecimal.
    NearlyHexadecimal,
    /// A file whose name begins with `-`: as the first argument that asks for help.
    Option,
    /// No file.
    Missing,
    Folder,
}

/// A card as an argument gives it.
pub struct Given {
    pub way: Way,
    pub argument: String,
    /// What the file of that name holds, if there is one.
    pub file: Option<Vec<u8>>,
    /// Or what is said where there is none.
    pub card: Result<Vec<u8>, String>,
}

/// What is said of an argument that is no hexadecimal, with what the system says of the file that it names.
pub(super) fn neither(why: &str) -> String {
    format!("neither hexadecimal (two digits for each byte) nor a file that can be read: {why}")
}

/// The longest argument that the programs take.
pub(super) const LONGEST: usize = 4096;

/// Names of files that are nowhere near hexadecimal.
const NAMES: [&str; 8] = [
    "a.card", "the card", "card", "x", "./-", "..card", "~", "0x11",
];
const OPTIONS: [&str; 5] = ["-", "-h", "--help", "-11", "--size"];

pub fn given(card: &[u8], random: &mut Random) -> Given {
    let way = match random.below(64) {
        0..44 => random.choose(&[
            Way::Close,
            Way::Spaced,
            Way::Anyhow,
            Way::CloseSmall,
            Way::SpacedSmall,
            Way::AnyhowBoth,
        ]),
        44..48 => Way::AlsoFile,
        48..55 => Way::File,
        55..61 => Way::NearlyHexadecimal,
        61 => Way::Option,
        62 => Way::Missing,
        _ => random.choose(&[Way::Missing, Way::Folder]),
    };
    let argument = match way {
        Way::File => random.choose(&NAMES).to_string(),
        Way::NearlyHexadecimal => nearly(random),
        Way::Option => random.choose(&OPTIONS).to_string(),
        Way::Missing if random.one_in(2) => nearly(random),
        Way::Missing => "no-such.card".to_string(),
        Way::Folder => random.choose(&[".", "..", "./"]).to_string(),
        _ => text(card, way, random),
    };
    let (way, argument) = match way {
        _ if argument.trim().is_empty() => (Way::NoByte, argument),
        // What is too long for an argument, or for a file's name, is given otherwise.
        _ if argument.len() > LONGEST => (Way::File, NAMES[0].to_string()),
        Way::AlsoFile if argument.len() > 200 => (Way::Spaced, argument),
        _ => (way, argument),
    };
    let (file, card) = match way {
        Way::File | Way::NearlyHexadecimal | Way::Option => {
            (Some(card.to_vec()), Ok(card.to_vec()))
        }
        Way::AlsoFile => (Some(good(random)), Ok(card.to_vec())),
        Way::Missing => (None, MISSING.map_err(neither)),
        Way::Folder => (None, FOLDER.map_err(neither)),
        _ => (None, Ok(card.to_vec())),
    };
    Given {
        way,
        argument,
        file,
        card,
    }
}

/// The card in hexadecimal.
fn text(card: &[u8], way: Way, random: &mut Random) -> String {
    let anyhow = matches!(way, Way::Anyhow | Way::AnyhowBoth);
    let apart = matches!(way, Way::Spaced | Way::SpacedSmall | Way::AlsoFile);
    let mut text = String::new();
    for (place, byte) in card.iter().enumerate() {
        if anyhow {
            text.push_str(random.choose(&["", "", " ", "  ", "     "]));
        } else if apart && place > 0 {
            text.push(' ');
        }
        text.push_str(&format!("{byte:02X}"));
    }
    if anyhow {
        text.push_str(random.choose(&["", " ", "   "]));
    }
    match way {
        Way::CloseSmall | Way::SpacedSmall => text.to_lowercase(),
        Way::AnyhowBoth => {
            let either = |letter: char| match random.below(2) {
                0 => letter.to_ascii_lowercase(),
                _ => letter,
            };
            text.chars().map(either).collect()
        }
        _ => text,
    }
}

/// What is hexadecimal but for one thing: a digit too few, a pair torn apart, a byte that is no digit, a tab, the folder
/// before it.
fn nearly(random: &mut Random) -> String {
    let bytes: Vec<u8> = (0..random.within(1, 6))
        .map(|_| random.word() as u8)
        .collect();
    let way = random.choose(&[Way::Close, Way::Spaced, Way::SpacedSmall]);
    let mut text = text(&bytes, way, random);
    match random.below(5) {
        0 => {
            text.pop();
        }
        1 => text.insert(1, ' '),
        2 => {
            let place = random.below(text.len());
            let other = random.choose(&["G", "g", "@", "`", ":", ".", "x"]);
            text.replace_range(place..=place, other);
        }
        3 => text.insert(2, '\t'),
        _ => text.insert_str(0, "./"),
    }
    text
}

impl Given {
    /// With the first bytes of its file.
    pub fn shown(&self) -> String {
        match &self.file {
            Some(bytes) => {
                let first = &bytes[..bytes.len().min(80)];
                format!("{:?} with the file {first:02x?}", self.argument)
            }
            None => format!("{:?}", self.argument),
        }
    }

    /// Whether it asks for help, as the first argument.
    pub fn is_option(&self) -> bool {
        self.argument.starts_with('-')
    }

    /// Whether both name one file, and it is there.
    pub fn shares_file(&self, other: &Given) -> bool {
        let name = |given: &Given| given.argument.trim_start_matches("./").to_string();
        name(self) == name(other) && (self.file.is_some() || other.file.is_some())
    }

    pub fn files(&self) -> Option<(&str, &[u8])> {
        let bytes = self.file.as_deref()?;
        Some((&self.argument, bytes))
    }
}
