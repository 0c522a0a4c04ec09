//! The programs `card` and `filter` inside the fuzzer (inside.rs). Its bytes are read as arguments and files, good and bad, as
//! seeds.rs writes them; what a program writes must be the model's.

use super::card;
use super::cards::{neither, Given, Way, LONGEST};
use super::cases::OfCard;
use super::files::{File, Flag, Run};
use super::filter;
use super::ppm;
use super::process::{Bytes, Said, FOLDER, MISSING, PIPE};
use super::seeds::{FILE, ONE, SIZED_ONE, SIZED_TWO, TEXT, TWO};
use super::size;
use crate::fuzz::{self, Tape};
use crate::inside::{self, World};
use crate::met::{Listed, Met};
use crate::passes::curves::{Curve, READ};
use crate::random::Random;

extern "C" {
    fn card_main() -> i32;
    fn filter_main() -> i32;
}

/// The most pixels of a frame whose header alone is in the fuzzer's bytes: more would make it slow.
const PIXELS: usize = 2048;

/// What the system says of a name that is too long for it.
const TOO_LONG: Bytes = Err("File name too long");

/// The options that stand before the card; the first five are those that the program takes.
const OPTIONS: [&[Flag]; 8] = [
    &[],
    &[Flag::Counts],
    &[Flag::Curve],
    &[Flag::Counts, Flag::Curve],
    &[Flag::Curve, Flag::Counts],
    &[Flag::Counts, Flag::Counts],
    &[Flag::Curve, Flag::Curve],
    &[Flag::Counts, Flag::Curve, Flag::Counts],
];

pub(super) type Files = Vec<(String, Bytes)>;

#[no_mangle]
extern "C" fn fuzz_card(data: *const u8, len: usize) -> i32 {
    // SAFETY: libFuzzer calls this.
    let tape = &mut Tape {
        rest: unsafe { fuzz::input(data, len) },
    };
    let mut world = World::default();
    let (sized, count) = match tape.byte() {
        ONE..SIZED_ONE => (false, 1),
        SIZED_ONE..TWO => (true, 1),
        TWO..SIZED_TWO => (false, 2),
        SIZED_TWO..240 => (true, 2),
        240..248 => (false, 0),
        _ => (false, 3),
    };
    if sized {
        let words = text(tape.string());
        world.arguments.extend([size::OPTION.to_string(), words]);
    }
    for place in 0..count {
        let (argument, file) = argument(tape, &format!("{place}.card"));
        world.arguments.push(argument);
        world.files.extend(file);
    }
    // Three arguments of its own making may be a size and a card, too.
    let (words, cards) = match &world.arguments[..] {
        [option, words, cards @ ..] if option == size::OPTION && matches!(cards.len(), 1 | 2) => {
            (Some(words.as_str()), cards)
        }
        all => (None, all),
    };
    let given: Vec<Given> = cards
        .iter()
        .map(|argument| given(argument, &world.files))
        .collect();
    let (met, of_pair) = (&mut Met::new(), &mut Met::new());
    let asked = match <[Given; 2]>::try_from(given) {
        Ok(two) => card::two(words, &two, of_pair),
        Err(given) => match &given[..] {
            [one] => card::one(words, one, met),
            _ => Said::error(card::USAGE),
        },
    };
    // SAFETY: it is the program's.
    unsafe { inside::compare(card_main, &world, &asked) };
    fuzz::guide(met);
    fuzz::guide_from(OfCard::ALL.len(), of_pair);
    0
}

/// An argument that gives a card: any text, a card in hexadecimal, or the file of this name, with what it holds.
pub(super) fn argument(tape: &mut Tape, name: &str) -> (String, Option<(String, Bytes)>) {
    match tape.byte() {
        TEXT..128 => (text(tape.string()), None),
        FILE..224 => (
            name.to_string(),
            Some((name.to_string(), Ok(tape.string()))),
        ),
        224..248 => (hexadecimal(&tape.string()), None),
        248..252 => (".".to_string(), Some((".".to_string(), FOLDER))),
        // About as long as an argument may be.
        252.. => {
            let length = tape.near(LONGEST);
            let mut bytes = tape.string();
            bytes.push(b'1');
            let bytes = bytes.into_iter().cycle().take(length).collect();
            (text(bytes), None)
        }
    }
}

/// As an argument can be: with no byte 0.
fn text(bytes: Vec<u8>) -> String {
    let bytes: Vec<u8> = bytes.into_iter().filter(|&byte| byte != 0).collect();
    String::from_utf8_lossy(&bytes).into_owned()
}

fn hexadecimal(bytes: &[u8]) -> String {
    bytes.iter().map(|byte| format!("{byte:02X}")).collect()
}

/// The bytes of a text of two digits each, with spaces between them, if it is one.
fn decoded(text: &[u8]) -> Option<Vec<u8>> {
    let words = text.split(|&byte| byte == b' ');
    let mut bytes = Vec::new();
    for word in words {
        let digits: Option<Vec<u8>> = word.iter().map(digit).collect();
        let digits = digits.filter(|digits| digits.len() % 2 == 0)?;
        bytes.extend(digits.chunks(2).map(|pair| 16 * pair[0] + pair[1]));
    }
    Some(bytes)
}

fn digit(byte: &u8) -> Option<u8> {
    char::from(*byte)
        .to_digit(16)
        .and_then(|digit| u8::try_from(digit).ok())
}

/// The card that an argument gives beside these files.
pub(super) fn given(argument: &str, files: &Files) -> Given {
    let there = |(name, bytes): &&(String, Bytes)| name == argument && *bytes != MISSING;
    let file = files.iter().find(there);
    let (argument, way, card) = match (argument.len(), decoded(argument.as_bytes()), file) {
        // Not even its name can be told.
        (length, ..) if length > LONGEST => {
            ("argument", Way::Missing, TOO_LONG.map_err(str::to_string))
        }
        (_, Some(bytes), _) if bytes.is_empty() => (argument, Way::NoByte, Ok(bytes)),
        (_, Some(bytes), _) => (argument, Way::Anyhow, Ok(bytes)),
        // A path is ended by a byte 0.
        (LONGEST, ..) => (argument, Way::Missing, TOO_LONG.map_err(neither)),
        (_, _, Some((_, Ok(bytes)))) => (argument, Way::File, Ok(bytes.clone())),
        (_, _, Some(_)) => (argument, Way::Folder, FOLDER.map_err(neither)),
        (_, _, None) => (argument, Way::Missing, MISSING.map_err(neither)),
    };
    Given {
        way,
        argument: argument.to_string(),
        file: None,
        card,
    }
}

#[no_mangle]
extern "C" fn fuzz_filter(data: *const u8, len: usize) -> i32 {
    // SAFETY: libFuzzer calls this.
    let tape = &mut Tape {
        rest: unsafe { fuzz::input(data, len) },
    };
    let options = OPTIONS[usize::from(tape.byte()) % OPTIONS.len()].to_vec();
    let (card, file) = argument(tape, "a card");
    let curve = curve(tape);
    let mut frames: Vec<File> = Vec::new();
    for place in 0..=tape.byte() % 4 {
        // At times the same file twice.
        let again = tape.byte() % 16 == 15;
        let before = frames.last().filter(|_| again).cloned();
        frames.push(before.unwrap_or_else(|| frame(place, tape)));
    }
    if let [alone] = &mut frames[..] {
        if alone.bytes.is_ok() && tape.byte() % 4 == 1 {
            alone.name = PIPE.to_string();
        }
    }

    let mut files: Files = file.into_iter().collect();
    let named = [&curve].into_iter().chain(&frames);
    files.extend(named.map(|file| (file.name.clone(), file.bytes.clone())));
    let mut run = Run {
        options,
        curve,
        card: given(&card, &files),
        files: frames,
    };
    let met = &mut Met::new();
    let (asked, _) = filter::run(&run, met);
    // A card whose name is too long is told as another.
    run.card.argument = card;
    let arguments = run.arguments().into_iter().map(str::to_string).collect();
    let world = World {
        arguments,
        files,
        input: Vec::new(),
    };
    // SAFETY: it is the program's.
    unsafe { inside::compare(filter_main, &world, &asked) };
    fuzz::guide(met);
    0
}

/// A file with a curve: mostly one that is taken, else any bytes, no file or a folder.
pub(super) fn curve(tape: &mut Tape) -> File {
    let name = "a curve".to_string();
    let bytes = match tape.byte() {
        0..160 => {
            let random = &mut Random::new(tape.byte().into());
            let gamma = f32::from(tape.byte()) / 64.0;
            let words = Curve {
                len: READ,
                ..Curve::good(gamma, random)
            };
            Ok(words.bytes())
        }
        160..240 => Ok(tape.string()),
        240..248 => MISSING,
        _ => FOLDER,
    };
    File { name, bytes }
}

/// A file with a frame: a header and as many pixels as it says, or about as many; or any bytes, no file, a folder.
fn frame(place: u8, tape: &mut Tape) -> File {
    let name = format!("{place}.ppm");
    let bytes = match tape.byte() {
        0..192 => Ok(drawn(tape)),
        192..240 => Ok(tape.string()),
        240..248 => MISSING,
        _ => FOLDER,
    };
    File { name, bytes }
}

fn drawn(tape: &mut Tape) -> Vec<u8> {
    let mut file = tape.string();
    let exact = tape.byte() % 4 != 3;
    let random = &mut Random::new(tape.byte().into());
    let Ok(frame) = ppm::header(&file) else {
        return file;
    };
    let count = frame.width * frame.height;
    if count > PIXELS && !random.one_in(64) {
        return file;
    }
    let mut length = frame.start + 3 * count;
    if !exact {
        length = tape.near(length);
    }
    file.truncate(length);
    while file.len() < length {
        file.push(random.word() as u8);
    }
    file
}
