//! Inputs that the fuzzer begins with, for the programs `card`, `filter` and `sheet`, in the form that fuzz.rs and sheet/fuzz.rs read.

use super::cards;
use super::files;
use super::sheet::runs;
use super::size;
use crate::cards::paper;
use crate::random::Random;

/// The first byte that stands before a text as an argument, and before what the file holds that an argument names.
pub const TEXT: u8 = 0;
pub const FILE: u8 = 128;

/// The first byte where one card is given, one behind the words of a size, two, and two behind such words.
pub const ONE: u8 = 0;
pub const SIZED_ONE: u8 = 80;
pub const TWO: u8 = 120;
pub const SIZED_TWO: u8 = 200;

/// One card or two, good ones and damaged ones, as a text or as a file, and at times a size before them.
pub fn card(random: &mut Random) -> Vec<u8> {
    let (cards, plain, sized) = if random.one_in(2) {
        (vec![cards::card(random)], ONE, SIZED_ONE)
    } else {
        (cards::pair(random).to_vec(), TWO, SIZED_TWO)
    };
    let opened = paper::open(&cards[0]).map(|opened| opened.records);
    let mut seed = match size::words(&opened.unwrap_or_default(), random) {
        None => vec![plain],
        Some(words) => {
            let mut seed = vec![sized];
            string(words.as_bytes(), &mut seed);
            seed
        }
    };
    for card in cards {
        argument(&card, &mut seed, random);
    }
    seed
}

fn argument(card: &[u8], seed: &mut Vec<u8>, random: &mut Random) {
    let given = cards::given(card, random);
    match given.file {
        Some(bytes) => {
            seed.push(FILE);
            string(&bytes, seed);
        }
        None => {
            seed.push(TEXT);
            string(given.argument.as_bytes(), seed);
        }
    }
}

/// Two bytes for the length, the low one first, and the bytes.
fn string(bytes: &[u8], seed: &mut Vec<u8>) {
    let length = bytes.len().min(u16::MAX.into());
    seed.extend((length as u16).to_le_bytes());
    seed.extend(&bytes[..length]);
}

/// A curve by a seed of its own, and by its gamma.
fn curve(seed: &mut Vec<u8>, random: &mut Random) {
    seed.extend([0, random.word() as u8, random.word() as u8]);
}

/// A run: its options, a card, a curve, and headers of small frames.
pub fn filter(random: &mut Random) -> Vec<u8> {
    // No option twice.
    let mut seed = vec![random.below(5) as u8];
    let card = cards::good(random);
    argument(&card, &mut seed, random);
    curve(&mut seed, random);
    let count = random.within(1, 4);
    seed.push(count as u8 - 1);
    let mut size = (random.within(1, 32), random.within(1, 32));
    for _ in 0..count {
        if random.one_in(4) {
            size = (size.1, size.0);
        }
        // Another file than the last one, drawn by its header.
        seed.extend([0, 0]);
        string(&files::header(size.0, size.1, random), &mut seed);
        seed.extend([0, random.word() as u8]);
    }
    seed
}

/// A run of program `sheet`: its arguments, a card, a curve, and the bytes of its file.
pub fn sheet(random: &mut Random) -> Vec<u8> {
    let run = runs::run(random.next());
    let form = runs::FORMS.iter().position(|&form| form == run.words);
    let mut seed = vec![form.unwrap_or_default() as u8];
    let card = run.card.card.unwrap_or_default();
    argument(&card, &mut seed, random);
    curve(&mut seed, random);
    seed.push(FILE);
    string(&run.file.bytes.unwrap_or_default(), &mut seed);
    seed
}
