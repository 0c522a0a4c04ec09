//! Answers of the original, recorded for program `replay`: the card or an event after its letter, then
//! the checksum of what the model over the original's pipeline prints of it.

use super::{inputs, model};
use crate::met::Met;
use crate::random::Random;

/// How many inputs are recorded, of those whose card is taken.
const INPUTS: usize = 150;

/// The card of document 01's example, which is of scanlines.
const SCANLINES: &[u8] = b"\x06\x11\xA9\xF8\x00\x00\x00";

/// A card of version 2.
const REFUSED: &[u8] = b"\x01\x20";

/// The card of no pass.
const EMPTY: &[u8] = b"\x01\x10";

/// What is played after the refused card: a switch of scanlines, a preset step, a frame.
const EVENTS: &[u8] = b"S\x0A\x01LF\x01\x02\xFF\xFF\xFF\x64\x64\x64";

pub fn all() -> Vec<u8> {
    let random = &mut Random::named("replay");
    let mut bytes = Vec::new();
    let mut taken = 0;
    while taken < INPUTS {
        let answers = model::answers(&inputs::input(random.next()));
        for (at, (asked, line)) in answers.iter().enumerate() {
            add(if at == 0 { b'N' } else { b'P' }, asked, line, &mut bytes);
        }
        taken += usize::from(!answers.is_empty());
    }
    refused(&mut bytes);
    bytes
}

/// A card that is refused behind one that is taken, and events on the empty chain that it leaves.
fn refused(bytes: &mut Vec<u8>) {
    for card in [SCANLINES, REFUSED] {
        add(b'N', card, &model::run(card, &mut Met::new()), bytes);
    }
    for (asked, line) in &model::answers(&[EMPTY, EVENTS].concat())[1..] {
        add(b'P', asked, line, bytes);
    }
}

/// An answer, after its letter and what was asked.
fn add(letter: u8, asked: &[u8], line: &[u8], bytes: &mut Vec<u8>) {
    bytes.push(letter);
    bytes.extend(asked);
    bytes.extend(adler(line).to_be_bytes());
}

/// The Adler-32 checksum of RFC 1950.
fn adler(bytes: &[u8]) -> u32 {
    let (mut a, mut b) = (1, 0);
    for &byte in bytes {
        a = (a + u32::from(byte)) % 65521;
        b = (b + a) % 65521;
    }
    b << 16 | a
}
