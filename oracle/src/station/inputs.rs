//! Inputs of the program: cards and events of every kind, and what may become of them.

use crate::cards::damage;
use crate::passes::frames::Picture;
use crate::random::Random;

/// The input of this seed.
pub fn input(seed: u64) -> Vec<u8> {
    let random = &mut Random::new(seed);
    let mut bytes = head(random);
    let mut size = size(random);
    for _ in 0..random.below(16) {
        event(&mut size, &mut bytes, random);
    }
    match random.below(8) {
        0 => bytes.truncate(random.below(bytes.len() + 1)),
        1 => {
            // The first bytes of one event more: where it ends decides what it was.
            let end = bytes.len() + random.below(4);
            event(&mut size, &mut bytes, random);
            bytes.truncate(end);
        }
        _ => {}
    }
    bytes
}

/// A length byte and a card: in most cases one that is taken.
fn head(random: &mut Random) -> Vec<u8> {
    let card = if random.one_in(6) {
        damage::card(random)
    } else {
        damage::good(random)
    };
    let mut bytes = vec![card.len() as u8];
    if random.one_in(48) {
        bytes[0] = random.word() as u8;
    }
    bytes.extend(card);
    bytes
}

/// One event more. `size` is that of the last frame.
fn event(size: &mut (u8, u8), bytes: &mut Vec<u8>, random: &mut Random) {
    match random.below(64) {
        0..34 => {
            *size = next_size(*size, random);
            frame(*size, bytes, random);
        }
        34..36 => bytes.extend([b'S', 4, 0, b'S', 4, 1]),
        36..40 => bytes.push(b'R'),
        40..54 => {
            let any = random.word() as u8;
            let kind = random.within(1, 10) as u8;
            let kind = random.choose(&[kind, kind, kind, kind, kind, 4, 4, 0, 11, any]);
            let position = random.below(2) as u8;
            let position = if random.one_in(64) { any } else { position };
            bytes.extend([b'S', kind, position]);
        }
        54..62 => bytes.push(b'L'),
        62 => {
            // Of a bad size no pixel is read: what follows must not be taken for an event.
            let above = random.within(33, 255) as u8;
            let bad = random.choose(&[0, 33, 64, 128, 255, above]);
            let fine = random.within(1, 32) as u8;
            let (width, height) = random.choose(&[(bad, fine), (fine, bad), (bad, bad)]);
            bytes.extend([b'F', width, height]);
        }
        _ => bytes.push(random.word() as u8),
    }
}

/// Mostly that of the last frame, so that a history is met; often turned.
fn next_size(last: (u8, u8), random: &mut Random) -> (u8, u8) {
    match random.below(8) {
        0..4 => last,
        4 | 5 => (last.1, last.0),
        6 => {
            // Another shape of the same count, where there is one.
            let count = usize::from(last.0) * usize::from(last.1);
            let width = random.within(1, 32);
            if count % width == 0 && count / width <= 32 {
                (width as u8, (count / width) as u8)
            } else {
                last
            }
        }
        _ => size(random),
    }
}

fn size(random: &mut Random) -> (u8, u8) {
    let side = |most: usize, random: &mut Random| random.within(1, most) as u8;
    match random.below(32) {
        0 => (32, 32),
        1 => (1, side(32, random)),
        2 => (side(32, random), 1),
        3 => (32, side(32, random)),
        4..8 => (side(32, random), side(32, random)),
        _ => (side(8, random), side(8, random)),
    }
}

fn frame((width, height): (u8, u8), bytes: &mut Vec<u8>, random: &mut Random) {
    bytes.extend([b'F', width, height]);
    let words = Picture::random(random).draw(width.into(), height.into());
    // A pixel has no top byte here.
    bytes.extend(
        words
            .iter()
            .flat_map(|word| word.to_be_bytes()[1..].to_vec()),
    );
}
