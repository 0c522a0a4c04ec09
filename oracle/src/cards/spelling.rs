//! Other spellings of a card: bytes that normalise alike.

use super::damage::bytes;
use super::paper::{self, put, Field, Opened, Value};
use crate::random::Random;

/// The first byte of a card of `n` records, in bits.
pub fn head(n: usize) -> Vec<bool> {
    let mut bits = Vec::new();
    put(&mut bits, 1, 4);
    put(&mut bits, n as u32, 4);
    bits
}

/// Another card that normalises alike, or the same.
pub fn respelt(opened: &Opened, random: &mut Random) -> Vec<u8> {
    let mut bits = head(opened.records.len());
    for record in &opened.records {
        put(&mut bits, record.kind, 4);
        put(&mut bits, u32::from(record.on), 1);
        let fields = paper::fields(record.kind).unwrap_or_default();
        for (field, value) in fields.iter().zip(&record.settings) {
            other(*field, *value, &mut bits, random);
        }
    }
    bytes(&bits)
}

/// A value that becomes the same once it is normalised: beyond an end that it stands at, or the other zero.
fn other(field: Field, value: Value, bits: &mut Vec<bool>, random: &mut Random) {
    let x = match value {
        Value::Whole(1, 8) if matches!(field, Field::Count(_)) => {
            return put(bits, random.below(2) as u32, 8);
        }
        Value::Whole(n, width) => return put(bits, n, width),
        Value::Float(x) => x,
    };
    let far = random.unit() * random.choose(&[1.0, 1e-30, 1e30, f32::MAX]);
    let spelt = match field {
        Field::Limited(high) if x == high => random.choose(&[x, x.max(far), f32::MAX]),
        Field::Limited(_) if x == 0.0 => random.choose(&[0.0, -0.0, -far]),
        Field::Raised(low, _) if x == low => {
            random.choose(&[low, low.next_down(), 0.0, -0.0, -far])
        }
        Field::Within(..) if x == 0.0 => random.choose(&[0.0, -0.0]),
        _ => x,
    };
    put(bits, spelt.to_bits(), 32);
}
