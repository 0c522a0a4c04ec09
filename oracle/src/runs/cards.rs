//! Cards that are taken, with the settings that the passes are compared on.

use crate::cards::damage::{any_order, bytes, chain};
use crate::cards::paper::{self, put, Field, Record, Value};
use crate::cards::spelling::head;
use crate::passes::chain::PERSISTENCE;
use crate::passes::settings::{self, Setting};
use crate::passes::table::of_kind;
use crate::random::Random;

/// A card of any chain. Three of four have a glow or more.
pub fn card(random: &mut Random) -> Vec<u8> {
    let mut kinds = chain(random);
    if !kinds.contains(&PERSISTENCE) && random.one_in(2) {
        kinds.push(PERSISTENCE);
        kinds.sort();
    }
    of(&kinds, random)
}

/// A card of any chain with one to three glows, mostly on.
pub fn remembering(random: &mut Random) -> Vec<u8> {
    let mut kinds = any_order(random);
    kinds.truncate(5);
    kinds.retain(|&kind| kind != PERSISTENCE);
    kinds.extend(vec![PERSISTENCE; random.choose(&[1, 1, 1, 2, 2, 3])]);
    kinds.sort();
    of(&kinds, random)
}

/// The same whose depths are 1 or 2: what stands in a history is still seen when it is the oldest.
pub fn shallow(random: &mut Random) -> Vec<u8> {
    let card = remembering(random);
    let mut opened = paper::open(&card).expect("the card is a good one");
    for record in &mut opened.records {
        if record.kind == PERSISTENCE {
            record.settings[1] = Value::Whole(random.within(1, 2) as u32, 8);
        }
    }
    opened.written()
}

fn of(kinds: &[u32], random: &mut Random) -> Vec<u8> {
    let mut bits = head(kinds.len());
    for &kind in kinds {
        bits.extend(record(kind, random));
    }
    bytes(&bits)
}

/// A record that a card may hold. Some boundaries of the original's settings lie outside: then again.
fn record(kind: u32, random: &mut Random) -> Vec<bool> {
    loop {
        let mut bits = Vec::new();
        put(&mut bits, kind, 4);
        put(&mut bits, u32::from(!random.one_in(4)), 1);
        let setting = settings::random(of_kind(kind).fields, random);
        for (place, field) in paper::fields(kind).unwrap_or_default().iter().enumerate() {
            raw(&setting, place, *field, &mut bits);
        }
        let alone = [head(1), bits.clone()].concat();
        if paper::open(&bytes(&alone)).is_ok() {
            return bits;
        }
    }
}

/// A setting as the table of the passes has it, in the card's bits.
fn raw(setting: &Setting, place: usize, field: Field, bits: &mut Vec<bool>) {
    match field {
        Field::Limited(_) | Field::Within(..) | Field::Raised(..) => {
            put(bits, setting.float(place).to_bits(), 32)
        }
        Field::Byte | Field::Count(_) => put(bits, setting.whole(place) as u32, 8),
        Field::Preset => put(bits, setting.whole(place) as u32, 3),
    }
}

/// Nanoseconds that both sides together take for a word of a frame, very roughly.
pub fn cost(records: &[Record]) -> usize {
    let costs = records.iter().map(|record| {
        let values = record.settings.iter().map(|setting| match *setting {
            Value::Whole(n, _) => n as f32,
            Value::Float(x) => x,
        });
        let values: Vec<f32> = values.take(settings::FIELDS).collect();
        (of_kind(record.kind).cost)(&settings::given(&values))
    });
    // The words themselves, and what is lent beside them, are made and compared too.
    40 + costs.sum::<usize>()
}
