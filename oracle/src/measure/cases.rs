//! The cards that are measured: each pass alone, and the chain of all ten.

use crate::cards::paper::{self, Record, Value};
use crate::passes::chain;
use crate::passes::settings;
use crate::passes::table::{of_kind, Pass, PASSES};

/// A card, by the name and the setting that its lines bear.
pub struct Case {
    pub pass: &'static str,
    pub setting: String,
    pub records: Vec<Record>,
    /// The most time it may take, in times of the original's.
    pub limit: f64,
}

impl Case {
    /// Whether it is the card that takes longest.
    pub fn is_dearest(&self) -> bool {
        self.pass == CHAIN && self.setting == DEAREST
    }
}

const CHAIN: &str = "chain";
const DEAREST: &str = "dearest";

/// Each pass at each of its measured settings, then both chains.
pub fn all() -> Vec<Case> {
    let settings = |pass: &'static Pass| pass.measured.iter().map(move |v| alone(pass, v));
    let passes = PASSES.iter().flat_map(settings);
    passes.chain(chains()).collect()
}

/// A pass by itself.
pub fn alone(pass: &'static Pass, values: &[f32]) -> Case {
    let setting = settings::given(values);
    Case {
        pass: pass.name,
        setting: settings::short(pass.fields, &setting),
        records: vec![record(kind(pass), values)],
        limit: (pass.limit)(&setting),
    }
}

/// All ten passes at the first of their measured settings, and at the last.
pub fn chains() -> [Case; 2] {
    [
        ten("mild", 0.5, |measured| measured[0]),
        ten(DEAREST, 0.2, |measured| measured[measured.len() - 1]),
    ]
}

type Values = &'static [f32];

/// The chain by ascending kind, as every card has it.
fn ten(setting: &str, limit: f64, choose: fn(&[Values]) -> Values) -> Case {
    let values = |pass: &Pass| match pass.name {
        // Its settings are presets, none the mild one: the one that takes longest.
        "lut" => pass.measured[4],
        // At gamma 1: program `station`, whose stack is measured with the dearest of these cards, lends no curve.
        "color_correction" => pass.measured[0],
        _ => choose(pass.measured),
    };
    Case {
        pass: CHAIN,
        setting: setting.to_string(),
        records: (1..=10).map(|k| record(k, values(of_kind(k)))).collect(),
        limit,
    }
}

fn kind(pass: &Pass) -> u32 {
    let kind = (1..=10).find(|&kind| chain::name(kind) == pass.name);
    kind.expect("every pass has a kind")
}

/// The record of a card, switched on.
fn record(kind: u32, values: &[f32]) -> Record {
    let fields = paper::fields(kind).unwrap_or_default().iter();
    let settings = fields.zip(values).map(|(field, &value)| match field {
        paper::Field::Byte | paper::Field::Count(_) => Value::Whole(value as u32, 8),
        paper::Field::Preset => Value::Whole(value as u32, 3),
        _ => Value::Float(value),
    });
    Record {
        kind,
        on: true,
        settings: settings.collect(),
    }
}
