//! Document 01's card, with the order of document 02's P2, the gamma of its P3 and the three persistence passes of its P12, read and
//! written as the papers say it, with nothing of the library; and the samples of its P9, and what a new depth may be by its P11. A
//! persistence pass is called a glow here, as P12 does.

/// A refusal's number.
pub type Number = u32;

/// A width and a height.
pub type Size = (usize, usize);

/// What a pass remembers that is no glow, or whose history holds no frame.
pub const NOTHING: Size = (0, 0);

/// How many passes a card may name at most: so many places has a chain.
pub const PASSES: usize = 12;

/// How many of them may be glows.
pub const GLOWS: usize = 3;

/// What the pass at each place of a chain remembers.
pub type Held = [Size; PASSES];

/// A refusal, and the first bit of the field that is refused; for 7 the bit after the last field.
#[derive(Clone, Copy)]
pub struct Refusal {
    pub number: Number,
    pub at: usize,
    pub place: Place,
}

/// A field of a card. Passes are counted from 1, their settings from 0; of a pass that is known, its kind.
#[derive(Clone, Copy)]
pub enum Place {
    Version,
    Passes,
    Kind(usize),
    Switch(usize, u32),
    Setting(usize, u32, usize),
    Rest,
}

/// A card once it is opened.
#[derive(Clone)]
pub struct Opened {
    pub records: Vec<Record>,
}

#[derive(Clone)]
pub struct Record {
    pub kind: u32,
    pub on: bool,
    pub settings: Vec<Value>,
}

/// A setting once it is normalised.
#[derive(Clone, Copy, PartialEq)]
pub enum Value {
    /// With its bits on the card.
    Whole(u32, usize),
    Float(f32),
}

/// What a card may hold in a field, and what becomes of it.
#[derive(Clone, Copy)]
pub enum Field {
    /// Limited to 0 and the high end.
    Limited(f32),
    /// Refused outside.
    Within(f32, f32),
    /// Raised to the low end, and refused above the high one.
    Raised(f32, f32),
    /// Any byte.
    Byte,
    /// Refused above, and 1 for 0.
    Count(u32),
    /// Three bits; 7 is refused.
    Preset,
}

/// The kind of a glow.
pub const GLOW: u32 = 4;

/// Its depth.
const DEPTH: Field = Field::Count(8);

/// The settings of a kind, in the order of the paper's table.
pub fn fields(kind: u32) -> Option<&'static [Field]> {
    use Field::*;
    Some(match kind {
        1 => &[Limited(1.0), Count(64)],
        2 => &[Byte, Limited(1.0), Count(64)],
        3 => &[Limited(1.0), Limited(1.0), Limited(1.0)],
        4 => &[Limited(0.95), DEPTH],
        5 => &[Preset, Limited(1.0)],
        6 => &[Limited(0.5)],
        7 => &[
            Within(-1.0, 1.0),
            Raised(0.0, 4.0),
            Raised(0.0, 4.0),
            Raised(0.01, 4.0),
        ],
        8..=10 => &[Limited(1.0)],
        _ => return None,
    })
}

/// How often a kind may stand on a card.
fn most(kind: u32) -> usize {
    if kind == GLOW {
        GLOWS
    } else {
        1
    }
}

/// The bits of a card, most significant first.
struct Bits<'a> {
    card: &'a [u8],
    at: usize,
}

impl Bits<'_> {
    /// A field: torn where its bits run past the end.
    fn take(&mut self, width: usize, place: Place) -> Result<u32, Refusal> {
        if self.at + width > 8 * self.card.len() {
            return Err(refusal(1, self.at, place));
        }
        let bits = (self.at..self.at + width).map(|p| self.card[p / 8] >> (7 - p % 8) & 1);
        self.at += width;
        Ok(bits.fold(0, |value, bit| value << 1 | u32::from(bit)))
    }
}

fn refusal(number: Number, at: usize, place: Place) -> Refusal {
    Refusal { number, at, place }
}

impl Field {
    fn read(self, bits: &mut Bits, place: Place) -> Result<Value, Refusal> {
        let bad = refusal(6, bits.at, place);
        match self {
            Field::Byte => Ok(Value::Whole(bits.take(8, place)?, 8)),
            Field::Count(most) => match bits.take(8, place)? {
                0 => Ok(Value::Whole(1, 8)),
                count if count <= most => Ok(Value::Whole(count, 8)),
                _ => Err(bad),
            },
            Field::Preset => match bits.take(3, place)? {
                7 => Err(bad),
                preset => Ok(Value::Whole(preset, 3)),
            },
            Field::Limited(_) | Field::Within(..) | Field::Raised(..) => {
                let x = f32::from_bits(bits.take(32, place)?);
                if !x.is_finite() {
                    return Err(bad);
                }
                let x = match self {
                    Field::Limited(high) if x > high => high,
                    Field::Within(low, high) if x < low || x > high => return Err(bad),
                    Field::Raised(_, high) if x > high => return Err(bad),
                    Field::Limited(_) if x < 0.0 => 0.0,
                    Field::Raised(low, _) if x < low => low,
                    _ => x,
                };
                // Negative zero becomes zero.
                Ok(Value::Float(if x == 0.0 { 0.0 } else { x }))
            }
        }
    }
}

/// Reads a card field by field.
pub fn open(card: &[u8]) -> Result<Opened, Number> {
    read(card).map_err(|refusal| refusal.number)
}

/// The same, with the place of a refusal.
pub fn read(card: &[u8]) -> Result<Opened, Refusal> {
    let mut bits = Bits { card, at: 0 };
    if bits.take(4, Place::Version)? != 1 {
        return Err(refusal(2, 0, Place::Version));
    }
    let n = bits.take(4, Place::Passes)?;
    if n as usize > PASSES {
        return Err(refusal(3, 4, Place::Passes));
    }
    let mut records: Vec<Record> = Vec::new();
    for pass in 1..=n as usize {
        let (at, place) = (bits.at, Place::Kind(pass));
        let kind = bits.take(4, place)?;
        let fields = fields(kind).ok_or(refusal(4, at, place))?;
        let times = records.iter().filter(|record| record.kind == kind).count();
        if times >= most(kind) {
            return Err(refusal(5, at, place));
        }
        if records.last().is_some_and(|before| kind < before.kind) {
            return Err(refusal(15, at, place));
        }
        let on = bits.take(1, Place::Switch(pass, kind))? == 1;
        let place = |setting: usize| Place::Setting(pass, kind, setting);
        let fields = fields.iter().enumerate();
        let settings: Result<Vec<Value>, Refusal> = fields
            .map(|(setting, field)| field.read(&mut bits, place(setting)))
            .collect();
        records.push(Record {
            kind,
            on,
            settings: settings?,
        });
    }
    // Zero bits to the byte's end, and no byte after it.
    let end = bits.at;
    let rest = 8 * card.len() - end;
    if rest >= 8 || bits.take(rest, Place::Rest)? != 0 {
        return Err(refusal(7, end, Place::Rest));
    }
    Ok(Opened { records })
}

/// A depth that is not on a card but comes by a call, by document 02's P11: the same is refused, and 0 becomes 1.
pub fn depth(byte: u8) -> Result<Value, Number> {
    let (card, place) = (&[byte], Place::Setting(1, GLOW, 1));
    let read = DEPTH.read(&mut Bits { card, at: 0 }, place);
    read.map_err(|refusal| refusal.number)
}

/// The gamma of a chain that reads a curve, by document 02's P3: it has colour, on or off, and the gamma is not 1.
pub fn curved(records: &[Record]) -> Option<f32> {
    let colour = records.iter().find(|record| record.kind == 7)?;
    match colour.settings[3] {
        Value::Float(gamma) if gamma != 1.0 => Some(gamma),
        _ => None,
    }
}

/// The samples that a frame of this size takes, by document 02's P9: those of the blurs that are on.
pub fn samples(records: &[Record], size: Size) -> u32 {
    let on = records.iter().filter(|record| record.on);
    on.map(|record| match record.settings[..] {
        // The radius is the last setting of both.
        [.., Value::Whole(radius, _)] => blur_samples(record.kind, radius as usize, size),
        _ => 0,
    })
    .sum()
}

/// Those of one pass, which are none where it is no blur.
pub fn blur_samples(kind: u32, radius: usize, (width, height): Size) -> u32 {
    let across = height * line_samples(width, radius);
    let down = width * line_samples(height, radius);
    let all = match kind {
        1 => across,
        2 => across + down,
        _ => 0,
    };
    all as u32
}

/// Those of a line of so many places.
fn line_samples(length: usize, radius: usize) -> usize {
    if radius < length {
        length * (2 * radius + 1) - radius * (radius + 1)
    } else {
        length * length
    }
}

/// Whether a pass, if there is one, may remember frames of that size, by three of the parts of refusal 13.
fn may_remember(record: Option<&Record>, held: Size) -> bool {
    let (width, height) = held;
    let above = width > 1024 || height > 1024;
    let half = (width == 0) != (height == 0);
    let remembers = record.is_some_and(|record| record.kind == GLOW && record.on);
    !above && !half && (held == NOTHING || remembers)
}

impl Opened {
    /// The glows of the chain, by their order, on and off.
    pub fn glows(&self) -> impl Iterator<Item = &Record> {
        self.records.iter().filter(|record| record.kind == GLOW)
    }

    /// Whether the passes of a station of this chain may remember frames of these sizes: each by itself, and no two that differ.
    pub fn may_hold(&self, held: &Held) -> bool {
        let mut places = held.iter().enumerate();
        let alone = places.all(|(place, &held)| may_remember(self.records.get(place), held));
        let mut remembered = held.iter().filter(|&&held| held != NOTHING);
        let first = remembered.next();
        alone && remembered.all(|other| Some(other) == first)
    }

    /// The normalised card.
    pub fn written(&self) -> Vec<u8> {
        let mut bits = Vec::new();
        put(&mut bits, 1, 4);
        put(&mut bits, self.records.len() as u32, 4);
        for record in &self.records {
            put(&mut bits, record.kind, 4);
            put(&mut bits, u32::from(record.on), 1);
            for setting in &record.settings {
                match *setting {
                    Value::Whole(value, width) => put(&mut bits, value, width),
                    Value::Float(x) => put(&mut bits, x.to_bits(), 32),
                }
            }
        }
        bits.resize(bits.len().next_multiple_of(8), false);
        let byte = |eight: &[bool]| eight.iter().fold(0, |b, &bit| b << 1 | u8::from(bit));
        bits.chunks(8).map(byte).collect()
    }
}

/// The lowest `width` bits of `value`, most significant first.
pub fn put(bits: &mut Vec<bool>, value: u32, width: usize) {
    bits.extend((0..width).rev().map(|place| value >> place & 1 == 1));
}
