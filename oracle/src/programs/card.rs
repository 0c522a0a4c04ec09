//! What program `card` prints: made from the reading of documents 01 and 02 in cards/paper.rs, and of a size in size.rs.

use super::cards::{Given, LONGEST};
use super::cases::{OfCard, OfPair};
use super::process::Said;
use super::size;
use crate::cards::cases::kinds;
use crate::cards::paper::{self, Opened, Place, Record, Refusal, Size, Value, GLOW};
use crate::met::Met;

pub const USAGE: &str = "usage: card [--size WIDTHxHEIGHT] CARD [CARD]   \
    (a card is a file, or its bytes in hexadecimal, as \"11 A9 FC 00 00 00\")";

/// For one card, behind the words of a size if there are any.
pub fn one(words: Option<&str>, given: &Given, met: &mut Met<OfCard>) -> Said {
    met.note(OfCard::Given(given.way));
    if given.is_option() {
        if words.is_some() {
            met.note(OfCard::SizeHelp);
        }
        return Said::error(USAGE);
    }
    note_size(words, met);
    let size = match asked(words) {
        Ok(size) => size,
        Err(refusal) => return refusal,
    };
    match &given.card {
        Err(why) => Said::refusal(&given.argument, why),
        Ok(card) => {
            note(card, size, met);
            Said::output(titled(&given.argument, card, size))
        }
    }
}

/// The size that is asked for, if one is; or why it is none.
fn asked(words: Option<&str>) -> Result<Option<Size>, Said> {
    let Some(words) = words else {
        return Ok(None);
    };
    if words.len() > LONGEST {
        // Not even the words can be told.
        return Err(Said::error("argument: File name too long"));
    }
    let size = size::read(words).map_err(|_| Said::refusal(words, size::NONE))?;
    Ok(Some(size))
}

/// For two.
pub fn two(words: Option<&str>, given: &[Given; 2], met: &mut Met<OfPair>) -> Said {
    let [first, second] = given;
    if first.is_option() {
        met.note(OfPair::Help);
        return Said::error(USAGE);
    }
    let size = match asked(words) {
        Ok(size) => size,
        Err(refusal) => {
            met.note(OfPair::NoSize);
            return refusal;
        }
    };
    if size.is_some() {
        met.note(OfPair::Sized);
    }
    let (one, other) = match (&first.card, &second.card) {
        (Err(why), _) => {
            met.note(OfPair::FirstMissing);
            return Said::refusal(&first.argument, why);
        }
        (_, Err(why)) => {
            met.note(OfPair::SecondMissing);
            return Said::refusal(&second.argument, why);
        }
        (Ok(one), Ok(other)) => (one, other),
    };
    let titles = titled(&first.argument, one, size) + &titled(&second.argument, other, size);
    let last = match (paper::open(one), paper::open(other)) {
        (Err(_), second) => {
            met.note(match second {
                Ok(_) => OfPair::FirstRefused,
                Err(_) => OfPair::BothRefused,
            });
            "not compared: the first card is refused".to_string()
        }
        (_, Err(_)) => {
            met.note(OfPair::SecondRefused);
            "not compared: the second card is refused".to_string()
        }
        (Ok(a), Ok(b)) => match difference(&a.records, &b.records, met) {
            Some(difference) => format!("not alike: {difference}"),
            None => {
                met.note(if one == other {
                    OfPair::Same
                } else {
                    OfPair::Respelt
                });
                if paper::curved(&a.records).is_some() {
                    met.note(OfPair::Curved);
                }
                met.note(OfPair::Lit(a.glows().filter(|glow| glow.on).count()));
                alike(&a.records)
            }
        },
    };
    Said::output(titles + &last + "\n")
}

/// From when on two stations with these settings show the same picture: the point of document 01, and of document 02's P12 where there
/// are several glows.
fn alike(records: &[Record]) -> String {
    let depth = |record: &Record| match record.settings[..] {
        [_, Value::Whole(depth, _)] if record.kind == GLOW && record.on => depth,
        _ => 0,
    };
    let when = match records.iter().map(depth).sum::<u32>() {
        0 => "from the first shared frame on".to_string(),
        frames => format!("after {frames} shared frames, or from a shared reset on"),
    };
    // Document 02, P3: their calls also lend equal curves.
    let curve = match paper::curved(records) {
        None => "",
        Some(_) => ", where both are lent the same curve",
    };
    format!("alike: the same settings; the pictures are the same {when}{curve}")
}

/// The argument, and the card in words below it.
fn titled(argument: &str, card: &[u8], size: Option<Size>) -> String {
    let words = match paper::read(card) {
        Ok(opened) => described(&opened, size),
        Err(refusal) => format!("  {}\n", refused(refusal)),
    };
    format!("{argument}\n{words}")
}

/// By the table of document 01, with the number of document 02's P2.
pub fn refused(Refusal { number, at, place }: Refusal) -> String {
    let word = match number {
        1 => "torn card",
        2 => "foreign card",
        3 => "overfull card",
        4 => "unknown pass",
        5 => "doubled pass",
        6 => "bad setting",
        7 => "long card",
        15 => "pass out of order",
        _ => panic!("no card is refused by {number}"),
    };
    let place = match place {
        Place::Version => "the version".to_string(),
        Place::Passes => "the number of passes".to_string(),
        Place::Kind(pass) => format!("the kind of pass {pass}"),
        Place::Switch(pass, kind) => format!("the switch of pass {pass}, {}", names(kind).0),
        Place::Setting(pass, kind, setting) => {
            let (name, settings) = names(kind);
            format!("the {} of pass {pass}, {name}", settings[setting])
        }
        Place::Rest => "after the last pass".to_string(),
    };
    format!("refused: {number}, {word}; reading stopped at bit {at}: {place}")
}

fn described(opened: &Opened, size: Option<Size>) -> String {
    let mut text = String::new();
    if opened.records.is_empty() {
        text.push_str("  no pass: the picture is the frame\n");
    }
    for (place, record) in opened.records.iter().enumerate() {
        let (name, settings) = names(record.kind);
        let settings = settings.iter().zip(&record.settings);
        let settings = settings.map(|(setting, &value)| format!("{setting} {}", shown(value)));
        let settings: Vec<String> = settings.collect();
        let number = place + 1;
        let on = switch(record.on);
        text.push_str(&format!(
            "  {number}  {name}, {on}: {}\n",
            settings.join(", ")
        ));
    }
    for size in [size::ALWAYS].into_iter().chain(size) {
        let samples = size::samples(&opened.records, size);
        let (width, height) = size;
        text.push_str(&format!("  samples: {samples} at {width} by {height}\n"));
    }
    let bytes = opened.written();
    let bytes: Vec<String> = bytes.iter().map(|byte| format!("{byte:02X}")).collect();
    text.push_str(&format!("  normalised: {}\n", bytes.join(" ")));
    text
}

/// A pass and its settings, as the paper's table calls them.
pub(super) fn names(kind: u32) -> (&'static str, &'static [&'static str]) {
    match kind {
        1 => ("NTSC", &["strength", "bleed"]),
        2 => ("bloom", &["threshold", "strength", "radius"]),
        3 => ("gradient", &["strength", "vertical", "horizontal"]),
        4 => ("persistence", &["amount", "depth"]),
        5 => ("LUT", &["preset", "strength"]),
        6 => ("curvature", &["amount"]),
        7 => ("colour", &["brightness", "contrast", "saturation", "gamma"]),
        8 => ("CRT", &["strength"]),
        9 => ("vignette", &["strength"]),
        10 => ("scanlines", &["strength"]),
        _ => panic!("there is no kind {kind}"),
    }
}

/// In the order of `LutPreset`.
const PRESETS: [&str; 7] = [
    "identity",
    "warm CRT",
    "cool CRT",
    "composite",
    "Game Boy",
    "amber",
    "high contrast",
];

pub(super) fn switch(on: bool) -> &'static str {
    if on {
        "on"
    } else {
        "off"
    }
}

fn shown(value: Value) -> String {
    match value {
        // A preset is the only setting of three bits.
        Value::Whole(preset, 3) => format!("{preset} ({})", PRESETS[preset as usize]),
        Value::Whole(n, _) => n.to_string(),
        Value::Float(x) => exact(x),
    }
}

/// All digits. No f32 has more than 149 places behind the point.
fn exact(x: f32) -> String {
    let text = format!("{x:.149}");
    let text = text.trim_end_matches('0');
    text.trim_end_matches('.').to_string()
}

/// The first difference of two chains.
fn difference(a: &[Record], b: &[Record], met: &mut Met<OfPair>) -> Option<String> {
    for place in 0..a.len().max(b.len()) {
        let pass = format!("pass {}", place + 1);
        let (r, s) = match (a.get(place), b.get(place)) {
            (Some(r), Some(s)) => (r, s),
            (_, None) => {
                met.note(OfPair::FirstLonger);
                return Some(format!("{pass} is on the first card only"));
            }
            (None, _) => {
                met.note(OfPair::SecondLonger);
                return Some(format!("{pass} is on the second card only"));
            }
        };
        let (name, settings) = names(r.kind);
        if r.kind != s.kind {
            met.note(OfPair::Kind);
            // On every card they ascend, so it is another pass that stands here, and not another order.
            let other = names(s.kind).0;
            return Some(format!(
                "{pass} is {name} and {other}: not the same passes, which stand by ascending kind on every card"
            ));
        }
        if r.on != s.on {
            met.note(OfPair::Switch);
            let (on, other) = (switch(r.on), switch(s.on));
            return Some(format!("{pass}, {name}, is {on} and {other}"));
        }
        let values = || r.settings.iter().zip(&s.settings);
        if let Some(place) = values().position(|(x, y)| x != y) {
            met.note(OfPair::Setting(place));
            let setting = settings[place];
            let (x, y) = (shown(r.settings[place]), shown(s.settings[place]));
            return Some(format!("{pass}, {name}: {setting} {x} and {y}"));
        }
    }
    None
}

/// What the words of a size are.
fn note_size(words: Option<&str>, met: &mut Met<OfCard>) {
    let Some(words) = words else {
        return;
    };
    let (width, height) = match size::read(words) {
        Ok(size) => size,
        Err(fault) => return met.note(OfCard::NoSize(fault)),
    };
    let either = |side| width == side || height == side;
    let cases = [
        (either(1), OfCard::SideOne),
        (either(1024), OfCard::SideLargest),
        (words != format!("{width}x{height}"), OfCard::SideZero),
    ];
    for (_, case) in cases.iter().filter(|(is, _)| *is) {
        met.note(*case);
    }
}

/// Whether it is a glow at which a card is refused: a fourth one by 5, one that is not the first by 15.
fn note_glow(card: &[u8], Refusal { number, at, .. }: Refusal, met: &mut Met<OfCard>) {
    let kinds = kinds(card, at);
    let glows = kinds.iter().filter(|&&kind| kind == GLOW).count();
    match (number, kinds.last()) {
        (5, Some(&GLOW)) => met.note(OfCard::FourthGlow),
        (15, Some(&GLOW)) if glows > 1 => met.note(OfCard::GlowOutOfOrder),
        _ => {}
    }
}

/// What happens at a card.
fn note(card: &[u8], size: Option<Size>, met: &mut Met<OfCard>) {
    let opened = match paper::read(card) {
        Ok(opened) => opened,
        Err(refusal) => {
            let rest = 8 * card.len() - refusal.at;
            note_glow(card, refusal, met);
            return met.note(match refusal.number {
                1 if rest == 0 => OfCard::TornBefore,
                1 => OfCard::TornInside,
                7 if rest < 8 => OfCard::Padding,
                7 => OfCard::LeftOver,
                number => OfCard::Refused(number),
            });
        }
    };
    met.note(if opened.written() == card {
        OfCard::Normal
    } else {
        OfCard::Limited
    });
    match opened.records.len() {
        0 => met.note(OfCard::NoPass),
        12 => met.note(OfCard::TwelvePasses),
        _ => {}
    }
    met.note(OfCard::Glows(opened.glows().count()));
    let samples = size::samples(&opened.records, size::ALWAYS);
    met.note(OfCard::Samples(samples > 0));
    let lines = size.map(|size| size::lines(&opened.records, size));
    for (_, length, radius) in lines.into_iter().flatten() {
        met.note(OfCard::Radius(radius.cmp(&length)));
    }
    for record in &opened.records {
        met.note(OfCard::Pass(record.kind, record.on));
        if let (7, &[.., Value::Float(gamma)]) = (record.kind, &record.settings[..]) {
            met.note(match gamma {
                0.01 => OfCard::GammaLowest,
                1.0 => OfCard::GammaOne,
                4.0 => OfCard::GammaFour,
                _ => OfCard::GammaOther,
            });
        }
        for &value in &record.settings {
            match value {
                Value::Whole(preset, 3) => met.note(OfCard::Preset(preset)),
                Value::Whole(..) => {}
                Value::Float(x) => {
                    let places = shown(value).split_once('.').map(|(_, places)| places.len());
                    let cases = [
                        (x < 0.0, OfCard::Negative),
                        (x.is_subnormal(), OfCard::Subnormal),
                        (places == Some(149), OfCard::Longest),
                    ];
                    for (_, case) in cases.iter().filter(|(is, _)| *is) {
                        met.note(*case);
                    }
                }
            }
        }
    }
}
