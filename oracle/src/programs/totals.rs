//! Program `totals`: runs of it, and what it writes. The files are read as ppm.rs reads them, the areas as docs/DECISIONS.md says, and
//! each area is added up by itself, word after word.

use super::files::{self, File};
use super::ppm;
use super::process::Said;
use crate::met::{Listed, Met};
use crate::random::Random;

const USAGE: &str = "usage: totals PICTURE [PICTURE] LEFT,TOP,WIDTH,HEIGHT ..   \
    (pictures as binary PPM, up to 61440 pixels, no side above 1024; up to 64 areas)";

/// What may happen at a run.
#[derive(Clone, Copy, PartialEq, Debug)]
pub enum OfTotals {
    OnePicture,
    /// Two, in which no area differs, or one does.
    TwoSame,
    TwoDifferent,
    /// Areas: one, 64, an empty one.
    OneArea,
    SixtyFour,
    Empty,
    Help,
    NoArea,
    /// Words that are no area, a picture among the areas, and a number that is too large.
    NotFour,
    LatePicture,
    TooLarge,
    TooMany,
    /// An area leaves the first picture, or only the second; and an empty one.
    OutsideFirst,
    OutsideSecond,
    EmptyOutside,
    FirstMissing,
    SecondMissing,
    FirstRefused,
    SecondRefused,
}

impl Listed for OfTotals {
    const ALL: &'static [OfTotals] = &[
        OfTotals::OnePicture,
        OfTotals::TwoSame,
        OfTotals::TwoDifferent,
        OfTotals::OneArea,
        OfTotals::SixtyFour,
        OfTotals::Empty,
        OfTotals::Help,
        OfTotals::NoArea,
        OfTotals::NotFour,
        OfTotals::LatePicture,
        OfTotals::TooLarge,
        OfTotals::TooMany,
        OfTotals::OutsideFirst,
        OfTotals::OutsideSecond,
        OfTotals::EmptyOutside,
        OfTotals::FirstMissing,
        OfTotals::SecondMissing,
        OfTotals::FirstRefused,
        OfTotals::SecondRefused,
    ];
}

pub struct Run {
    pub pictures: Vec<File>,
    pub areas: Vec<String>,
}

impl Run {
    pub fn arguments(&self) -> Vec<&str> {
        let pictures = self.pictures.iter().map(|file| file.name.as_str());
        pictures
            .chain(self.areas.iter().map(String::as_str))
            .collect()
    }
}

/// The run of this seed.
pub fn run(seed: u64) -> Run {
    let random = &mut Random::new(seed);
    let size = files::any_size(random);
    let first = picture("one.ppm", size, random);
    let mut pictures = vec![first.clone()];
    if random.one_in(2) {
        let mut other = match random.below(6) {
            0 | 1 => first,
            2 => picture("two.ppm", files::any_size(random), random),
            _ => picture("two.ppm", size, random),
        };
        other.name = "two.ppm".to_string();
        pictures.push(other);
    }
    if random.one_in(6) {
        let place = random.below(pictures.len());
        pictures[place] = files::damage(place, random);
    }
    if random.one_in(40) {
        pictures[0].name = random.choose(&["-", "--help", "-x.ppm"]).to_string();
    }
    let count = match random.below(16) {
        0 => 0,
        1 => random.choose(&[64, 64, 65, 66]),
        _ => random.choose(&[1, 1, 2, 3, 7]),
    };
    // Of many, few lists would stay inside.
    let leaves = count < 20;
    let mut areas: Vec<String> = (0..count).map(|_| area(size, leaves, random)).collect();
    if !areas.is_empty() && random.one_in(if leaves { 5 } else { 20 }) {
        let place = random.below(areas.len());
        areas[place] = spoilt(random);
    }
    if !areas.is_empty() && random.one_in(20) {
        areas.push(random.choose(&["two.ppm", "-1,0,1,1", ""]).to_string());
    }
    Run { pictures, areas }
}

fn picture(name: &str, size: (usize, usize), random: &mut Random) -> File {
    File {
        name: name.to_string(),
        bytes: Ok(files::frame(size, random)),
    }
}

fn area((width, height): (usize, usize), leaves: bool, random: &mut Random) -> String {
    let span = |side: usize, random: &mut Random| {
        let from = random.within(0, side);
        match random.below(60) {
            0 if leaves => (from, side - from + 1),
            1 if leaves => (side + 1, 0),
            2..12 => (from, 0),
            12..24 => (0, side),
            _ => (from, random.within(0, side - from)),
        }
    };
    let ((left, wide), (top, high)) = (span(width, random), span(height, random));
    let zeros = if random.one_in(12) { "00" } else { "" };
    format!("{left},{zeros}{top},{wide},{high}")
}

/// Words that begin with a digit, so that they are not taken for a file, and are no area in most cases.
fn spoilt(random: &mut Random) -> String {
    let words = [
        "0",
        "0,0",
        "0,0,1",
        "0,0,1,",
        "0,,1,1",
        "0,0,1,1,",
        "0,0,1,1,1",
        "0,0,1,-1",
        "0, 0,1,1",
        "0,0,1,1 ",
        "0.0,0,1,1",
        "0x1,0,1,1",
        "0;0;1;1",
        "0,0,1,65536",
        "65536,0,0,0",
        "0,0,99999999999999999999,1",
        "0,4294967296,0,0",
        "0,0,65535,65535",
        "000,000,000,000",
        "0,65535,0,1",
        "0,0,1,a",
    ];
    random.choose(&words).to_string()
}

/// What the program writes.
pub fn said(run: &Run, met: &mut Met<OfTotals>) -> Said {
    match played(run, met) {
        Ok(text) => Said::output(text),
        Err(refusal) => refusal,
    }
}

struct Area {
    left: usize,
    top: usize,
    width: usize,
    height: usize,
}

fn played(run: &Run, met: &mut Met<OfTotals>) -> Result<String, Said> {
    let usage = |case, met: &mut Met<OfTotals>| {
        met.note(case);
        Said::error(USAGE)
    };
    if run.pictures[0].name.starts_with('-') {
        return Err(usage(OfTotals::Help, met));
    }
    if run.areas.is_empty() {
        return Err(usage(OfTotals::NoArea, met));
    }
    let mut areas = Vec::new();
    for words in &run.areas {
        if areas.len() == 64 {
            met.note(OfTotals::TooMany);
            return Err(Said::error("too many areas: at most 64"));
        }
        areas.push(named(words, met)?);
    }
    let totals: Vec<(Vec<[u64; 3]>, usize)> = run
        .pictures
        .iter()
        .enumerate()
        .map(|(place, file)| measured(place, file, run, &areas, met))
        .collect::<Result<_, _>>()?;
    match areas.len() {
        1 => met.note(OfTotals::OneArea),
        64 => met.note(OfTotals::SixtyFour),
        _ => {}
    }
    if areas.iter().any(|area| area.width * area.height == 0) {
        met.note(OfTotals::Empty);
    }
    let mut text = String::new();
    match &totals[..] {
        [(totals, words)] => {
            met.note(OfTotals::OnePicture);
            for (words, [red, green, blue]) in run.areas.iter().zip(totals) {
                text += &format!("{words}: red {red}, green {green}, blue {blue}\n");
            }
            text += &format!("words read: {words}\n");
        }
        [(first, _), (second, _)] => {
            let mut different = 0;
            for ((words, a), b) in run.areas.iter().zip(first).zip(second) {
                if a == b {
                    text += &format!("{words}: the same\n");
                    continue;
                }
                different += 1;
                let by = |c: usize| match b[c] as i64 - a[c] as i64 {
                    0 => "0".to_string(),
                    by => format!("{by:+}"),
                };
                text += &format!(
                    "{words}: differs: red {}, green {}, blue {}\n",
                    by(0),
                    by(1),
                    by(2)
                );
            }
            text += &format!("{different} of {} areas differ\n", areas.len());
            met.note(if different == 0 {
                OfTotals::TwoSame
            } else {
                OfTotals::TwoDifferent
            });
        }
        _ => unreachable!("a run has one picture or two"),
    }
    Ok(text)
}

fn named(words: &str, met: &mut Met<OfTotals>) -> Result<Area, Said> {
    let parts: Vec<&str> = words.split(',').collect();
    let digits = |part: &&str| !part.is_empty() && part.bytes().all(|byte| byte.is_ascii_digit());
    if parts.len() != 4 || !parts.iter().all(digits) {
        // What does not begin with a digit is taken for a picture.
        let late = !words.starts_with(|first: char| first.is_ascii_digit());
        let more = if late {
            met.note(OfTotals::LatePicture);
            " (a second picture stands before the areas)"
        } else {
            met.note(OfTotals::NotFour);
            ""
        };
        let why = format!("no area: it is LEFT,TOP,WIDTH,HEIGHT, four numbers{more}");
        return Err(Said::refusal(words, &why));
    }
    let numbers: Option<Vec<u16>> = parts.iter().map(|part| part.parse().ok()).collect();
    let Some(numbers) = numbers else {
        met.note(OfTotals::TooLarge);
        return Err(Said::refusal(words, "no area: a number is above 65535"));
    };
    let [left, top, width, height] =
        [numbers[0], numbers[1], numbers[2], numbers[3]].map(usize::from);
    Ok(Area {
        left,
        top,
        width,
        height,
    })
}

/// The totals of each area, and how many words one of them holds.
fn measured(
    place: usize,
    file: &File,
    run: &Run,
    areas: &[Area],
    met: &mut Met<OfTotals>,
) -> Result<(Vec<[u64; 3]>, usize), Said> {
    let bytes = file.bytes.as_ref().map_err(|why| {
        met.note([OfTotals::FirstMissing, OfTotals::SecondMissing][place]);
        Said::refusal(&file.name, why)
    })?;
    let frame = ppm::taken(bytes).map_err(|fault| {
        met.note([OfTotals::FirstRefused, OfTotals::SecondRefused][place]);
        Said::refusal(&file.name, fault.words())
    })?;
    for (words, area) in run.areas.iter().zip(areas) {
        if area.left + area.width > frame.width || area.top + area.height > frame.height {
            met.note([OfTotals::OutsideFirst, OfTotals::OutsideSecond][place]);
            if area.width * area.height == 0 {
                met.note(OfTotals::EmptyOutside);
            }
            let why = format!("bad area: it leaves the picture {}", file.name);
            return Err(Said::refusal(words, &why));
        }
    }
    let pixels = &bytes[frame.start..];
    let mut held = vec![false; frame.width * frame.height];
    let mut totals = Vec::new();
    for area in areas {
        let mut sums = [0; 3];
        for y in area.top..area.top + area.height {
            for x in area.left..area.left + area.width {
                let at = y * frame.width + x;
                held[at] = true;
                for (sum, &channel) in sums.iter_mut().zip(&pixels[3 * at..3 * at + 3]) {
                    *sum += u64::from(channel);
                }
            }
        }
        totals.push(sums);
    }
    Ok((totals, held.iter().filter(|&&held| held).count()))
}
