//! What may happen at a list of rectangles. A comparison that does not meet all of it has failed.

use super::model::{self, areas, held, Area};
use crate::met::{Listed, Met};

#[derive(Clone, Copy, PartialEq, Debug)]
pub enum Case {
    Accepted,
    /// None, and the most that are taken.
    NoArea,
    SixtyFour,
    /// One that is empty, one twice, two that share some words, one of the whole picture, one of a single word.
    Empty,
    Twice,
    Overlapping,
    Whole,
    OneWord,
    /// They end at the right and at the lower edge, an empty one too.
    AtTheEdge,
    EmptyAtTheEdge,
    /// Words are left over: of the picture, and in the result.
    LongPicture,
    LongResult,
    /// All words are held, some, or none.
    AllHeld,
    SomeHeld,
    NoneHeld,
    /// Pages of the picture could not be read.
    Guarded,
    /// Refusal 8: a side of 0, or above 1024. Refusal 9.
    NoSide,
    LargeSide,
    ShortFrame,
    /// Refusal 19, by what is wrong alone; and where several are.
    TooMany,
    LeftOver(usize),
    Across,
    Down,
    EmptyOutside,
    ShortResult,
    SeveralFaults,
    /// A side whose end is past 65535.
    Largest,
}

impl Listed for Case {
    const ALL: &'static [Case] = &[
        Case::Accepted,
        Case::NoArea,
        Case::SixtyFour,
        Case::Empty,
        Case::Twice,
        Case::Overlapping,
        Case::Whole,
        Case::OneWord,
        Case::AtTheEdge,
        Case::EmptyAtTheEdge,
        Case::LongPicture,
        Case::LongResult,
        Case::AllHeld,
        Case::SomeHeld,
        Case::NoneHeld,
        Case::Guarded,
        Case::NoSide,
        Case::LargeSide,
        Case::ShortFrame,
        Case::TooMany,
        Case::LeftOver(1),
        Case::LeftOver(2),
        Case::LeftOver(3),
        Case::Across,
        Case::Down,
        Case::EmptyOutside,
        Case::ShortResult,
        Case::SeveralFaults,
        Case::Largest,
    ];
}

/// Notes what happens at a call.
pub fn note(
    words: usize,
    width: usize,
    height: usize,
    list: &[u16],
    room: usize,
    met: &mut Met<Case>,
) {
    match model::refusal(words, width, height, list, room) {
        None => accepted(words, width, height, list, room, met),
        Some(model::BAD_AREA) => bad_area(width, height, list, room, met),
        Some(model::SHORT_FRAME) => met.note(Case::ShortFrame),
        Some(_) if width == 0 || height == 0 => met.note(Case::NoSide),
        Some(_) => met.note(Case::LargeSide),
    }
}

fn accepted(
    words: usize,
    width: usize,
    height: usize,
    list: &[u16],
    room: usize,
    met: &mut Met<Case>,
) {
    met.note(Case::Accepted);
    let areas = areas(list);
    let mut seen = |case, is: bool| {
        if is {
            met.note(case);
        }
    };
    seen(Case::NoArea, areas.is_empty());
    seen(Case::SixtyFour, areas.len() == 64);
    let full: Vec<&Area> = areas.iter().filter(|area| !area.is_empty()).collect();
    let right = |area: &Area| area.left + area.width == width;
    let low = |area: &Area| area.top + area.height == height;
    seen(Case::Empty, full.len() < areas.len());
    seen(Case::Twice, some_two(&full, |a, b| a == b));
    seen(
        Case::Overlapping,
        some_two(&full, |a, b| a != b && !apart(a, b)),
    );
    seen(
        Case::Whole,
        full.iter()
            .any(|area| area.width == width && area.height == height),
    );
    seen(
        Case::OneWord,
        full.iter().any(|area| area.width * area.height == 1),
    );
    seen(
        Case::AtTheEdge,
        full.iter().any(|area| right(area) && low(area)),
    );
    seen(
        Case::EmptyAtTheEdge,
        areas
            .iter()
            .any(|area| area.is_empty() && right(area) && low(area)),
    );
    seen(Case::LongPicture, words > width * height);
    seen(Case::LongResult, room > 3 * areas.len());
    let held = held(width, height, &areas)
        .iter()
        .filter(|&&held| held)
        .count();
    seen(Case::NoneHeld, held == 0);
    seen(Case::SomeHeld, 0 < held && held < width * height);
    seen(Case::AllHeld, held == width * height);
}

/// Whether two of them stand to each other like this.
fn some_two(areas: &[&Area], like_this: impl Fn(&Area, &Area) -> bool) -> bool {
    let before = |k: usize| areas[..k].iter();
    (0..areas.len()).any(|k| before(k).any(|area| like_this(area, areas[k])))
}

/// Whether they share no word.
fn apart(a: &Area, b: &Area) -> bool {
    a.left >= b.left + b.width
        || b.left >= a.left + a.width
        || a.top >= b.top + b.height
        || b.top >= a.top + a.height
}

fn bad_area(width: usize, height: usize, list: &[u16], room: usize, met: &mut Met<Case>) {
    let areas = areas(list);
    let across = areas.iter().any(|area| area.left + area.width > width);
    let down = areas.iter().any(|area| area.top + area.height > height);
    let faults = [
        (Case::TooMany, areas.len() > 64),
        (Case::LeftOver((list.len() % 4).max(1)), list.len() % 4 != 0),
        (Case::Across, across),
        (Case::Down, down),
        (Case::ShortResult, room < 3 * areas.len()),
    ];
    let mut found = faults
        .into_iter()
        .filter(|&(_, is)| is)
        .map(|(case, _)| case);
    let first = found.next().expect("a list is refused for some reason");
    met.note(if found.next().is_none() {
        first
    } else {
        Case::SeveralFaults
    });
    let outside = |area: &Area| area.left + area.width > width || area.top + area.height > height;
    if areas
        .iter()
        .filter(|area| outside(area))
        .all(Area::is_empty)
        && (across || down)
    {
        met.note(Case::EmptyOutside);
    }
    if areas
        .iter()
        .any(|area| area.left + area.width > 65535 || area.top + area.height > 65535)
    {
        met.note(Case::Largest);
    }
}
