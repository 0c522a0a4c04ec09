//! What may happen to a source. A comparison that does not meet all of it has failed.

use std::collections::HashSet;

use super::both::Show;
use super::model::{self, COLOURS, LONGEST};
use crate::bridge::{Answer, Source};
use crate::met::{Listed, Met};
use crate::passes::chain::COLOUR;
use crate::passes::curves;
use crate::runs::sides::needed;
use crate::runs::station::{Lengths, Station};

/// A buffer that is lent for the enlarged frame.
#[derive(Clone, Copy, PartialEq, Debug)]
pub enum Buffer {
    Framebuffer,
    History,
    Floats,
    Ints,
}

#[derive(Clone, Copy, PartialEq, Debug)]
pub enum Case {
    /// A source that is refused by its width alone, and by its height alone; and one whose sides have a product that is no number here.
    Width(usize),
    Height(usize),
    Huge,
    /// One that is refused for this many numbers too few, for none at all, and for so many colours.
    NumbersShort(usize),
    NoNumber,
    FewColours(usize),
    /// One that is refused where the station would refuse the enlarged frame by this number: 21 comes first.
    BadToo(u32),
    /// A good one that the station refuses by this number, and one for which this buffer alone has a word too few.
    Refused(u32),
    OneShort(Buffer),
    /// One that is refused by this number, though as much is lent as a frame of the source's own sides takes.
    EnoughForSource(u32),
    /// One that is refused by this number, while the framebuffer has words.
    Unwritten(u32),
    /// An accepted one: of this size, with so many colours, with no number more than it has, and with more.
    Size(usize, usize),
    Colours(usize),
    AllNumbersRead,
    NumbersPast,
    /// One that has each of the 256 numbers, while no two of the 64 colours are the same.
    EachNumber,
    /// One that shows a colour with a top byte; and one of which a word of the picture has it still.
    TopByte,
    TopByteKept,
    /// One that leaves words of the framebuffer past the enlarged frame; one for which not a word more is lent than it takes; and one for
    /// which more of both scratches is.
    Past,
    Exact,
    ScratchPast,
    /// One through a chain with no pass on, and one with the pass of this kind on.
    Plain,
    Through(u32),
    /// One through a chain in which so many glows are on; one that fills the history of the first of these, meets it, and fills it since
    /// it was turned; one that meets what a frame of words left there; and one that meets it after a source that was refused.
    Glows(usize),
    Refill,
    Blend,
    Turned,
    BlendFrame,
    BlendRefused,
    /// One whose channels start from a curve: that of the original's powers, and another one.
    Curved(bool),
    /// One while a switch is pending.
    Pending,
    /// One on a state that was changed, and is another good station's.
    Another,
}

impl Listed for Case {
    const ALL: &'static [Case] = &[
        Case::Width(0),
        Case::Width(LONGEST + 1),
        Case::Height(0),
        Case::Height(LONGEST + 1),
        Case::Huge,
        Case::NumbersShort(1),
        Case::NoNumber,
        Case::FewColours(0),
        Case::FewColours(COLOURS - 1),
        Case::BadToo(9),
        Case::BadToo(10),
        Case::BadToo(11),
        Case::BadToo(13),
        Case::BadToo(16),
        Case::Refused(9),
        Case::Refused(10),
        Case::Refused(11),
        Case::Refused(13),
        Case::Refused(16),
        Case::OneShort(Buffer::Framebuffer),
        Case::OneShort(Buffer::History),
        Case::OneShort(Buffer::Floats),
        Case::OneShort(Buffer::Ints),
        Case::EnoughForSource(9),
        Case::EnoughForSource(10),
        Case::EnoughForSource(11),
        Case::Unwritten(9),
        Case::Unwritten(10),
        Case::Unwritten(11),
        Case::Unwritten(13),
        Case::Unwritten(16),
        Case::Unwritten(21),
        Case::Size(1, 1),
        Case::Size(2, 1),
        Case::Size(1, 2),
        Case::Size(2, 2),
        Case::Size(LONGEST, 1),
        Case::Size(1, LONGEST),
        Case::Size(LONGEST, LONGEST),
        Case::Colours(COLOURS),
        Case::Colours(COLOURS + 1),
        Case::AllNumbersRead,
        Case::NumbersPast,
        Case::EachNumber,
        Case::TopByte,
        Case::TopByteKept,
        Case::Past,
        Case::Exact,
        Case::ScratchPast,
        Case::Plain,
        Case::Through(1),
        Case::Through(2),
        Case::Through(3),
        Case::Through(4),
        Case::Through(5),
        Case::Through(6),
        Case::Through(7),
        Case::Through(8),
        Case::Through(9),
        Case::Through(10),
        Case::Glows(0),
        Case::Glows(1),
        Case::Glows(2),
        Case::Glows(3),
        Case::Refill,
        Case::Blend,
        Case::Turned,
        Case::BlendFrame,
        Case::BlendRefused,
        Case::Curved(false),
        Case::Curved(true),
        Case::Pending,
        Case::Another,
    ];
}

/// Notes what happened to a source on a station that stood so before it, or was a bad one: what it was answered, and what the framebuffer
/// holds after it.
pub fn note(
    show: &Show,
    curve: &[f32],
    before: Option<&Station>,
    (answer, framebuffer): (Answer, &[u32]),
    met: &mut Met<Case>,
) {
    if let Err(number) = answer {
        if !framebuffer.is_empty() {
            met.note(Case::Unwritten(number));
        }
    }
    let (source, lent) = (show.source(), &show.lent);
    match (answer, before) {
        (Err(21), _) => note_bad(source, lent, curve, before, met),
        (Err(number), before) => {
            met.note(Case::Refused(number));
            if let Some(before) = before {
                note_short(source, lent, before, number, met);
            }
        }
        (Ok(_), Some(before)) => {
            note_source(source, met);
            note_lent(source, lent, before, framebuffer, met);
            note_chain(source, curve, before, met);
        }
        (Ok(_), None) => panic!("a bad station shows nothing"),
    }
}

fn note_bad(
    source: Source,
    lent: &Lengths,
    curve: &[f32],
    before: Option<&Station>,
    met: &mut Met<Case>,
) {
    let Source {
        picture,
        width,
        height,
        colours,
    } = source;
    let fine = |side: usize| (1..=LONGEST).contains(&side);
    let product = width.checked_mul(height);
    let numbers = product.is_some_and(|product| picture.len() >= product);
    match (fine(width), fine(height), numbers, colours.len() >= COLOURS) {
        (false, true, true, true) => met.note_listed(Case::Width(width)),
        (true, false, true, true) => met.note_listed(Case::Height(height)),
        (true, true, false, true) if picture.is_empty() => met.note(Case::NoNumber),
        (true, true, false, true) => {
            met.note_listed(Case::NumbersShort(width * height - picture.len()))
        }
        (true, true, true, false) => met.note_listed(Case::FewColours(colours.len())),
        _ => {}
    }
    if product.is_none() {
        met.note(Case::Huge);
    }
    if !fine(width) || !fine(height) {
        return;
    }
    let (wide, high) = model::sides(source);
    match before.map(|before| before.frame(wide, high, lent, curve)) {
        None => met.note(Case::BadToo(13)),
        Some(Err(number)) => met.note(Case::BadToo(number)),
        Some(Ok(())) => {}
    }
}

fn note_short(source: Source, lent: &Lengths, before: &Station, number: u32, met: &mut Met<Case>) {
    let enlarged = needed(before, model::sides(source));
    let own = needed(before, (source.width, source.height));
    let lengths = |all: &Lengths| [all.framebuffer, all.history, all.floats, all.ints];
    let buffers = [
        Buffer::Framebuffer,
        Buffer::History,
        Buffer::Floats,
        Buffer::Ints,
    ];
    let (lent, needed) = (lengths(lent), lengths(&enlarged));
    let short: Vec<usize> = (0..buffers.len())
        .filter(|&k| lent[k] < needed[k])
        .collect();
    if let [k] = short[..] {
        if lent[k] + 1 == needed[k] {
            met.note(Case::OneShort(buffers[k]));
        }
    }
    let enough = lent
        .iter()
        .zip(lengths(&own))
        .all(|(lent, own)| *lent >= own);
    if !short.is_empty() && enough {
        met.note(Case::EnoughForSource(number));
    }
}

fn note_source(source: Source, met: &mut Met<Case>) {
    let Source {
        picture,
        width,
        height,
        colours,
    } = source;
    met.note_listed(Case::Size(width, height));
    met.note_listed(Case::Colours(colours.len()));
    let (shown, past) = picture.split_at(width * height);
    met.note(if past.is_empty() {
        Case::AllNumbersRead
    } else {
        Case::NumbersPast
    });
    let colours = &colours[..COLOURS];
    let numbers: HashSet<u8> = shown.iter().copied().collect();
    let different: HashSet<u32> = colours.iter().copied().collect();
    if numbers.len() == 256 && different.len() == COLOURS {
        met.note(Case::EachNumber);
    }
    let has_top = |number: &u8| colours[usize::from(*number) % COLOURS] > 0xff_ffff;
    if numbers.iter().any(has_top) {
        met.note(Case::TopByte);
    }
}

fn note_lent(
    source: Source,
    lent: &Lengths,
    before: &Station,
    framebuffer: &[u32],
    met: &mut Met<Case>,
) {
    let needed = needed(before, model::sides(source));
    if lent.framebuffer > needed.framebuffer {
        met.note(Case::Past);
    }
    if *lent == needed {
        met.note(Case::Exact);
    }
    if lent.floats > needed.floats && lent.ints > needed.ints {
        met.note(Case::ScratchPast);
    }
    let mut shown = framebuffer[..needed.framebuffer].iter();
    if shown.any(|&word| word > 0xff_ffff) {
        met.note(Case::TopByteKept);
    }
}

fn note_chain(source: Source, curve: &[f32], before: &Station, met: &mut Met<Case>) {
    let on: Vec<u32> = (1..=10).filter(|&kind| before.is_on(kind)).collect();
    if on.is_empty() && before.lit().is_empty() {
        met.note(Case::Plain);
    }
    for kind in on {
        met.note(Case::Through(kind));
    }
    let (lit, size) = (before.lit(), model::sides(source));
    met.note(Case::Glows(lit.len()));
    if let Some(&first) = lit.first() {
        met.note(match before.meets(first, size) {
            true => Case::Blend,
            false if before.turned(size) => Case::Turned,
            false => Case::Refill,
        });
    }
    if let Some(gamma) = before.curved().filter(|_| before.is_on(COLOUR)) {
        let powers = curves::power(gamma);
        let read = &curve[..curves::READ];
        met.note(Case::Curved(curves::same(read, &powers)));
    }
    if before.pending.is_some() {
        met.note(Case::Pending);
    }
}
