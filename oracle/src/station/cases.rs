//! What may happen at the card or at an event of an input. A comparison that does not meet all of it
//! has failed.

use crate::met::Listed;

#[derive(Clone, Copy, PartialEq, Debug)]
pub enum Case {
    /// The input ends before its length byte.
    NoLength,
    /// Or inside its card.
    CutCard,
    /// A card is refused by this number.
    CardRefused(u32),
    CardTaken,
    /// The input ends between events.
    End,
    UnknownLetter,
    /// The input ends inside a frame's size, with a bad width or not, inside its pixels, or inside a switch.
    CutSize,
    CutSizeBadWidth,
    CutPixels,
    CutSwitch,
    /// A width or height of 0, or above 32.
    BadSize,
    SwitchByte,
    /// A frame through a chain that reads a curve, of which the program lends none: with colour on, and with it off.
    BadCurve(bool),
    /// A frame whose histories take more words than the program lends: with a glow that is on, with none, and of a chain that reads a
    /// curve too, which is told later. The largest that is taken, of 32 by 32.
    ShortHistory,
    ShortHistoryOff,
    ShortHistoryCurved,
    LongestHistory,
    /// A frame through a chain without a glow that is on.
    Frame,
    /// A frame that fills the history of each glow that is on, one that meets it, and one that fills it since it has the same count in
    /// another shape.
    Refill,
    Blend,
    Turned,
    /// A frame that fills the history of the first glow, which was switched on, and meets that of a later one.
    FirstRefills,
    /// A frame through so many glows that are on, more than one.
    Several(usize),
    Reset,
    /// A reset while something is held, and by more than one glow.
    ResetHeld,
    ResetSeveral,
    ResetAbsent,
    /// A switch from one position to another.
    Switch(bool, bool),
    /// The first glow is switched while a later one is on.
    FirstSwitched(bool, bool),
    /// The first glow is switched off while it holds something.
    Forget,
    SwitchAbsent,
    /// A kind byte that is no kind.
    SwitchUnknown,
    Step,
    /// From preset 6 to 0.
    StepRound,
    StepAbsent,
}

impl Listed for Case {
    /// All that the program can meet. Refusals 9, 11 and 13 are not among them: each frame is lent its own
    /// words, 6 x 1,024 and 1,024 scratch words, which are enough for every frame of up to 32 by 32, and a station comes from a card and
    /// from calls alone. Nor is 14: no card is written. The 8 x 1,024 history words are enough for each glow alone.
    const ALL: &'static [Case] = &[
        Case::NoLength,
        Case::CutCard,
        Case::CardRefused(1),
        Case::CardRefused(2),
        Case::CardRefused(3),
        Case::CardRefused(4),
        Case::CardRefused(5),
        Case::CardRefused(6),
        Case::CardRefused(7),
        Case::CardRefused(15),
        Case::CardTaken,
        Case::End,
        Case::UnknownLetter,
        Case::CutSize,
        Case::CutSizeBadWidth,
        Case::CutPixels,
        Case::CutSwitch,
        Case::BadSize,
        Case::SwitchByte,
        Case::BadCurve(true),
        Case::BadCurve(false),
        Case::ShortHistory,
        Case::ShortHistoryOff,
        Case::ShortHistoryCurved,
        Case::LongestHistory,
        Case::Frame,
        Case::Refill,
        Case::Blend,
        Case::Turned,
        Case::FirstRefills,
        Case::Several(2),
        Case::Several(3),
        Case::Reset,
        Case::ResetHeld,
        Case::ResetSeveral,
        Case::ResetAbsent,
        Case::Switch(false, false),
        Case::Switch(false, true),
        Case::Switch(true, false),
        Case::Switch(true, true),
        Case::FirstSwitched(false, false),
        Case::FirstSwitched(false, true),
        Case::FirstSwitched(true, false),
        Case::FirstSwitched(true, true),
        Case::Forget,
        Case::SwitchAbsent,
        Case::SwitchUnknown,
        Case::Step,
        Case::StepRound,
        Case::StepAbsent,
    ];
}
