//! What may happen at a card, at a pair of cards or at a run of files. A comparison that does not meet all of it has
//! failed.

use std::cmp::Ordering;

use super::cards::Way;
use super::size::Fault as NoSize;
use crate::met::Listed;

/// At a card.
#[derive(Clone, Copy, PartialEq, Debug)]
pub enum OfCard {
    Given(Way),
    /// Its normalised bytes are those that were given, or others.
    Normal,
    Limited,
    NoPass,
    /// As many passes as a card may have; and so many glows.
    TwelvePasses,
    Glows(usize),
    /// A pass of this kind, off or on.
    Pass(u32, bool),
    Preset(u32),
    /// A gamma of 0.01, of 1, of 4, and any other.
    GammaLowest,
    GammaOne,
    GammaFour,
    GammaOther,
    /// A setting below 0, one that is subnormal, and one with all the places that a setting can have.
    Negative,
    Subnormal,
    Longest,
    /// Refusals by number, apart from those below.
    Refused(u32),
    /// A fourth glow, and a second or third one out of order.
    FourthGlow,
    GlowOutOfOrder,
    /// Torn: no bit of the field is there, or some are.
    TornBefore,
    TornInside,
    /// Too long: a padding bit is set, or a byte is left over.
    Padding,
    LeftOver,
    /// The samples at 256 by 240: none, or some.
    Samples(bool),
    /// A size is asked for: with a side of 1, one of 1024, a zero before a side; and a blur that is on, whose radius is less than the
    /// length of a line, equal to it, or greater.
    SideOne,
    SideLargest,
    SideZero,
    Radius(Ordering),
    /// Words that are no size; and behind a size an option.
    NoSize(NoSize),
    SizeHelp,
}

impl Listed for OfCard {
    const ALL: &'static [OfCard] = &[
        OfCard::Given(Way::Close),
        OfCard::Given(Way::Spaced),
        OfCard::Given(Way::Anyhow),
        OfCard::Given(Way::CloseSmall),
        OfCard::Given(Way::SpacedSmall),
        OfCard::Given(Way::AnyhowBoth),
        OfCard::Given(Way::NoByte),
        OfCard::Given(Way::AlsoFile),
        OfCard::Given(Way::File),
        OfCard::Given(Way::NearlyHexadecimal),
        OfCard::Given(Way::Option),
        OfCard::Given(Way::Missing),
        OfCard::Given(Way::Folder),
        OfCard::Normal,
        OfCard::Limited,
        OfCard::NoPass,
        OfCard::TwelvePasses,
        OfCard::Glows(0),
        OfCard::Glows(1),
        OfCard::Glows(2),
        OfCard::Glows(3),
        OfCard::Pass(1, false),
        OfCard::Pass(1, true),
        OfCard::Pass(2, false),
        OfCard::Pass(2, true),
        OfCard::Pass(3, false),
        OfCard::Pass(3, true),
        OfCard::Pass(4, false),
        OfCard::Pass(4, true),
        OfCard::Pass(5, false),
        OfCard::Pass(5, true),
        OfCard::Pass(6, false),
        OfCard::Pass(6, true),
        OfCard::Pass(7, false),
        OfCard::Pass(7, true),
        OfCard::Pass(8, false),
        OfCard::Pass(8, true),
        OfCard::Pass(9, false),
        OfCard::Pass(9, true),
        OfCard::Pass(10, false),
        OfCard::Pass(10, true),
        OfCard::Preset(0),
        OfCard::Preset(1),
        OfCard::Preset(2),
        OfCard::Preset(3),
        OfCard::Preset(4),
        OfCard::Preset(5),
        OfCard::Preset(6),
        OfCard::GammaLowest,
        OfCard::GammaOne,
        OfCard::GammaFour,
        OfCard::GammaOther,
        OfCard::Negative,
        OfCard::Subnormal,
        OfCard::Longest,
        OfCard::TornBefore,
        OfCard::TornInside,
        OfCard::Refused(2),
        OfCard::Refused(3),
        OfCard::Refused(4),
        OfCard::Refused(5),
        OfCard::Refused(6),
        OfCard::Refused(15),
        OfCard::FourthGlow,
        OfCard::GlowOutOfOrder,
        OfCard::Padding,
        OfCard::LeftOver,
        OfCard::Samples(false),
        OfCard::Samples(true),
        OfCard::SideOne,
        OfCard::SideLargest,
        OfCard::SideZero,
        OfCard::Radius(Ordering::Less),
        OfCard::Radius(Ordering::Equal),
        OfCard::Radius(Ordering::Greater),
        OfCard::NoSize(NoSize::Byte),
        OfCard::NoSize(NoSize::NoCross),
        OfCard::NoSize(NoSize::Crosses),
        OfCard::NoSize(NoSize::NoDigit),
        OfCard::NoSize(NoSize::Zero),
        OfCard::NoSize(NoSize::Above),
        OfCard::NoSize(NoSize::Huge),
        OfCard::SizeHelp,
    ];
}

/// At a pair of cards.
#[derive(Clone, Copy, PartialEq, Debug)]
pub enum OfPair {
    /// Alike, with the same bytes or spelt differently; and one of these with a gamma other than 1, and with so many glows that are on.
    Same,
    Respelt,
    Curved,
    Lit(usize),
    /// The first difference: one chain is longer, another kind, another switch, or the setting at this place.
    FirstLonger,
    SecondLonger,
    Kind,
    Switch,
    Setting(usize),
    FirstRefused,
    SecondRefused,
    BothRefused,
    /// No card could be read.
    FirstMissing,
    SecondMissing,
    Help,
    /// With a size, and with words that are none.
    Sized,
    NoSize,
}

impl Listed for OfPair {
    const ALL: &'static [OfPair] = &[
        OfPair::Same,
        OfPair::Respelt,
        OfPair::Curved,
        OfPair::Lit(0),
        OfPair::Lit(1),
        OfPair::Lit(2),
        OfPair::Lit(3),
        OfPair::FirstLonger,
        OfPair::SecondLonger,
        OfPair::Kind,
        OfPair::Switch,
        OfPair::Setting(0),
        OfPair::Setting(1),
        OfPair::Setting(2),
        OfPair::Setting(3),
        OfPair::FirstRefused,
        OfPair::SecondRefused,
        OfPair::BothRefused,
        OfPair::FirstMissing,
        OfPair::SecondMissing,
        OfPair::Help,
        OfPair::Sized,
        OfPair::NoSize,
    ];
}

#[cfg(with_original)]
pub use of_run::OfRun;

#[cfg(with_original)]
mod of_run {
    use super::super::ppm::Fault;
    use crate::met::Listed;

    /// At a run of program `filter`.
    #[derive(Clone, Copy, PartialEq, Debug)]
    pub enum OfRun {
        /// So many frames were shown.
        Frames(usize),
        /// A frame through a chain without a glow that is on.
        Frame,
        /// A frame that fills the histories, one that meets them, and one that fills them since it has the same count in another shape.
        Refill,
        Blend,
        Turned,
        /// A frame through so many glows that are on, more than one.
        Several(usize),
        /// A frame of this size: the smallest, and the largest that are taken.
        Size(usize, usize),
        /// A header with a comment in it, one with other white bytes than space and newline, and one with neither.
        Comment,
        OtherWhite,
        Plain,
        /// A file of as many bytes as are read.
        Full,
        /// A frame that came through a pipe.
        Piped,
        /// The clipped channels of a picture were told, and its samples: none, and some.
        Clipped(bool),
        Sampled(bool),
        Help,
        /// An option stands there twice.
        Twice,
        CardMissing,
        CardRefused,
        /// A frame whose channels start from a curve; one of a chain that reads it while colour is off; and one of a chain that reads
        /// none, with a curve given.
        Curved,
        CurveOff,
        CurveUnread,
        /// No curve is given to a chain that reads one, with colour on, or off.
        NoCurve(bool),
        /// The file of a curve is not there, has another length, or a bad word: while the chain reads it, and while it does not.
        CurveMissing,
        CurveLength(bool),
        CurveWord(bool),
        /// A file is refused, at the first place of the run or at a later one.
        First,
        Later,
        /// Why it is refused.
        Refused(Fault),
        FileMissing,
    }

    impl Listed for OfRun {
        const ALL: &'static [OfRun] = &[
            OfRun::Frames(1),
            OfRun::Frames(2),
            OfRun::Frames(3),
            OfRun::Frames(4),
            OfRun::Frames(5),
            OfRun::Frames(6),
            OfRun::Frame,
            OfRun::Refill,
            OfRun::Blend,
            OfRun::Turned,
            OfRun::Several(2),
            OfRun::Several(3),
            OfRun::Size(1, 1),
            OfRun::Size(256, 240),
            OfRun::Size(60, 1024),
            OfRun::Size(1024, 60),
            OfRun::Comment,
            OfRun::OtherWhite,
            OfRun::Plain,
            OfRun::Full,
            OfRun::Piped,
            OfRun::Clipped(false),
            OfRun::Clipped(true),
            OfRun::Sampled(false),
            OfRun::Sampled(true),
            OfRun::Help,
            OfRun::Twice,
            OfRun::CardMissing,
            OfRun::CardRefused,
            OfRun::Curved,
            OfRun::CurveOff,
            OfRun::CurveUnread,
            OfRun::NoCurve(true),
            OfRun::NoCurve(false),
            OfRun::CurveMissing,
            OfRun::CurveLength(true),
            OfRun::CurveLength(false),
            OfRun::CurveWord(true),
            OfRun::CurveWord(false),
            OfRun::First,
            OfRun::Later,
            OfRun::Refused(Fault::Empty),
            OfRun::Refused(Fault::OtherFormat),
            OfRun::Refused(Fault::HeaderCut),
            OfRun::Refused(Fault::BadHeader),
            OfRun::Refused(Fault::OtherMaximum),
            OfRun::Refused(Fault::NoPixel),
            OfRun::Refused(Fault::TooLarge),
            OfRun::Refused(Fault::PixelsCut),
            OfRun::Refused(Fault::LeftOver),
            OfRun::Refused(Fault::TooLong),
            OfRun::FileMissing,
        ];
    }
}
