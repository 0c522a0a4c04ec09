//! What may happen in a run or in a trial.

use std::cmp::Ordering;

use crate::met::Listed;
use crate::passes::curves::Odd;

/// A buffer that is lent one word, or one byte, short of its limit.
#[derive(Clone, Copy, PartialEq, Debug)]
pub enum Short {
    Framebuffer,
    /// While a glow is on, and while none is.
    History,
    HistoryOff,
    Floats,
    Ints,
    Card,
    /// The history, for a new depth.
    NewDepth,
}

/// Which call was made.
#[derive(Clone, Copy, PartialEq, Debug)]
pub enum Which {
    Frame,
    Reset,
    Switch,
    Ask,
    Commit,
    Step,
    SetDepth,
    Write,
    Depth,
}

/// What is wrong with the bytes of a state that tell the pending switch: a kind that is not in the chain, a position without a kind, and
/// a position above 1.
#[derive(Clone, Copy, PartialEq, Debug)]
pub enum Broken {
    Kind,
    NoKind,
    Position,
}

/// Why a curve that is not read could not be: it has no word, too few, or a bad one.
#[derive(Clone, Copy, PartialEq, Debug)]
pub enum Bad {
    Empty,
    Short,
    Word,
}

/// A line along which a blur goes: a row under NTSC, and a row and a column under bloom.
#[derive(Clone, Copy, PartialEq, Debug)]
pub enum Line {
    NtscRow,
    BloomRow,
    BloomColumn,
}

#[derive(Clone, Copy, PartialEq, Debug)]
pub enum Case {
    /// A frame through a chain without a glow, with none that is on, one that fills the history of each that is on, one that
    /// meets it, and one that fills it since it has the same count in another shape.
    FrameAbsent,
    FrameOff,
    Refill,
    Blend,
    Turned,
    /// Of several glows that are on, the first fills its history, since it was switched on or is made to hold nothing, while a later
    /// one meets its own; and a later one fills its, since a new depth made it forget, while the first meets its own.
    FirstRefills,
    LaterRefills,
    /// A frame through a chain with so many glows, of which those are on whose bit is set: the lowest bit is that of the first.
    Glows(usize, usize),
    /// An accepted frame of which no channel was clipped, and one of which some were.
    Clipped(bool),
    /// One for which no sample was taken, one for which some were, and one for which as many were as for any frame.
    Sampled(bool),
    MostSampled,
    /// A blur whose radius is less than, equal to or greater than the length of its lines; one whose lines have one place; and both
    /// blurs on.
    Radius(Line, Ordering),
    OnePlace(Line),
    BothBlurs,
    /// A frame that is lent not a word more than it needs.
    Exact,
    /// An accepted frame of this width and height.
    Size(usize, usize),
    /// A refused call: what was called, and the number.
    Open(u32),
    Frame(u32),
    ResetRefused(u32),
    SwitchRefused(u32),
    AskRefused(u32),
    CommitRefused(u32),
    StepRefused(u32),
    SetDepthRefused(u32),
    WriteRefused(u32),
    DepthRefused(u32),
    EnabledRefused(u32),
    PresetRefused(u32),
    /// The only fault of a frame, of a new depth or of a writing.
    OneShort(Short),
    /// A frame that is refused by 10 alone, of a chain with several glows: with as many words as the deepest of them takes, and with as
    /// many as those that are on.
    ShortOfSum,
    ShortOfAll,
    SideZero,
    Side1025,
    /// A side whose product with the other passes all numbers.
    SideHuge,
    Reset,
    /// A reset while something is held, and while more than one glow holds something.
    ResetHeld,
    ResetSeveral,
    /// A switch from one position to another.
    Switch(bool, bool),
    /// The same of the first glow, while a later one is on, or is off.
    FirstSwitched(bool, bool),
    FirstSwitchedAlone(bool, bool),
    /// The first glow is switched off while it holds something, and while a later one does too, which goes on.
    Forget,
    ForgetBeside,
    /// A kind byte that is no kind.
    SwitchUnknown,
    /// A switch that is asked for: where it stands, and where it is to stand.
    Asked(bool, bool),
    /// A kind byte that is no kind, and any kind that is not in the chain while a switch is pending: 12, and not 17.
    AskUnknown,
    AskAbsentPending,
    /// A commit: where the switch stood, and where it stands then.
    Committed(bool, bool),
    /// The first glow is committed to off while it holds something, and while a later one does too, which goes on.
    CommitForgets,
    CommitForgetsBeside,
    /// An accepted, or a refused, call of a station with a pending switch, which stays pending.
    Kept(Which, bool),
    /// A plain switch of the kind that is pending, which a commit then switches again.
    SwitchBetween,
    /// A frame that meets the history of the first glow while that is to be switched off.
    BlendPending,
    /// A card that shows another position than the pending one.
    WrittenPending,
    Step,
    /// From preset 6 to 0.
    StepRound,
    StepOff,
    /// A new depth that is less than, equal to or greater than the one before it: while the first glow holds frames, while it holds none,
    /// and while it is off.
    Resized(Ordering),
    ResizedEmpty(Ordering),
    ResizedOff(Ordering),
    /// The same while a later glow holds frames, which it forgets where the depth is another: beside a first glow that holds frames too,
    /// that holds none, and that is off.
    ResizedBeside(Ordering),
    ResizedEmptyBeside(Ordering),
    ResizedOffBeside(Ordering),
    /// One of this number, which is accepted; 0 becomes 1.
    ResizedTo(u8),
    /// One that is lent not a word more than it asks for, while frames are held; and no word at all, while none is.
    ResizedExact,
    ResizedUnlent,
    /// One that is accepted with fewer words than the depth before it would ask for, and one that is refused with as many.
    ResizedBelow,
    ShortAsBefore,
    /// A number above 8: where there is no persistence, 12 and not 6; and with too few words, 6 and not 10.
    AboveAbsent,
    AboveShort,
    /// A new depth straight after another, and a frame straight after one: of the size that is held, and of another.
    ResizedAgain,
    BlendResized(Ordering),
    RefillResized(Ordering),
    /// An accepted frame after a new depth, which is not compared with the original as it stands.
    AfterResizing,
    Written,
    Depth,
    /// The depths of several glows, told as their sum.
    DepthOfSeveral,
    /// A pass that was told to be off, and one that was told to be on; and the first glow so, while a later one stands otherwise.
    Enabled(bool),
    EnabledBeside(bool),
    /// A byte that is no kind, whose switch is not told: 12.
    EnabledUnknown,
    /// A preset that was told.
    Preset(u32),
    /// A state with a bit changed: a bad one, and one that is another good station's.
    Bad,
    Another,
    /// A state in which another size is remembered at a place: with a side above 1024, with one side 0, by a glow that is off, by another
    /// pass, where there is no pass, one that differs from what another glow remembers, nothing while another remembers something, and a
    /// good one.
    HeldAbove,
    HeldHalf,
    HeldOff,
    HeldByAnother,
    HeldPast,
    HeldDiffers,
    HeldForgotten,
    HeldOther,
    /// The same of all glows that are on.
    HeldOtherByAll,
    /// A state in whose card two records are exchanged, at this call: a bad one.
    OutOfOrder(Which),
    /// A state whose pending switch no station has, and one with another that is good.
    PendingBroken(Broken),
    PendingOther,
    /// An accepted frame whose channels start from a curve: that of the original's powers, and another one.
    Curved(bool),
    /// An accepted frame of a chain that reads a curve while colour is off.
    CurveOff,
    /// An accepted one with a curve of so many words; with -0 among those that are read; and with a bad word behind them.
    CurveOf(usize),
    CurveMinusZero,
    CurvePast,
    /// A frame that is refused by 16: with so few words, by a word, by a word at this place, and while colour is off.
    CurveShort(usize),
    CurveWord(Odd),
    CurveWordAt(usize),
    CurveBadOff,
    /// An accepted frame of a chain that reads no curve, with one that could not be read: colour at gamma 1, and no colour.
    Unread(Bad),
    UnreadAbsent(Bad),
    /// A frame that is refused by this number, with a curve that would be refused too.
    CurveToo(u32),
}

impl Listed for Case {
    const ALL: &'static [Case] = &[
        Case::FrameAbsent,
        Case::FrameOff,
        Case::Refill,
        Case::Blend,
        Case::Turned,
        Case::FirstRefills,
        Case::LaterRefills,
        Case::Glows(1, 0),
        Case::Glows(1, 1),
        Case::Glows(2, 0),
        Case::Glows(2, 1),
        Case::Glows(2, 2),
        Case::Glows(2, 3),
        Case::Glows(3, 0),
        Case::Glows(3, 1),
        Case::Glows(3, 2),
        Case::Glows(3, 3),
        Case::Glows(3, 4),
        Case::Glows(3, 5),
        Case::Glows(3, 6),
        Case::Glows(3, 7),
        Case::Clipped(false),
        Case::Clipped(true),
        Case::Sampled(false),
        Case::Sampled(true),
        Case::MostSampled,
        Case::Radius(Line::NtscRow, Ordering::Less),
        Case::Radius(Line::NtscRow, Ordering::Equal),
        Case::Radius(Line::NtscRow, Ordering::Greater),
        Case::Radius(Line::BloomRow, Ordering::Less),
        Case::Radius(Line::BloomRow, Ordering::Equal),
        Case::Radius(Line::BloomRow, Ordering::Greater),
        Case::Radius(Line::BloomColumn, Ordering::Less),
        Case::Radius(Line::BloomColumn, Ordering::Equal),
        Case::Radius(Line::BloomColumn, Ordering::Greater),
        Case::OnePlace(Line::NtscRow),
        Case::OnePlace(Line::BloomRow),
        Case::OnePlace(Line::BloomColumn),
        Case::BothBlurs,
        Case::Exact,
        Case::Size(1, 1),
        Case::Size(1024, 1),
        Case::Size(1, 1024),
        Case::Size(640, 480),
        Case::Size(1024, 1024),
        Case::Open(1),
        Case::Open(2),
        Case::Open(3),
        Case::Open(4),
        Case::Open(5),
        Case::Open(6),
        Case::Open(7),
        Case::Open(15),
        Case::Frame(8),
        Case::Frame(9),
        Case::Frame(10),
        Case::Frame(11),
        Case::Frame(13),
        Case::Frame(16),
        Case::ResetRefused(12),
        Case::ResetRefused(13),
        Case::SwitchRefused(12),
        Case::SwitchRefused(13),
        Case::AskRefused(12),
        Case::AskRefused(13),
        Case::AskRefused(17),
        Case::CommitRefused(13),
        Case::CommitRefused(18),
        Case::StepRefused(12),
        Case::StepRefused(13),
        Case::SetDepthRefused(6),
        Case::SetDepthRefused(10),
        Case::SetDepthRefused(12),
        Case::SetDepthRefused(13),
        Case::WriteRefused(13),
        Case::WriteRefused(14),
        Case::DepthRefused(13),
        Case::EnabledRefused(12),
        Case::EnabledRefused(13),
        Case::PresetRefused(12),
        Case::PresetRefused(13),
        Case::OneShort(Short::Framebuffer),
        Case::OneShort(Short::History),
        Case::OneShort(Short::HistoryOff),
        Case::OneShort(Short::Floats),
        Case::OneShort(Short::Ints),
        Case::OneShort(Short::Card),
        Case::OneShort(Short::NewDepth),
        Case::ShortOfSum,
        Case::ShortOfAll,
        Case::SideZero,
        Case::Side1025,
        Case::SideHuge,
        Case::Reset,
        Case::ResetHeld,
        Case::ResetSeveral,
        Case::Switch(false, false),
        Case::Switch(false, true),
        Case::Switch(true, false),
        Case::Switch(true, true),
        Case::FirstSwitched(false, false),
        Case::FirstSwitched(false, true),
        Case::FirstSwitched(true, false),
        Case::FirstSwitched(true, true),
        Case::FirstSwitchedAlone(false, false),
        Case::FirstSwitchedAlone(false, true),
        Case::FirstSwitchedAlone(true, false),
        Case::FirstSwitchedAlone(true, true),
        Case::Forget,
        Case::ForgetBeside,
        Case::SwitchUnknown,
        Case::Asked(false, false),
        Case::Asked(false, true),
        Case::Asked(true, false),
        Case::Asked(true, true),
        Case::AskUnknown,
        Case::AskAbsentPending,
        Case::Committed(false, false),
        Case::Committed(false, true),
        Case::Committed(true, false),
        Case::Committed(true, true),
        Case::CommitForgets,
        Case::CommitForgetsBeside,
        Case::Kept(Which::Frame, true),
        Case::Kept(Which::Frame, false),
        Case::Kept(Which::Reset, true),
        Case::Kept(Which::Reset, false),
        Case::Kept(Which::Switch, true),
        Case::Kept(Which::Switch, false),
        Case::Kept(Which::Ask, false),
        Case::Kept(Which::Step, true),
        Case::Kept(Which::Step, false),
        Case::Kept(Which::SetDepth, true),
        Case::Kept(Which::SetDepth, false),
        Case::Kept(Which::Write, true),
        Case::Kept(Which::Write, false),
        Case::Kept(Which::Depth, true),
        Case::SwitchBetween,
        Case::BlendPending,
        Case::WrittenPending,
        Case::Step,
        Case::StepRound,
        Case::StepOff,
        Case::Resized(Ordering::Less),
        Case::Resized(Ordering::Equal),
        Case::Resized(Ordering::Greater),
        Case::ResizedEmpty(Ordering::Less),
        Case::ResizedEmpty(Ordering::Equal),
        Case::ResizedEmpty(Ordering::Greater),
        Case::ResizedOff(Ordering::Less),
        Case::ResizedOff(Ordering::Equal),
        Case::ResizedOff(Ordering::Greater),
        Case::ResizedBeside(Ordering::Less),
        Case::ResizedBeside(Ordering::Equal),
        Case::ResizedBeside(Ordering::Greater),
        Case::ResizedEmptyBeside(Ordering::Less),
        Case::ResizedEmptyBeside(Ordering::Equal),
        Case::ResizedEmptyBeside(Ordering::Greater),
        Case::ResizedOffBeside(Ordering::Less),
        Case::ResizedOffBeside(Ordering::Equal),
        Case::ResizedOffBeside(Ordering::Greater),
        Case::ResizedTo(0),
        Case::ResizedTo(1),
        Case::ResizedTo(8),
        Case::ResizedExact,
        Case::ResizedUnlent,
        Case::ResizedBelow,
        Case::ShortAsBefore,
        Case::AboveAbsent,
        Case::AboveShort,
        Case::ResizedAgain,
        Case::BlendResized(Ordering::Less),
        Case::BlendResized(Ordering::Equal),
        Case::BlendResized(Ordering::Greater),
        Case::RefillResized(Ordering::Less),
        Case::RefillResized(Ordering::Equal),
        Case::RefillResized(Ordering::Greater),
        Case::AfterResizing,
        Case::Written,
        Case::Depth,
        Case::DepthOfSeveral,
        Case::Enabled(false),
        Case::Enabled(true),
        Case::EnabledBeside(false),
        Case::EnabledBeside(true),
        Case::EnabledUnknown,
        Case::Preset(0),
        Case::Preset(1),
        Case::Preset(2),
        Case::Preset(3),
        Case::Preset(4),
        Case::Preset(5),
        Case::Preset(6),
        Case::Bad,
        Case::Another,
        Case::HeldAbove,
        Case::HeldHalf,
        Case::HeldOff,
        Case::HeldByAnother,
        Case::HeldPast,
        Case::HeldDiffers,
        Case::HeldForgotten,
        Case::HeldOther,
        Case::HeldOtherByAll,
        Case::OutOfOrder(Which::Frame),
        Case::OutOfOrder(Which::Reset),
        Case::OutOfOrder(Which::Switch),
        Case::OutOfOrder(Which::Ask),
        Case::OutOfOrder(Which::Commit),
        Case::OutOfOrder(Which::Step),
        Case::OutOfOrder(Which::SetDepth),
        Case::OutOfOrder(Which::Write),
        Case::OutOfOrder(Which::Depth),
        Case::PendingBroken(Broken::Kind),
        Case::PendingBroken(Broken::NoKind),
        Case::PendingBroken(Broken::Position),
        Case::PendingOther,
        Case::Curved(true),
        Case::Curved(false),
        Case::CurveOff,
        Case::CurveOf(256),
        Case::CurveOf(257),
        Case::CurveMinusZero,
        Case::CurvePast,
        Case::CurveShort(0),
        Case::CurveShort(255),
        Case::CurveWord(Odd::Above),
        Case::CurveWord(Odd::Below),
        Case::CurveWord(Odd::Nan),
        Case::CurveWord(Odd::NegativeNan),
        Case::CurveWord(Odd::SignallingNan),
        Case::CurveWord(Odd::Infinity),
        Case::CurveWord(Odd::NegativeInfinity),
        Case::CurveWordAt(0),
        Case::CurveWordAt(255),
        Case::CurveBadOff,
        Case::Unread(Bad::Empty),
        Case::Unread(Bad::Short),
        Case::Unread(Bad::Word),
        Case::UnreadAbsent(Bad::Empty),
        Case::UnreadAbsent(Bad::Short),
        Case::UnreadAbsent(Bad::Word),
        Case::CurveToo(8),
        Case::CurveToo(9),
        Case::CurveToo(10),
        Case::CurveToo(11),
        Case::CurveToo(13),
    ];
}

/// How two stations come to agree, and what a trial can meet beside it.
#[derive(Clone, Copy, PartialEq, Debug)]
pub enum Point {
    /// From the first call on: no glow in the chain, or none that is on.
    Absent,
    Off,
    /// After as many frames as the depths of the glows add up to that were on, so many of them: from the start of the list, and from a
    /// change of depth.
    Frames(usize),
    FramesAnew(usize),
    /// A reset, and one of several glows that were on.
    Reset(bool),
    /// The only glow that is on, the first, is switched off: at once, and by a commit.
    SwitchedOff,
    CommittedOff,
    /// The point comes after one of several glows was switched off while others stayed on, and after the first was switched on beside
    /// others: neither changes the count.
    OneOff,
    OneOn,
    /// Such switches before the point.
    FirstOff,
    FirstOn,
    /// The list ends before the point.
    Never,
    /// The list leaves the claim before the point: a new depth is taken by one station and refused by the other.
    Outside,
    /// Both stations have the same pending switch as the shared list begins.
    Pending,
    /// A switch that is asked for, and a commit, in an own list.
    OwnAsked,
    OwnCommitted,
    /// The same in the shared list before the point, which the commit does not bring.
    AskedBefore,
    CommittedBefore,
    /// A new depth in an own list, and own lists that leave two depths, of which one is then made the other.
    OwnResized,
    DepthDiffers,
    /// One in the shared list before the point that both take, as it is beside the depth before it, and while they hold frames of two
    /// sizes, or one of them none; one that both refuse, by the number; and one from the point on that both take.
    ResizedBefore(Ordering),
    ResizedApart,
    ResizingRefused(u32),
    Resized,
    /// One that both take before the point, of several glows.
    ResizedSeveral(Ordering),
    /// A picture that differs though the stations would have agreed, had a change of depth not begun the count anew.
    DiffersAnew,
    /// One that differs after as many frames as the deepest of so many glows asks for; one at the last frame before the point; and one
    /// after one of several glows was switched off, and after the first was switched on beside others.
    DiffersPastDeepest(usize),
    DiffersLast(usize),
    DiffersOneOff,
    DiffersOneOn,
    /// The cards differ, and normalise alike.
    Respelt,
    /// One station holds frames and the other none, or frames of another size.
    HeldDiffers,
    /// Both hold frames of one count, of two shapes: one of them was turned.
    HeldTurned,
    /// A turned frame in an own list.
    OwnTurned,
    /// A refused call before the point.
    RefusedBefore,
    /// A frame of another size before the point, and one of them that is turned.
    RefillBefore,
    TurnedBefore,
    /// A shared frame that is turned at one station and meets the history of the other.
    OneTurned,
    /// Another number of clipped channels before the point.
    ClippedDiffers,
    /// A shared frame for which samples were taken: before the point, and from it on.
    SampledBefore,
    Sampled,
    /// From the point on, a shared frame whose channels start from curves that are equal, and from such as differ past the words that are
    /// read.
    Curved,
    CurvesPast,
    /// From the point on, one whose chain does not read the curves, which differ: in a word, and in their length.
    CurvesUnread,
    LengthsUnread,
    /// A shared frame that both refuse by 16: before the point, and from it on.
    BadCurveBefore,
    BadCurve,
}

impl Listed for Point {
    const ALL: &'static [Point] = &[
        Point::Absent,
        Point::Off,
        Point::Frames(1),
        Point::Frames(2),
        Point::Frames(3),
        Point::FramesAnew(1),
        Point::FramesAnew(2),
        Point::FramesAnew(3),
        Point::Reset(false),
        Point::Reset(true),
        Point::SwitchedOff,
        Point::CommittedOff,
        Point::OneOff,
        Point::OneOn,
        Point::FirstOff,
        Point::FirstOn,
        Point::Never,
        Point::Outside,
        Point::Pending,
        Point::OwnAsked,
        Point::OwnCommitted,
        Point::AskedBefore,
        Point::CommittedBefore,
        Point::OwnResized,
        Point::DepthDiffers,
        Point::ResizedBefore(Ordering::Less),
        Point::ResizedBefore(Ordering::Equal),
        Point::ResizedBefore(Ordering::Greater),
        Point::ResizedApart,
        Point::ResizingRefused(6),
        Point::ResizingRefused(10),
        Point::Resized,
        Point::ResizedSeveral(Ordering::Less),
        Point::ResizedSeveral(Ordering::Equal),
        Point::ResizedSeveral(Ordering::Greater),
        Point::DiffersAnew,
        Point::DiffersPastDeepest(2),
        Point::DiffersPastDeepest(3),
        Point::DiffersLast(2),
        Point::DiffersLast(3),
        Point::DiffersOneOff,
        Point::DiffersOneOn,
        Point::Respelt,
        Point::HeldDiffers,
        Point::HeldTurned,
        Point::OwnTurned,
        Point::RefusedBefore,
        Point::RefillBefore,
        Point::TurnedBefore,
        Point::OneTurned,
        Point::ClippedDiffers,
        Point::SampledBefore,
        Point::Sampled,
        Point::Curved,
        Point::CurvesPast,
        Point::CurvesUnread,
        Point::LengthsUnread,
        Point::BadCurveBefore,
        Point::BadCurve,
    ];
}
