//! Safe calls of the library `bridge`, whose functions include/hedgemallow.h declares and describes.
//! Nothing here panics, allocates or needs another crate.
//!
//! The types see to pointers, lengths and threads. Two things are left to the caller, as the header
//! says: the thread's control word for floats (MXCSR) rounds to nearest, keeps subnormal numbers and
//! masks all exceptions, as Rust itself takes for granted; and a frame, a source and a sheet take less than 52 KiB
//! of stack, a call of `areas` less than 44 (33,192, 33,720, 36,344 and 41,288 bytes were measured on 2026-11-18).
//!
//! ```
//! use hedgemallow::{scratch_words, Kind, Refusal, Station};
//!
//! // Scanlines at full strength, on.
//! let mut station = Station::open(&[0x11, 0xA9, 0xFC, 0x00, 0x00, 0x00])?;
//! let (width, height) = (1, 2);
//! let scratch = scratch_words(width, height)?;
//! let (mut floats, mut ints) = (vec![0.0; scratch.floats], vec![0; scratch.ints]);
//! let mut history = vec![0; station.history_words(width, height)?];
//!
//! let mut frame = [0x123456, 0x123456];
//! // The last buffer is a curve, for cards with a gamma other than 1: this one has no colour, and reads none.
//! station.apply(&mut frame, width, height, &mut history, &mut floats, &mut ints, &[])?;
//! assert_eq!(frame, [0x123456, 0]);
//!
//! station.set_enabled(Kind::Scanlines, false)?;
//! assert_eq!(station.set_enabled(Kind::Lut, true), Err(Refusal::NotInChain));
//! # Ok::<(), Refusal>(())
//! ```

use std::fmt;

/// The exports, in a module of their own so that the methods may bear short names. The comparison in
/// oracle/ includes this file and calls them itself.
pub(crate) mod exports {
    #[link(name = "bridge", kind = "static")]
    extern "C" {
        pub fn hedgemallow_open(card: *const u8, card_len: usize, state: *mut u8) -> u32;
        pub fn hedgemallow_write(state: *const u8, buffer: *mut u8, buffer_len: usize) -> u32;
        pub fn hedgemallow_apply(
            state: *mut u8,
            framebuffer: *mut u32,
            framebuffer_len: usize,
            width: usize,
            height: usize,
            history: *mut u32,
            history_len: usize,
            floats: *mut f32,
            floats_len: usize,
            ints: *mut u32,
            ints_len: usize,
            curve: *const f32,
            curve_len: usize,
            reports: *mut u32,
        ) -> u32;
        pub fn hedgemallow_show(
            state: *mut u8,
            picture: *const u8,
            picture_len: usize,
            width: usize,
            height: usize,
            colours: *const u32,
            colours_len: usize,
            framebuffer: *mut u32,
            framebuffer_len: usize,
            history: *mut u32,
            history_len: usize,
            floats: *mut f32,
            floats_len: usize,
            ints: *mut u32,
            ints_len: usize,
            curve: *const f32,
            curve_len: usize,
            reports: *mut u32,
        ) -> u32;
        pub fn hedgemallow_reset(state: *mut u8) -> u32;
        pub fn hedgemallow_set_enabled(state: *mut u8, kind: u8, on: u8) -> u32;
        pub fn hedgemallow_ask(state: *mut u8, kind: u8, on: u8) -> u32;
        pub fn hedgemallow_commit(state: *mut u8) -> u32;
        pub fn hedgemallow_cycle_lut(state: *mut u8) -> u32;
        pub fn hedgemallow_set_depth(state: *mut u8, history: *mut u32, history_len: usize, depth: u8) -> u32;
        pub fn hedgemallow_depth(state: *const u8) -> u32;
        pub fn hedgemallow_enabled(state: *const u8, kind: u8) -> u32;
        pub fn hedgemallow_preset(state: *const u8) -> u32;
        pub fn hedgemallow_play(
            state: *mut u8,
            sheet: *const u8,
            sheet_len: usize,
            framebuffer: *mut u32,
            framebuffer_len: usize,
            history: *mut u32,
            history_len: usize,
            floats: *mut f32,
            floats_len: usize,
            ints: *mut u32,
            ints_len: usize,
            curve: *const f32,
            curve_len: usize,
            reports: *mut u32,
        ) -> u32;
        pub fn hedgemallow_areas(
            picture: *const u32,
            picture_len: usize,
            width: usize,
            height: usize,
            areas: *const u16,
            areas_len: usize,
            result: *mut u64,
            result_len: usize,
            read: *mut u32,
        ) -> u32;
    }
}

/// Why a call was refused, in the words of documents 01 and 02.
#[derive(Clone, Copy, Debug, PartialEq, Eq)]
pub enum Refusal {
    TornCard,
    ForeignCard,
    OverfullCard,
    UnknownPass,
    DoubledPass,
    BadSetting,
    LongCard,
    BadSize,
    ShortFrame,
    ShortHistory,
    ShortScratch,
    NotInChain,
    BadStation,
    ShortCardBuffer,
    PassOutOfOrder,
    BadCurve,
    AlreadyAsked,
    NotAsked,
    BadArea,
    BadSheet,
    BadSource,
    /// A number that this library does not give: one of a later table.
    Other(u32),
}

use Refusal::*;

/// With the papers' numbers and words.
const REFUSALS: [(u32, Refusal, &str); 21] = [
    (1, TornCard, "torn card"),
    (2, ForeignCard, "foreign card"),
    (3, OverfullCard, "overfull card"),
    (4, UnknownPass, "unknown pass"),
    (5, DoubledPass, "doubled pass"),
    (6, BadSetting, "bad setting"),
    (7, LongCard, "long card"),
    (8, BadSize, "bad size"),
    (9, ShortFrame, "short frame"),
    (10, ShortHistory, "short history"),
    (11, ShortScratch, "short scratch"),
    (12, NotInChain, "not in chain"),
    (13, BadStation, "bad station"),
    (14, ShortCardBuffer, "short card buffer"),
    (15, PassOutOfOrder, "pass out of order"),
    (16, BadCurve, "bad curve"),
    (17, AlreadyAsked, "already asked"),
    (18, NotAsked, "not asked"),
    (19, BadArea, "bad area"),
    (20, BadSheet, "bad sheet"),
    (21, BadSource, "bad source"),
];

impl Refusal {
    fn from_number(number: u32) -> Refusal {
        REFUSALS.iter().find(|r| r.0 == number).map_or(Other(number), |r| r.1)
    }

    /// The number of the papers' table.
    pub fn number(self) -> u32 {
        match self {
            Other(number) => number,
            known => REFUSALS.iter().find(|r| r.1 == known).map_or(0, |r| r.0),
        }
    }
}

impl fmt::Display for Refusal {
    fn fmt(&self, f: &mut fmt::Formatter) -> fmt::Result {
        match REFUSALS.iter().find(|r| r.1 == *self) {
            Some(known) => f.write_str(known.2),
            None => write!(f, "refusal {}", self.number()),
        }
    }
}

impl std::error::Error for Refusal {}

/// What an answer reports, or why it is a refusal.
fn report(answer: u32) -> Result<u32, Refusal> {
    match answer.checked_sub(256) {
        Some(number) => Err(Refusal::from_number(number)),
        None => Ok(answer),
    }
}

/// The kinds of passes, with the numbers of a card, on which they ascend; persistence may stand there up to three times. They are
/// printed by their words, as program `card` prints them.
///
/// ```
/// # use hedgemallow::{Kind, Refusal, Station, KINDS};
/// // Scanlines at full strength, on.
/// let station = Station::open(&[0x11, 0xA9, 0xFC, 0x00, 0x00, 0x00])?;
/// for kind in KINDS {
///     if let Ok(on) = station.enabled(kind) {
///         println!("{kind}: {}", if on { "on" } else { "off" });
///     }
/// }
///
/// // The kind of a word that was typed in.
/// let kind = KINDS.into_iter().find(|kind| kind.to_string() == "scanlines");
/// assert_eq!(kind, Some(Kind::Scanlines));
/// # Ok::<(), Refusal>(())
/// ```
#[derive(Clone, Copy, Debug, PartialEq, Eq, Hash)]
#[repr(u8)]
pub enum Kind {
    Ntsc = 1,
    Bloom = 2,
    AutoGradient = 3,
    Persistence = 4,
    Lut = 5,
    Curvature = 6,
    ColorCorrection = 7,
    Crt = 8,
    Vignette = 9,
    Scanlines = 10,
}

impl fmt::Display for Kind {
    fn fmt(&self, f: &mut fmt::Formatter) -> fmt::Result {
        f.pad(match self {
            Kind::Ntsc => "NTSC",
            Kind::Bloom => "bloom",
            Kind::AutoGradient => "gradient",
            Kind::Persistence => "persistence",
            Kind::Lut => "LUT",
            Kind::Curvature => "curvature",
            Kind::ColorCorrection => "colour",
            Kind::Crt => "CRT",
            Kind::Vignette => "vignette",
            Kind::Scanlines => "scanlines",
        })
    }
}

/// The presets of a LUT, with the numbers of a card; printed by their words too.
#[derive(Clone, Copy, Debug, PartialEq, Eq, Hash)]
#[repr(u8)]
pub enum Preset {
    Identity = 0,
    WarmCrt = 1,
    CoolCrt = 2,
    Composite = 3,
    GameBoy = 4,
    Amber = 5,
    HighContrast = 6,
}

impl fmt::Display for Preset {
    fn fmt(&self, f: &mut fmt::Formatter) -> fmt::Result {
        f.pad(match self {
            Preset::Identity => "identity",
            Preset::WarmCrt => "warm CRT",
            Preset::CoolCrt => "cool CRT",
            Preset::Composite => "composite",
            Preset::GameBoy => "Game Boy",
            Preset::Amber => "amber",
            Preset::HighContrast => "high contrast",
        })
    }
}

/// In the order of their numbers.
const PRESETS: [Preset; 7] = [
    Preset::Identity,
    Preset::WarmCrt,
    Preset::CoolCrt,
    Preset::Composite,
    Preset::GameBoy,
    Preset::Amber,
    Preset::HighContrast,
];

/// The preset of a number that a call reports: 0 to 6, since every station that is not refused has such a one.
fn preset(number: u32) -> Preset {
    PRESETS[number as usize % PRESETS.len()]
}

/// In the order of their numbers.
pub const KINDS: [Kind; 10] = [
    Kind::Ntsc,
    Kind::Bloom,
    Kind::AutoGradient,
    Kind::Persistence,
    Kind::Lut,
    Kind::Curvature,
    Kind::ColorCorrection,
    Kind::Crt,
    Kind::Vignette,
    Kind::Scanlines,
];

/// The bytes of a state.
pub const STATE: usize = 134;

/// The most bytes that a card has.
pub const CARD: usize = 83;

/// The longest side of a frame.
pub const SIDE: usize = 1024;

/// The most frames that the history of one persistence pass has room for.
pub const DEPTH: usize = 8;

/// The most persistence passes of a card.
pub const GLOWS: usize = 3;

/// The words of a curve: one for each number that a channel may be.
pub const CURVE: usize = 256;

/// The most areas of one call.
pub const AREAS: usize = 64;

/// The longest side of a source.
pub const SOURCE_SIDE: usize = 341;

/// The colours of a source.
pub const COLOURS: usize = 64;

/// The version of these bindings: that of the header and of the library that is built beside them.
pub const VERSION: &str = "0.1.0";

/// What a frame reports, each number added up over the passes that are on.
///
/// The samples are those of NTSC, which blurs along each row, and of bloom, along each row and then along each column: for each pixel
/// those up to bleed or radius places away, itself included, that are inside the row or column, counted once for all channels. They
/// depend on the card, with its switches, and on width and height alone.
///
/// ```
/// # use hedgemallow::{Counts, Refusal, Station};
/// // NTSC at full strength with bleed 1, on: each of two pixels takes itself and the other.
/// let mut station = Station::open(&[0x11, 0x19, 0xFC, 0x00, 0x00, 0x00, 0x08])?;
/// let (mut floats, mut ints) = ([0.0; 12], [0; 2]);
/// let counts = station.apply(&mut [0x808080; 2], 2, 1, &mut [], &mut floats, &mut ints, &[])?;
/// assert_eq!(counts, Counts { clipped: 0, samples: 4 });
/// # Ok::<(), Refusal>(())
/// ```
#[derive(Clone, Copy, Debug, PartialEq, Eq)]
pub struct Counts {
    /// The channels that a final conversion clipped, since they lay strictly below 0 or strictly above the top end.
    pub clipped: u32,
    /// The samples that blurs took: 393,019,392 at most, at 1024 by 1024 with NTSC and bloom on, both at 64.
    pub samples: u32,
}

/// A console's own picture: a number for each pixel, row after row, its sides, and its colours. Number p shows colour p modulo
/// [`COLOURS`]. More numbers and colours than it has may be lent: the first count.
#[derive(Clone, Copy, Debug, PartialEq, Eq)]
pub struct Source<'a> {
    pub picture: &'a [u8],
    /// Each side is 1 to [`SOURCE_SIDE`].
    pub width: usize,
    pub height: usize,
    pub colours: &'a [u32],
}

impl Source<'_> {
    /// Width and height of the frame that it is shown as: each pixel becomes three by three. No frame has those of a bad source with a
    /// side above [`SOURCE_SIDE`].
    pub fn enlarged(&self) -> (usize, usize) {
        (self.width.saturating_mul(3), self.height.saturating_mul(3))
    }
}

/// How many events of a sheet were accepted and how many refused: together they are the event count.
#[derive(Clone, Copy, Debug, PartialEq, Eq)]
pub struct Played {
    pub accepted: u32,
    pub refused: u32,
}

/// A station, as the [`STATE`] bytes of its state. It is no `Copy` type: a station that was used by value is gone, so one with the older
/// state cannot go on beside it unnoticed. Who wants a second station says `clone`.
///
/// A card may name persistence up to [`GLOWS`] times, each with a history of its own. A call that names a kind acts on the first pass
/// of that kind.
#[derive(Clone, Debug, PartialEq, Eq, Hash)]
pub struct Station {
    state: [u8; STATE],
}

// The calls below hand out pointers of references, so each is valid for its length, aligned, not
// null, and no two overlap where one of them is written through: all that the exports ask of pointers.
impl Station {
    /// The station of a card.
    pub fn open(card: &[u8]) -> Result<Station, Refusal> {
        let mut state = [0; STATE];
        report(unsafe { exports::hedgemallow_open(card.as_ptr(), card.len(), state.as_mut_ptr()) })?;
        Ok(Station { state })
    }

    /// The station of bytes that were stored, a pending switch included. Lend it the history words that it had then, those of every
    /// persistence pass. Where persistence is on its card it may also be reset, and any words will do; a reset of another station is
    /// `NotInChain`, and no word is read.
    pub fn from_bytes(state: [u8; STATE]) -> Result<Station, Refusal> {
        let station = Station { state };
        station.depth()?;
        Ok(station)
    }

    /// The bytes of the state, to be stored: docs/REFERENCE.md says what each is.
    pub fn as_bytes(&self) -> &[u8; STATE] {
        &self.state
    }

    /// The normalised card at the start of the buffer, and its length: 83 bytes at most.
    pub fn write(&self, buffer: &mut [u8]) -> Result<usize, Refusal> {
        let (to, len) = (buffer.as_mut_ptr(), buffer.len());
        report(unsafe { exports::hedgemallow_write(self.state.as_ptr(), to, len) }).map(|n| n as usize)
    }

    /// A frame: the passes that are on, over the first width * height words of the framebuffer. The answer is what was counted on the
    /// way. One of another width or height than the frame before it begins the history anew. The histories of several persistence passes
    /// follow one another in the lent words, by the order of the chain, each with room for its own depth, also while the pass is off.
    ///
    /// The curve is read where the card has colour with a gamma other than 1, on or off: `BadCurve` tells that it has fewer than
    /// [`CURVE`] words then, or that one of the first so many is not in 0..1. With every other card `&[]` will do. Colour begins
    /// with word k of it for a channel k, in place of k/255. It is data, since the `powf` of two machines need not agree in the
    /// last bit, and then their pictures may differ. A league that wants equal pictures hands it out with the card
    /// ([`curve_from_bytes`]).
    pub fn apply(
        &mut self,
        framebuffer: &mut [u32],
        width: usize,
        height: usize,
        history: &mut [u32],
        floats: &mut [f32],
        ints: &mut [u32],
        curve: &[f32],
    ) -> Result<Counts, Refusal> {
        let mut reports = [0; 2];
        let answer = unsafe {
            exports::hedgemallow_apply(
                self.state.as_mut_ptr(),
                framebuffer.as_mut_ptr(),
                framebuffer.len(),
                width,
                height,
                history.as_mut_ptr(),
                history.len(),
                floats.as_mut_ptr(),
                floats.len(),
                ints.as_mut_ptr(),
                ints.len(),
                curve.as_ptr(),
                curve.len(),
                reports.as_mut_ptr(),
            )
        };
        let [clipped, samples] = reports;
        report(answer).map(|_| Counts { clipped, samples })
    }

    /// A frame of a source: its pixels enlarged to three by three, as CRT expects them, under the chain. The buffers are those that
    /// [`Station::apply`] takes for a frame of the enlarged sides. The enlarged frame goes to the start of the framebuffer once all
    /// checks have passed, and its picture takes its place.
    ///
    /// `BadSource` tells that a side is 0 or above [`SOURCE_SIDE`], that there are fewer numbers than the sides' product, or fewer than
    /// [`COLOURS`] colours. It comes before all other checks.
    ///
    /// ```
    /// # use hedgemallow::{scratch_words, Refusal, Source, Station, COLOURS};
    /// // Scanlines at full strength, on.
    /// let mut station = Station::open(&[0x11, 0xA9, 0xFC, 0x00, 0x00, 0x00])?;
    /// let mut colours = [0; COLOURS];
    /// colours[5] = 0x123456;
    /// let mut source = Source { picture: &[69], width: 1, height: 1, colours: &colours };
    ///
    /// let (width, height) = source.enlarged();
    /// let scratch = scratch_words(width, height)?;
    /// let (mut floats, mut ints) = (vec![0.0; scratch.floats], vec![0; scratch.ints]);
    /// let mut frame = [7; 10];
    /// station.show(source, &mut frame, &mut [], &mut floats, &mut ints, &[])?;
    /// assert_eq!(frame, [0x123456, 0x123456, 0x123456, 0, 0, 0, 0x123456, 0x123456, 0x123456, 7]);
    ///
    /// source.height = 2;
    /// let short = station.show(source, &mut frame, &mut [], &mut floats, &mut ints, &[]);
    /// assert_eq!(short, Err(Refusal::BadSource));
    /// # Ok::<(), Refusal>(())
    /// ```
    pub fn show(
        &mut self,
        source: Source,
        framebuffer: &mut [u32],
        history: &mut [u32],
        floats: &mut [f32],
        ints: &mut [u32],
        curve: &[f32],
    ) -> Result<Counts, Refusal> {
        let mut reports = [0; 2];
        let answer = unsafe {
            exports::hedgemallow_show(
                self.state.as_mut_ptr(),
                source.picture.as_ptr(),
                source.picture.len(),
                source.width,
                source.height,
                source.colours.as_ptr(),
                source.colours.len(),
                framebuffer.as_mut_ptr(),
                framebuffer.len(),
                history.as_mut_ptr(),
                history.len(),
                floats.as_mut_ptr(),
                floats.len(),
                ints.as_mut_ptr(),
                ints.len(),
                curve.as_ptr(),
                curve.len(),
                reports.as_mut_ptr(),
            )
        };
        let [clipped, samples] = reports;
        report(answer).map(|_| Counts { clipped, samples })
    }

    /// Forgets what the histories of all persistence passes hold.
    pub fn reset(&mut self) -> Result<(), Refusal> {
        report(unsafe { exports::hedgemallow_reset(self.state.as_mut_ptr()) }).map(|_| ())
    }

    /// Switches the first pass of that kind. Persistence that is switched off forgets what its history holds; a second and a third one
    /// go on.
    pub fn set_enabled(&mut self, kind: Kind, on: bool) -> Result<(), Refusal> {
        let state = self.state.as_mut_ptr();
        report(unsafe { exports::hedgemallow_set_enabled(state, kind as u8, on as u8) }).map(|_| ())
    }

    /// Asks for a switch that is to take hold later, between rounds, by [`Station::commit`]. It is kept as the pending switch, and
    /// nothing else changes: no switch, no picture. The present position may be asked for. `AlreadyAsked` tells that one is pending:
    /// every other call, a refused one too, leaves it, and a commit alone clears it.
    ///
    /// ```
    /// # use hedgemallow::{Kind, Refusal, Station};
    /// // Scanlines at full strength, on.
    /// let mut station = Station::open(&[0x11, 0xA9, 0xFC, 0x00, 0x00, 0x00])?;
    /// // During play.
    /// station.ask(Kind::Scanlines, false)?;
    /// assert_eq!(station.enabled(Kind::Scanlines), Ok(true));
    /// assert_eq!(station.ask(Kind::Scanlines, true), Err(Refusal::AlreadyAsked));
    ///
    /// // Between rounds.
    /// station.commit()?;
    /// assert_eq!(station.enabled(Kind::Scanlines), Ok(false));
    /// # Ok::<(), Refusal>(())
    /// ```
    pub fn ask(&mut self, kind: Kind, on: bool) -> Result<(), Refusal> {
        let state = self.state.as_mut_ptr();
        report(unsafe { exports::hedgemallow_ask(state, kind as u8, on as u8) }).map(|_| ())
    }

    /// Does what [`Station::set_enabled`] does with the pending switch, and clears it. `NotAsked` tells that none is pending.
    pub fn commit(&mut self) -> Result<(), Refusal> {
        report(unsafe { exports::hedgemallow_commit(self.state.as_mut_ptr()) }).map(|_| ())
    }

    /// The pending switch, if there is one: a kind and a position that were asked for and are not committed yet. The state shows
    /// them, so nothing can be refused.
    ///
    /// ```
    /// # use hedgemallow::{Kind, Refusal, Station};
    /// // Scanlines at full strength, on.
    /// let mut station = Station::open(&[0x11, 0xA9, 0xFC, 0x00, 0x00, 0x00])?;
    /// assert_eq!(station.pending(), None);
    ///
    /// station.ask(Kind::Scanlines, false)?;
    /// assert_eq!(station.pending(), Some((Kind::Scanlines, false)));
    ///
    /// station.commit()?;
    /// assert_eq!(station.pending(), None);
    /// # Ok::<(), Refusal>(())
    /// ```
    pub fn pending(&self) -> Option<(Kind, bool)> {
        let kind = KINDS.into_iter().find(|&kind| kind as u8 == self.state[132])?;
        Some((kind, self.state[133] != 0))
    }

    /// Steps the LUT to its next preset, and reports it.
    pub fn cycle_lut(&mut self) -> Result<Preset, Refusal> {
        report(unsafe { exports::hedgemallow_cycle_lut(self.state.as_mut_ptr()) }).map(preset)
    }

    /// Whether the first pass of that kind is on. `NotInChain` tells that the card does not name it.
    ///
    /// ```
    /// # use hedgemallow::{Kind, Refusal, Station};
    /// // Scanlines at full strength, on.
    /// let mut station = Station::open(&[0x11, 0xA9, 0xFC, 0x00, 0x00, 0x00])?;
    /// assert_eq!(station.enabled(Kind::Scanlines), Ok(true));
    /// assert_eq!(station.enabled(Kind::Lut), Err(Refusal::NotInChain));
    ///
    /// station.set_enabled(Kind::Scanlines, false)?;
    /// assert_eq!(station.enabled(Kind::Scanlines), Ok(false));
    /// # Ok::<(), Refusal>(())
    /// ```
    pub fn enabled(&self, kind: Kind) -> Result<bool, Refusal> {
        report(unsafe { exports::hedgemallow_enabled(self.state.as_ptr(), kind as u8) }).map(|on| on != 0)
    }

    /// The LUT's preset, on or off.
    ///
    /// ```
    /// # use hedgemallow::{Preset, Refusal, Station};
    /// // A LUT with preset 4 at full strength, on.
    /// let mut station = Station::open(&[0x11, 0x5C, 0x3F, 0x80, 0x00, 0x00])?;
    /// assert_eq!(station.preset(), Ok(Preset::GameBoy));
    ///
    /// assert_eq!(station.cycle_lut(), Ok(Preset::Amber));
    /// assert_eq!(station.preset(), Ok(Preset::Amber));
    /// # Ok::<(), Refusal>(())
    /// ```
    pub fn preset(&self) -> Result<Preset, Refusal> {
        report(unsafe { exports::hedgemallow_preset(self.state.as_ptr()) }).map(preset)
    }

    /// Takes a new depth for persistence, on or off, between two frames, and lets what the history holds go on: there is no refill. A
    /// depth of 0 is taken as 1, as a card has it; the present depth may be named too. A smaller depth keeps the newest frames, and no
    /// word changes. A larger one repeats the oldest behind it, up to the new depth times the words of a frame that is held, and the
    /// words past them stay.
    ///
    /// The history is lent as to a frame. `ShortHistory` tells that it has fewer words than that; where nothing is held none is asked
    /// for, and `&mut []` will do. `BadSetting` tells that the depth is above [`DEPTH`]. Afterwards a frame takes as many words of
    /// history as [`Station::history_words`] then says, and [`Station::write`] writes the new depth.
    ///
    /// Of several persistence passes it is the first that gets the new depth, and the words that are asked for are those of what it
    /// holds. Where the depth is another one than before, the histories behind the first begin elsewhere, and what they hold is forgotten.
    ///
    /// ```
    /// # use hedgemallow::{Refusal, Station};
    /// // Persistence 0.5 with depth 1, on.
    /// let mut station = Station::open(&[0x11, 0x49, 0xF8, 0, 0, 0, 0x08])?;
    /// let (mut history, mut floats, mut ints) = ([0; 2], [0.0; 6], [0]);
    /// station.apply(&mut [0xFFFFFF], 1, 1, &mut history, &mut floats, &mut ints, &[])?;
    ///
    /// // Between heats.
    /// assert_eq!(station.set_depth(&mut history, 3), Err(Refusal::ShortHistory));
    /// station.set_depth(&mut history, 2)?;
    /// assert_eq!((station.depth(), history), (Ok(2), [0xFFFFFF; 2]));
    /// # Ok::<(), Refusal>(())
    /// ```
    pub fn set_depth(&mut self, history: &mut [u32], depth: usize) -> Result<(), Refusal> {
        // What no byte holds is above the limit, as 255 is.
        let depth = u8::try_from(depth).unwrap_or(u8::MAX);
        let (words, len) = (history.as_mut_ptr(), history.len());
        report(unsafe { exports::hedgemallow_set_depth(self.state.as_mut_ptr(), words, len, depth) }).map(|_| ())
    }

    /// Plays a sheet: its events one after another, each as the call that it is. It is packed as a card is, the most significant bit of each
    /// field first: the event count in 16 bits, then of each event its number in 3. 0 is a frame, and goes on with its width and its height
    /// in 11 bits each and 24 bits for each pixel, whatever the station will think of that size; 1 is [`Station::reset`], 3
    /// [`Station::cycle_lut`] and 5 [`Station::commit`]; 2 is [`Station::set_enabled`] and 4 [`Station::ask`], and both go on with a kind in 4
    /// bits and a position in 1, which is 1 for on. Zero bits fill the last byte.
    ///
    /// The buffers are those of [`Station::apply`], lent for all events: as many words as any of the frames takes. A refused event is
    /// counted, changes nothing, and the next one is played. A frame's words go to the start of the framebuffer once the station takes it,
    /// and its picture takes their place; those of a refused frame are written nowhere.
    ///
    /// `BadSheet` tells that a field's bits run past the end, that an event has the number 6 or 7, that a padding bit is set or that a byte is
    /// left over. The sheet is looked at whole before the first event, so nothing was played then.
    ///
    /// ```
    /// # use hedgemallow::{Played, Refusal, Station};
    /// // Scanlines at full strength, on.
    /// let mut station = Station::open(&[0x11, 0xA9, 0xFC, 0x00, 0x00, 0x00])?;
    /// let (mut frame, mut floats, mut ints) = ([7; 3], [0.0; 9], [0; 2]);
    ///
    /// // Two events: a frame of one pixel by two, 123456 twice, and a reset, which a chain without persistence refuses.
    /// let sheet = [0x00, 0x02, 0x00, 0x04, 0x01, 0x09, 0x1A, 0x2B, 0x09, 0x1A, 0x2B, 0x10];
    /// let played = station.play(&sheet, &mut frame, &mut [], &mut floats, &mut ints, &[])?;
    /// assert_eq!(played, Played { accepted: 1, refused: 1 });
    /// assert_eq!(frame, [0x123456, 0, 7]);
    ///
    /// // Its last byte is missing: the frame is not shown either.
    /// let cut = station.play(&sheet[..11], &mut frame, &mut [], &mut floats, &mut ints, &[]);
    /// assert_eq!(cut, Err(Refusal::BadSheet));
    /// # Ok::<(), Refusal>(())
    /// ```
    pub fn play(
        &mut self,
        sheet: &[u8],
        framebuffer: &mut [u32],
        history: &mut [u32],
        floats: &mut [f32],
        ints: &mut [u32],
        curve: &[f32],
    ) -> Result<Played, Refusal> {
        let mut reports = [0; 2];
        let answer = unsafe {
            exports::hedgemallow_play(
                self.state.as_mut_ptr(),
                sheet.as_ptr(),
                sheet.len(),
                framebuffer.as_mut_ptr(),
                framebuffer.len(),
                history.as_mut_ptr(),
                history.len(),
                floats.as_mut_ptr(),
                floats.len(),
                ints.as_mut_ptr(),
                ints.len(),
                curve.as_ptr(),
                curve.len(),
                reports.as_mut_ptr(),
            )
        };
        let [accepted, refused] = reports;
        report(answer).map(|_| Played { accepted, refused })
    }

    /// How many older frames the history has room for: the sum of the depths of all persistence passes, on or off.
    ///
    /// ```
    /// # use hedgemallow::{Kind, Refusal, Station};
    /// // Persistence 0.5 with depth 1, on, and once more.
    /// let mut station = Station::open(&[0x12, 0x49, 0xF8, 0, 0, 0, 0x0A, 0x4F, 0xC0, 0, 0, 0, 0x40])?;
    /// assert_eq!((station.depth(), station.history_words(3, 2)), (Ok(2), Ok(12)));
    ///
    /// station.set_enabled(Kind::Persistence, false)?;
    /// station.set_depth(&mut [], 3)?;
    /// assert_eq!((station.depth(), station.history_words(3, 2)), (Ok(4), Ok(24)));
    /// # Ok::<(), Refusal>(())
    /// ```
    pub fn depth(&self) -> Result<usize, Refusal> {
        report(unsafe { exports::hedgemallow_depth(self.state.as_ptr()) }).map(|k| k as usize)
    }

    /// How many words of history a frame of that size takes.
    pub fn history_words(&self, width: usize, height: usize) -> Result<usize, Refusal> {
        Ok(self.depth()? * count(width, height)?)
    }
}

/// The totals of up to [`AREAS`] areas of a picture, in one reading. An area is four numbers of the list: left, top, width and height.
/// Its sums of red, green and blue go to the front of the result, in the order given; the answer is how many words were read.
pub fn areas(picture: &[u32], width: usize, height: usize, areas: &[u16], result: &mut [u64]) -> Result<u32, Refusal> {
    let mut read = [0];
    let answer = unsafe {
        exports::hedgemallow_areas(
            picture.as_ptr(),
            picture.len(),
            width,
            height,
            areas.as_ptr(),
            areas.len(),
            result.as_mut_ptr(),
            result.len(),
            read.as_mut_ptr(),
        )
    };
    report(answer).map(|_| read[0])
}

/// The words of a frame; a side of 0 or above 1024 is a bad size.
fn count(width: usize, height: usize) -> Result<usize, Refusal> {
    let side = 1..=1024;
    if side.contains(&width) && side.contains(&height) { Ok(width * height) } else { Err(BadSize) }
}

/// How many words of history a frame of that size takes, with this card.
pub fn history_words(card: &[u8], width: usize, height: usize) -> Result<usize, Refusal> {
    Station::open(card)?.history_words(width, height)
}

/// How many words of scratch a frame of that size takes.
#[derive(Clone, Copy, Debug, PartialEq, Eq)]
pub struct Scratch {
    pub floats: usize,
    pub ints: usize,
}

/// The words of scratch for a frame of that size, whatever the card.
pub fn scratch_words(width: usize, height: usize) -> Result<Scratch, Refusal> {
    let ints = count(width, height)?;
    Ok(Scratch { floats: 3 * ints + 3 * width, ints })
}

/// A curve as it is handed out, in the 1,024 bytes of the file that `filter --curve` takes: word after word, the least significant
/// byte of each first.
pub fn curve_from_bytes(bytes: &[u8; 4 * CURVE]) -> [f32; CURVE] {
    let mut curve = [0.0; CURVE];
    for (word, four) in curve.iter_mut().zip(bytes.chunks_exact(4)) {
        *word = f32::from_le_bytes([four[0], four[1], four[2], four[3]]);
    }
    curve
}

/// The curve of a gamma, by the `powf` of the machine that this runs on: word k is k/255 to that power. A gamma below 0.01 is taken
/// as 0.01, as a card has it. On another machine a word may come out another in its last bit, and then a picture may differ: a
/// league that wants equal pictures works it out once, and hands out the words ([`curve_from_bytes`]).
///
/// ```
/// # use hedgemallow::{power_curve, Refusal, Station};
/// // Colour with brightness 0, contrast 1, saturation 1 and gamma 2, on.
/// let card = [0x11, 0x78, 0, 0, 0, 0x01, 0xFC, 0, 0, 0x01, 0xFC, 0, 0, 0x02, 0, 0, 0, 0];
/// let mut station = Station::open(&card)?;
/// let (mut frame, mut floats, mut ints) = ([0x808080], [0.0; 6], [0]);
/// let refused = station.apply(&mut frame, 1, 1, &mut [], &mut floats, &mut ints, &[]);
/// assert_eq!(refused, Err(Refusal::BadCurve));
///
/// station.apply(&mut frame, 1, 1, &mut [], &mut floats, &mut ints, &power_curve(2.0))?;
/// assert_eq!(frame, [0x404040]);
/// # Ok::<(), Refusal>(())
/// ```
pub fn power_curve(gamma: f32) -> [f32; CURVE] {
    let mut curve = [0.0; CURVE];
    for (k, word) in (0u8..=255).zip(&mut curve) {
        *word = (f32::from(k) / 255.0).powf(gamma.max(0.01));
    }
    curve
}

#[cfg(test)]
mod tests {
    use super::*;

    /// Persistence 0.5 over 3 frames, LUT preset 1 at 0.75, scanlines 0.5, all on.
    const CARD: [u8; 17] = [
        0x13, 0x49, 0xF8, 0x00, 0x00, 0x00, 0x1A, 0xC9, 0xFA, 0x00, 0x00, 0x05, 0x4F, 0xC0, 0x00, 0x00, 0x00,
    ];

    fn opened() -> Station {
        Station::open(&CARD).unwrap()
    }

    #[test]
    fn refusals_have_the_numbers_and_words_of_the_table() {
        for (number, refusal, words) in REFUSALS {
            assert_eq!((refusal.number(), refusal.to_string()), (number, words.to_string()));
            assert_eq!(report(256 + number), Err(refusal));
        }
        assert_eq!(report(256 + 22), Err(Other(22)));
        assert_eq!(report(256), Err(Other(0)));
        assert_eq!(report(u32::MAX), Err(Other(u32::MAX - 256)));
        assert_eq!(report(255), Ok(255));
    }

    #[test]
    fn the_layout_is_the_documented_one() {
        let mut station = opened();
        let mut bytes = [0; 134];
        bytes[0] = 17;
        bytes[1..18].copy_from_slice(&CARD);
        assert_eq!(station.as_bytes(), &bytes);
        station.apply(&mut [0; 600], 30, 20, &mut [0; 1800], &mut [0.0; 3600], &mut [0; 600], &[]).unwrap();
        bytes[84..88].copy_from_slice(&[0, 30, 0, 20]);
        assert_eq!(station.as_bytes(), &bytes);
        station.apply(&mut [0; 600], 2, 300, &mut [0; 1800], &mut [0.0; 3600], &mut [0; 600], &[]).unwrap();
        bytes[84..88].copy_from_slice(&[0, 2, 1, 44]);
        assert_eq!(station.as_bytes(), &bytes);
        station.ask(Kind::Scanlines, true).unwrap();
        bytes[132..134].copy_from_slice(&[10, 1]);
        assert_eq!(station.as_bytes(), &bytes);
        station.commit().unwrap();
        bytes[132..134].copy_from_slice(&[0, 0]);
        assert_eq!(station.as_bytes(), &bytes);
        station.reset().unwrap();
        assert_eq!(station, opened());
    }

    /// Persistence 0.5, depth 1, white and then black: a black frame shows what was white; one that is turned shows itself.
    #[test]
    fn a_turned_frame_begins_anew() {
        let mut station = Station::open(&[0x11, 0x49, 0xF8, 0, 0, 0, 0x08]).unwrap();
        let (mut history, mut floats, mut ints) = ([7; 2], [0.0; 12], [0; 2]);
        let mut shows = |word: u32, width: usize, height: usize| {
            let mut frame = [word; 2];
            station.apply(&mut frame, width, height, &mut history, &mut floats, &mut ints, &[]).unwrap();
            frame
        };
        assert_eq!(shows(0xFFFFFF, 1, 2), [0xFFFFFF; 2]);
        assert_eq!(shows(0, 1, 2), [0x555555; 2]);
        assert_eq!(shows(0xFFFFFF, 2, 1), [0xFFFFFF; 2]);
        assert_eq!(shows(0, 1, 2), [0; 2]);
    }

    #[test]
    fn sizes_are_refused_and_never_overflow() {
        let station = opened();
        assert_eq!(station.history_words(1024, 1024), Ok(3 << 20));
        assert_eq!(history_words(&CARD, 1024, 1024), Ok(3 << 20));
        assert_eq!(history_words(&CARD[..16], 1024, 1024), Err(TornCard));
        assert_eq!(scratch_words(1024, 1), Ok(Scratch { floats: 6144, ints: 1024 }));
        assert_eq!(scratch_words(256, 240), Ok(Scratch { floats: 185_088, ints: 61_440 }));
        for (width, height) in [(0, 1), (1, 0), (1025, 1), (1, 1025), (usize::MAX, usize::MAX)] {
            assert_eq!(station.history_words(width, height), Err(BadSize));
            assert_eq!(history_words(&CARD, width, height), Err(BadSize));
            assert_eq!(scratch_words(width, height), Err(BadSize));
            assert_eq!(opened().apply(&mut [], width, height, &mut [], &mut [], &mut [], &[]), Err(BadSize));
        }
    }

    #[test]
    fn an_empty_card_and_an_empty_buffer_are_refused() {
        assert_eq!(Station::open(&[]), Err(TornCard));
        assert_eq!(opened().write(&mut []), Err(ShortCardBuffer));
        assert_eq!(opened().apply(&mut [], 1, 1, &mut [], &mut [], &mut [], &[]), Err(ShortFrame));
    }

    /// The vignette and scanlines, and the same two in the other order: no card, and no state.
    #[test]
    fn passes_stand_by_ascending_kind() {
        let ordered = [0x12, 0x99, 0xF8, 0, 0, 0x05, 0x4F, 0xE0, 0, 0, 0];
        let exchanged = [0x12, 0xA9, 0xFC, 0, 0, 0x04, 0xCF, 0xC0, 0, 0, 0];
        let mut bytes = *Station::open(&ordered).unwrap().as_bytes();
        assert_eq!(Station::open(&exchanged), Err(PassOutOfOrder));
        bytes[1..12].copy_from_slice(&exchanged);
        assert_eq!(Station::from_bytes(bytes), Err(BadStation));
        // The vignette a second time is doubled before it is out of order.
        assert_eq!(Station::open(&[0x13, 0x99, 0xF8, 0, 0, 0x05, 0x4F, 0xE0, 0, 0, 0x26, 0x7E, 0, 0, 0]), Err(DoubledPass));
    }

    /// Colour 1, 1, 1, 1: black comes to lie exactly at the top end, and all three channels of any other grey above it.
    #[test]
    fn a_frame_reports_its_clipped_channels() {
        let card = [0x11, 0x79, 0xFC, 0, 0, 1, 0xFC, 0, 0, 1, 0xFC, 0, 0, 1, 0xFC, 0, 0, 0];
        let mut station = Station::open(&card).unwrap();
        let mut frame = [0, 0x010101, 0, 0x808080];
        let counts = station.apply(&mut frame, 2, 2, &mut [], &mut [0.0; 24], &mut [0; 4], &[]);
        assert_eq!(counts, Ok(Counts { clipped: 6, samples: 0 }));
        assert_eq!(frame, [0xFFFFFF; 4]);
    }

    /// NTSC at full strength with bleed 1; bloom above 100 at full strength with radius 1; both, with 2 for 1; all on.
    const NTSC: [u8; 7] = [0x11, 0x19, 0xFC, 0, 0, 0, 0x08];
    const BLOOM: [u8; 8] = [0x11, 0x2B, 0x21, 0xFC, 0, 0, 0, 0x08];
    const BOTH: [u8; 14] = [0x12, 0x19, 0xFC, 0, 0, 0, 0x11, 0x59, 0x0F, 0xE0, 0, 0, 0, 0x80];

    /// The samples of a grey frame, of which nothing is clipped.
    fn samples(station: &mut Station, width: usize, height: usize) -> Result<u32, Refusal> {
        let mut frame = [0x404040; 4];
        let counts = station.apply(&mut frame, width, height, &mut [], &mut [0.0; 24], &mut [0; 4], &[])?;
        assert_eq!(counts.clipped, 0);
        Ok(counts.samples)
    }

    /// Along rows, and under bloom along columns too; of neither blur where it is off; none of a frame that is refused.
    #[test]
    fn a_frame_reports_the_samples_of_its_blurs() {
        let [mut ntsc, mut bloom, mut both] = [&NTSC[..], &BLOOM, &BOTH].map(|card| Station::open(card).unwrap());
        for (width, height, of_ntsc, of_bloom) in [(1, 1, 1, 2), (2, 1, 4, 6), (1, 2, 2, 6), (3, 1, 7, 10), (1, 4, 4, 14), (2, 2, 8, 16)] {
            assert_eq!(samples(&mut ntsc, width, height), Ok(of_ntsc));
            assert_eq!(samples(&mut bloom, width, height), Ok(of_bloom));
        }
        // At a radius of 2 each place of a line of three takes all three.
        assert_eq!(samples(&mut both, 3, 1), Ok(9 + (9 + 3)));
        both.set_enabled(Kind::Bloom, false).unwrap();
        assert_eq!(samples(&mut both, 3, 1), Ok(9));
        both.set_enabled(Kind::Ntsc, false).unwrap();
        assert_eq!(samples(&mut both, 3, 1), Ok(0));
        assert_eq!(samples(&mut ntsc, 0, 1), Err(BadSize));
    }

    /// Colour with brightness 0, contrast and saturation 1, and gamma 2; the same with gamma 1.
    const GAMMA_2: [u8; 18] = [0x11, 0x78, 0, 0, 0, 1, 0xFC, 0, 0, 1, 0xFC, 0, 0, 2, 0, 0, 0, 0];
    const GAMMA_1: [u8; 18] = [0x11, 0x78, 0, 0, 0, 1, 0xFC, 0, 0, 1, 0xFC, 0, 0, 1, 0xFC, 0, 0, 0];

    /// The picture of black, 010101 and white with this curve.
    fn shown(station: &mut Station, curve: &[f32]) -> Result<[u32; 3], Refusal> {
        let mut frame = [0, 0x010101, 0xFFFFFF];
        station.apply(&mut frame, 3, 1, &mut [], &mut [0.0; 18], &mut [0; 3], curve).map(|_| frame)
    }

    /// Word 0 white, word 1 black: no power of a channel would show them.
    #[test]
    fn channels_begin_with_the_words_of_the_curve() {
        let mut station = Station::open(&GAMMA_2).unwrap();
        let mut curve = [1.0; 300];
        curve[1] = 0.0;
        curve[256..].fill(f32::NAN);
        assert_eq!(shown(&mut station, &curve), Ok([0xFFFFFF, 0, 0xFFFFFF]));
        curve[1] = -0.0;
        assert_eq!(shown(&mut station, &curve[..CURVE]), Ok([0xFFFFFF, 0, 0xFFFFFF]));
        station.set_enabled(Kind::ColorCorrection, false).unwrap();
        assert_eq!(shown(&mut station, &curve), Ok([0, 0x010101, 0xFFFFFF]));
    }

    /// Too short, or a word among the first 256 that is not in 0..1: also where colour is off, and at gamma 1 in no case.
    #[test]
    fn bad_curves_are_refused_where_the_card_reads_one() {
        let (mut on, mut off, mut plain) = (
            Station::open(&GAMMA_2).unwrap(),
            Station::open(&GAMMA_2).unwrap(),
            Station::open(&GAMMA_1).unwrap(),
        );
        off.set_enabled(Kind::ColorCorrection, false).unwrap();
        let unchanged = shown(&mut plain, &[]);
        assert!(unchanged.is_ok());
        let mut refused = |curve: &[f32]| {
            assert_eq!(shown(&mut on, curve), Err(BadCurve));
            assert_eq!(shown(&mut off, curve), Err(BadCurve));
            assert_eq!(shown(&mut plain, curve), unchanged);
        };
        refused(&[]);
        refused(&[0.5; 255]);
        for word in [f32::NAN, f32::INFINITY, f32::NEG_INFINITY, 1.0000001, -1e-45, 2.0, -1.0] {
            for place in [0, 100, 255] {
                let mut curve = [0.5; CURVE];
                curve[place] = word;
                refused(&curve);
            }
        }
        // The scratch is asked for before the curve.
        assert_eq!(on.apply(&mut [0], 1, 1, &mut [], &mut [0.0; 5], &mut [0], &[]), Err(ShortScratch));
    }

    /// From every gamma comes a curve that is taken; from 2 the squares, near enough.
    #[test]
    fn a_gamma_gives_a_curve() {
        let mut station = Station::open(&GAMMA_2).unwrap();
        for gamma in [0.0, -0.0, 0.01, 0.5, 1.0, 2.2, 4.0, 1e30, f32::MIN, f32::INFINITY, f32::NEG_INFINITY, f32::NAN] {
            let curve = power_curve(gamma);
            assert_eq!((curve[0], curve[255]), (0.0, 1.0));
            assert!(shown(&mut station, &curve).is_ok(), "{gamma}");
        }
        assert_eq!(power_curve(-3.0), power_curve(0.01));
        for (k, word) in (0u8..=255).zip(power_curve(2.0)) {
            let share = f32::from(k) / 255.0;
            assert!((word - share * share).abs() < 1e-6, "{k}");
        }
    }

    #[test]
    fn a_curve_is_handed_out_as_bytes() {
        let curve = power_curve(2.2);
        let mut bytes = [0; 4 * CURVE];
        for (four, word) in bytes.chunks_exact_mut(4).zip(curve) {
            four.copy_from_slice(&word.to_le_bytes());
        }
        assert_eq!(curve_from_bytes(&bytes), curve);
        assert_eq!(bytes[1020..], [0, 0, 0x80, 0x3F]);
    }

    /// Of the three kinds of the card, and of no other.
    #[test]
    fn switches_and_the_preset_are_told_as_they_stand() {
        let mut station = opened();
        let told = |station: &Station| KINDS.map(|kind| station.enabled(kind).ok());
        let on = |kind: Kind| KINDS.iter().position(|&other| other == kind).unwrap();
        let mut expected = [None; 10];
        for kind in [Kind::Persistence, Kind::Lut, Kind::Scanlines] {
            expected[on(kind)] = Some(true);
        }
        assert_eq!((told(&station), station.preset()), (expected, Ok(Preset::WarmCrt)));
        station.set_enabled(Kind::Lut, false).unwrap();
        expected[on(Kind::Lut)] = Some(false);
        assert_eq!((told(&station), station.preset()), (expected, Ok(Preset::WarmCrt)));
        for preset in [2, 3, 4, 5, 6, 0, 1] {
            assert_eq!(station.cycle_lut(), Ok(PRESETS[preset]));
            assert_eq!((told(&station), station.preset()), (expected, Ok(PRESETS[preset])));
        }
        let empty = Station::open(&[0x10]).unwrap();
        assert_eq!(KINDS.map(|kind| empty.enabled(kind)), [Err(NotInChain); 10]);
        assert_eq!(empty.preset(), Err(NotInChain));
    }

    /// Every pass of the card, to either position: nothing changes but the pending switch; then a commit leaves what a switch does.
    #[test]
    fn an_asked_switch_takes_hold_when_it_is_committed() {
        let mut before = opened();
        before.apply(&mut [0; 6], 3, 2, &mut [0; 18], &mut [0.0; 27], &mut [0; 6], &[]).unwrap();
        for kind in [Kind::Persistence, Kind::Lut, Kind::Scanlines] {
            for on in [false, true] {
                let (mut station, mut switched) = (before.clone(), before.clone());
                station.ask(kind, on).unwrap();
                let mut bytes = *before.as_bytes();
                bytes[132..134].copy_from_slice(&[kind as u8, on as u8]);
                assert_eq!((station.pending(), station.as_bytes()), (Some((kind, on)), &bytes));
                assert_eq!(Station::from_bytes(bytes), Ok(station.clone()));
                station.commit().unwrap();
                switched.set_enabled(kind, on).unwrap();
                assert_eq!((station.pending(), &station), (None, &switched));
            }
        }
    }

    /// 12 comes before 17, and no refusal changes the station.
    #[test]
    fn one_switch_at_a_time_is_asked_for() {
        let mut station = opened();
        assert_eq!(station.commit(), Err(NotAsked));
        assert_eq!(station.ask(Kind::Bloom, true), Err(NotInChain));
        assert_eq!(station, opened());
        station.ask(Kind::Lut, false).unwrap();
        let asked = station.clone();
        assert_eq!(station.ask(Kind::Bloom, true), Err(NotInChain));
        assert_eq!(station.ask(Kind::Scanlines, false), Err(AlreadyAsked));
        assert_eq!(station.ask(Kind::Lut, false), Err(AlreadyAsked));
        assert_eq!(station, asked);
    }

    /// Frames, resets, switches of that pass too, preset steps, new depths, writing and refused calls.
    #[test]
    fn nothing_but_a_commit_clears_what_is_pending() {
        let (mut station, mut other) = (opened(), opened());
        station.ask(Kind::Lut, false).unwrap();
        let mut both = |call: &dyn Fn(&mut Station) -> Result<u32, Refusal>| {
            assert_eq!(call(&mut station), call(&mut other));
            assert_eq!((station.pending(), other.pending()), (Some((Kind::Lut, false)), None));
            assert_eq!(&station.state[..132], &other.state[..132]);
        };
        let frame = |station: &mut Station| {
            let counts = station.apply(&mut [0xFF; 2], 2, 1, &mut [0; 6], &mut [0.0; 12], &mut [0; 2], &[])?;
            Ok(counts.clipped)
        };
        both(&frame);
        both(&|station| station.apply(&mut [], 2, 1, &mut [], &mut [], &mut [], &[]).map(|counts| counts.clipped));
        both(&|station| station.set_enabled(Kind::Lut, false).map(|_| 0));
        both(&|station| station.set_enabled(Kind::Lut, true).map(|_| 0));
        both(&|station| station.set_enabled(Kind::Bloom, true).map(|_| 0));
        both(&|station| station.cycle_lut().map(|preset| preset as u32));
        both(&|station| station.set_depth(&mut [0; 6], 2).map(|_| 0));
        both(&|station| station.set_depth(&mut [], 3).map(|_| 0));
        both(&|station| station.write(&mut [0; 83]).map(|length| length as u32));
        both(&|station| station.write(&mut []).map(|length| length as u32));
        both(&|station| station.enabled(Kind::Lut).map(u32::from));
        both(&frame);
        both(&|station| station.reset().map(|_| 0));
        station.commit().unwrap();
        other.set_enabled(Kind::Lut, false).unwrap();
        assert_eq!(station, other);
    }

    /// Bytes 132 and 133 as all that they can be: none is pending, or a pass of the card to one of two positions.
    #[test]
    fn a_pending_switch_names_a_pass_of_the_card() {
        let mut bytes = *opened().as_bytes();
        for kind in 0..=255 {
            for on in 0..=255 {
                bytes[132..134].copy_from_slice(&[kind, on]);
                let pending = KINDS.into_iter().find(|&known| known as u8 == kind).map(|known| (known, on == 1));
                let good = (kind, on) == (0, 0) || [4, 5, 10].contains(&kind) && on < 2;
                let told = Station::from_bytes(bytes).map(|station| station.pending());
                assert_eq!(told, if good { Ok(pending) } else { Err(BadStation) }, "{kind} {on}");
            }
        }
    }

    /// A station of the card that was shown 1, 2 and 3 in this order, frames of two words, and its history.
    fn remembering() -> (Station, [u32; 20]) {
        let (mut station, mut history) = (opened(), [9; 20]);
        for word in 1..=3 {
            station.apply(&mut [word; 2], 2, 1, &mut history, &mut [0.0; 12], &mut [0; 2], &[]).unwrap();
        }
        assert_eq!(history[..7], [3, 3, 2, 2, 1, 1, 9]);
        (station, history)
    }

    /// The state is another in the card's depth alone: 3 bits of byte 6 and 5 of byte 7.
    #[test]
    fn a_new_depth_keeps_what_is_held() {
        let (before, words) = remembering();
        for depth in 0..=8 {
            let (mut station, mut history) = (before.clone(), words);
            station.ask(Kind::Lut, false).unwrap();
            let mut bytes = *station.as_bytes();
            assert_eq!(station.set_depth(&mut history, depth), Ok(()));
            let new = depth.max(1);
            bytes[7] = 0x02 | (new as u8) << 3;
            assert_eq!((station.depth(), station.as_bytes()), (Ok(new), &bytes));
            let mut expected = words;
            expected[6..2 * new.max(3)].fill(1);
            assert_eq!(history, expected);
            assert_eq!(station.history_words(2, 1), Ok(2 * new));
        }
    }

    /// Persistence 0.5 with depth 1, a white frame and then black ones: what was white is shown once, twice as the oldest, and no more as
    /// soon as the depth leaves it behind.
    #[test]
    fn a_frame_shows_the_new_depth() {
        let mut before = Station::open(&[0x11, 0x49, 0xF8, 0, 0, 0, 0x08]).unwrap();
        let shows = |station: &mut Station, word: u32, history: &mut [u32]| {
            let mut frame = [word];
            station.apply(&mut frame, 1, 1, history, &mut [0.0; 6], &mut [0], &[]).unwrap();
            frame[0]
        };
        let mut words = [7; 2];
        assert_eq!(shows(&mut before, 0xFFFFFF, &mut words), 0xFFFFFF);
        let (mut station, mut history) = (before.clone(), words);
        assert_eq!(shows(&mut station, 0, &mut history), 0x555555);
        let (mut station, mut history) = (before, words);
        station.set_depth(&mut history, 2).unwrap();
        assert_eq!(shows(&mut station, 0, &mut history), 0x6F6F6F);
        let (mut kept, mut longer) = (station.clone(), history);
        assert_eq!(shows(&mut kept, 0, &mut longer), 0x272727);
        station.set_depth(&mut history, 1).unwrap();
        assert_eq!(shows(&mut station, 0, &mut history), 0);
    }

    /// Of the words that are lent none is asked for where nothing is held: after opening, after a reset, while persistence is off.
    #[test]
    fn a_new_depth_asks_for_the_words_of_what_is_held() {
        let (before, words) = remembering();
        for depth in 1..=8 {
            let (mut station, mut history) = (before.clone(), words);
            assert_eq!(station.set_depth(&mut history[..2 * depth - 1], depth), Err(ShortHistory));
            assert_eq!((&station, history), (&before, words));
            assert_eq!(station.set_depth(&mut history[..2 * depth], depth), Ok(()));
            let (mut reset, mut off) = (before.clone(), before.clone());
            reset.reset().unwrap();
            off.set_enabled(Kind::Persistence, false).unwrap();
            for mut station in [opened(), reset, off] {
                assert_eq!(station.set_depth(&mut [], depth), Ok(()));
                assert_eq!(station.depth(), Ok(depth));
            }
        }
    }

    /// 12 comes before 6, and 6 before 10; no refusal changes the station.
    #[test]
    fn no_depth_is_above_the_limit() {
        let (mut station, mut history) = remembering();
        let before = (station.clone(), history);
        for depth in [9, 10, 255, 256, 257, 264, usize::MAX] {
            assert_eq!(station.set_depth(&mut history, depth), Err(BadSetting));
            assert_eq!(station.set_depth(&mut [], depth), Err(BadSetting));
            assert_eq!(Station::open(&[0x10]).unwrap().set_depth(&mut [], depth), Err(NotInChain));
        }
        assert_eq!((station, history), before);
    }

    /// Persistence 0.5 of depth 1 twice, both on; the same three times, of depths 1, 2 and 3, of which the second is off.
    const TWO_GLOWS: [u8; 13] = [0x12, 0x49, 0xF8, 0, 0, 0, 0x0A, 0x4F, 0xC0, 0, 0, 0, 0x40];
    const THREE_GLOWS: [u8; 18] = [0x13, 0x49, 0xF8, 0, 0, 0, 0x0A, 0x0F, 0xC0, 0, 0, 0, 0x92, 0x7E, 0, 0, 0, 0x06];

    /// The picture of a frame of one word.
    fn pixel(station: &mut Station, word: u32, history: &mut [u32]) -> u32 {
        let mut frame = [word];
        station.apply(&mut frame, 1, 1, history, &mut [0.0; 6], &mut [0], &[]).unwrap();
        frame[0]
    }

    /// White, then black: 555555 comes to the second glow, which remembers white. Each history takes what came to it.
    #[test]
    fn glows_follow_one_another() {
        let (mut station, mut history) = (Station::open(&TWO_GLOWS).unwrap(), [7; 3]);
        let shown = [0xFFFFFF, 0, 0, 0].map(|word| (pixel(&mut station, word, &mut history), history));
        let asked = [
            (0xFFFFFF, [0xFFFFFF, 0xFFFFFF, 7]),
            (0x8D8D8D, [0, 0x555555, 7]),
            (0x1C1C1C, [0, 0, 7]),
            (0, [0, 0, 7]),
        ];
        assert_eq!(shown, asked);
        assert_eq!(station.as_bytes()[84..96], [0, 1, 0, 1, 0, 1, 0, 1, 0, 0, 0, 0]);
        station.reset().unwrap();
        assert_eq!(station, Station::open(&TWO_GLOWS).unwrap());
    }

    /// Of three glows the second is off: it remembers nothing, and its part of the history stays.
    #[test]
    fn a_glow_that_is_off_has_its_room() {
        let (mut station, mut history) = (Station::open(&THREE_GLOWS).unwrap(), [7; 7]);
        assert_eq!((station.depth(), station.history_words(2, 3)), (Ok(6), Ok(36)));
        assert_eq!(station.apply(&mut [5], 1, 1, &mut history[..5], &mut [0.0; 6], &mut [0], &[]), Err(ShortHistory));
        assert_eq!(pixel(&mut station, 5, &mut history), 5);
        assert_eq!(history, [5, 7, 7, 5, 5, 5, 7]);
        assert_eq!(station.as_bytes()[84..96], [0, 1, 0, 1, 0, 0, 0, 0, 0, 1, 0, 1]);
    }

    /// A switch is that of the first glow, which forgets alone; on again, it begins anew while the second goes on.
    #[test]
    fn the_first_glow_is_switched() {
        let (mut station, mut history) = (Station::open(&TWO_GLOWS).unwrap(), [7; 2]);
        pixel(&mut station, 0xFFFFFF, &mut history);
        station.set_enabled(Kind::Persistence, false).unwrap();
        assert_eq!(station.enabled(Kind::Persistence), Ok(false));
        assert_eq!(station.as_bytes()[84..96], [0, 0, 0, 0, 0, 1, 0, 1, 0, 0, 0, 0]);
        assert_eq!(pixel(&mut station, 0, &mut history), 0x555555);
        assert_eq!(history, [0xFFFFFF, 0]);
        station.set_enabled(Kind::Persistence, true).unwrap();
        assert_eq!(pixel(&mut station, 0xFFFFFF, &mut history), 0xAAAAAA);
        assert_eq!(history, [0xFFFFFF; 2]);
    }

    /// The first glow gets the new depth. Where it is another one, the second forgets: its history begins elsewhere.
    #[test]
    fn a_new_depth_is_that_of_the_first_glow() {
        let (mut before, mut words) = (Station::open(&TWO_GLOWS).unwrap(), [7; 5]);
        pixel(&mut before, 0xFFFFFF, &mut words);
        for (depth, sum, second) in [(1, 2, 1), (2, 3, 0), (4, 5, 0)] {
            let (mut station, mut history) = (before.clone(), words);
            assert_eq!(station.set_depth(&mut history[..depth - 1], depth), Err(ShortHistory));
            assert_eq!(station.set_depth(&mut history[..depth], depth), Ok(()));
            assert_eq!(station.depth(), Ok(sum));
            assert_eq!(station.as_bytes()[84..96], [0, 1, 0, 1, 0, second, 0, second, 0, 0, 0, 0]);
            let mut asked = words;
            asked[..depth].fill(0xFFFFFF);
            assert_eq!(history, asked);
        }
    }

    /// Remembered sizes that differ, one of a glow that is off, and one where there is no pass.
    #[test]
    fn glows_remember_one_size() {
        let read = |card: &[u8], held: [u8; 12]| {
            let mut bytes = *Station::open(card).unwrap().as_bytes();
            bytes[84..96].copy_from_slice(&held);
            Station::from_bytes(bytes).map(|station| *station.as_bytes() == bytes)
        };
        let (one, other, none) = ([0, 1, 0, 2], [0, 2, 0, 1], [0; 4]);
        let held = |sizes: [[u8; 4]; 3]| -> [u8; 12] { sizes.concat().try_into().unwrap() };
        for (sizes, good) in [
            ([none, none, none], true),
            ([one, one, none], true),
            ([one, none, none], true),
            ([none, one, none], true),
            ([one, other, none], false),
            ([one, one, one], false),
            ([none, none, one], false),
        ] {
            assert_eq!(read(&TWO_GLOWS, held(sizes)), if good { Ok(true) } else { Err(BadStation) });
        }
        assert_eq!(read(&THREE_GLOWS, held([one, none, one])), Ok(true));
        assert_eq!(read(&THREE_GLOWS, held([one, none, other])), Err(BadStation));
        assert_eq!(read(&THREE_GLOWS, held([one, one, one])), Err(BadStation));
    }

    /// A fourth glow; LUT between two glows; LUT twice; twelve passes, which are torn, and thirteen.
    #[test]
    fn three_glows_may_stand_in_a_row() {
        let four = [0x14, 0x49, 0xF8, 0, 0, 0, 0x0A, 0x4F, 0xC0, 0, 0, 0, 0x52, 0x7E, 0, 0, 0, 0x02, 0x93, 0xF0, 0, 0, 0, 0x10];
        let split = [0x13, 0x49, 0xF8, 0, 0, 0, 0x0A, 0x80, 0, 0, 0, 0x02, 0x4F, 0xC0, 0, 0, 0, 0x40];
        assert_eq!(Station::open(&four), Err(DoubledPass));
        assert_eq!(Station::open(&split), Err(PassOutOfOrder));
        assert_eq!(Station::open(&[0x12, 0x58, 0, 0, 0, 0, 0x58, 0, 0, 0, 0]), Err(DoubledPass));
        assert_eq!(Station::open(&[0x1C]), Err(TornCard));
        assert_eq!(Station::open(&[0x1D]), Err(OverfullCard));
    }

    #[test]
    fn areas_are_added_up_in_the_order_given() {
        let (picture, mut result) = ([0xFF010203, 0x040506, 0x070809, 0x0A0B0C], [9; 7]);
        assert_eq!(areas(&picture, 2, 2, &[0, 0, 2, 1, 1, 0, 1, 2], &mut result), Ok(3));
        assert_eq!(result, [5, 7, 9, 14, 16, 18, 9]);
        assert_eq!(areas(&picture, 2, 2, &[], &mut []), Ok(0));
        assert_eq!(areas(&picture, 2, 2, &[2, 0, 1, 0], &mut result), Err(BadArea));
        assert_eq!(areas(&picture[..3], 2, 2, &[0], &mut []), Err(ShortFrame));
        assert_eq!(areas(&[], 0, 2, &[0], &mut []), Err(BadSize));
        assert_eq!(result, [5, 7, 9, 14, 16, 18, 9]);
    }

    /// An event of a sheet, as its fields: the value of each and how many bits it has.
    type Event = Vec<(u32, usize)>;

    /// A reset, a preset step and a commit.
    const RESET: (u32, usize) = (1, 3);
    const STEP: (u32, usize) = (3, 3);
    const COMMIT: (u32, usize) = (5, 3);

    /// The word at each place of a frame.
    fn word(place: u32) -> u32 {
        (0x10203 * (place + 1)) & 0xFFFFFF
    }

    fn frame_of(width: u32, height: u32) -> Event {
        let words = (0..width * height).map(|place| (word(place), 24));
        [(0, 3), (width, 11), (height, 11)].into_iter().chain(words).collect()
    }

    fn switch_of(kind: u32, on: u32) -> Event {
        vec![(2, 3), (kind, 4), (on, 1)]
    }

    fn ask_of(kind: u32, on: u32) -> Event {
        vec![(4, 3), (kind, 4), (on, 1)]
    }

    fn sheet_of(events: &[Event]) -> Vec<u8> {
        let mut fields = vec![(events.len() as u32, 16)];
        fields.extend(events.concat());
        let bits = fields.iter().flat_map(|&(value, width)| (0..width).rev().map(move |place| (value >> place & 1) as u8));
        let byte = |eight: &[u8]| (0..8).fold(0, |byte, place| byte << 1 | eight.get(place).unwrap_or(&0));
        bits.collect::<Vec<u8>>().chunks(8).map(byte).collect()
    }

    /// Plays a sheet with the scratch that frames of two words take, and no curve.
    fn plays(station: &mut Station, sheet: &[u8], frame: &mut [u32], history: &mut [u32]) -> Result<Played, Refusal> {
        station.play(sheet, frame, history, &mut [0.0; 12], &mut [0; 2], &[])
    }

    fn counted(accepted: u32, refused: u32) -> Result<Played, Refusal> {
        Ok(Played { accepted, refused })
    }

    /// Each event, frames that begin the history, meet it and are turned: all is as the calls leave it, words past a frame too.
    #[test]
    fn a_sheet_is_played_as_its_calls() {
        let (mut station, mut frame, mut history) = (opened(), [0xFF000007; 3], [9; 7]);
        let events = [
            frame_of(2, 1),
            ask_of(10, 0),
            frame_of(2, 1),
            vec![STEP],
            frame_of(1, 2),
            vec![COMMIT],
            frame_of(1, 1),
            vec![RESET],
            switch_of(5, 0),
            frame_of(1, 1),
        ];
        assert_eq!(plays(&mut station, &sheet_of(&events), &mut frame, &mut history), counted(10, 0));
        let (mut other, mut words, mut past) = (opened(), [0xFF000007; 3], [9; 7]);
        let mut shows = |other: &mut Station, width: usize, height: usize| {
            words[..width * height].copy_from_slice(&[word(0), word(1)][..width * height]);
            other.apply(&mut words, width, height, &mut past, &mut [0.0; 12], &mut [0; 2], &[]).unwrap();
        };
        shows(&mut other, 2, 1);
        other.ask(Kind::Scanlines, false).unwrap();
        shows(&mut other, 2, 1);
        other.cycle_lut().unwrap();
        shows(&mut other, 1, 2);
        other.commit().unwrap();
        shows(&mut other, 1, 1);
        other.reset().unwrap();
        other.set_enabled(Kind::Lut, false).unwrap();
        shows(&mut other, 1, 1);
        assert_eq!((station, frame, history), (other, words, past));
        assert_eq!((frame[2], history[6]), (0xFF000007, 9));
    }

    /// A frame without a pass shows itself, row after row, whatever events come before it: its words begin at each bit of a byte.
    #[test]
    fn a_frame_is_read_from_any_bit() {
        for before in 0..8 {
            let (mut station, mut frame) = (Station::open(&[0x10]).unwrap(), [0xFF000007; 7]);
            let mut events = vec![vec![RESET]; before];
            events.push(frame_of(3, 2));
            let played = station.play(&sheet_of(&events), &mut frame, &mut [], &mut [0.0; 27], &mut [0; 6], &[]);
            assert_eq!(played, counted(1, before as u32));
            let shown: Vec<u32> = (0..6).map(word).chain([0xFF000007]).collect();
            assert_eq!(frame[..], shown);
        }
    }

    /// Kinds that the card does not name and such as are none, a commit of nothing, and sides that no frame has: 12, 18 and 8. A frame of
    /// such a size carries its words, or none.
    #[test]
    fn refused_events_are_counted_and_passed_over() {
        let (mut station, mut frame, mut history) = (opened(), [7; 2], [9; 6]);
        let absent = [0, 1, 2, 3, 6, 7, 8, 9, 11, 12, 13, 14, 15];
        let mut events: Vec<Event> = absent.into_iter().flat_map(|kind| [switch_of(kind, 1), ask_of(kind, 0)]).collect();
        events.push(vec![COMMIT]);
        let sizes = [(0, 0), (0, 1), (1, 0), (0, 2047), (2047, 0), (1025, 1), (1, 1025), (2047, 1), (1, 2047)];
        events.extend(sizes.map(|(width, height)| frame_of(width, height)));
        let refused = events.len() as u32;
        assert_eq!(plays(&mut station, &sheet_of(&events), &mut frame, &mut history), counted(0, refused));
        assert_eq!((&station, frame, history), (&opened(), [7; 2], [9; 6]));
        // The event behind them is played.
        events.push(vec![STEP]);
        assert_eq!(plays(&mut station, &sheet_of(&events), &mut frame, &mut history), counted(1, refused));
        assert_eq!(station.preset(), Ok(Preset::CoolCrt));

        let asked = [ask_of(5, 0), ask_of(5, 0), ask_of(10, 1)];
        assert_eq!(plays(&mut station, &sheet_of(&asked), &mut [], &mut []), counted(1, 2));
        assert_eq!(station.pending(), Some((Kind::Lut, false)));
        let mut empty = Station::open(&[0x10]).unwrap();
        assert_eq!(plays(&mut empty, &sheet_of(&[vec![RESET], vec![STEP]]), &mut [], &mut []), counted(0, 2));
    }

    /// Each buffer one word short of a frame of two words, and a bad curve: of the sheet's frames those of one word are shown, or none.
    #[test]
    fn the_words_of_a_refused_frame_are_not_written() {
        let events = sheet_of(&[frame_of(1, 1), frame_of(2, 1), frame_of(1, 2)]);
        for (frame, history, floats, ints) in [(1, 6, 12, 2), (2, 5, 12, 2), (2, 6, 8, 2), (2, 6, 12, 1)] {
            let (mut station, mut words, mut past) = (opened(), [7; 2], [9; 6]);
            let played = station.play(&events, &mut words[..frame], &mut past[..history], &mut vec![0.0; floats], &mut vec![0; ints], &[]);
            assert_eq!((played, words[1], &past[3..]), (counted(1, 2), 7, &[9; 3][..]));
            assert_eq!(station.as_bytes()[84..88], [0, 1, 0, 1]);
        }
        let (mut station, mut words) = (Station::open(&GAMMA_2).unwrap(), [7; 2]);
        let mut played = |curve: &[f32]| {
            let played = station.play(&events, &mut words, &mut [], &mut [0.0; 12], &mut [0; 2], curve);
            (played, words)
        };
        assert_eq!(played(&[0.5; 255]), (counted(0, 3), [7; 2]));
        assert_eq!(played(&[1.0; 256]), (counted(3, 0), [0xFFFFFF; 2]));
    }

    /// No event at all, one, and as many as a sheet can have; a count with too little behind it, or with nothing.
    #[test]
    fn a_sheet_has_as_many_events_as_it_says() {
        let mut station = opened();
        let mut played = |sheet: &[u8]| plays(&mut station, sheet, &mut [], &mut []);
        assert_eq!(played(&[0, 0]), counted(0, 0));
        assert_eq!(played(&sheet_of(&[vec![RESET]])), counted(1, 0));
        let most = sheet_of(&vec![vec![COMMIT]; 65535]);
        assert_eq!((most.len(), played(&most)), (24_578, counted(0, 65535)));
        assert_eq!(played(&most[..24_577]), Err(BadSheet));
        for sheet in [&[][..], &[0], &[0xFF], &[0, 1], &[0xFF, 0xFF], &[0, 0, 0], &[0, 0, 0x20], &[0, 1, 0x20, 0], &[0, 3, 0x24]] {
            assert_eq!(played(sheet), Err(BadSheet));
        }
    }

    /// Cut at each byte, a byte more, another number for the last event, a bit set behind it: no event before it is played.
    #[test]
    fn a_damaged_sheet_plays_nothing() {
        let good = sheet_of(&[vec![STEP], frame_of(2, 1), ask_of(5, 0), vec![RESET]]);
        // The reset takes three of the last four bits.
        let (last, end) = (good.len() - 1, 0b0000_0010);
        assert_eq!(good[last] & 0x0F, end);
        let mut damaged: Vec<Vec<u8>> = (0..=last).map(|length| good[..length].to_vec()).collect();
        damaged.extend([0, 1, 0x80, 0xFF].map(|byte| [&good[..], &[byte]].concat()));
        for changed in [0b0000_0011, 0b0000_1100, 0b0000_1110] {
            let mut sheet = good.clone();
            sheet[last] = sheet[last] & 0xF0 | changed;
            damaged.push(sheet);
        }
        let (mut station, mut frame, mut history) = (opened(), [7; 2], [9; 6]);
        for sheet in damaged {
            assert_eq!(plays(&mut station, &sheet, &mut frame, &mut history), Err(BadSheet));
            assert_eq!((&station, frame, history), (&opened(), [7; 2], [9; 6]));
        }
        assert_eq!(plays(&mut station, &good, &mut frame, &mut history), counted(4, 0));
    }

    /// Colours that are all different, with top bytes.
    fn colours(count: u32) -> Vec<u32> {
        (0..count).map(|k| 0x8001_0203 + 0x0101_0101 * k).collect()
    }

    /// Shows a source with the scratch that it takes, and no curve.
    fn shows(station: &mut Station, source: Source, frame: &mut [u32], history: &mut [u32]) -> Result<Counts, Refusal> {
        let (width, height) = source.enlarged();
        let count = width * height;
        station.show(source, frame, history, &mut vec![0.0; 3 * count + 3 * width], &mut vec![0; count], &[])
    }

    /// No pass: each number shows its colour as it is lent, three by three; what is lent besides is not read, and words past it stay.
    #[test]
    fn a_source_is_enlarged_to_three_by_three() {
        let mut station = Station::open(&[0x10]).unwrap();
        let (colours, numbers) = (colours(66), [0, 1, 63, 64, 127, 255, 9, 9]);
        for count in [64, 65, 66] {
            let mut frame = [7; 55];
            let source = Source { picture: &numbers, width: 3, height: 2, colours: &colours[..count] };
            let shown = shows(&mut station, source, &mut frame, &mut []);
            assert_eq!(shown, Ok(Counts { clipped: 0, samples: 0 }));
            for (place, &word) in frame[..54].iter().enumerate() {
                let (x, y) = (place % 9 / 3, place / 9 / 3);
                assert_eq!(word, colours[usize::from(numbers[3 * y + x]) % 64]);
            }
            assert_eq!(frame[54], 7);
        }
    }

    /// Every number at once: a picture of 16 by 16.
    #[test]
    fn a_number_shows_its_colour_modulo_64() {
        let (mut station, mut frame) = (Station::open(&[0x10]).unwrap(), [7; 48 * 48]);
        let (colours, numbers) = (colours(64), (0..=255).collect::<Vec<u8>>());
        let source = Source { picture: &numbers, width: 16, height: 16, colours: &colours };
        shows(&mut station, source, &mut frame, &mut []).unwrap();
        for number in 0..256 {
            let corner = number / 16 * 3 * 48 + number % 16 * 3;
            for place in [0, 1, 2, 48, 49, 50, 96, 97, 98] {
                assert_eq!(frame[corner + place], colours[number % 64]);
            }
        }
    }

    /// Frames that begin the history, meet it and are turned, of a source and of the words that it is enlarged to.
    #[test]
    fn a_source_is_shown_as_its_enlarged_frame() {
        let (mut station, mut other) = (opened(), opened());
        let (mut history, mut past) = ([9; 55], [9; 55]);
        let colours = colours(64);
        for (numbers, width, height) in [([1, 2], 2, 1), ([2, 200], 2, 1), ([9, 3], 1, 2), ([3, 1], 1, 2)] {
            let source = Source { picture: &numbers, width, height, colours: &colours };
            let (mut frame, mut words) = ([7; 19], [7; 19]);
            let counts = shows(&mut station, source, &mut frame, &mut history);
            let (wide, high) = source.enlarged();
            for (place, word) in words[..18].iter_mut().enumerate() {
                let (x, y) = (place % wide / 3, place / wide / 3);
                *word = colours[usize::from(numbers[y * width + x]) % 64];
            }
            let asked = other.apply(&mut words, wide, high, &mut past, &mut [0.0; 72], &mut [0; 18], &[]);
            assert_eq!((counts, frame, history), (asked, words, past));
            assert_eq!(station, other);
        }
        assert_eq!(station.as_bytes()[84..88], [0, 3, 0, 6]);
        assert_eq!(history[54], 9);
    }

    /// The sides at their limits, which overflow nothing, a number too few and a colour too few; the station is not asked.
    #[test]
    fn a_bad_source_comes_first() {
        let (numbers, colours) = (vec![0; 342 * 341], colours(64));
        let sides = [(0, 1), (1, 0), (0, 0), (342, 1), (1, 342), (342, 341), (usize::MAX, 2), (1 << 63, 2), (1 << 32, 1 << 32)];
        let mut sources: Vec<Source> =
            sides.map(|(width, height)| Source { picture: &numbers, width, height, colours: &colours }).to_vec();
        let one = Source { picture: &[0; 6], width: 3, height: 2, colours: &colours };
        sources.extend([Source { picture: &[0; 5], ..one }, Source { picture: &[], ..one }]);
        sources.extend([Source { colours: &colours[..63], ..one }, Source { colours: &[], ..one }]);
        let bad = Station { state: [0; STATE] };
        for source in sources {
            for mut station in [opened(), bad.clone()] {
                let (before, mut frame, mut history) = (station.clone(), [7; 54], [9; 162]);
                let given = station.show(source, &mut frame, &mut history, &mut [0.0; 189], &mut [0; 54], &[]);
                assert_eq!((given, &station, frame, history), (Err(BadSource), &before, [7; 54], [9; 162]));
                assert_eq!(station.show(source, &mut [], &mut [], &mut [], &mut [], &[]), Err(BadSource));
            }
        }
        let (mut frame, mut history) = ([7; 54], [9; 162]);
        assert_eq!(shows(&mut bad.clone(), one, &mut frame, &mut history), Err(BadStation));
        assert_eq!((frame, history), ([7; 54], [9; 162]));
        assert!(shows(&mut opened(), one, &mut frame, &mut history).is_ok());
    }

    /// The longest sides.
    #[test]
    fn a_source_has_sides_up_to_341() {
        let mut station = Station::open(&[0x10]).unwrap();
        let (numbers, colours) = (vec![5; 341 * 341], colours(64));
        for (width, height) in [(341, 1), (1, 341), (341, 341)] {
            let mut frame = vec![7; 9 * width * height + 1];
            let source = Source { picture: &numbers[..width * height], width, height, colours: &colours };
            shows(&mut station, source, &mut frame, &mut []).unwrap();
            assert_eq!(frame.pop(), Some(7));
            assert!(frame.iter().all(|&word| word == colours[5]));
        }
    }

    /// Each buffer one word short of the enlarged frame, and a bad curve: nothing is written.
    #[test]
    fn the_words_of_a_refused_source_are_not_written() {
        let colours = colours(64);
        let source = Source { picture: &[0, 1], width: 2, height: 1, colours: &colours };
        for (frame, history, floats, ints, refusal) in [
            (17, 54, 72, 18, ShortFrame),
            (18, 53, 72, 18, ShortHistory),
            (18, 54, 71, 18, ShortScratch),
            (18, 54, 72, 17, ShortScratch),
            (17, 53, 71, 17, ShortFrame),
        ] {
            let (mut station, mut words, mut past) = (opened(), [7; 18], [9; 54]);
            let (mut floats, mut ints) = (vec![0.5; floats], vec![5; ints]);
            let given = station.show(source, &mut words[..frame], &mut past[..history], &mut floats, &mut ints, &[]);
            assert_eq!((given, station, words, past), (Err(refusal), opened(), [7; 18], [9; 54]));
            assert!(floats.iter().all(|&x| x == 0.5) && ints.iter().all(|&x| x == 5));
        }
        let (mut station, mut words) = (Station::open(&GAMMA_2).unwrap(), [7; 18]);
        let mut shown = |curve: &[f32]| {
            let given = station.show(source, &mut words, &mut [], &mut [0.0; 72], &mut [0; 18], curve);
            (given.map(|_| ()), words)
        };
        assert_eq!(shown(&[0.5; 255]), (Err(BadCurve), [7; 18]));
        assert_eq!(shown(&[1.0; 256]), (Ok(()), [0xFFFFFF; 18]));
    }

    /// Each byte changed to each other value: refused by 13 and left alone by every call, or a state
    /// that is written as itself again.
    #[test]
    fn damaged_states_are_refused_and_stay() {
        let (good, mut refused) = (*opened().as_bytes(), 0);
        for place in 0..134 {
            for change in 1..=255 {
                let mut bytes = good;
                bytes[place] ^= change;
                match Station::from_bytes(bytes) {
                    Ok(station) => {
                        let mut card = [0; 83];
                        let length = station.write(&mut card).unwrap();
                        assert_eq!((length, &card[..]), (bytes[0] as usize, &bytes[1..84]));
                    }
                    Err(refusal) => {
                        let mut station = Station { state: bytes };
                        assert_eq!(refusal, BadStation);
                        assert_eq!(station.write(&mut [0; 83]), Err(BadStation));
                        assert_eq!(station.reset(), Err(BadStation));
                        assert_eq!(station.set_enabled(Kind::Scanlines, false), Err(BadStation));
                        assert_eq!(station.ask(Kind::Scanlines, false), Err(BadStation));
                        assert_eq!(station.commit(), Err(BadStation));
                        assert_eq!(station.cycle_lut(), Err(BadStation));
                        assert_eq!(station.enabled(Kind::Scanlines), Err(BadStation));
                        assert_eq!(station.preset(), Err(BadStation));
                        let (mut frame, mut history) = ([7], [7; 3]);
                        assert_eq!(station.apply(&mut frame, 1, 1, &mut history, &mut [0.0; 6], &mut [0], &[]), Err(BadStation));
                        assert_eq!(station.set_depth(&mut history, 3), Err(BadStation));
                        // Of a source that is good, and of one that is not.
                        let mut source = Source { picture: &[0], width: 1, height: 1, colours: &[0; 64] };
                        assert_eq!(shows(&mut station, source, &mut frame, &mut history), Err(BadStation));
                        source.picture = &[];
                        assert_eq!(shows(&mut station, source, &mut frame, &mut history), Err(BadSource));
                        // Of a sheet that is good, and of one that is not.
                        assert_eq!(plays(&mut station, &[0, 0], &mut frame, &mut history), Err(BadStation));
                        assert_eq!(plays(&mut station, &[], &mut frame, &mut history), Err(BadStation));
                        assert_eq!((station.state, frame, history), (bytes, [7], [7; 3]));
                        refused += 1;
                    }
                }
            }
        }
        assert!(refused > 10_000, "{refused}");
    }
}
