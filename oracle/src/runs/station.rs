//! Document 01's station, with the pending switch of document 02's P7, the new depth of its P11 and the three glows of its P12, as the
//! library lends it, in 134 bytes, with nothing of the library: what it says, and what each call on it answers.

use std::cmp::Ordering;

use crate::bridge::{Answer, State, STATE};
use crate::cards::paper::{self, Held, Opened, Record, Size, Value, GLOWS, NOTHING, PASSES};
use crate::passes::chain::{LUT, PERSISTENCE};
use crate::passes::curves;

/// Where the parts of the 134 bytes end: a length, the card's room, the size that the pass at each place remembers. Then come the kind
/// and the position of the pending switch.
const CARD_END: usize = 84;
pub const HELD_END: usize = 132;

/// The bytes of a remembered size: the width and the height, the most significant byte of each first.
const SIZE: usize = 4;

#[derive(Clone)]
pub struct Station {
    pub opened: Opened,
    /// The size of the frames that the history of the pass at each place holds.
    pub held: Held,
    pub pending: Option<Pending>,
}

/// A switch that was asked for and is not committed.
#[derive(Clone, Copy, PartialEq)]
pub struct Pending {
    pub kind: u8,
    pub on: bool,
}

/// The deepest history of one glow, and the most frames that those of a chain hold together.
pub const DEEPEST: usize = 8;
pub const MOST_FRAMES: usize = GLOWS * DEEPEST;

/// The f32 words of scratch that a frame takes.
pub fn float_room(width: usize, height: usize) -> usize {
    3 * width * height + 3 * width
}

/// The bytes in which the state has the size that the pass at this place remembers.
pub fn held_bytes(place: usize) -> std::ops::Range<usize> {
    CARD_END + place * SIZE..CARD_END + (place + 1) * SIZE
}

/// A size in these bytes.
pub fn sized((width, height): Size) -> [u8; SIZE] {
    let [width, height] = [width, height].map(|side| (side as u16).to_be_bytes());
    [width[0], width[1], height[0], height[1]]
}

/// The words that are lent to a frame beside the curve.
#[derive(Clone, Copy, Default, PartialEq, Debug)]
pub struct Lengths {
    pub framebuffer: usize,
    pub history: usize,
    pub floats: usize,
    pub ints: usize,
}

impl Station {
    pub fn open(card: &[u8]) -> Result<Station, u32> {
        let opened = paper::open(card)?;
        Ok(Station {
            opened,
            held: [NOTHING; PASSES],
            pending: None,
        })
    }

    /// What these bytes say, if they are a good station's.
    pub fn read(state: &State) -> Option<Station> {
        let card = state[1..CARD_END].get(..state[0].into())?;
        let after = &state[1 + card.len()..CARD_END];
        let zero = |bytes: &[u8]| bytes.iter().all(|&byte| byte == 0);
        if !zero(after) {
            return None;
        }
        let side = |bytes: &[u8]| usize::from(u16::from_be_bytes([bytes[0], bytes[1]]));
        let held = std::array::from_fn(|place| {
            let (width, height) = state[held_bytes(place)].split_at(SIZE / 2);
            (side(width), side(height))
        });
        let pending = match state[HELD_END..] {
            [0, 0] => None,
            [kind, 0] => Some(Pending { kind, on: false }),
            [kind, 1] => Some(Pending { kind, on: true }),
            _ => return None,
        };
        let opened = paper::open(card).ok()?;
        // A card that is not normalised is no station's.
        let normal = opened.written() == card && opened.may_hold(&held);
        let station = Station {
            opened,
            held,
            pending,
        };
        // Nor is a record of a kind that is not in the chain.
        let known = pending.is_none_or(|asked| station.has(asked.kind.into()));
        (normal && known).then_some(station)
    }

    pub fn state(&self) -> State {
        let card = self.opened.written();
        let mut state = [0; STATE];
        state[0] = card.len() as u8;
        state[1..][..card.len()].copy_from_slice(&card);
        for (place, &held) in self.held.iter().enumerate() {
            state[held_bytes(place)].copy_from_slice(&sized(held));
        }
        if let Some(Pending { kind, on }) = self.pending {
            state[HELD_END..].copy_from_slice(&[kind, on.into()]);
        }
        state
    }

    pub fn records(&self) -> &[Record] {
        &self.opened.records
    }

    /// Each kind of the chain once.
    pub fn kinds(&self) -> Vec<u8> {
        let mut kinds: Vec<u8> = self.records().iter().map(|r| r.kind as u8).collect();
        kinds.dedup();
        kinds
    }

    /// The place of the first record of a kind: the one on which a call acts.
    pub fn place(&self, kind: u32) -> Option<usize> {
        self.records().iter().position(|r| r.kind == kind)
    }

    pub fn has(&self, kind: u32) -> bool {
        self.place(kind).is_some()
    }

    /// Whether the first record of a kind is on.
    pub fn is_on(&self, kind: u32) -> bool {
        self.place(kind)
            .is_some_and(|place| self.records()[place].on)
    }

    /// The places of the glows, on or off.
    pub fn glows(&self) -> Vec<usize> {
        let places = self.records().iter().enumerate();
        let glows = places.filter(|(_, r)| r.kind == PERSISTENCE);
        glows.map(|(place, _)| place).collect()
    }

    /// The places of those behind the first.
    pub fn later_glows(&self) -> Vec<usize> {
        self.glows().split_off(1.min(self.glows().len()))
    }

    /// The places of the glows that are on.
    pub fn lit(&self) -> Vec<usize> {
        let mut glows = self.glows();
        glows.retain(|&place| self.records()[place].on);
        glows
    }

    /// Whether some glow is on.
    pub fn remembers(&self) -> bool {
        !self.lit().is_empty()
    }

    /// The depth of the glow at this place.
    pub fn depth_at(&self, place: usize) -> usize {
        whole(self.records()[place].settings[1])
    }

    /// Of the first glow, on or off.
    pub fn depth(&self) -> Option<usize> {
        self.place(PERSISTENCE).map(|place| self.depth_at(place))
    }

    /// How many frames the histories of the glows at these places hold together.
    pub fn frames_of(&self, glows: &[usize]) -> usize {
        glows.iter().map(|&place| self.depth_at(place)).sum()
    }

    /// The same of all glows, on or off.
    pub fn frames(&self) -> usize {
        self.frames_of(&self.glows())
    }

    /// The same where the first one is as deep as a new depth can make it.
    pub fn frames_at_most(&self) -> usize {
        self.frames() + self.depth().map_or(0, |depth| DEEPEST - depth)
    }

    /// How many frames stand in the buffer before the history of the glow at this place.
    pub fn start(&self, place: usize) -> usize {
        let mut before = self.glows();
        before.retain(|&other| other < place);
        self.frames_of(&before)
    }

    /// How a new depth is beside the present one.
    pub fn beside(&self, depth: u8) -> Ordering {
        let [new, present] = self.new_and_present(depth);
        new.cmp(&present)
    }

    /// The words of what the first glow holds that a new depth asks for, whatever it is, and those that the present one would.
    pub fn words_of(&self, depth: u8) -> [usize; 2] {
        self.new_and_present(depth)
            .map(|depth| depth * self.count())
    }

    fn new_and_present(&self, new: u8) -> [usize; 2] {
        [new.max(1).into(), self.depth().unwrap_or_default()]
    }

    /// The gamma at which the chain reads a curve, where it does.
    pub fn curved(&self) -> Option<f32> {
        paper::curved(self.records())
    }

    /// The radius of a blur, where it is on.
    pub fn radius(&self, kind: u32) -> Option<usize> {
        let record = self.records().iter().find(|r| r.kind == kind && r.on)?;
        record.settings.last().copied().map(whole)
    }

    /// The samples that an accepted frame of this size reports. The clipped channels are no station's to say.
    pub fn samples(&self, size: Size) -> u32 {
        paper::samples(self.records(), size)
    }

    /// Why a frame is refused, by the papers' table.
    pub fn frame(
        &self,
        width: usize,
        height: usize,
        lent: &Lengths,
        curve: &[f32],
    ) -> Result<(), u32> {
        let fine = |side: usize| (1..=1024).contains(&side);
        if !fine(width) || !fine(height) {
            return Err(8);
        }
        let count = width * height;
        if lent.framebuffer < count {
            Err(9)
        } else if lent.history < self.frames() * count {
            Err(10)
        } else if lent.floats < float_room(width, height) || lent.ints < count {
            Err(11)
        } else if self.curved().is_some() && !curves::is_good(curve) {
            Err(16)
        } else {
            Ok(())
        }
    }

    /// Whether a history holds frames.
    pub fn holds(&self) -> bool {
        self.shape() != NOTHING
    }

    /// The size of the frames that are held: those of all histories that hold any have the same.
    pub fn shape(&self) -> Size {
        let mut held = self.held.iter().copied();
        held.find(|&held| held != NOTHING).unwrap_or(NOTHING)
    }

    /// The size of the frames that the first glow holds.
    pub fn held_by_first(&self) -> Size {
        self.place(PERSISTENCE)
            .map_or(NOTHING, |place| self.held[place])
    }

    /// The words of such a frame.
    pub fn count(&self) -> usize {
        let (width, height) = self.held_by_first();
        width * height
    }

    /// Whether an accepted frame meets what the glow at this place holds: neither side differs. Any other fills its history anew.
    pub fn meets(&self, place: usize, size: Size) -> bool {
        self.held[place] == size
    }

    /// Whether an accepted frame is one of another shape that has as many words as those that are held. The original would mix it
    /// with them: document 02's P1.
    pub fn turned(&self, size: Size) -> bool {
        let (width, height) = self.shape();
        (width, height) != size && width * height == size.0 * size.1
    }

    /// What each glow that is on keeps of an accepted frame, beside the words.
    pub fn take(&mut self, size: Size) {
        for place in self.lit() {
            self.held[place] = size;
        }
    }

    pub fn reset(&mut self) -> Answer {
        self.place(PERSISTENCE).ok_or(12u32)?;
        self.held = [NOTHING; PASSES];
        Ok(0)
    }

    /// The first record of the kind is switched, and a glow that is switched off forgets.
    pub fn switch(&mut self, kind: u8, on: bool) -> Answer {
        let place = self.place(kind.into()).ok_or(12u32)?;
        let record = &mut self.opened.records[place];
        if record.kind == PERSISTENCE && record.on && !on {
            self.held[place] = NOTHING;
        }
        record.on = on;
        Ok(0)
    }

    /// Remembers the switch, and changes nothing else.
    pub fn ask(&mut self, kind: u8, on: bool) -> Answer {
        self.place(kind.into()).ok_or(12u32)?;
        if self.pending.is_some() {
            return Err(17);
        }
        self.pending = Some(Pending { kind, on });
        Ok(0)
    }

    /// Switches as was asked. Nothing else clears the record.
    pub fn commit(&mut self) -> Answer {
        let Pending { kind, on } = self.pending.ok_or(18u32)?;
        let answer = self.switch(kind, on);
        self.pending = None;
        answer
    }

    /// Changes the depth of the first glow, where as many words of the history are lent as it asks for of what that one holds. Where the
    /// depth is another, the histories behind it begin elsewhere: they are forgotten. What becomes of the words is no station's to say.
    pub fn set_depth(&mut self, depth: u8, lent: usize) -> Answer {
        let Some(place) = self.place(PERSISTENCE) else {
            return Err(12);
        };
        let depth = paper::depth(depth)?;
        if lent < whole(depth) * self.count() {
            return Err(10);
        }
        let present = &mut self.opened.records[place].settings[1];
        if *present != depth {
            *present = depth;
            self.held[place + 1..].fill(NOTHING);
        }
        Ok(0)
    }

    /// Whether the first pass of that kind is on, as 1 or 0.
    pub fn enabled(&self, kind: u8) -> Answer {
        let place = self.place(kind.into()).ok_or(12u32)?;
        Ok(self.records()[place].on.into())
    }

    pub fn step(&mut self) -> Answer {
        let place = self.place(LUT).ok_or(12u32)?;
        let preset = (self.preset().unwrap_or_default() + 1) % 7;
        self.opened.records[place].settings[0] = Value::Whole(preset, 3);
        Ok(preset)
    }

    pub fn preset(&self) -> Option<u32> {
        let record = &self.records()[self.place(LUT)?];
        Some(whole(record.settings[0]) as u32)
    }
}

/// A setting that is no float.
fn whole(setting: Value) -> usize {
    match setting {
        Value::Whole(number, _) => number as usize,
        Value::Float(_) => panic!("a whole number is no float"),
    }
}
