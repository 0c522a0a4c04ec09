//! Document 01's plain machine over the original: a station, the words of its history buffer, and the
//! original's pipeline, which runs from call to call. The history's words are made apart from it, of the frames
//! as they come to each of the original's persistence effects. At a turned frame, which the original would mix with the frames before
//! the turn, its effects are built anew: that is what document 02's P1 asks. Where colour reads a curve (P3), it is the original's if
//! the curve holds the original's powers, else a second writing of it. The original knows nothing of a switch that is asked for (P7): it
//! is switched at the commit. Nor can it change its depth (P11): from such a call on the pictures are those of another one, which is
//! built with the new depth, and each glow of which is shown what its history holds, oldest first. Since it keeps the frames as they
//! come to it and not its pictures, its own history is then that of the words here, place by place. That this is so is seen at the
//! present depth, at which nothing changes: the other one has to go on as the first would have. Of several glows (P12) the original
//! switches the first, as its pipeline finds it by its name.

use super::station::{Lengths, Pending, Station};
use crate::bridge::{Answer, State};
use crate::cards::paper::Size;
use crate::passes::both::{Both, Past};
use crate::passes::chain::{name, preset, LUT};
use crate::reports::Reports;

pub struct Machine {
    /// None where the bytes are no good station's.
    station: Option<Station>,
    /// The bytes that it was given.
    given: State,
    pipeline: Both,
    pub history: Vec<u32>,
}

impl Machine {
    /// A machine that goes on from these bytes and these words.
    pub fn resumed(state: &State, history: Vec<u32>) -> Self {
        let station = Station::read(state);
        let pipeline = station.as_ref().map(|station| refilled(station, &history));
        Machine {
            station,
            given: *state,
            pipeline: pipeline.unwrap_or_default(),
            history,
        }
    }

    pub fn station(&self) -> Option<&Station> {
        self.station.as_ref()
    }

    pub fn state(&self) -> State {
        self.station.as_ref().map_or(self.given, Station::state)
    }

    /// A frame: the picture takes the place of the first words. Gives what it reports, or why it is refused.
    pub fn frame(
        &mut self,
        words: &mut [u32],
        size: Size,
        lent: &Lengths,
        curve: &[f32],
    ) -> Result<Reports, u32> {
        let (width, height) = size;
        let station = self.station.as_mut().ok_or(13u32)?;
        station.frame(width, height, lent, curve)?;
        let words = &mut words[..width * height];
        if station.turned(size) {
            self.pipeline = Both::built(station.records());
        }
        let counted = self.pipeline.apply(words, width, height, curve);
        for (place, incoming) in station.lit().into_iter().zip(self.pipeline.came()) {
            remember(station, place, &mut self.history, &incoming, size);
        }
        station.take(size);
        Ok(counted)
    }

    /// The original's pipeline cannot reach a reset: its effects are built anew.
    pub fn reset(&mut self) -> Answer {
        let station = self.station.as_mut().ok_or(13u32)?;
        let answer = station.reset()?;
        self.pipeline = Both::built(station.records());
        Ok(answer)
    }

    pub fn switch(&mut self, kind: u8, on: bool) -> Answer {
        let station = self.station.as_mut().ok_or(13u32)?;
        let answer = station.switch(kind, on)?;
        self.pipeline.set_enabled(name(kind.into()), on);
        Ok(answer)
    }

    pub fn ask(&mut self, kind: u8, on: bool) -> Answer {
        self.station.as_mut().ok_or(13u32)?.ask(kind, on)
    }

    pub fn commit(&mut self) -> Answer {
        let station = self.station.as_mut().ok_or(13u32)?;
        let asked = station.pending;
        let answer = station.commit()?;
        if let Some(Pending { kind, on }) = asked {
            self.pipeline.set_enabled(name(kind.into()), on);
        }
        Ok(answer)
    }

    /// The words are made apart from the original, which is built anew and given them.
    pub fn set_depth(&mut self, depth: u8, lent: usize) -> Answer {
        let station = self.station.as_mut().ok_or(13u32)?;
        let before = station.depth().unwrap_or_default();
        let answer = station.set_depth(depth, lent)?;
        lengthen(station, &mut self.history, before);
        self.pipeline = refilled(station, &self.history);
        Ok(answer)
    }

    /// The preset is the original's; that of the station is counted apart from it.
    pub fn step(&mut self) -> Answer {
        let station = self.station.as_mut().ok_or(13u32)?;
        station.step()?;
        self.pipeline.cycle_lut();
        Ok(preset(self.pipeline.original()))
    }

    pub fn write(&self, buffer: &mut [u8]) -> Answer {
        let card = self.station.as_ref().ok_or(13u32)?.opened.written();
        let front = buffer.get_mut(..card.len()).ok_or(14u32)?;
        front.copy_from_slice(&card);
        Ok(card.len() as u32)
    }

    /// How many frames the histories hold together.
    pub fn depth(&self) -> Answer {
        let station = self.station.as_ref().ok_or(13u32)?;
        Ok(station.frames() as u32)
    }

    /// The original tells no switch: this is the station's own.
    pub fn enabled(&self, kind: u8) -> Answer {
        self.station.as_ref().ok_or(13u32)?.enabled(kind)
    }

    /// The preset is the original's.
    pub fn preset(&self) -> Answer {
        let station = self.station.as_ref().ok_or(13u32)?;
        station.place(LUT).ok_or(12u32)?;
        Ok(preset(self.pipeline.original()))
    }
}

/// Fills the whole history of the glow at this place, or shifts it by one frame and puts the new one first.
fn remember(station: &Station, place: usize, history: &mut [u32], incoming: &[u32], size: Size) {
    let count = incoming.len();
    let (start, depth) = (station.start(place), station.depth_at(place));
    let places = &mut history[start * count..(start + depth) * count];
    if station.meets(place, size) {
        places.copy_within(..(depth - 1) * count, count);
        places[..count].copy_from_slice(incoming);
    } else {
        for place in places.chunks_exact_mut(count) {
            place.copy_from_slice(incoming);
        }
    }
}

/// Repeats the oldest of so many frames that the first glow holds until its history is full. A smaller history keeps the newest, which
/// stand first: no word changes.
fn lengthen(station: &Station, history: &mut [u32], before: usize) {
    let (count, depth) = (station.count(), station.depth().unwrap_or_default());
    if count == 0 || depth <= before {
        return;
    }
    let oldest = history[(before - 1) * count..][..count].to_vec();
    for place in history.chunks_exact_mut(count).take(depth).skip(before) {
        place.copy_from_slice(&oldest);
    }
}

/// The original's pipeline of a station, with what is held given to each of its glows frame by frame, oldest first.
fn refilled(station: &Station, history: &[u32]) -> Both {
    let glows = station.glows().into_iter();
    let pasts = glows.map(|place| past(station, place, history));
    Both::resumed(station.records(), &pasts.collect::<Vec<_>>())
}

/// What the history of the glow at this place holds.
fn past(station: &Station, place: usize, history: &[u32]) -> Past {
    let size = station.held[place];
    let count = size.0 * size.1;
    // More than the buffer has room for meets no frame: the next one fills all places.
    if count == 0 || station.frames() * count > history.len() {
        return Past::default();
    }
    let (start, depth) = (station.start(place), station.depth_at(place));
    let places = history[start * count..].chunks_exact(count).take(depth);
    let mut frames: Vec<Vec<u32>> = places.map(<[u32]>::to_vec).collect();
    frames.reverse();
    Past { size, frames }
}
