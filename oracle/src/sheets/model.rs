//! Playing a sheet, by document 02's P13: its calls one by one on the machine of the runs, the original's pipeline.

use super::paper::{Event, Read};
use crate::bridge::Answer;
use crate::runs::machine::Machine;
use crate::runs::ours::laid;
use crate::runs::station::{float_room, Lengths, Station};

/// How many events were accepted and how many refused, and how many words of each scratch the accepted frames may have used.
#[derive(Clone, Copy, Default, PartialEq, Debug)]
pub struct Played {
    pub accepted: u32,
    pub refused: u32,
    pub floats: usize,
    pub ints: usize,
}

impl Played {
    /// As they stand in the two places that are lent for them.
    pub fn places(self) -> [u32; 2] {
        [self.accepted, self.refused]
    }

    fn count(&mut self, event: &Event, answer: Answer) {
        if answer.is_err() {
            self.refused += 1;
            return;
        }
        self.accepted += 1;
        if let Event::Frame((width, height), _) = event {
            self.floats = self.floats.max(float_room(*width, *height));
            self.ints = self.ints.max(width * height);
        }
    }
}

/// What is lent for all events beside the framebuffer.
pub struct Lending<'a> {
    pub lengths: Lengths,
    pub curve: &'a [f32],
}

/// An event that was played: the station before it, and what its call answered.
pub struct Turn<'a> {
    pub before: Station,
    pub event: &'a Event,
    pub answer: Answer,
}

/// Plays a sheet that was read. `each` is told of every event, with the framebuffer after it.
pub fn play<'a>(
    machine: &mut Machine,
    read: &'a Read,
    framebuffer: &mut [u32],
    lent: &Lending,
    mut each: impl FnMut(Turn<'a>, &[u32]),
) -> Result<Played, u32> {
    if machine.station().is_none() {
        return Err(13);
    }
    // The whole sheet is looked at before the first event.
    if read.fault.is_some() {
        return Err(20);
    }
    let mut played = Played::default();
    for event in &read.events {
        let before = machine.station().cloned();
        let before = before.expect("a good station stays good");
        let answer = call(machine, event, framebuffer, lent);
        played.count(event, answer);
        let turn = Turn {
            before,
            event,
            answer,
        };
        each(turn, framebuffer);
    }
    Ok(played)
}

/// The call that an event is. The words of a frame come into the framebuffer where it is accepted, and its picture with them.
fn call(machine: &mut Machine, event: &Event, framebuffer: &mut [u32], lent: &Lending) -> Answer {
    match event {
        Event::Frame(size, words) => {
            let mut shown = laid(words, framebuffer);
            machine.frame(&mut shown, *size, &lent.lengths, lent.curve)?;
            framebuffer.copy_from_slice(&shown);
            Ok(0)
        }
        Event::Reset => machine.reset(),
        Event::Switch(kind, on) => machine.switch(*kind, *on),
        Event::Step => machine.step(),
        Event::Ask(kind, on) => machine.ask(*kind, *on),
        Event::Commit => machine.commit(),
    }
}
