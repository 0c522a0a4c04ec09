//! A sheet that program `sheet` plays: by the model of sheets/, over what the program lends, with a line for each event and the last picture.

use super::cases::OfSheet;
use super::lines;
use crate::cards::paper::Size;
use crate::met::Met;
use crate::passes::chain::COLOUR;
use crate::programs::ppm::{PIXELS, SIDE};
use crate::programs::process::Said;
use crate::runs::machine::Machine;
use crate::runs::station::{Lengths, Station};
use crate::sheets::cases::Which;
use crate::sheets::model::{self, Lending, Turn};
use crate::sheets::paper::{Event, Read};

/// How many of the largest frames the history has room for.
const FRAMES: usize = 8;

/// What the program lends: enough for each frame of up to 61,440 pixels, but for a history that is deeper.
const LENT: Lengths = Lengths {
    framebuffer: PIXELS,
    history: FRAMES * PIXELS,
    floats: 3 * PIXELS + 3 * SIDE,
    ints: PIXELS,
};

/// What is written of a good sheet on a station that was just opened. The curve is empty where none is named.
pub fn run(station: &Station, read: &Read, curve: &[f32], met: &mut Met<OfSheet>) -> Said {
    let mut machine = Machine::resumed(&station.state(), vec![0; LENT.history]);
    let mut framebuffer = vec![0; LENT.framebuffer];
    let lending = Lending {
        lengths: LENT,
        curve,
    };
    let mut show = Show::new(!curve.is_empty(), met);
    let each = |turn: Turn, framebuffer: &[u32]| show.event(&turn, framebuffer);
    let played = model::play(&mut machine, read, &mut framebuffer, &lending, each);
    let [accepted, refused] = played.expect("the sheet is a good one").places();
    show.end(accepted, refused)
}

/// A sheet that is being played.
struct Show<'a> {
    met: &'a mut Met<OfSheet>,
    /// Whether a curve is named.
    curve: bool,
    said: String,
    /// The last picture, and the pixels of the largest one.
    last: Option<(Size, Vec<u32>)>,
    largest: usize,
    /// Whether a frame was refused since then.
    refused: bool,
}

impl<'a> Show<'a> {
    fn new(curve: bool, met: &'a mut Met<OfSheet>) -> Self {
        Show {
            met,
            curve,
            said: String::new(),
            last: None,
            largest: 0,
            refused: false,
        }
    }

    fn event(&mut self, turn: &Turn, framebuffer: &[u32]) {
        let Turn { event, answer, .. } = turn;
        self.said += &lines::said(event, *answer, framebuffer);
        let which = Which::of(event);
        match (answer, event) {
            (Err(number), _) => {
                self.met.note(OfSheet::Refused(which, *number));
                self.refused |= which == Which::Frame;
                return;
            }
            (Ok(preset), Event::Step) => self.met.note(OfSheet::Preset(*preset)),
            (Ok(_), Event::Frame(size, _)) => self.frame(&turn.before, *size, framebuffer),
            _ => {}
        }
        self.met.note(OfSheet::Accepted(which));
    }

    fn frame(&mut self, before: &Station, size: Size, framebuffer: &[u32]) {
        let words = framebuffer[..size.0 * size.1].to_vec();
        self.largest = self.largest.max(words.len());
        self.last = Some((size, words));
        self.refused = false;
        self.note_frame(before, size);
    }

    fn note_frame(&mut self, before: &Station, size: Size) {
        self.met.note_listed(OfSheet::Size(size.0, size.1));
        let lit = before.lit();
        self.met.note_listed(OfSheet::Several(lit.len()));
        if let Some(&first) = lit.first() {
            self.met.note(match before.meets(first, size) {
                true => OfSheet::Blend,
                false if before.turned(size) => OfSheet::Turned,
                false => OfSheet::Refill,
            });
        }
        match before.curved() {
            Some(_) if before.is_on(COLOUR) => self.met.note(OfSheet::Curved),
            Some(_) => self.met.note(OfSheet::CurveOff),
            None if self.curve => self.met.note(OfSheet::CurveUnread),
            None => {}
        }
    }

    /// The last picture on standard output, the lines and how many events were accepted on standard error.
    fn end(mut self, accepted: u32, refused: u32) -> Said {
        let output = match self.last.take() {
            None => {
                self.met.note(OfSheet::NoPicture);
                Vec::new()
            }
            Some((size, words)) => {
                self.note_last(&words);
                written(size, &words)
            }
        };
        let error = format!("{}accepted {accepted}, refused {refused}\n", self.said);
        Said {
            output,
            error: error.into_bytes(),
        }
    }

    fn note_last(&mut self, words: &[u32]) {
        if self.refused {
            self.met.note(OfSheet::RefusedBehind);
        }
        if words.len() < self.largest {
            self.met.note(OfSheet::Smaller);
        }
    }
}

/// A picture as binary PPM.
fn written((width, height): Size, words: &[u32]) -> Vec<u8> {
    let mut file = format!("P6\n{width} {height}\n255\n").into_bytes();
    for word in words {
        file.extend_from_slice(&word.to_be_bytes()[1..]);
    }
    file
}
