//! Runs of many frames through a pass with memory, persistence: with resets, switches and changing
//! sizes. The history is compared through the pictures, and with a plain model of it.

use std::collections::VecDeque;

use super::cases;
use super::counted::effect::PostProcessEffect as _;
use super::counted::persistence::Persistence as Counting;
use super::frames::Picture;
use super::original::effect::PostProcessEffect as _;
use super::original::persistence::Persistence;
use super::room::{Lent, Room};
use super::settings::{self, Setting};
use super::table::{Frame, Pass};
use crate::cards::paper::{Size, NOTHING};
use crate::random::Random;
use crate::reports::{self, Reports};
use crate::steps::Mode;
use crate::tally::FrameTally;

/// Some frames through one effect.
pub struct Run {
    setting: Setting,
    seed: u64,
    frames: usize,
    /// The longest side of its frames.
    longest: usize,
}

/// Words of the history buffer past the most that the run needs.
const PAST: usize = 16;

/// Runs of small frames for each combination of boundary settings, then of any size for as long as
/// the budget lasts.
pub fn of(pass: &Pass, mode: Mode) -> Vec<Run> {
    let random = &mut Random::named(pass.name);
    let (rounds, budget) = match mode {
        Mode::Quick => (8, 3_000_000_000),
        Mode::Full => (80, 200_000_000_000),
    };
    let mut runs = Vec::new();
    for _ in 0..rounds {
        for setting in settings::boundaries(pass.fields) {
            runs.push(Run {
                setting,
                seed: random.next(),
                frames: 64,
                longest: 32,
            });
        }
    }
    let mut spent = 0;
    loop {
        let setting = settings::random(pass.fields, random);
        let frames = random.within(8, 64);
        let longest = random.choose(&[32, 128, 512, 1024]);
        spent += frames * (longest * longest / 4) * (pass.cost)(&setting);
        if spent > budget {
            return runs;
        }
        runs.push(Run {
            setting,
            seed: random.next(),
            frames,
            longest,
        });
    }
}

/// One effect on both sides, from frame to frame.
struct Memory {
    original: Persistence,
    counting: Counting,
    /// What is lent to the pass here, and comes back from it.
    history: Vec<u32>,
    held: Size,
    model: Model,
}

impl Memory {
    fn new(run: &Run, depth: usize, random: &mut Random) -> Self {
        let most = depth * run.longest * run.longest;
        let history: Vec<u32> = (0..most + PAST).map(|_| random.word()).collect();
        let (amount, frames) = (run.setting.float(0), run.setting.whole(1));
        Memory {
            original: Persistence::new(amount, frames),
            counting: Counting::new(amount, frames),
            held: NOTHING,
            model: Model {
                buffer: history.clone(),
                size: NOTHING,
                last: VecDeque::new(),
            },
            history,
        }
    }

    fn reset(&mut self) {
        self.original.reset();
        self.counting.reset();
        self.forget();
    }

    fn switch(&mut self, on: bool) {
        if self.original.enabled() && !on {
            self.forget();
        }
        self.original.set_enabled(on);
        self.counting.set_enabled(on);
    }

    /// The original's picture of a frame, and what is counted on the way to it.
    fn shown(&self, given: &[u32], width: usize, height: usize) -> (Vec<u32>, Reports) {
        let mut original = given.to_vec();
        self.original.apply(&mut original, width, height);
        let mut copy = given.to_vec();
        let counted = reports::counted(|| self.counting.apply(&mut copy, width, height));
        assert!(
            copy == original,
            "the copy that counts paints another picture"
        );
        (original, counted)
    }

    /// Adds the history to what is lent: by turns as many words as are needed, some more, and all there are.
    fn lend<'a>(&'a mut self, needed: usize, turn: usize, lent: Lent<'a>) -> Lent<'a> {
        let most = self.history.len();
        let part = [needed, most.min(needed + PAST), most][turn % 3];
        Lent {
            history: &mut self.history[..part],
            held: &mut self.held,
            ..lent
        }
    }

    /// Nothing is held, and no word changes.
    fn forget(&mut self) {
        self.held = NOTHING;
        self.model.size = NOTHING;
    }

    /// Whether the next frame, of this size, has another shape than the last ones and as many words. The original would mix it with
    /// them: it is made to begin anew, as document 02's P1 asks.
    fn turns(&mut self, (width, height): Size) -> bool {
        let last = self.model.size;
        let turned = last != (width, height) && last.0 * last.1 == width * height;
        if turned {
            self.original.reset();
            self.counting.reset();
        }
        turned
    }

    /// The first word of the history that is not the model's, with what it has to be.
    fn differs(&self) -> Option<(usize, u32, u32)> {
        let (here, asked) = (&self.history, &self.model.buffer);
        if here == asked {
            return None;
        }
        let place = here.iter().zip(asked).position(|(a, b)| a != b)?;
        Some((place, here[place], asked[place]))
    }
}

/// What the history has to be.
struct Model {
    buffer: Vec<u32>,
    /// The size of the last frame, if any is held.
    size: Size,
    /// The last frames that came in, newest first.
    last: VecDeque<Vec<u32>>,
}

impl Model {
    fn take(&mut self, given: &[u32], size: Size, depth: usize) {
        let count = given.len();
        // A frame of another size than the last fills all places.
        if self.size != size {
            self.last = VecDeque::from(vec![given.to_vec(); depth]);
            self.size = size;
        } else {
            self.last.pop_back();
            self.last.push_front(given.to_vec());
        }
        for (place, frame) in self.buffer.chunks_exact_mut(count).zip(&self.last) {
            place.copy_from_slice(frame);
        }
    }
}

/// Feeds one run to both sides.
pub fn compare(pass: &Pass, run: &Run, room: &mut Room, tally: &mut FrameTally, at: usize) {
    let random = &mut Random::new(run.seed);
    let limited = settings::limited(pass.fields, &run.setting);
    let depth = limited.whole(1);
    let mut memory = Memory::new(run, depth, random);
    let (mut width, mut height) = size(run, random);

    let mut events = String::new();
    for number in 0..run.frames {
        (width, height) = event(run, &mut memory, (width, height), random, &mut events);
        events.push_str(&format!(" {width}x{height}"));

        let picture = Picture::random(random);
        let given = picture.draw(width, height);
        let count = given.len();
        let on = memory.original.enabled();
        if on && memory.turns((width, height)) {
            tally.turn();
        }
        let (original, counted) = memory.shown(&given, width, height);

        let mut ours = given.clone();
        let mut here = Reports::default();
        if on {
            memory.model.take(&given, (width, height), depth);
            let frame = Frame {
                words: &mut ours,
                width,
                height,
            };
            let lent = memory.lend(depth * count, number, room.lend(count, picture.seed));
            here = (pass.ours)(&limited, frame, lent);
        }

        let what = || {
            let setting = settings::shown(pass.fields, &run.setting);
            let Run { seed, longest, .. } = run;
            format!(
                "run with seed {seed:#018x}, sides to {longest}, {setting}, frame {number}, {picture}, after{events}"
            )
        };
        tally.check(at, &given, &ours, &original, what);
        tally.check_reports(at, here, counted, what);
        if let Some(place) = room.written_past(count).filter(|_| on) {
            tally.differ(at, || format!("{}: {place} of the scratch written", what()));
        }
        if let Some((place, here, asked)) = memory.differs() {
            tally.differ(at, || {
                let what = what();
                format!("{what}: history word {place} is {here:#010x}, by the model {asked:#010x}")
            });
            // From here on every picture may differ.
            return;
        }
    }
}

/// What happens before a frame, if anything does: it is added to the events. Gives the frame's size, where that of the last one is
/// given.
fn event(
    run: &Run,
    memory: &mut Memory,
    (width, height): Size,
    random: &mut Random,
    events: &mut String,
) -> Size {
    match random.below(16) {
        0 => {
            memory.reset();
            events.push_str(" reset");
        }
        1 => {
            memory.switch(false);
            events.push_str(" off");
        }
        // To where it mostly stands: then nothing happens.
        2..6 => {
            memory.switch(true);
            events.push_str(" on");
        }
        6 => return size(run, random),
        // Another shape of the same count: the history is filled anew.
        7 => return (height, width),
        8 if width * height <= run.longest => return (1, width * height),
        _ => {}
    }
    (width, height)
}

/// Any size within the run's longest side.
fn size(run: &Run, random: &mut Random) -> Size {
    let side = |random: &mut Random| cases::side(random).min(random.within(1, run.longest));
    (side(random), side(random))
}
