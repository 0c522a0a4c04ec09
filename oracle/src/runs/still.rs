//! A still picture stays still: chains of persistence alone, of every depth and many amounts, a reset, and then equal frames. It is
//! proved; here the compiled library is held to it. Each channel of each picture has to be the frame's, or one below.

use std::iter;

use crate::bridge::{self, Answer, Lent, State, STATE};
use crate::met::{Listed, Met};
use crate::passes::settings::{self, clamped, Field};
use crate::random::Random;
use crate::steps::Mode;
use crate::tally::RunTally;

use super::station::{float_room, DEEPEST};

/// What a picture shows beside its frame.
#[derive(Clone, Copy, PartialEq, Debug)]
pub enum Shown {
    Same,
    OneBelow,
}

impl Listed for Shown {
    const ALL: &'static [Shown] = &[Shown::Same, Shown::OneBelow];
}

const AMOUNT: [Field; 1] = [clamped("amount", 0.95)];

/// A frame of 16 by 16 words has room for all channels.
const SIDE: usize = 16;
const COUNT: usize = SIDE * SIDE;

/// Both ends of the range, what lies one step beside them, subnormal and limited ones, then any.
pub fn amounts(mode: Mode) -> Vec<f32> {
    let count = match mode {
        Mode::Quick => 10_000,
        Mode::Full => 100_000,
    };
    let random = &mut Random::named("still");
    let boundaries = settings::boundaries(&AMOUNT);
    let drawn = iter::repeat_with(|| settings::random(&AMOUNT, random));
    let all = boundaries.into_iter().chain(drawn);
    all.take(count).map(|setting| setting.float(0)).collect()
}

/// One amount, at every depth.
pub fn compare(&amount: &f32, at: usize, tally: &mut RunTally, met: &mut Met<Shown>) {
    for depth in 1..=DEEPEST {
        tally.begin();
        if let Err(text) = stands(amount, depth, tally, met) {
            tally.differ(at, || {
                format!("amount {:#010x}, depth {depth}: {text}", amount.to_bits())
            });
        }
    }
}

/// The station, and what is lent to it.
struct Stand {
    state: State,
    history: Vec<u32>,
    floats: Vec<f32>,
    ints: Vec<u32>,
}

impl Stand {
    /// The picture of a frame.
    fn shows(&mut self, frame: &[u32], tally: &mut RunTally) -> Result<Vec<u32>, String> {
        let mut framebuffer = frame.to_vec();
        let lent = Lent {
            framebuffer: &mut framebuffer,
            history: &mut self.history,
            floats: &mut self.floats,
            ints: &mut self.ints,
            curve: &[],
            reports: &mut [0; 2],
        };
        accepted(bridge::apply(&mut self.state, SIDE, SIDE, lent), tally)?;
        tally.frame(COUNT);
        Ok(framebuffer)
    }
}

fn stands(
    amount: f32,
    depth: usize,
    tally: &mut RunTally,
    met: &mut Met<Shown>,
) -> Result<(), String> {
    let mut stand = Stand {
        state: [0; STATE],
        history: vec![0x55aa_33cc; DEEPEST * COUNT],
        floats: vec![f32::NAN; float_room(SIDE, SIDE)],
        ints: vec![u32::MAX; COUNT],
    };
    accepted(bridge::open(&card(amount, depth), &mut stand.state), tally)?;
    // A frame before the reset, so that there is something to forget.
    stand.shows(&[0xffff_ffff; COUNT], tally)?;
    accepted(bridge::reset(&mut stand.state), tally)?;
    let frame: Vec<u32> = (0..COUNT as u32).map(word).collect();
    for _ in 0..depth + 2 {
        let picture = stand.shows(&frame, tally)?;
        let mut shown = Shown::Same;
        for (place, (&given, &here)) in frame.iter().zip(&picture).enumerate() {
            for shift in [16, 8, 0] {
                let [channel, here] = [given, here].map(|word| word >> shift & 255);
                if here + 1 == channel {
                    shown = Shown::OneBelow;
                } else if here != channel {
                    return Err(format!(
                        "word {place}: channel {channel} is shown as {here}"
                    ));
                }
            }
        }
        met.note(shown);
    }
    Ok(())
}

/// A call that has to be accepted, whatever it reports.
pub fn accepted(answer: Answer, tally: &mut RunTally) -> Result<(), String> {
    tally.called(Ok(0), 0);
    answer
        .map(drop)
        .map_err(|number| format!("refused by {number}"))
}

/// Red, green and blue go through all channels, each from another one on; so does the top byte.
fn word(place: u32) -> u32 {
    let channel = |from: u32| (place + from) % 256;
    channel(40) << 24 | channel(0) << 16 | channel(85) << 8 | channel(170)
}

/// Persistence alone, on.
pub fn card(amount: f32, depth: usize) -> [u8; 7] {
    let record = 0b0100_1 << 40 | u64::from(amount.to_bits()) << 8 | depth as u64;
    // Version 1 and one pass, then 45 bits, then zero bits to the byte's end.
    let bits = 0x11 << 48 | record << 3;
    let [_, card @ ..] = bits.to_be_bytes();
    card
}
