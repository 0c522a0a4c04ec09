//! The comparison of each pass alone with the original's `apply`; of colour also with the second writing of it, which takes any curve.

use std::sync::atomic::{AtomicUsize, Ordering};
use std::thread;

use super::cases::{self, Case, Curved};
use super::chain::COLOUR;
use super::curves::{self, Curve, Shape};
use super::room::{Lent, Room};
use super::runs;
use super::settings::{self, Setting};
use super::table::{of_kind, Frame, Pass, PASSES};
use crate::cards::paper;
use crate::random::Random;
use crate::reports::{self, Reports};
use crate::steps::{Mode, THREADS};
use crate::tally::{FrameTally, Total};

pub fn run(mode: Mode, total: &mut Total) {
    println!("Passes, each alone, with the original's");
    for pass in PASSES {
        if pass.needs.history > 0 {
            let runs = runs::of(pass, mode);
            let tally = share(pass.name, pass, &runs, |run, room, tally, at| {
                runs::compare(pass, run, room, tally, at)
            });
            total.add_runs_of_frames(&tally);
        } else {
            let cases = cases::of(pass, mode);
            let tally = share(pass.name, pass, &cases, |case, room, tally, at| {
                frame(pass, case, room, tally, at)
            });
            total.add_frames(&tally);
            if pass.kind == COLOUR {
                total.add_curved(tally.curved());
            }
        }
    }
    any_curve(mode, total);
}

fn any_curve(mode: Mode, total: &mut Total) {
    let pass = of_kind(COLOUR);
    let cases = cases::of_curves(pass, mode);
    let name = "color_correction with any curve";
    let tally = share(name, pass, &cases, |case, room, tally, at| {
        curved(pass, case, room, tally, at)
    });
    total.add_frames(&tally);
    total.add_curved(tally.curved());
}

/// Compares all cases, in threads that take case after case. `compare` is also given the case's
/// place in the list.
fn share<C: Sync>(
    name: &'static str,
    pass: &Pass,
    cases: &[C],
    compare: impl Fn(&C, &mut Room, &mut FrameTally, usize) + Sync,
) -> FrameTally {
    let next = AtomicUsize::new(0);
    let work = || {
        let mut room = Room::new(pass.needs);
        let mut tally = FrameTally::new(name);
        loop {
            let at = next.fetch_add(1, Ordering::Relaxed);
            let Some(case) = cases.get(at) else {
                return tally;
            };
            compare(case, &mut room, &mut tally, at);
        }
    };
    thread::scope(|scope| {
        let threads: Vec<_> = (0..THREADS).map(|_| scope.spawn(work)).collect();
        let mut tally = FrameTally::new(name);
        for thread in threads {
            tally.join(thread.join().expect("a thread of the comparison panicked"));
        }
        tally
    })
}

/// What a pass is given.
struct Given<'a> {
    case: &'a Case,
    words: Vec<u32>,
    /// Of colour alone.
    curve: Vec<f32>,
}

/// A picture, and what is counted on the way to it.
type Shown = (Vec<u32>, Reports);

/// Compares one frame with the original's.
fn frame(pass: &Pass, case: &Case, room: &mut Room, tally: &mut FrameTally, at: usize) {
    let gamma = gamma(pass, &case.setting);
    let given = Given {
        case,
        words: case.picture.draw(case.width, case.height),
        curve: gamma.map_or(Vec::new(), |gamma| curve(gamma, case.picture.seed)),
    };
    let asked = original(pass, &given);
    if gamma.is_some_and(|gamma| gamma != 1.0) {
        tally.curve();
        let second = second(pass, &given);
        assert!(
            second == asked,
            "the second writing of colour paints another picture"
        );
    }
    compare_shown(pass, &given, asked, room, tally, at);
}

/// Compares one frame of colour with any curve: with the second writing or, at gamma 1, with the original's.
fn curved(pass: &Pass, case: &Curved, room: &mut Room, tally: &mut FrameTally, at: usize) {
    let Curved { frame, curve } = case;
    let given = Given {
        case: frame,
        words: frame.picture.draw(frame.width, frame.height),
        curve: curve.words(frame.picture.seed),
    };
    let asked = if gamma(pass, &frame.setting) == Some(1.0) {
        original(pass, &given)
    } else {
        tally.curve();
        second(pass, &given)
    };
    compare_shown(pass, &given, asked, room, tally, at);
}

/// The gamma of colour, as it is once limited.
fn gamma(pass: &Pass, setting: &Setting) -> Option<f32> {
    (pass.kind == COLOUR).then(|| settings::limited(pass.fields, setting).float(3))
}

/// The original's powers, by the seed with more words behind them; at gamma 1 anything.
fn curve(gamma: f32, seed: u64) -> Vec<f32> {
    let random = &mut Random::new(seed);
    let curve = if gamma == 1.0 {
        Curve::any(random)
    } else {
        Curve {
            shape: Shape::Power(gamma),
            odd: None,
            ..Curve::good(gamma, random)
        }
    };
    curve.words(seed)
}

/// What the original makes of a frame.
fn original(pass: &Pass, given: &Given) -> Shown {
    let Case {
        width,
        height,
        setting,
        ..
    } = given.case;
    let (width, height) = (*width, *height);
    let mut original = given.words.clone();
    pass.original(setting).apply(&mut original, width, height);
    let mut copy = given.words.clone();
    let counted = reports::counted(|| pass.counting(setting).apply(&mut copy, width, height));
    assert!(
        copy == original,
        "the copy that counts paints another picture"
    );
    (original, counted)
}

/// What the second writing of colour makes of it.
fn second(pass: &Pass, given: &Given) -> Shown {
    let limited = settings::limited(pass.fields, &given.case.setting);
    let settings = [0, 1, 2].map(|field| limited.float(field));
    let mut words = given.words.clone();
    let counted = reports::counted(|| curves::paint(&mut words, &given.curve, settings));
    (words, counted)
}

/// The samples that document 02's P9 gives a frame.
fn by_the_paper(pass: &Pass, case: &Case) -> u32 {
    let limited = settings::limited(pass.fields, &case.setting);
    let radius = pass.radius().map_or(0, |field| limited.whole(field));
    paper::blur_samples(pass.kind, radius, (case.width, case.height))
}

/// Compares what the pass here shows with what is asked of it.
fn compare_shown(
    pass: &Pass,
    given: &Given,
    (picture, counted): Shown,
    room: &mut Room,
    tally: &mut FrameTally,
    at: usize,
) {
    let Given { case, words, curve } = given;
    let &Case { width, height, .. } = *case;
    let mut ours = words.clone();
    let frame = Frame {
        words: &mut ours,
        width,
        height,
    };
    let lent = Lent {
        curve,
        ..room.lend(words.len(), case.picture.seed)
    };
    let here = (pass.ours)(&settings::limited(pass.fields, &case.setting), frame, lent);

    let what = || {
        let setting = settings::shown(pass.fields, &case.setting);
        let curve = match curve.len() {
            0 => String::new(),
            count => format!(", {count} words of curve"),
        };
        format!("{width}x{height}, {setting}{curve}, frame {}", case.picture)
    };
    tally.check(at, words, &ours, &picture, what);
    tally.check_reports(at, here, counted, what);
    tally.check_paper(at, counted.samples, by_the_paper(pass, case), what);
    if let Some(place) = room.written_past(words.len()) {
        tally.differ(at, || format!("{}: {place} of the scratch written", what()));
    }
}
