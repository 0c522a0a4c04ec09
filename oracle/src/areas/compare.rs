//! The call compared on many pictures and lists.

use super::cases::{self, Case};
use super::lists::{call, Call};
use super::model;
use super::pages::Pages;
use crate::bridge;
use crate::met::Met;
use crate::random::Random;
use crate::share::share;
use crate::steps::Mode;
use crate::tally::{AreaTally, Total};

/// In one of so many calls the picture has several pages, and those without a held word cannot be read.
const GUARDED: usize = 40;

pub fn run(mode: Mode, total: &mut Total) {
    println!("The totals of rectangles, with a model of document 02's P10");
    let count = match mode {
        Mode::Quick => 20_000,
        Mode::Full => 200_000,
    };
    let random = &mut Random::named("areas");
    let seeds: Vec<u64> = (0..count).map(|_| random.next()).collect();
    let new = || AreaTally::new("areas");
    let (tally, met) = share(&seeds, new, AreaTally::join, compare);
    total.add_areas(&tally);
    total.unmet += met.report();
}

fn compare(&seed: &u64, at: usize, tally: &mut AreaTally, met: &mut Met<Case>) {
    let guarded = at % GUARDED == 0;
    let Call {
        picture,
        width,
        height,
        list,
        result,
    } = call(seed, guarded);
    cases::note(picture.len(), width, height, &list, result.len(), met);
    let mut asked = result.clone();
    let answer = model::answer(&picture, width, height, &list, &mut asked);
    let (mut here, mut read) = (result.clone(), [u32::MAX]);
    let given = if guarded {
        let held = if answer.is_ok() {
            model::held(width, height, &model::areas(&list))
        } else {
            Vec::new()
        };
        let pages = Pages::new(&picture, &held, seed % 2 == 0);
        met.note(Case::Guarded);
        bridge::areas(pages.picture(), width, height, &list, &mut here, &mut read)
    } else {
        bridge::areas(
            (picture.as_ptr(), picture.len()),
            width,
            height,
            &list,
            &mut here,
            &mut read,
        )
    };
    // What was read is reported in a place of its own, which a refusal leaves alone.
    let told = given.map(|reported| (reported, read[0]));
    let wanted = answer.map(|words| (0, words));
    let kept = answer.is_ok() || read == [u32::MAX];
    tally.check(at, answer, list.len() / 4, told == wanted && kept && here == asked, || {
        format!(
            "seed {seed:#018x}, {width} by {height}, {} words, list {list:?}, result of {}: here {told:?} {here:?}, asked {wanted:?} {asked:?}",
            picture.len(),
            result.len(),
        )
    });
}
