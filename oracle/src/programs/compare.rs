//! The programs `card`, `filter`, `totals` and `sheet`, compared on many cards, pairs of cards and runs of files.

use std::io;
use std::sync::atomic::{AtomicUsize, Ordering};
use std::thread;

use super::card;
use super::cards::{self, Given};
use super::cases::{OfCard, OfPair};
use super::process::{Folder, Said};
use super::size;
use crate::cards::paper;
use crate::met::{Listed, Met};
use crate::random::Random;
use crate::steps::{Mode, THREADS};
use crate::tally::{ProgramTally, Total};

/// An error where a program could not be run.
pub fn run(mode: Mode, total: &mut Total) -> Result<(), String> {
    println!("Program `card`, with a text from a reading of document 01");
    each_card(mode, total)?;
    each_pair(mode, total)?;
    #[cfg(with_original)]
    files::run(mode, total)?;
    #[cfg(with_original)]
    each_total(mode, total)?;
    #[cfg(with_original)]
    each_sheet(mode, total)?;
    Ok(())
}

fn each_card(mode: Mode, total: &mut Total) -> Result<(), String> {
    let new = || ProgramTally::of("card", "cards");
    let compare = |seed, at, folder: &Folder, tally: &mut ProgramTally, met: &mut Met<OfCard>| {
        let random = &mut Random::new(seed);
        let given = cards::given(&cards::card(random), random);
        let words = words(bytes(&given), random);
        let words = words.as_deref();
        let asked = card::one(words, &given, met);
        let files: Vec<_> = given.files().into_iter().collect();
        let here = folder.run("card", &arguments(words, &[&given.argument]), &files)?;
        let what = || format!("seed {seed:#018x}, size {words:?}, {}", given.shown());
        tally.check(at, bytes(&given), &text(&here), &text(&asked), what);
        Ok(())
    };
    let (tally, met) = share("card", times(mode, 5_000), new, ProgramTally::join, compare)?;
    total.add_programs(&tally);
    total.unmet += met.report();
    Ok(())
}

fn each_pair(mode: Mode, total: &mut Total) -> Result<(), String> {
    let new = || ProgramTally::of("card", "pairs");
    let compare = |seed, at, folder: &Folder, tally: &mut ProgramTally, met: &mut Met<OfPair>| {
        let random = &mut Random::new(seed);
        let [one, other] = cards::pair(random);
        let given = loop {
            let given = [&one, &other].map(|card| cards::given(card, random));
            if !given[0].shares_file(&given[1]) {
                break given;
            }
        };
        let words = words(&one, random);
        let words = words.as_deref();
        let asked = card::two(words, &given, met);
        let cards = given.each_ref().map(|given| given.argument.as_str());
        let files: Vec<_> = given.iter().filter_map(Given::files).collect();
        let here = folder.run("card", &arguments(words, &cards), &files)?;
        let what = || {
            let [first, second] = given.each_ref().map(Given::shown);
            format!("seed {seed:#018x}, size {words:?}, {first} and {second}")
        };
        let bytes = given.each_ref().map(bytes).concat();
        tally.check(at, &bytes, &text(&here), &text(&asked), what);
        Ok(())
    };
    let (tally, met) = share(
        "pairs",
        times(mode, 2_500),
        new,
        ProgramTally::join,
        compare,
    )?;
    total.add_programs(&tally);
    total.unmet += met.report();
    Ok(())
}

#[cfg(with_original)]
fn each_total(mode: Mode, total: &mut Total) -> Result<(), String> {
    use super::totals::{self, OfTotals};

    println!("Program `totals`, with sums of each area by itself");
    let new = || ProgramTally::of("totals", "runs");
    let compare = |seed, at, folder: &Folder, tally: &mut ProgramTally, met: &mut Met<OfTotals>| {
        let run = totals::run(seed);
        let asked = totals::said(&run, met);
        let stored = run.pictures.iter().filter_map(|file| {
            let bytes = file.bytes.as_deref().ok()?;
            Some((file.name.as_str(), bytes))
        });
        let files: Vec<_> = stored.collect();
        let here = folder.run("totals", &run.arguments(), &files)?;
        let what = || format!("seed {seed:#018x}, {:?}", run.arguments());
        tally.check(at, &[], &text(&here), &text(&asked), what);
        Ok(())
    };
    let (tally, met) = share("totals", times(mode, 600), new, ProgramTally::join, compare)?;
    total.add_programs(&tally);
    total.unmet += met.report();
    Ok(())
}

#[cfg(with_original)]
fn each_sheet(mode: Mode, total: &mut Total) -> Result<(), String> {
    use super::sheet::cases::OfSheet;
    use super::sheet::{runs, said};

    println!("Program `sheet`, with a model of document 02's P13 over the original's pipeline");
    let new = || ProgramTally::of("sheet", "runs");
    let compare = |seed, at, folder: &Folder, tally: &mut ProgramTally, met: &mut Met<OfSheet>| {
        let run = runs::run(seed);
        let asked = said::run(&run, met);
        let here = folder.run("sheet", &run.arguments(), &run.files())?;
        let what = || format!("seed {seed:#018x}, {:?}", run.arguments());
        let bytes = run.file.bytes.as_deref().unwrap_or_default();
        tally.check(at, bytes, &text(&here), &text(&asked), what);
        Ok(())
    };
    let (tally, met) = share(
        "sheet",
        times(mode, 3_000),
        new,
        ProgramTally::join,
        compare,
    )?;
    total.add_programs(&tally);
    total.unmet += met.report();
    total.add_turned(met.count(OfSheet::Turned));
    let several = [2, 3].map(|lit| met.count(OfSheet::Several(lit)));
    total.add_several(several.iter().sum());
    total.add_curved(met.count(OfSheet::Curved));
    Ok(())
}

/// The words of a size for this card, if one is asked for.
fn words(card: &[u8], random: &mut Random) -> Option<String> {
    let opened = paper::open(card).map(|opened| opened.records);
    size::words(&opened.unwrap_or_default(), random)
}

/// The option with its words, and the cards.
fn arguments<'a>(words: Option<&'a str>, cards: &[&'a str]) -> Vec<&'a str> {
    let option = words.map(|words| [size::OPTION, words]);
    let option = option.into_iter().flatten();
    option.chain(cards.iter().copied()).collect()
}

/// The card's, if it has any.
fn bytes(given: &Given) -> &[u8] {
    given.card.as_deref().unwrap_or_default()
}

/// All that is said: standard output, and behind it standard error.
fn text(said: &Said) -> Vec<u8> {
    let mut text = said.output.clone();
    if !said.error.is_empty() {
        text.extend(b"on standard error: ");
        text.extend(&said.error);
    }
    text
}

#[cfg(with_original)]
mod files {
    use std::io;

    use super::super::cases::OfRun;
    use super::super::files::{self, File, Flag, Run};
    use super::super::filter;
    use super::super::process::{Folder, Said};
    use super::{share, times};
    use crate::met::Met;
    use crate::steps::Mode;
    use crate::tally::{FileTally, Total};

    pub fn run(mode: Mode, total: &mut Total) -> Result<(), String> {
        println!("Program `filter`, with the original's pipeline");
        let new = || FileTally::new("filter");
        let compare = |seed, at, folder: &Folder, tally: &mut FileTally, met: &mut Met<OfRun>| {
            let run = files::run(seed);
            let (asked, counts) = filter::run(&run, met);
            tally.begin(run.files.len(), &counts);
            let here = written(&run, folder)?;
            tally.check(at, here.both(), asked.both(), || what(seed, &run));
            Ok(())
        };
        let (tally, met) = share("filter", times(mode, 1_250), new, FileTally::join, compare)?;
        total.add_files(&tally);
        total.unmet += met.report();
        total.add_turned(met.count(OfRun::Turned));
        let several = [2, 3].map(|lit| met.count(OfRun::Several(lit)));
        total.add_several(several.iter().sum());
        total.add_curved(met.count(OfRun::Curved));
        Ok(())
    }

    /// What the program writes.
    fn written(run: &Run, folder: &Folder) -> io::Result<Said> {
        let curve = run.has(Flag::Curve).then_some(&run.curve);
        let stored = run.files.iter().chain(curve).filter_map(|file| {
            let bytes = file.bytes.as_deref().ok()?;
            Some((file.name.as_str(), bytes))
        });
        let files: Vec<_> = run.card.files().into_iter().chain(stored).collect();
        folder.run("filter", &run.arguments(), &files)
    }

    fn what(seed: u64, run: &Run) -> String {
        let shown = |file: &File| match &file.bytes {
            Ok(bytes) => format!("{:?} of {} bytes", file.name, bytes.len()),
            Err(_) => format!("{:?}", file.name),
        };
        let files: Vec<String> = run.files.iter().map(shown).collect();
        let (options, card) = (&run.options, run.card.shown());
        format!(
            "seed {seed:#018x}, {options:?}, curve {}, card {card}, files {}",
            shown(&run.curve),
            files.join(", ")
        )
    }
}

/// In full mode ten times as many.
fn times(mode: Mode, count: usize) -> usize {
    match mode {
        Mode::Quick => count,
        Mode::Full => 10 * count,
    }
}

/// Compares inputs of so many seeds, in threads that take one after another. `compare` is also given the place in the
/// list and a folder of its thread's own.
fn share<T: Send, C: Listed + Send + Sync>(
    name: &str,
    count: usize,
    new: impl Fn() -> T + Sync,
    join: fn(&mut T, T),
    compare: impl Fn(u64, usize, &Folder, &mut T, &mut Met<C>) -> io::Result<()> + Sync,
) -> Result<(T, Met<C>), String> {
    let random = &mut Random::named(name);
    let seeds: Vec<u64> = (0..count).map(|_| random.next()).collect();
    let next = AtomicUsize::new(0);
    let work = |thread: usize| -> io::Result<(T, Met<C>)> {
        let folder = Folder::new(thread)?;
        let (mut tally, mut met) = (new(), Met::new());
        loop {
            let at = next.fetch_add(1, Ordering::Relaxed);
            let Some(&seed) = seeds.get(at) else {
                return Ok((tally, met));
            };
            compare(seed, at, &folder, &mut tally, &mut met)?;
        }
    };
    let (mut tally, mut met) = (new(), Met::new());
    thread::scope(|scope| {
        let work = &work;
        let threads: Vec<_> = (0..THREADS)
            .map(|thread| scope.spawn(move || work(thread)))
            .collect();
        for thread in threads {
            let ended = thread.join().expect("a thread of the comparison panicked");
            let (other, more) = ended.map_err(|error| error.to_string())?;
            join(&mut tally, other);
            met.join(&more);
        }
        Ok((tally, met))
    })
}
