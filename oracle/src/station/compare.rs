//! The program, compared on recorded inputs and, beside the model, on many more.

use super::process;
use super::recorded;
use crate::steps::Mode;
use crate::tally::{ProgramTally, Total};

/// An error where the program could not be run, or the recorded inputs not be read.
pub fn run(mode: Mode, total: &mut Total) -> Result<(), String> {
    println!("Program `station`, with recorded answers");
    let mut tally = ProgramTally::new("recorded");
    for (at, case) in recorded::all()?.iter().enumerate() {
        let here = process::run(&case.input).map_err(|error| error.to_string())?;
        let what = || format!("'{}'", case.title);
        tally.check(at, &case.input, &here, &case.output, what);
        // The model is held to the same answers.
        #[cfg(with_original)]
        {
            let model = super::model::run(&case.input, &mut crate::met::Met::new());
            let what = || format!("'{}', by the model", case.title);
            tally.compare(at, &case.input, &model, &case.output, what);
        }
    }
    total.add_programs(&tally);
    #[cfg(with_original)]
    generated::run(mode, total)?;
    #[cfg(not(with_original))]
    let _ = mode;
    Ok(())
}

#[cfg(with_original)]
mod generated {
    use std::io;
    use std::sync::atomic::{AtomicUsize, Ordering};
    use std::thread;

    use super::super::cases::Case;
    use super::super::{inputs, model, process};
    use crate::met::Met;
    use crate::random::Random;
    use crate::steps::{Mode, THREADS};
    use crate::tally::{ProgramTally, Total};

    pub fn run(mode: Mode, total: &mut Total) -> Result<(), String> {
        println!("Program `station`, with a model of document 01 over the original's pipeline");
        let count = match mode {
            Mode::Quick => 20_000,
            Mode::Full => 1_000_000,
        };
        let random = &mut Random::named("station");
        let seeds: Vec<u64> = (0..count).map(|_| random.next()).collect();
        let next = AtomicUsize::new(0);
        let threads = thread::scope(|scope| {
            let threads: Vec<_> = (0..THREADS)
                .map(|_| scope.spawn(|| share(&seeds, &next)))
                .collect();
            let results = threads.into_iter().map(|thread| thread.join());
            results
                .map(|result| result.expect("a thread of the comparison panicked"))
                .collect::<io::Result<Vec<_>>>()
        });
        let mut tally = ProgramTally::new("station");
        let mut met = Met::new();
        for (other, more) in threads.map_err(|error| error.to_string())? {
            tally.join(other);
            met.join(&more);
        }
        total.add_programs(&tally);
        total.unmet += met.report();
        total.add_turned(met.count(Case::Turned));
        let several = [2, 3].map(|lit| met.count(Case::Several(lit)));
        total.add_several(several.iter().sum());
        Ok(())
    }

    /// Takes input after input.
    fn share(seeds: &[u64], next: &AtomicUsize) -> io::Result<(ProgramTally, Met<Case>)> {
        let mut tally = ProgramTally::new("station");
        let mut met = Met::new();
        loop {
            let at = next.fetch_add(1, Ordering::Relaxed);
            let Some(&seed) = seeds.get(at) else {
                return Ok((tally, met));
            };
            let input = inputs::input(seed);
            let asked = model::run(&input, &mut met);
            let here = process::run(&input)?;
            tally.check(at, &input, &here, &asked, || format!("seed {seed:#018x}"));
        }
    }
}
