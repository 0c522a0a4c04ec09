//! The inputs that the fuzz targets begin with, as files, for oracle/fuzz.

use std::fs;
use std::io;
use std::path::Path;

use crate::programs;
use crate::random::Random;
use crate::runs::cards;
use crate::runs::station::Station;
use crate::station::{inputs, recorded};

/// How many are drawn for a target.
const COUNT: usize = 400;

/// The inputs of this target, each in a file of its own.
pub fn write(target: &str, folder: &Path) -> io::Result<()> {
    let random = &mut Random::named(&format!("fuzz {target}"));
    let drawn = |seed: fn(&mut Random) -> Vec<u8>, random: &mut Random| {
        (0..COUNT).map(|_| seed(random)).collect::<Vec<_>>()
    };
    let inputs = match target {
        "station" => [recorded()?, drawn(events, random)].concat(),
        "bridge" => drawn(calls, random),
        "card" => drawn(programs::seeds::card, random),
        "filter" => drawn(programs::seeds::filter, random),
        "sheet" => drawn(programs::seeds::sheet, random),
        _ => return Err(io::Error::other(format!("there is no target {target}"))),
    };
    for (number, input) in inputs.iter().enumerate() {
        fs::write(folder.join(format!("{number:03}")), input)?;
    }
    Ok(())
}

/// The recorded inputs of program `station`.
fn recorded() -> io::Result<Vec<Vec<u8>>> {
    let cases = recorded::all().map_err(io::Error::other)?;
    Ok(cases.into_iter().map(|case| case.input).collect())
}

fn events(random: &mut Random) -> Vec<u8> {
    inputs::input(random.next())
}

/// A second byte from here on says that a state follows; below it is the length of a card.
pub const STATE: u8 = 0xf0;

/// Inputs of the calls, as runs/fuzz.rs reads them: a good card or a good state, and any bytes for the calls.
fn calls(random: &mut Random) -> Vec<u8> {
    let card = cards::card(random);
    let mut bytes = vec![random.word() as u8];
    if random.one_in(4) {
        let mut station = Station::open(&card).expect("the card is a good one");
        station.take((random.within(1, 16), random.within(1, 16)));
        // Of a kind that may be absent: then nothing is pending.
        let _ = station.ask(random.within(1, 10) as u8, random.one_in(2));
        bytes.push(STATE);
        bytes.extend(station.state());
    } else {
        bytes.push(card.len() as u8);
        bytes.extend(card);
    }
    bytes.extend((0..random.below(128)).map(|_| random.word() as u8));
    bytes
}
