//! A host in Rust for a cabinet: draws a small picture as a console has it, a number for each pixel, and shows it under a card, each
//! pixel enlarged to three by three. It writes what is shown as binary PPM, and prints its size, what the frame reported and a checksum.

use hedgemallow::{scratch_words, Source, Station, COLOURS};
use std::error::Error;
use std::fs;

const WIDTH: usize = 85;
const HEIGHT: usize = 80;

/// The figure, by the letters of its colours.
const FIGURE: [&str; 13] = [
    "....ssss....",
    "..ssssssss..",
    ".ssssssssss.",
    ".sswwsswwss.",
    "ssswkssswkss",
    "ssswkssswkss",
    "ssssssssssss",
    "sskssssssks.",
    ".sskkkkkkss.",
    ".ssssssssss.",
    "..ssssssss..",
    "...ff..ff...",
    "..fff..fff..",
];
const LEFT: usize = 17;
const TOP: usize = 49;

/// The number of a colour: two bits for each of red, green and blue.
const fn number(red: u8, green: u8, blue: u8) -> u8 {
    16 * red + 4 * green + blue
}

/// The number of a place of the figure, where it is not empty. Of a number the colour alone is shown: the two bits above it are the
/// console's own.
fn of_figure(x: usize, y: usize) -> Option<u8> {
    let row = FIGURE.get(y.checked_sub(TOP)?)?;
    match row.as_bytes().get(x.checked_sub(LEFT)?)? {
        b'.' => None,
        b's' => Some(64 + number(3, 1, 2)),
        b'f' => Some(128 + number(2, 0, 1)),
        b'w' => Some(192 + number(3, 3, 3)),
        _ => Some(192 + number(0, 0, 0)),
    }
}

/// The number in a place: all colours in a row, the figure, a wall, two hills, the sun and the sky.
fn drawn(x: usize, y: usize) -> u8 {
    if y < 8 {
        let colour = (2..6).contains(&y) && (10..74).contains(&x);
        return if colour { x as u8 - 10 } else { number(0, 0, 0) };
    }
    if let Some(number) = of_figure(x, y) {
        return number;
    }
    if y >= 62 {
        let gap = y % 6 == 2 || (x + y / 6 % 2 * 6) % 12 == 5;
        return if gap { number(1, 0, 0) } else { number(3, 1, 0) };
    }
    if y > 40 + x.abs_diff(36) {
        return number(0, 2, 0);
    }
    if y > 48 + x.abs_diff(58) / 2 {
        return number(1, 3, 0);
    }
    if x.abs_diff(66).pow(2) + y.abs_diff(22).pow(2) < 60 {
        return number(3, 3, 1);
    }
    if y < 34 { number(1, 2, 3) } else { number(2, 3, 3) }
}

/// FNV-1a over the words' bytes, least significant first.
fn checksum(frame: &[u32]) -> u32 {
    let bytes = frame.iter().flat_map(|word| word.to_le_bytes());
    bytes.fold(2166136261, |sum, byte| (sum ^ u32::from(byte)).wrapping_mul(16777619))
}

fn run(card: &str, shown: &str) -> Result<(), Box<dyn Error>> {
    let picture: Vec<u8> = (0..WIDTH * HEIGHT).map(|place| drawn(place % WIDTH, place / WIDTH)).collect();
    let mut colours = [0; COLOURS];
    for (k, colour) in (0..).zip(&mut colours) {
        *colour = (k / 16 * 85) << 16 | (k / 4 % 4 * 85) << 8 | (k % 4 * 85);
    }
    let source = Source { picture: &picture, width: WIDTH, height: HEIGHT, colours: &colours };

    let mut station = Station::open(&fs::read(card)?)?;
    let (wide, high) = source.enlarged();
    let scratch = scratch_words(wide, high)?;
    let (mut floats, mut ints) = (vec![0.0; scratch.floats], vec![0; scratch.ints]);
    let mut history = vec![0; station.history_words(wide, high)?];
    let mut frame = vec![0; wide * high];
    // A card that reads a curve is refused here: none is lent.
    let counts = station.show(source, &mut frame, &mut history, &mut floats, &mut ints, &[])?;

    let mut ppm = format!("P6\n{wide} {high}\n255\n").into_bytes();
    ppm.extend(frame.iter().flat_map(|word| word.to_be_bytes().into_iter().skip(1)));
    fs::write(shown, ppm)?;
    println!(
        "cabinet: {WIDTH} by {HEIGHT} numbers, shown {wide} by {high}, picture {:08X}, clipped {}, samples {}",
        checksum(&frame),
        counts.clipped,
        counts.samples
    );
    Ok(())
}

fn main() {
    let words: Vec<String> = std::env::args().skip(1).collect();
    let [card, shown] = &words[..] else {
        eprintln!("usage: cabinet CARD PICTURE   (files: the picture is written, as binary PPM)");
        std::process::exit(2);
    };
    if let Err(error) = run(card, shown) {
        eprintln!("{error}");
        std::process::exit(1);
    }
}
