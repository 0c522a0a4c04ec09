//! Runs of program `filter`: options, a card, a curve, and files that hold frames of changing sizes, with headers in many spellings; and what
//! may become of a file.

use super::cards::{self, Given};
use super::ppm::{PIXELS, ROOM};
use super::process::{Bytes, FOLDER, MISSING, PIPE};
use crate::cards::{damage, paper};
use crate::passes::curves::{Curve, READ};
use crate::passes::frames::Picture;
use crate::random::Random;
use crate::runs;

pub struct Run {
    /// As they stand before the card.
    pub options: Vec<Flag>,
    /// What `--curve` names, each time.
    pub curve: File,
    pub card: Given,
    pub files: Vec<File>,
}

/// An option of the program.
#[derive(Clone, Copy, PartialEq, Debug)]
pub enum Flag {
    /// What each frame reports is told: its clipped channels and its samples.
    Counts,
    Curve,
}

impl Run {
    /// Whether an option stands there.
    pub fn has(&self, option: Flag) -> bool {
        self.options.contains(&option)
    }

    pub fn arguments(&self) -> Vec<&str> {
        let mut arguments = Vec::new();
        for option in &self.options {
            match option {
                Flag::Counts => arguments.push("--counts"),
                Flag::Curve => arguments.extend(["--curve", &self.curve.name]),
            }
        }
        arguments.push(&self.card.argument);
        arguments.extend(self.files.iter().map(|file| file.name.as_str()));
        arguments
    }
}

/// An argument, and what the file of that name holds.
#[derive(Clone)]
pub struct File {
    pub name: String,
    pub bytes: Bytes,
}

/// The most nanoseconds that a run may take, as runs/cards.rs estimates them.
const BUDGET: usize = 500_000_000;

/// The run of this seed.
pub fn run(seed: u64) -> Run {
    let random = &mut Random::new(seed);
    let mut files = Vec::new();
    let mut pixels = 0;
    let mut size = any_size(random);
    for place in 0..random.within(1, 6) {
        size = next_size(size, random);
        pixels += size.0 * size.1;
        let name = random.choose(&["frame", "a frame ", "#"]);
        files.push(File {
            name: format!("{name}{place}.ppm"),
            bytes: Ok(frame(size, random)),
        });
    }
    if random.one_in(2) {
        // Where two are damaged, the first of them is told.
        for _ in 0..random.choose(&[1, 1, 1, 2]) {
            let place = random.below(files.len());
            files[place] = damage(place, random);
        }
    }
    if files.len() < 6 && random.one_in(8) {
        // The same file twice in a row.
        files.extend(files.last().cloned());
        pixels += size.0 * size.1;
    }
    if files.len() == 1 && files[0].bytes.is_ok() && random.one_in(4) {
        // Several cannot: they are read twice.
        files[0].name = PIPE.to_string();
    }
    let card = if random.one_in(24) {
        damage::card(random)
    } else {
        card(pixels, random)
    };
    let gamma = paper::open(&card)
        .ok()
        .and_then(|opened| paper::curved(&opened.records));
    Run {
        options: options(gamma.is_some(), random),
        curve: curve(gamma.unwrap_or(2.2), random),
        card: cards::given(&card, random),
        files,
    }
}

/// Mostly a curve where one is read, in either order with the other option; a few with an option twice.
fn options(read: bool, random: &mut Random) -> Vec<Flag> {
    let mut options = Vec::new();
    if random.one_in(2) {
        options.push(Flag::Counts);
    }
    if random.one_in(8) != read {
        options.push(Flag::Curve);
    }
    if random.one_in(2) {
        options.reverse();
    }
    if !options.is_empty() && random.one_in(32) {
        let twice = random.choose(&options);
        options.insert(random.below(options.len() + 1), twice);
    }
    options
}

/// A file with a curve, or with what is none in a few cases.
pub(super) fn curve(gamma: f32, random: &mut Random) -> File {
    let good = Curve {
        len: READ,
        ..Curve::good(gamma, random)
    };
    let mut bytes = good.bytes();
    let name = random.choose(&["curve", "a curve ", "-2.2", "C0FFEE"]);
    match random.below(32) {
        0 => {
            return File {
                name: "no-such.curve".to_string(),
                bytes: MISSING,
            }
        }
        1 => {
            return File {
                name: ".".to_string(),
                bytes: FOLDER,
            }
        }
        // Another length.
        2..5 => {
            let any = random.below(3 * 4 * READ);
            let length = random.choose(&[0, 1, 4, 1020, 1023, 1025, 1028, 5120, any]);
            bytes.resize(length, 0);
        }
        // A word that is not in 0..1, mostly.
        5..9 => {
            let len = READ;
            let bad = Curve::bad(random);
            bytes = Curve { len, ..bad }.bytes();
        }
        _ => {}
    }
    File {
        name: name.to_string(),
        bytes: Ok(bytes),
    }
}

/// A good card, of no dearer passes than these pixels allow.
pub(super) fn card(pixels: usize, random: &mut Random) -> Vec<u8> {
    loop {
        let card = match random.below(4) {
            0 => cards::good(random),
            1 => runs::cards::card(random),
            _ => runs::cards::remembering(random),
        };
        let opened = paper::open(&card).expect("the card is a good one");
        if runs::cards::cost(&opened.records) * pixels <= BUDGET {
            return card;
        }
    }
}

/// The largest frames, by their pixels and by their sides.
const LARGEST: [(usize, usize); 8] = [
    (256, 240),
    (256, 240),
    (60, 1024),
    (1024, 60),
    (240, 256),
    (61, 1007),
    (1024, 1),
    (1, 1024),
];

pub(super) fn any_size(random: &mut Random) -> (usize, usize) {
    let side = |most: usize, random: &mut Random| random.within(1, most);
    match random.below(32) {
        0 => random.choose(&LARGEST),
        1 | 2 => (1, 1),
        3 => (1, side(64, random)),
        4 => (side(64, random), 1),
        5..8 => (side(128, random), side(128, random)),
        _ => (side(33, random), side(33, random)),
    }
}

/// Mostly that of the last frame, so that a history is met; often turned.
fn next_size(last: (usize, usize), random: &mut Random) -> (usize, usize) {
    match random.below(16) {
        0..9 => last,
        9..13 => (last.1, last.0),
        // A column of as many pixels.
        13 if last.0 * last.1 <= 1024 => (1, last.0 * last.1),
        _ => any_size(random),
    }
}

/// A good file.
pub(super) fn frame((width, height): (usize, usize), random: &mut Random) -> Vec<u8> {
    let mut file = header(width, height, random);
    pixels(width, height, &mut file, random);
    file
}

fn pixels(width: usize, height: usize, file: &mut Vec<u8>, random: &mut Random) {
    let words = Picture::random(random).draw(width, height);
    // A pixel has no top byte here.
    let bytes = words
        .iter()
        .flat_map(|word| word.to_be_bytes()[1..].to_vec());
    file.extend(bytes);
}

/// How the gaps of a header are filled.
#[derive(Clone, Copy)]
enum Gaps {
    Plain,
    White,
    Comments,
}

pub(super) fn header(width: usize, height: usize, random: &mut Random) -> Vec<u8> {
    spelt([&width.to_string(), &height.to_string(), "255"], random)
}

/// A header of these three numbers.
fn spelt(numbers: [&str; 3], random: &mut Random) -> Vec<u8> {
    let gaps = random.choose(&[Gaps::Plain, Gaps::Plain, Gaps::White, Gaps::Comments]);
    let mut header = b"P6".to_vec();
    for (place, number) in numbers.iter().enumerate() {
        match gaps {
            Gaps::Plain => header.push([b'\n', b' ', b'\n'][place]),
            _ => gap(gaps, &mut header, random),
        }
        if random.one_in(16) {
            header.extend(vec![b'0'; random.within(1, 20)]);
        }
        header.extend(number.bytes());
    }
    header.push(match gaps {
        Gaps::Plain => b'\n',
        _ => random.choose(&WHITE),
    });
    header
}

const WHITE: [u8; 6] = [b' ', b'\t', b'\n', 0x0b, 0x0c, b'\r'];

fn gap(gaps: Gaps, header: &mut Vec<u8>, random: &mut Random) {
    for _ in 0..random.within(1, 4) {
        match gaps {
            Gaps::Comments if random.one_in(2) => {
                let length = random.choose(&[0, 1, 8, 40]);
                comment(length, header, random);
            }
            _ => header.push(random.choose(&WHITE)),
        }
    }
}

/// From `#` to the end of its line, of `length` bytes between.
fn comment(length: usize, header: &mut Vec<u8>, random: &mut Random) {
    header.push(b'#');
    for _ in 0..length {
        let any = random.word() as u8;
        let byte = random.choose(&[any, b' ', b'#', b'7', b'c']);
        header.push(match byte {
            b'\n' | b'\r' => b'.',
            byte => byte,
        });
    }
    header.push(random.choose(b"\n\r"));
}

/// Numbers that are no side of a frame: the last ones are 1 where they are cut to 16, 32, 64 or 128 bits.
const LARGE: [&str; 9] = [
    "1025",
    "1026",
    "9999",
    "10000",
    "100001",
    "65537",
    "4294967297",
    "18446744073709551617",
    "340282366920938463463374607431768211457",
];

/// Sizes just above what is taken: 61,442 pixels, which are the fewest, a row or a column more, a side above 1024.
const ABOVE: [(&str, &str); 11] = [
    ("62", "991"),
    ("991", "62"),
    ("257", "240"),
    ("256", "241"),
    ("1024", "61"),
    ("61", "1024"),
    ("1025", "1"),
    ("1", "1025"),
    ("1025", "59"),
    ("59", "1025"),
    ("1024", "1024"),
];

/// Numbers that are no maximum: the last ones are 255 where they are cut to 8, 16, 32 or 64 bits.
const MAXIMA: [&str; 11] = [
    "0",
    "1",
    "25",
    "254",
    "256",
    "2550",
    "511",
    "65535",
    "65791",
    "4294967551",
    "18446744073709551871",
];

/// A file that is refused in most cases, for this place of a run.
pub(super) fn damage(place: usize, random: &mut Random) -> File {
    let (name, bytes) = match random.below(24) {
        0 => (format!("no-such{place}.ppm"), MISSING),
        1 => (".".to_string(), FOLDER),
        _ => (format!("damaged{place}.ppm"), Ok(damaged(random))),
    };
    File { name, bytes }
}

fn damaged(random: &mut Random) -> Vec<u8> {
    let (width, height) = (random.within(1, 9), random.within(1, 9));
    let mut file = frame((width, height), random);
    let count = 3 * width * height;
    let head = file.len() - count;
    let (width, height) = (width.to_string(), height.to_string());
    match random.below(24) {
        0 => file.clear(),
        1 => file = any_bytes(random),
        2 => file = [b"P6".to_vec(), any_bytes(random)].concat(),
        3 => {
            let other = random.choose(&["", "P", "P3", "P5", "P7", "p6", "6P", "\u{89}PNG", " P6"]);
            file.splice(..2, other.bytes());
        }
        4..6 => file.truncate(random.below(head)),
        6..10 => alter(&mut file, head, random),
        // No white byte after the maximum.
        10 => file[head - 1] = random.choose(b"#,0x"),
        11..18 => {
            let mut numbers = [&*width, &*height, "255"];
            // Where two are wrong, it is told by the first that is looked at.
            for _ in 0..random.choose(&[1, 1, 2]) {
                let side = random.below(2);
                match random.below(7) {
                    0 | 1 => numbers[2] = random.choose(&MAXIMA),
                    2 => numbers[side] = "0",
                    3 | 4 => numbers[side] = random.choose(&LARGE),
                    _ => (numbers[0], numbers[1]) = random.choose(&ABOVE),
                }
            }
            file.splice(..head, spelt(numbers, random));
        }
        18..21 => {
            let any = random.below(count);
            file.truncate(head + random.choose(&[0, 1, any, count - 1]));
        }
        21 => {
            let more = random.choose(&[1, 2, 3, 64, ROOM]);
            file.resize(file.len() + more, random.word() as u8);
        }
        _ => file = longest(random),
    }
    file
}

fn any_bytes(random: &mut Random) -> Vec<u8> {
    let count = random.below(64);
    (0..count).map(|_| random.word() as u8).collect()
}

/// One byte of the header is another, is missing, or stands twice.
fn alter(file: &mut Vec<u8>, head: usize, random: &mut Random) {
    let place = random.below(head);
    match random.below(4) {
        0 => {
            file.remove(place);
        }
        1 => file.insert(place, file[place]),
        2 => file[place] = random.word() as u8,
        _ => file[place] = random.choose(b"0159 \n#x-+.,/:"),
    }
}

/// A frame of as many pixels as there may be, with a header about as long as there may be, and perhaps a byte left
/// over.
fn longest(random: &mut Random) -> Vec<u8> {
    let (width, height) = random.choose(&LARGEST[..4]);
    assert_eq!(width * height, PIXELS);
    let end = format!("{width} {height} 255\n");
    let length = ROOM - 3 * PIXELS + random.within(0, 2) - 1;
    let mut file = b"P6".to_vec();
    // Beside the comment's text there are its `#` and its end.
    comment(length - end.len() - 4, &mut file, random);
    file.extend(end.bytes());
    pixels(width, height, &mut file, random);
    file.extend(vec![0; random.choose(&[0, 0, 1])]);
    file
}
