// Writes one of the sheets beside this file to standard output, or the file of events of which `sheet --record` makes `match.sheet`.
// They were made by
//
//     rustc -O -o sheets examples/sheets/sheet.rs
//     for name in match.sheet match.events every.sheet refused.sheet; do ./sheets $name >examples/sheets/$name; done
//
// on 2026-11-17. The frames are small, so that a line of a picture can be read: a ball flies over a court of 5 by 4 pixels.
use std::io::{self, Write};

enum Event {
    Frame(u8, u8, Vec<u32>),
    Reset,
    Switch(u8, bool),
    Step,
    Ask(u8, bool),
    Commit,
}

use Event::{Ask, Commit, Frame, Reset, Step, Switch};

const PERSISTENCE: u8 = 4;
const SCANLINES: u8 = 10;

/// A kind that no pass has.
const NO_PASS: u8 = 13;

/// The card that `match.events` begins with.
const CARD: &[u8] = include_bytes!("../cards/persistence.card");

/// A white ball at this place of a dark court.
fn court(x: usize, y: usize) -> Event {
    let mut words = vec![0x10_2040; 5 * 4];
    words[5 * y + x] = 0xff_ffff;
    Frame(5, 4, words)
}

/// A ball that leaves a trail, which a reset and a switch break off. Program `station` takes each of these events, too.
fn played_match() -> Vec<Event> {
    vec![
        court(0, 1),
        court(1, 2),
        court(2, 3),
        Reset,
        court(3, 2),
        Switch(PERSISTENCE, false),
        court(4, 1),
        Switch(PERSISTENCE, true),
        court(3, 0),
        court(2, 1),
    ]
}

/// Each of the six, for a card with all passes.
fn every_event() -> Vec<Event> {
    vec![
        court(0, 1),
        Reset,
        Switch(SCANLINES, false),
        Step,
        Ask(PERSISTENCE, false),
        court(1, 2),
        Commit,
        court(2, 3),
    ]
}

/// What a station of persistence alone refuses, between two frames and behind the last: a step without a LUT, a frame without pixels, a
/// commit before anything is asked for, a second ask, a switch of a kind that no pass has.
fn refused_events() -> Vec<Event> {
    vec![
        court(0, 1),
        Step,
        Frame(0, 4, Vec::new()),
        Commit,
        Ask(PERSISTENCE, true),
        Ask(PERSISTENCE, false),
        Switch(NO_PASS, true),
        court(1, 2),
        Frame(3, 0, Vec::new()),
    ]
}

/// Bytes that are written bit by bit, the most significant first.
#[derive(Default)]
struct Pen {
    bytes: Vec<u8>,
    bits: usize,
}

impl Pen {
    fn put(&mut self, value: u32, width: usize) {
        for place in (0..width).rev() {
            if self.bits % 8 == 0 {
                self.bytes.push(0);
            }
            let bit = (value >> place & 1) as u8;
            self.bytes[self.bits / 8] |= bit << (7 - self.bits % 8);
            self.bits += 1;
        }
    }

    /// A switch that is made, or asked for.
    fn switch(&mut self, number: u32, kind: u8, on: bool) {
        self.put(number, 3);
        self.put(kind.into(), 4);
        self.put(on.into(), 1);
    }

    fn event(&mut self, event: &Event) {
        match event {
            Frame(width, height, words) => {
                self.put(0, 3);
                self.put((*width).into(), 11);
                self.put((*height).into(), 11);
                for word in words {
                    self.put(*word, 24);
                }
            }
            Reset => self.put(1, 3),
            Switch(kind, on) => self.switch(2, *kind, *on),
            Step => self.put(3, 3),
            Ask(kind, on) => self.switch(4, *kind, *on),
            Commit => self.put(5, 3),
        }
    }
}

fn sheet(events: &[Event]) -> Vec<u8> {
    let mut pen = Pen::default();
    pen.put(events.len() as u32, 16);
    for event in events {
        pen.event(event);
    }
    pen.bytes
}

/// A card and events as program `station` takes them, which knows no ask and no commit.
fn input(events: &[Event]) -> Vec<u8> {
    let mut bytes = vec![CARD.len() as u8];
    bytes.extend(CARD);
    for event in events {
        match event {
            Frame(width, height, words) => {
                bytes.extend([b'F', *width, *height]);
                bytes.extend(words.iter().flat_map(|word| word.to_be_bytes()[1..].to_vec()));
            }
            Reset => bytes.push(b'R'),
            Switch(kind, on) => bytes.extend([b'S', *kind, (*on).into()]),
            Step => bytes.push(b'L'),
            Ask(..) | Commit => panic!("program `station` has no such event"),
        }
    }
    bytes
}

fn main() -> io::Result<()> {
    let arguments: Vec<String> = std::env::args().skip(1).collect();
    let names: Vec<&str> = arguments.iter().map(String::as_str).collect();
    let bytes = match names[..] {
        ["match.sheet"] => sheet(&played_match()),
        ["match.events"] => input(&played_match()),
        ["every.sheet"] => sheet(&every_event()),
        ["refused.sheet"] => sheet(&refused_events()),
        _ => {
            eprintln!("usage: sheets match.sheet | match.events | every.sheet | refused.sheet   (its bytes go to standard output)");
            std::process::exit(2);
        }
    };
    io::stdout().write_all(&bytes)
}
