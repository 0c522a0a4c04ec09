//! A host in Rust: opens a card and runs two rounds of frames. In the first a referee asks for a switch, which takes hold before the
//! second. It prints a checksum of the last picture of each round and how the switches stand then, as a front end shows them, and of
//! the whole the channels that were clipped and the samples that blurs took on the way, and the totals of the last picture's middle.
//! All that happens is stored as a run sheet, which is then played on another station of that card: it shows the same picture at the
//! end.

use hedgemallow::{areas, history_words, scratch_words, Kind, Preset, Refusal, Station, KINDS};

const WIDTH: usize = 64;
const HEIGHT: usize = 48;
const ROUND: u32 = 4;
const FRAMES: u32 = 6;

/// Persistence 0.5 over 3 frames, LUT preset 1 at 0.75, scanlines 0.5, all on.
const CARD: [u8; 17] = [
    0x13, 0x49, 0xF8, 0x00, 0x00, 0x00, 0x1A, 0xC9, 0xFA, 0x00, 0x00, 0x05, 0x4F, 0xC0, 0x00, 0x00, 0x00,
];

/// The numbers of the events on a sheet that are stored here.
const FRAME: u32 = 0;
const STEP: u32 = 3;
const ASK: u32 = 4;
const COMMIT: u32 = 5;

/// A run sheet that is being written: its bytes, of which the first two are the event count, and how many bits of them there are.
struct Sheet {
    bytes: Vec<u8>,
    bits: usize,
    events: u16,
}

impl Sheet {
    /// Without an event.
    fn new() -> Self {
        Sheet { bytes: vec![0; 2], bits: 16, events: 0 }
    }

    /// A field, most significant bit first.
    fn put(&mut self, value: u32, width: usize) {
        for place in (0..width).rev() {
            if self.bits % 8 == 0 {
                self.bytes.push(0);
            }
            self.bytes[self.bits / 8] |= ((value >> place & 1) as u8) << (7 - self.bits % 8);
            self.bits += 1;
        }
    }

    /// An event: its number, and what else it has is put behind it.
    fn store(&mut self, number: u32) {
        self.put(number, 3);
        self.events += 1;
        self.bytes[..2].copy_from_slice(&self.events.to_be_bytes());
    }

    /// A frame as it is painted.
    fn store_frame(&mut self, frame: &[u32]) {
        self.store(FRAME);
        self.put(WIDTH as u32, 11);
        self.put(HEIGHT as u32, 11);
        for &word in frame {
            self.put(word, 24);
        }
    }
}

/// Left, top, width, height.
const MIDDLE: [u16; 4] = [16, 12, 32, 24];

fn paint(frame: &mut [u32], number: u32) {
    for (y, row) in (0..).zip(frame.chunks_mut(WIDTH)) {
        for (x, word) in (0..).zip(row) {
            *word = (x * 4) << 16 | (y * 5) << 8 | ((number * 40 + x + y) & 255);
        }
    }
}

/// FNV-1a over the words' bytes, least significant first.
fn checksum(frame: &[u32]) -> u32 {
    let bytes = frame.iter().flat_map(|word| word.to_le_bytes());
    bytes.fold(2166136261, |sum, byte| (sum ^ u32::from(byte)).wrapping_mul(16777619))
}

/// The passes of the chain, on or off, the LUT's preset, and the switch that is asked for: nothing is changed.
fn show(station: &Station) {
    print!("switches:");
    let position = |on| if on { "on" } else { "off" };
    for kind in KINDS {
        if let Ok(on) = station.enabled(kind) {
            print!(" {kind} {}", position(on));
        }
    }
    if let Ok(preset) = station.preset() {
        print!(", preset {}", preset as u8);
    }
    if let Some((kind, on)) = station.pending() {
        print!(", asked for: {kind} {}", position(on));
    }
    println!();
}

fn run() -> Result<(), Refusal> {
    let mut station = Station::open(&CARD)?;
    let scratch = scratch_words(WIDTH, HEIGHT)?;
    let mut floats = vec![0.0; scratch.floats];
    let mut ints = vec![0; scratch.ints];
    let mut history = vec![0; history_words(&CARD, WIDTH, HEIGHT)?];
    let mut frame = vec![0; WIDTH * HEIGHT];
    let mut sheet = Sheet::new();
    let (mut preset, mut clipped, mut samples) = (Preset::WarmCrt, 0, 0);
    for number in 0..FRAMES {
        // Between the rounds what was asked for takes hold.
        if number == ROUND {
            println!("first round: frames {ROUND}, picture {:08X}", checksum(&frame));
            show(&station);
            station.commit()?;
            sheet.store(COMMIT);
        }
        paint(&mut frame, number);
        match number {
            // During play: the pictures of this round keep their scanlines.
            2 => {
                station.ask(Kind::Scanlines, false)?;
                sheet.store(ASK);
                sheet.put(Kind::Scanlines as u32, 4);
                sheet.put(0, 1);
            }
            3 => {
                preset = station.cycle_lut()?;
                sheet.store(STEP);
            }
            _ => {}
        }
        sheet.store_frame(&frame);
        // The card has no colour, so it reads no curve.
        let counts = station.apply(&mut frame, WIDTH, HEIGHT, &mut history, &mut floats, &mut ints, &[])?;
        clipped += counts.clipped;
        samples += counts.samples;
    }
    let length = station.write(&mut [0; 83])?;
    let mut totals = [0; 3];
    let read = areas(&frame, WIDTH, HEIGHT, &MIDDLE, &mut totals)?;
    println!(
        "frames {FRAMES}, preset {}, card {length} bytes, picture {:08X}, clipped {clipped}, samples {samples}",
        preset as u8,
        checksum(&frame)
    );
    println!("middle: {read} words, red {}, green {}, blue {}", totals[0], totals[1], totals[2]);
    show(&station);
    // The sheet on a station of its own, which has to end as the first one did.
    let mut other = Station::open(&CARD)?;
    frame.fill(0);
    let played = other.play(&sheet.bytes, &mut frame, &mut history, &mut floats, &mut ints, &[])?;
    println!(
        "sheet: {} bytes, accepted {}, refused {}, picture {:08X}, {} state",
        sheet.bytes.len(),
        played.accepted,
        played.refused,
        checksum(&frame),
        if other == station { "the same" } else { "another" }
    );
    Ok(())
}

fn main() {
    if let Err(refusal) = run() {
        eprintln!("refused: {refusal}");
        std::process::exit(1);
    }
}
