//! hedgemallow-frames: runs frames of binary PPM, up to 1024 by 1024, through a card and writes the pictures, as binary PPM or PNG.
//! Its pictures are those of the proved program `filter`, which takes fewer pixels: both are the frame call of one chain. What is
//! around that call here, reading, words and writing, is tested (bindings/rust/check) and not proved.

mod fault;
mod given;
mod options;
mod output;
mod png;
mod ppm;
mod progress;
mod report;
mod sink;

use fault::Fault;
use hedgemallow::{scratch_words, Counts, Refusal, Station};
use options::{Asked, Options};
use output::{Output, Place};
use ppm::{Frame, Stream};
use progress::Progress;
use report::Report;
use sink::Sink;
use std::ffi::OsStr;
use std::fs::File;
use std::io::{self, BufRead, BufReader, IsTerminal, Stderr, Write};
use std::path::Path;
use std::process::ExitCode;

/// The buffers that are lent to a frame. They grow to what the largest frame takes, and the history keeps what it holds.
#[derive(Default)]
struct Lent {
    words: Vec<u32>,
    history: Vec<u32>,
    floats: Vec<f32>,
    ints: Vec<u32>,
}

fn grow<T: Clone + Default>(buffer: &mut Vec<T>, length: usize) {
    if buffer.len() < length {
        buffer.resize(length, T::default());
    }
}

impl Lent {
    /// Holds the frame, and has room for what else it takes.
    fn fit(&mut self, station: &Station, frame: &Frame) -> Result<(), Refusal> {
        let scratch = scratch_words(frame.width, frame.height)?;
        grow(&mut self.history, station.history_words(frame.width, frame.height)?);
        grow(&mut self.floats, scratch.floats);
        grow(&mut self.ints, scratch.ints);
        self.words.clear();
        self.words.extend(frame.pixels.chunks_exact(3).map(|three| u32::from_be_bytes([0, three[0], three[1], three[2]])));
        Ok(())
    }
}

/// The words' pixels, three bytes each.
fn pack(pixels: &mut [u8], words: &[u32]) {
    for (three, word) in pixels.chunks_exact_mut(3).zip(words) {
        three.copy_from_slice(&word.to_be_bytes()[1..]);
    }
}

/// Why a frame is refused. With all that is lent here only 16 is met, where the card asks for a curve and none was named.
fn refused(name: &str, refusal: Refusal) -> Fault {
    let hint = match refusal {
        Refusal::BadCurve => ": the card has a gamma other than 1, so name a curve by --curve FILE",
        _ => "",
    };
    Fault::of(name, format_args!("refused: {}, {refusal}{hint}", refusal.number()))
}

/// A station, and all that its frames go through.
struct Run {
    station: Station,
    curve: Vec<f32>,
    lent: Lent,
    output: Output,
    report: Report,
    progress: Progress<Stderr>,
}

impl Run {
    fn new(options: Options) -> Result<Run, Fault> {
        let station = given::station(&options.card)?;
        let curve = match &options.curve {
            Some(name) => given::curve(name)?.to_vec(),
            None => Vec::new(),
        };
        let report = Report::new(options.counts, options.areas, options.report);
        // Lines of their own are progress enough.
        let watched = io::stderr().is_terminal() && !report.on_error();
        Ok(Run {
            station,
            curve,
            lent: Lent::default(),
            output: Output::new(options.place, options.format),
            report,
            progress: Progress::new(watched.then(io::stderr)),
        })
    }

    /// The frame's pixels become those of its picture.
    fn apply(&mut self, frame: &mut Frame) -> Result<Counts, Refusal> {
        self.lent.fit(&self.station, frame)?;
        let Lent { words, history, floats, ints } = &mut self.lent;
        let counts = self.station.apply(words, frame.width, frame.height, history, floats, ints, &self.curve)?;
        pack(&mut frame.pixels, words);
        Ok(counts)
    }

    /// Shows a frame, and tells what is asked for. An area that is refused is found before the picture is written.
    fn show(&mut self, name: &str, mut frame: Frame) -> Result<(), Fault> {
        let counts = self.apply(&mut frame).map_err(|refusal| refused(name, refusal))?;
        let lines = self.report.lines(name, &frame, &self.lent.words, counts)?;
        self.output.put(name, &frame)?;
        self.report.put(&lines)?;
        self.progress.step();
        Ok(())
    }

    /// The frames of one source.
    fn show_all(&mut self, name: &str, source: impl BufRead) -> Result<(), Fault> {
        let mut stream = Stream::new(source);
        for number in 1u64.. {
            let place = format!("{name}: frame {number}");
            match stream.next() {
                Ok(Some(frame)) => self.show(&place, frame)?,
                Ok(None) => break,
                Err(ppm::Fault::Empty) => return Err(Fault::of(name, ppm::Fault::Empty)),
                Err(ppm::Fault::Unread(error)) => return Err(Fault::of(name, fault::words(&error))),
                Err(why) => return Err(Fault::of(place, why)),
            }
        }
        Ok(())
    }

    /// The frames that a word of the command line names.
    fn show_named(&mut self, name: &OsStr) -> Result<(), Fault> {
        if name == "-" {
            return self.show_all("standard input", io::stdin().lock());
        }
        let told = Path::new(name).display().to_string();
        match File::open(name) {
            Ok(file) => self.show_all(&told, BufReader::new(file)),
            Err(error) => Err(Fault::of(told, fault::words(&error))),
        }
    }

    /// What was shown stays, also where a later frame is at fault.
    fn finish(mut self) -> Result<(), Fault> {
        self.progress.end();
        self.output.finish().and(self.report.finish())
    }
}

/// A terminal is no place for pictures, and no source of frames.
fn check_terminals(options: &Options) -> Result<(), Fault> {
    if options.place == Place::Standard && io::stdout().is_terminal() {
        return Err(Fault::Usage("standard output is a terminal: name a file by -o FILE".to_string()));
    }
    if options.frames.iter().any(|frame| frame == "-") && io::stdin().is_terminal() {
        return Err(Fault::Usage("standard input is a terminal: name a frame as a file".to_string()));
    }
    Ok(())
}

fn show(options: Options) -> Result<(), Fault> {
    check_terminals(&options)?;
    let frames = options.frames.clone();
    let mut run = Run::new(options)?;
    let shown = frames.iter().try_for_each(|name| run.show_named(name));
    let finished = run.finish();
    shown.and(finished)
}

fn run() -> Result<(), Fault> {
    let version = format!("hedgemallow-frames {}\n", hedgemallow::VERSION);
    match options::parse(std::env::args_os().skip(1))? {
        Asked::Show(options) => show(options),
        Asked::Help => Sink::output().put(&[options::HELP.as_bytes()]),
        Asked::Version => Sink::output().put(&[version.as_bytes()]),
    }
}

/// Says why it ends. Where that cannot be written, the exit status has to do.
fn tell(fault: &Fault) {
    let line = match fault {
        Fault::Usage(why) => format!("{why} (see hedgemallow-frames --help)\n"),
        Fault::Told(why) => format!("{why}\n"),
        Fault::Quiet => return,
    };
    let _ = io::stderr().write_all(line.as_bytes());
}

fn main() -> ExitCode {
    match run() {
        Ok(()) => ExitCode::SUCCESS,
        Err(fault) => {
            tell(&fault);
            ExitCode::from(fault.status())
        }
    }
}
