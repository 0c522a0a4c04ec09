//! The command line.

use crate::fault::Fault;
use crate::given::Areas;
use crate::output::{Format, Place};
use std::ffi::{OsStr, OsString};
use std::os::unix::ffi::OsStrExt;
use std::path::Path;

pub const HELP: &str = "\
usage: hedgemallow-frames [OPTIONS] CARD [FRAME ..]

Runs frames through a card, one after another through one station, and writes the pictures.

CARD is a file, or its bytes in hexadecimal, as \"11 A9 FC 00 00 00\". FRAME is a file of binary PPM (P6,
maximum 255), each side 1 to 1024, with one frame or several, one after another; - or none is standard
input. Each frame is shown and written before the next one is read.

  -o, --output FILE     write there, not to standard output; FILE ends with .ppm or .png. A number in it,
                        %d or %04d, makes a file for each picture, from 1 on; %% is a percent sign
      --format FORMAT   ppm or png, whatever the name; standard output is ppm without it
      --curve FILE      lend this curve, for a card whose gamma is not 1: 256 binary32, the low byte first
      --counts          tell of each picture the clipped channels and the blur samples
      --area LEFT,TOP,WIDTH,HEIGHT
                        tell of each picture the red, green and blue totals of this area; up to 64 times
      --report FILE     write what is told there, not to standard error; - is standard output
  -h, --help            print this
  -V, --version         print the version

A file stands under its name once it is whole. Pictures that were shown before a fault stay.

Exit status: 0 if all frames were shown; 1 if a card, a curve, an area or a frame is refused, or something
could not be read or written, which is told in one line on standard error; 2 for bad usage.
";

#[derive(Debug, PartialEq, Eq)]
pub struct Options {
    pub card: OsString,
    /// At least one; `-` is standard input.
    pub frames: Vec<OsString>,
    pub place: Place,
    pub format: Format,
    pub curve: Option<OsString>,
    pub counts: bool,
    pub areas: Areas,
    pub report: Option<OsString>,
}

#[derive(Debug, PartialEq, Eq)]
pub enum Asked {
    Show(Options),
    Help,
    Version,
}

fn usage(why: impl Into<String>) -> Fault {
    Fault::Usage(why.into())
}

/// What was read of the command line so far.
#[derive(Default)]
struct Words {
    plain: Vec<OsString>,
    output: Option<OsString>,
    format: Option<OsString>,
    curve: Option<OsString>,
    counts: bool,
    areas: Areas,
    report: Option<OsString>,
}

/// An option that is named once.
fn once(place: &mut Option<OsString>, name: &str, value: OsString) -> Result<(), Fault> {
    match place.replace(value) {
        None => Ok(()),
        Some(_) => Err(usage(format!("{name} is there twice"))),
    }
}

/// An option and, where it has one, the value in the same word: `--name=value`, `-ovalue`.
fn split(word: &OsStr) -> (String, Option<OsString>) {
    let bytes = word.as_bytes();
    let at = match bytes {
        [b'-', b'-', ..] => bytes.iter().position(|&byte| byte == b'=').map(|at| (at, at + 1)),
        [b'-', b'o', _, ..] => Some((2, 2)),
        _ => None,
    };
    let text = |bytes: &[u8]| String::from_utf8_lossy(bytes).into_owned();
    match at {
        Some((end, start)) => (text(&bytes[..end]), Some(OsStr::from_bytes(&bytes[start..]).to_owned())),
        None => (text(bytes), None),
    }
}

impl Words {
    /// An option that takes a value.
    fn valued(&mut self, name: &str, value: OsString) -> Result<(), Fault> {
        match name {
            "-o" | "--output" => once(&mut self.output, "--output", value),
            "--format" => once(&mut self.format, name, value),
            "--curve" => once(&mut self.curve, name, value),
            "--report" => once(&mut self.report, name, value),
            _ => self.areas.add(value.to_string_lossy().into_owned()),
        }
    }

    /// Options stand before, between and behind the other words, up to a word `--`.
    fn read(&mut self, mut words: impl Iterator<Item = OsString>) -> Result<Option<Asked>, Fault> {
        while let Some(word) = words.next() {
            if word == "--" {
                self.plain.extend(words);
                return Ok(None);
            }
            if word == "-" || !word.as_bytes().starts_with(b"-") {
                self.plain.push(word);
                continue;
            }
            let (name, value) = split(&word);
            match (name.as_str(), value) {
                ("-h" | "--help", None) => return Ok(Some(Asked::Help)),
                ("-V" | "--version", None) => return Ok(Some(Asked::Version)),
                ("--counts", None) => self.counts = true,
                ("-o" | "--output" | "--format" | "--curve" | "--report" | "--area", value) => {
                    let value = value.or_else(|| words.next()).ok_or_else(|| usage(format!("{name} names nothing")))?;
                    self.valued(&name, value)?;
                }
                ("-h" | "--help" | "-V" | "--version" | "--counts", Some(_)) => return Err(usage(format!("{name} takes no value"))),
                _ => return Err(usage(format!("{name}: no option of this program"))),
            }
        }
        Ok(None)
    }

    /// By its own option, else by the ending of the file's name.
    fn format(&self, output: &OsStr) -> Result<Format, Fault> {
        if let Some(name) = &self.format {
            return Format::named(name).ok_or_else(|| usage(format!("{}: no format: it is ppm or png", Path::new(name).display())));
        }
        if output == "-" {
            return Ok(Format::Ppm);
        }
        let name = Path::new(output);
        let ending = name.extension().and_then(Format::named);
        ending.ok_or_else(|| usage(format!("{}: it ends neither with .ppm nor with .png, so name a --format", name.display())))
    }

    fn options(mut self) -> Result<Options, Fault> {
        let output = self.output.take().unwrap_or_else(|| "-".into());
        let (place, format) = (Place::named(&output)?, self.format(&output)?);
        let mut plain = self.plain.into_iter();
        let card = plain.next().ok_or_else(|| usage("no card is named"))?;
        let mut frames: Vec<OsString> = plain.collect();
        if frames.is_empty() {
            frames.push("-".into());
        }
        if frames.iter().filter(|frame| *frame == "-").count() > 1 {
            return Err(usage("standard input is named twice"));
        }
        if frames.len() > 1 && format == Format::Png && !matches!(place, Place::Numbered(_)) {
            return Err(usage("several frames, and a PNG holds one picture: a pattern, as -o out-%04d.png, names a file for each"));
        }
        if self.report.is_some() && !self.counts && self.areas.texts.is_empty() {
            return Err(usage("--report, and nothing to tell: --counts or --area is missing"));
        }
        if self.report.as_ref() == Some(&output) {
            return Err(usage("the pictures and --report have one place"));
        }
        let Words { curve, counts, areas, report, .. } = self;
        Ok(Options { card, frames, place, format, curve, counts, areas, report })
    }
}

/// What the words behind the program's name ask for.
pub fn parse(words: impl Iterator<Item = OsString>) -> Result<Asked, Fault> {
    let mut read = Words::default();
    match read.read(words)? {
        Some(asked) => Ok(asked),
        None => read.options().map(Asked::Show),
    }
}
