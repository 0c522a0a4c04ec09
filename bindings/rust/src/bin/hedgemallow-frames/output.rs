//! Where the pictures go: one after another to standard output or into one file, or each into a file of its own.

use crate::fault::Fault;
use crate::png::{png, Picture};
use crate::ppm::Frame;
use crate::sink::Sink;
use std::ffi::{OsStr, OsString};
use std::os::unix::ffi::{OsStrExt, OsStringExt};
use std::path::{Path, PathBuf};

#[derive(Clone, Copy, Debug, PartialEq, Eq)]
pub enum Format {
    Ppm,
    Png,
}

impl Format {
    /// The format of that name.
    pub fn named(name: &OsStr) -> Option<Format> {
        match name.to_ascii_lowercase().as_bytes() {
            b"ppm" => Some(Format::Ppm),
            b"png" => Some(Format::Png),
            _ => None,
        }
    }
}

/// A file's name with the number of its picture.
#[derive(Debug, PartialEq, Eq)]
pub struct Pattern {
    before: Vec<u8>,
    /// The fewest digits of the number.
    digits: usize,
    after: Vec<u8>,
}

impl Pattern {
    fn name(&self, number: u64) -> PathBuf {
        let digits = self.digits;
        let middle = format!("{number:0digits$}").into_bytes();
        OsString::from_vec([&self.before, &middle, &self.after].map(Vec::as_slice).concat()).into()
    }
}

#[derive(Debug, PartialEq, Eq)]
pub enum Place {
    Standard,
    File(PathBuf),
    Numbered(Pattern),
}

/// How a number may stand behind a `%`: how many bytes that is, and its fewest digits.
fn number(rest: &[u8]) -> Option<(usize, usize)> {
    match rest {
        [b'd', ..] => Some((1, 1)),
        [b'0', digits @ b'1'..=b'9', b'd', ..] => Some((3, usize::from(digits - b'0'))),
        _ => None,
    }
}

impl Place {
    /// The place that a text names: `-` or `/dev/stdout`, a file, or a pattern with one number, `%d` or with zeros in front `%04d`. `%%` is a percent sign.
    pub fn named(text: &OsStr) -> Result<Place, Fault> {
        // By that name a file that standard output was led to would be replaced, and not written on.
        if text == "-" || text == "/dev/stdout" {
            return Ok(Place::Standard);
        }
        let why = "no pattern: the number stands in it once, as %d or with zeros in front as %04d, and %% is a percent sign";
        let none = || Fault::Usage(format!("{}: {why}", Path::new(text).display()));
        let (mut before, mut digits, mut name) = (Vec::new(), None, Vec::new());
        let mut rest = text.as_bytes();
        while let [byte, tail @ ..] = rest {
            rest = tail;
            if *byte != b'%' {
                name.push(*byte);
            } else if let [b'%', tail @ ..] = rest {
                name.push(b'%');
                rest = tail;
            } else {
                let (length, fewest) = number(rest).ok_or_else(none)?;
                if digits.replace(fewest).is_some() {
                    return Err(none());
                }
                before = std::mem::take(&mut name);
                rest = &rest[length..];
            }
        }
        Ok(match digits {
            Some(digits) => Place::Numbered(Pattern { before, digits, after: name }),
            None => Place::File(OsString::from_vec(name).into()),
        })
    }

    fn sink(&self, number: u64) -> Result<Sink, Fault> {
        match self {
            Place::Standard => Ok(Sink::output()),
            Place::File(name) => Sink::file(name),
            Place::Numbered(pattern) => Sink::file(&pattern.name(number)),
        }
    }
}

pub struct Output {
    place: Place,
    format: Format,
    /// What is open for a picture that may follow.
    stream: Option<Sink>,
    /// How many pictures came.
    count: u64,
}

impl Output {
    pub fn new(place: Place, format: Format) -> Output {
        Output { place, format, stream: None, count: 0 }
    }

    /// The next picture, of the frame with that name. Where it could not be written, the file that it was for is gone.
    pub fn put(&mut self, name: &str, picture: &Frame) -> Result<(), Fault> {
        self.count += 1;
        match (&self.place, self.format) {
            (Place::Numbered(_), _) => self.alone(picture),
            (_, Format::Ppm) => self.append(picture),
            (_, Format::Png) if self.count == 1 => self.alone(picture),
            (_, Format::Png) => {
                let why = "a second picture, and a PNG holds one: a pattern, as -o out-%04d.png, names a file for each";
                Err(Fault::of(name, why))
            }
        }
    }

    /// In a file of its own.
    fn alone(&self, picture: &Frame) -> Result<(), Fault> {
        let mut sink = self.place.sink(self.count)?;
        self.write(&mut sink, picture)?;
        sink.finish()
    }

    /// Behind the one before it.
    fn append(&mut self, picture: &Frame) -> Result<(), Fault> {
        let mut sink = match self.stream.take() {
            Some(sink) => sink,
            None => self.place.sink(self.count)?,
        };
        self.write(&mut sink, picture)?;
        self.stream = Some(sink);
        Ok(())
    }

    fn write(&self, sink: &mut Sink, picture: &Frame) -> Result<(), Fault> {
        let Frame { header, width, height, pixels } = picture;
        match self.format {
            // The header is that of the frame, as program `filter` leaves it.
            Format::Ppm => sink.put(&[header, pixels]),
            Format::Png => sink.put(&[&png(&Picture { width: *width, height: *height, pixels })]),
        }
    }

    /// No picture follows: a file of several gets its name.
    pub fn finish(self) -> Result<(), Fault> {
        self.stream.map_or(Ok(()), Sink::finish)
    }
}

#[cfg(test)]
mod tests {
    use super::*;

    fn numbered(before: &str, digits: usize, after: &str) -> Result<Place, Fault> {
        Ok(Place::Numbered(Pattern { before: before.into(), digits, after: after.into() }))
    }

    #[test]
    fn a_place_is_named() {
        let named = |text: &str| Place::named(OsStr::new(text));
        assert_eq!(named("-"), Ok(Place::Standard));
        assert_eq!(named("/dev/stdout"), Ok(Place::Standard));
        assert_eq!(named("out.ppm"), Ok(Place::File("out.ppm".into())));
        assert_eq!(named("100%%.ppm"), Ok(Place::File("100%.ppm".into())));
        assert_eq!(named("out-%d.ppm"), numbered("out-", 1, ".ppm"));
        assert_eq!(named("%04d"), numbered("", 4, ""));
        assert_eq!(named("%%%01d%%"), numbered("%", 1, "%"));
        for text in ["%", "a%", "%s", "%04", "%4d", "%00d", "%010d", "%d-%d", "%-4d"] {
            assert!(matches!(named(text), Err(Fault::Usage(_))), "{text}");
        }
    }

    #[test]
    fn a_pattern_gets_its_number() {
        let Ok(Place::Numbered(pattern)) = Place::named(OsStr::new("a/%03d.png")) else {
            panic!("no pattern");
        };
        assert_eq!([1, 42, 1000].map(|n| pattern.name(n)), ["a/001.png", "a/042.png", "a/1000.png"].map(PathBuf::from));
    }
}
