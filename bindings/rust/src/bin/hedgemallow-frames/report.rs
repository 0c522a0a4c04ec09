//! What is told of each picture: what was clipped and sampled, and the totals of areas, in the words of `filter` and `totals`.

use crate::fault::Fault;
use crate::given::Areas;
use crate::ppm::Frame;
use crate::sink::Sink;
use hedgemallow::{areas, Counts, Refusal, AREAS};
use std::ffi::OsString;
use std::fmt::Write;

pub struct Report {
    counts: bool,
    areas: Areas,
    /// The file that the lines go to, `-` for standard output; standard error where none is named.
    place: Option<OsString>,
    /// That place, once there is a line.
    sink: Option<Sink>,
}

impl Report {
    pub fn new(counts: bool, areas: Areas, place: Option<OsString>) -> Report {
        Report { counts, areas, place, sink: None }
    }

    /// Whether there are lines on standard error.
    pub fn on_error(&self) -> bool {
        self.place.is_none() && (self.counts || !self.areas.texts.is_empty())
    }

    /// The lines of a picture, each behind the name of its frame.
    pub fn lines(&self, name: &str, frame: &Frame, picture: &[u32], counts: Counts) -> Result<String, Fault> {
        let mut lines = String::new();
        if self.counts {
            let Counts { clipped, samples } = counts;
            let _ = writeln!(lines, "{name}: {clipped} clipped channels, {samples} blur samples");
        }
        if !self.areas.texts.is_empty() {
            self.totals(name, frame, picture, &mut lines)?;
        }
        Ok(lines)
    }

    fn totals(&self, name: &str, frame: &Frame, picture: &[u32], lines: &mut String) -> Result<(), Fault> {
        let mut totals = [0; 3 * AREAS];
        let judged = areas(picture, frame.width, frame.height, &self.areas.numbers, &mut totals);
        let read = judged.map_err(|refusal| self.refused(name, frame, picture, refusal))?;
        for (text, total) in self.areas.texts.iter().zip(totals.chunks_exact(3)) {
            let _ = writeln!(lines, "{name}: {text}: red {}, green {}, blue {}", total[0], total[1], total[2]);
        }
        let _ = writeln!(lines, "{name}: words read: {read}");
        Ok(())
    }

    /// Which area is refused: the first that is refused alone.
    fn refused(&self, name: &str, frame: &Frame, picture: &[u32], refusal: Refusal) -> Fault {
        let alone = |area: &[u16]| areas(picture, frame.width, frame.height, area, &mut [0; 3]).is_err();
        match self.areas.numbers.chunks_exact(4).position(alone) {
            Some(place) => Fault::of(name, format_args!("{}: bad area: it leaves the picture", self.areas.texts[place])),
            None => Fault::of(name, format_args!("refused: {}, {refusal}", refusal.number())),
        }
    }

    /// Writes the lines of a picture.
    pub fn put(&mut self, lines: &str) -> Result<(), Fault> {
        if lines.is_empty() {
            return Ok(());
        }
        let mut sink = match self.sink.take() {
            Some(sink) => sink,
            None => self.open()?,
        };
        sink.put(&[lines.as_bytes()])?;
        self.sink = Some(sink);
        Ok(())
    }

    fn open(&self) -> Result<Sink, Fault> {
        match &self.place {
            None => Ok(Sink::error()),
            Some(name) if name == "-" => Ok(Sink::output()),
            Some(name) => Sink::file(name.as_ref()),
        }
    }

    /// No line follows: a file of them gets its name.
    pub fn finish(self) -> Result<(), Fault> {
        self.sink.map_or(Ok(()), Sink::finish)
    }
}
