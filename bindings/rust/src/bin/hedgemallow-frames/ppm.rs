//! Frames of binary PPM (netpbm's P6), one after another from a stream. What a header may be, and which fault is told first, is that of
//! crates/raster/src/ppm.rt; the limit is a side of 1024 alone. A frame is read when it is asked for, and no byte behind it, so that
//! it can be shown while the next one is still being made.

use std::fmt;
use std::io::{self, BufRead, ErrorKind, Read};

/// The longest side of a frame.
const SIDE: usize = 1024;

/// The most bytes of a header. Program `filter` reads no more of a whole file, so every header that it takes is taken here.
const HEADER: usize = 188_416;

/// A frame: its header as it was written, and three bytes for each pixel.
pub struct Frame {
    pub header: Vec<u8>,
    pub width: usize,
    pub height: usize,
    pub pixels: Vec<u8>,
}

/// Why there is no frame.
#[derive(Debug)]
pub enum Fault {
    Empty,
    OtherFormat,
    HeaderCut,
    BadHeader,
    LongHeader,
    OtherMaximum,
    EmptyPicture,
    TooLarge,
    PixelsCut,
    Unread(io::Error),
}

impl fmt::Display for Fault {
    fn fmt(&self, f: &mut fmt::Formatter) -> fmt::Result {
        f.write_str(match self {
            Fault::Empty => "empty file",
            Fault::OtherFormat => "not a binary PPM: it does not begin with P6",
            Fault::HeaderCut => "cut off in its header",
            Fault::BadHeader => "bad header: it is P6, width, height, 255 and one white byte",
            Fault::LongHeader => "bad header: more than 188416 bytes",
            Fault::OtherMaximum => "a maximum other than 255",
            Fault::EmptyPicture => "a width or height of 0",
            Fault::TooLarge => "too large: a side above 1024",
            Fault::PixelsCut => "cut off: fewer pixels than its header says",
            Fault::Unread(error) => return error.fmt(f),
        })
    }
}

fn is_white(byte: u8) -> bool {
    byte == b' ' || (b'\t'..=b'\r').contains(&byte)
}

/// The frames of a source.
pub struct Stream<R> {
    source: R,
    /// That of the frame that is being read.
    header: Vec<u8>,
    /// How many frames were read.
    count: u64,
}

impl<R: BufRead> Stream<R> {
    pub fn new(source: R) -> Self {
        Stream { source, header: Vec::new(), count: 0 }
    }

    /// The next frame; `None` behind the last one. A source without a frame is a fault.
    pub fn next(&mut self) -> Result<Option<Frame>, Fault> {
        match self.peek()? {
            None if self.count == 0 => Err(Fault::Empty),
            None => Ok(None),
            Some(_) => self.frame().map(Some),
        }
    }

    fn frame(&mut self) -> Result<Frame, Fault> {
        self.header.clear();
        self.magic()?;
        let (width, height, maximum) = (self.number()?, self.number()?, self.number()?);
        self.end()?;
        if maximum != 255 {
            return Err(Fault::OtherMaximum);
        }
        if width == 0 || height == 0 {
            return Err(Fault::EmptyPicture);
        }
        if width > SIDE || height > SIDE {
            return Err(Fault::TooLarge);
        }
        let pixels = self.pixels(3 * width * height)?;
        self.count += 1;
        Ok(Frame { header: std::mem::take(&mut self.header), width, height, pixels })
    }

    /// The next byte, which stays the next one; `None` at the end.
    fn peek(&mut self) -> Result<Option<u8>, Fault> {
        loop {
            match self.source.fill_buf() {
                Ok(bytes) => return Ok(bytes.first().copied()),
                Err(error) if error.kind() == ErrorKind::Interrupted => {}
                Err(error) => return Err(Fault::Unread(error)),
            }
        }
    }

    /// The byte that was looked at becomes one of the header.
    fn take(&mut self, byte: u8) -> Result<(), Fault> {
        if self.header.len() == HEADER {
            return Err(Fault::LongHeader);
        }
        self.source.consume(1);
        self.header.push(byte);
        Ok(())
    }

    fn magic(&mut self) -> Result<(), Fault> {
        for letter in *b"P6" {
            match self.peek()? {
                Some(byte) if byte == letter => self.take(byte)?,
                _ => return Err(Fault::OtherFormat),
            }
        }
        Ok(())
    }

    /// White space and comments, each from `#` to the end of its line.
    fn gap(&mut self) -> Result<(), Fault> {
        let mut comment = false;
        while let Some(byte) = self.peek()? {
            if !comment && !is_white(byte) && byte != b'#' {
                break;
            }
            comment = if comment { !b"\n\r".contains(&byte) } else { byte == b'#' };
            self.take(byte)?;
        }
        Ok(())
    }

    /// A gap, then a number that does not end the source.
    fn number(&mut self) -> Result<usize, Fault> {
        let before = self.header.len();
        self.gap()?;
        let start = self.header.len();
        self.peek()?.ok_or(Fault::HeaderCut)?;
        if start == before {
            return Err(Fault::BadHeader);
        }
        let mut value = 0;
        while let Some(byte @ b'0'..=b'9') = self.peek()? {
            self.take(byte)?;
            // What is above every side and maximum stays there, so that no product overflows.
            value = if value > 9999 { value } else { 10 * value + usize::from(byte - b'0') };
        }
        self.peek()?.ok_or(Fault::HeaderCut)?;
        if self.header.len() == start {
            return Err(Fault::BadHeader);
        }
        Ok(value)
    }

    /// The one white byte before the pixels.
    fn end(&mut self) -> Result<(), Fault> {
        match self.peek()? {
            Some(byte) if is_white(byte) => self.take(byte),
            _ => Err(Fault::BadHeader),
        }
    }

    fn pixels(&mut self, length: usize) -> Result<Vec<u8>, Fault> {
        let mut pixels = Vec::with_capacity(length);
        let mut part = self.source.by_ref().take(length as u64);
        part.read_to_end(&mut pixels).map_err(Fault::Unread)?;
        if pixels.len() < length {
            return Err(Fault::PixelsCut);
        }
        Ok(pixels)
    }
}
