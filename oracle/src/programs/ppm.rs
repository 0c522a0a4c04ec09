//! A file of binary PPM, read as netpbm describes the format, with nothing of the library: `P6`, width, height and
//! maximum in decimal, each after white space; one white byte; then three bytes a pixel. From `#` to the end of its line is
//! a comment. Where the description leaves room it goes by docs/DECISIONS.md: a comment counts as white space, but not
//! after the maximum; white are the bytes that C's `isspace` says; the maximum is 255, and the file ends after its last
//! pixel.

/// Why a file is refused, in the order in which that is looked for.
#[derive(Clone, Copy, PartialEq, Debug)]
pub enum Fault {
    Empty,
    OtherFormat,
    HeaderCut,
    BadHeader,
    OtherMaximum,
    NoPixel,
    TooLarge,
    PixelsCut,
    LeftOver,
    /// It may be a frame, and has more bytes than the program reads.
    TooLong,
}

impl Fault {
    pub fn words(self) -> &'static str {
        match self {
            Fault::Empty => "empty file",
            Fault::OtherFormat => "not a binary PPM: it does not begin with P6",
            Fault::HeaderCut => "cut off in its header",
            Fault::BadHeader => "bad header: it is P6, width, height, 255 and one white byte",
            Fault::OtherMaximum => "a maximum other than 255",
            Fault::NoPixel => "a width or height of 0",
            Fault::TooLarge => {
                "too large: more than 61440 pixels (256 by 240), or a side above 1024"
            }
            Fault::PixelsCut => "cut off: fewer pixels than its header says",
            Fault::LeftOver => "bytes left over after the last pixel",
            Fault::TooLong => "more bytes than a frame of 61440 pixels has",
        }
    }
}

/// The largest frame.
pub const PIXELS: usize = 256 * 240;
pub const SIDE: usize = 1024;

/// How many bytes are read: those of the largest frame with a header of 4,096.
pub const ROOM: usize = 3 * PIXELS + 4096;

/// A frame, and where its pixels begin.
pub struct Frame {
    pub width: usize,
    pub height: usize,
    pub start: usize,
}

/// A file of any length, of which no more than `ROOM` bytes are read: one whose header or pixels go on past them is too long, and
/// not cut off.
pub fn taken(file: &[u8]) -> Result<Frame, Fault> {
    let more = file.len() > ROOM;
    match read(&file[..file.len().min(ROOM)]) {
        Err(Fault::HeaderCut | Fault::PixelsCut) if more => Err(Fault::TooLong),
        Ok(_) if more => Err(Fault::LeftOver),
        read => read,
    }
}

fn read(file: &[u8]) -> Result<Frame, Fault> {
    let frame = header(file)?;
    let needed = 3 * frame.width * frame.height;
    match file.len() - frame.start {
        few if few < needed => Err(Fault::PixelsCut),
        many if many > needed => Err(Fault::LeftOver),
        _ => Ok(frame),
    }
}

/// The frame that a file begins, whatever comes after its header.
pub fn header(file: &[u8]) -> Result<Frame, Fault> {
    let rest = match file {
        [] => return Err(Fault::Empty),
        [b'P', b'6', rest @ ..] => rest,
        _ => return Err(Fault::OtherFormat),
    };
    let mut header = Header { rest };
    let [width, height, maximum] = [header.number()?, header.number()?, header.number()?];
    if !white(header.next()?) {
        return Err(Fault::BadHeader);
    }
    if maximum != 255 {
        return Err(Fault::OtherMaximum);
    }
    if width == 0 || height == 0 {
        return Err(Fault::NoPixel);
    }
    let most = SIDE as u64;
    if width > most || height > most || width * height > PIXELS as u64 {
        return Err(Fault::TooLarge);
    }
    Ok(Frame {
        width: width as usize,
        height: height as usize,
        start: file.len() - header.rest.len(),
    })
}

fn white(byte: u8) -> bool {
    matches!(byte, b' ' | b'\t' | b'\n' | 0x0b | 0x0c | b'\r')
}

/// What is left of a file whose header is being read.
struct Header<'a> {
    rest: &'a [u8],
}

impl Header<'_> {
    fn peek(&self) -> Result<u8, Fault> {
        self.rest.first().copied().ok_or(Fault::HeaderCut)
    }

    fn next(&mut self) -> Result<u8, Fault> {
        let byte = self.peek()?;
        self.rest = &self.rest[1..];
        Ok(byte)
    }

    /// White space, comments among it, and a number. One beyond what fits is as good as the largest that does.
    fn number(&mut self) -> Result<u64, Fault> {
        let mut apart = false;
        loop {
            match self.peek()? {
                b'#' => while !matches!(self.next()?, b'\n' | b'\r') {},
                byte if white(byte) => {
                    self.next()?;
                }
                byte if apart && byte.is_ascii_digit() => break,
                _ => return Err(Fault::BadHeader),
            }
            apart = true;
        }
        let mut value: u64 = 0;
        while self.peek()?.is_ascii_digit() {
            let digit = u64::from(self.next()? - b'0');
            value = value.saturating_mul(10).saturating_add(digit);
        }
        Ok(value)
    }
}
