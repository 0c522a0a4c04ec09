// Turns a PNG on standard input into binary PPM on standard output, for bindings/rust/check: that a picture can be read back is tried with
// a reader that was written apart from the writer, from the papers of PNG, zlib and deflate. It takes 8 bits for each of red, green and blue,
// every kind of deflate's blocks and every filter, and looks at each checksum.
use std::io::{self, Read, Write};

type Bytes<'a> = &'a [u8];

fn word(bytes: Bytes) -> Option<u32> {
    Some(u32::from_be_bytes(bytes.get(..4)?.try_into().ok()?))
}

fn crc(bytes: Bytes) -> u32 {
    !bytes.iter().fold(!0, |crc, &byte| (0..8).fold(crc ^ u32::from(byte), |c, _| if c & 1 == 1 { c >> 1 ^ 0xedb8_8320 } else { c >> 1 }))
}

/// The next chunk, its name and its data, and what is behind it.
fn chunk(bytes: Bytes) -> Option<(Bytes, Bytes, Bytes)> {
    let length = word(bytes)? as usize;
    let body = bytes.get(4..8 + length)?;
    let rest = &bytes[8 + length..];
    (word(rest)? == crc(body)).then_some((&body[..4], &body[4..], &rest[4..]))
}

struct Bits<'a> {
    bytes: Bytes<'a>,
    at: usize,
}

impl Bits<'_> {
    /// So many bits, the lowest first.
    fn take(&mut self, count: usize) -> Option<usize> {
        let mut value = 0;
        for place in 0..count {
            value |= usize::from(self.bytes.get(self.at / 8)? >> (self.at % 8) & 1) << place;
            self.at += 1;
        }
        Some(value)
    }

    /// A symbol of a code that is given by the length of each symbol, by deflate's rule: shorter codes first, then by their number.
    fn symbol(&mut self, lengths: &[usize]) -> Option<usize> {
        let (mut code, mut first) = (0, 0);
        for length in 1..16 {
            code = code << 1 | self.take(1)?;
            first <<= 1;
            let count = lengths.iter().filter(|&&l| l == length).count();
            if code < first + count {
                return lengths.iter().enumerate().filter(|(_, &l)| l == length).nth(code - first).map(|(symbol, _)| symbol);
            }
            first += count;
        }
        None
    }
}

/// The lengths of the two codes of a block that brings its own.
fn own_codes(bits: &mut Bits) -> Option<(Vec<usize>, Vec<usize>)> {
    let (literals, distances, count) = (257 + bits.take(5)?, 1 + bits.take(5)?, 4 + bits.take(4)?);
    let mut meta = [0; 19];
    for place in [16, 17, 18, 0, 8, 7, 9, 6, 10, 5, 11, 4, 12, 3, 13, 2, 14, 1, 15].into_iter().take(count) {
        meta[place] = bits.take(3)?;
    }
    let mut lengths = Vec::new();
    while lengths.len() < literals + distances {
        let (length, times) = match bits.symbol(&meta)? {
            16 => (*lengths.last()?, 3 + bits.take(2)?),
            17 => (0, 3 + bits.take(3)?),
            18 => (0, 11 + bits.take(7)?),
            length => (length, 1),
        };
        lengths.extend(vec![length; times]);
    }
    let second = lengths.split_off(literals);
    Some((lengths, second))
}

fn fixed_codes() -> (Vec<usize>, Vec<usize>) {
    let length = |symbol| {
        if symbol < 144 {
            8
        } else if symbol < 256 {
            9
        } else if symbol < 280 {
            7
        } else {
            8
        }
    };
    ((0..288).map(length).collect(), vec![5; 30])
}

/// The least value and the bits behind a symbol, where each group of so many symbols has one bit more than the one before it.
fn group(symbol: usize, size: usize, least: usize) -> (usize, usize) {
    let extra = (symbol / size).saturating_sub(1);
    let start = if symbol < size { symbol } else { (size + symbol % size) << extra };
    (least + start, extra)
}

fn block(bits: &mut Bits, out: &mut Vec<u8>, literals: &[usize], distances: &[usize]) -> Option<()> {
    loop {
        match bits.symbol(literals)? {
            256 => return Some(()),
            byte @ 0..=255 => out.push(byte as u8),
            symbol => {
                let (least, extra) = if symbol == 285 { (258, 0) } else { group(symbol - 257, 4, 3) };
                let length = least + bits.take(extra)?;
                let (least, extra) = group(bits.symbol(distances)?, 2, 1);
                let distance = least + bits.take(extra)?;
                for _ in 0..length {
                    out.push(*out.get(out.len().checked_sub(distance)?)?);
                }
            }
        }
    }
}

fn stored(bits: &mut Bits, out: &mut Vec<u8>) -> Option<()> {
    bits.at = bits.at.div_ceil(8) * 8;
    let (length, inverse) = (bits.take(16)?, bits.take(16)?);
    let start = bits.at / 8;
    out.extend(bits.bytes.get(start..start + length)?);
    bits.at += 8 * length;
    (length ^ inverse == 0xffff).then_some(())
}

fn inflate(bytes: Bytes) -> Option<Vec<u8>> {
    let sum = bytes.len().checked_sub(4)?;
    let mut bits = Bits { bytes: bytes.get(2..sum)?, at: 0 };
    let mut out = Vec::new();
    loop {
        let last = bits.take(1)? == 1;
        match bits.take(2)? {
            0 => stored(&mut bits, &mut out)?,
            1 => {
                let (literals, distances) = fixed_codes();
                block(&mut bits, &mut out, &literals, &distances)?;
            }
            2 => {
                let (literals, distances) = own_codes(&mut bits)?;
                block(&mut bits, &mut out, &literals, &distances)?;
            }
            _ => return None,
        }
        if last {
            break;
        }
    }
    let (a, b) = out.iter().fold((1, 0), |(a, b), &byte| ((a + u32::from(byte)) % 65521, (b + a + u32::from(byte)) % 65521));
    let whole =
        bits.at.div_ceil(8) == bits.bytes.len() && bytes[0] & 15 == 8 && (256 * u32::from(bytes[0]) + u32::from(bytes[1])) % 31 == 0;
    (whole && word(&bytes[sum..])? == b << 16 | a).then_some(out)
}

/// What a filter foretold of a byte.
fn foretold(kind: u8, left: u8, up: u8, corner: u8) -> Option<u8> {
    let [a, b, c] = [left, up, corner].map(i32::from);
    let near = [(left, b - c), (up, a - c), (corner, a + b - 2 * c)];
    Some(match kind {
        0 => 0,
        1 => left,
        2 => up,
        3 => ((a + b) / 2) as u8,
        // The first of those that are nearest.
        4 => near.into_iter().min_by_key(|(_, off)| off.abs())?.0,
        _ => return None,
    })
}

fn unfiltered(rows: Bytes, length: usize) -> Option<Vec<u8>> {
    let mut out: Vec<u8> = Vec::new();
    let mut before = vec![0; length];
    for row in rows.chunks(length + 1) {
        let mut now: Vec<u8> = Vec::new();
        for (i, byte) in row[1..].iter().enumerate() {
            let (left, corner) = if i < 3 { (0, 0) } else { (now[i - 3], before[i - 3]) };
            now.push(byte.wrapping_add(foretold(row[0], left, before[i], corner)?));
        }
        out.extend(&now);
        before = now;
    }
    Some(out)
}

fn ppm(png: Bytes) -> Option<Vec<u8>> {
    let (name, head, mut rest) = chunk(png.strip_prefix(b"\x89PNG\r\n\x1a\n")?)?;
    let (width, height) = (word(head)? as usize, word(&head[4..])? as usize);
    if name != b"IHDR" || head[8..] != [8, 2, 0, 0, 0] {
        return None;
    }
    let mut data = Vec::new();
    loop {
        let (name, part, behind) = chunk(rest)?;
        rest = behind;
        match name {
            b"IDAT" => data.extend(part),
            b"IEND" if part.is_empty() && rest.is_empty() => break,
            _ => return None,
        }
    }
    let rows = inflate(&data)?;
    let pixels = unfiltered(&rows, 3 * width)?;
    let mut out = format!("P6\n{width} {height}\n255\n").into_bytes();
    out.extend(&pixels);
    (pixels.len() == 3 * width * height && rows.len() == pixels.len() + height).then_some(out)
}

fn main() -> io::Result<()> {
    let mut png = Vec::new();
    io::stdin().read_to_end(&mut png)?;
    let Some(ppm) = ppm(&png) else {
        eprintln!("Error: standard input is no PNG of 8 bits for red, green and blue, or a damaged one.");
        std::process::exit(1);
    };
    io::stdout().write_all(&ppm)
}
