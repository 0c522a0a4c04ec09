//! A picture as PNG. The same picture always gives the same bytes: the compression is this file's own (matches by a hash of three bytes,
//! fixed codes).

/// What is shown: three bytes for each pixel, row after row.
pub struct Picture<'a> {
    pub width: usize,
    pub height: usize,
    pub pixels: &'a [u8],
}

/// One of PNG's five filters: what is left of a byte when its neighbours have foretold it.
fn filtered(kind: u8, left: u8, up: u8, corner: u8) -> u8 {
    let (a, b, c) = (i16::from(left), i16::from(up), i16::from(corner));
    match kind {
        0 => 0,
        1 => left,
        2 => up,
        3 => ((a + b) / 2) as u8,
        _ => {
            let p = a + b - c;
            let (da, db, dc) = ((p - a).abs(), (p - b).abs(), (p - c).abs());
            if da <= db && da <= dc {
                left
            } else if db <= dc {
                up
            } else {
                corner
            }
        }
    }
}

/// Each row after the number of the filter that leaves the smallest bytes.
fn rows(picture: &Picture) -> Vec<u8> {
    let length = 3 * picture.width;
    let at = |y: usize, i: usize| picture.pixels[y * length + i];
    let mut out = Vec::new();
    for y in 0..picture.height {
        let row = |kind: u8| -> Vec<u8> {
            let byte = |i: usize| {
                let left = if i < 3 { 0 } else { at(y, i - 3) };
                let up = if y == 0 { 0 } else { at(y - 1, i) };
                let corner = if i < 3 || y == 0 { 0 } else { at(y - 1, i - 3) };
                at(y, i).wrapping_sub(filtered(kind, left, up, corner))
            };
            (0..length).map(byte).collect()
        };
        let size = |row: &Vec<u8>| row.iter().map(|&b| u32::from((b as i8).unsigned_abs())).sum::<u32>();
        let (kind, best) = (0..5).map(|kind| (kind, row(kind))).min_by_key(|(_, row)| size(row)).unwrap();
        out.push(kind);
        out.extend(best);
    }
    out
}

/// Bits, the lowest first, as deflate packs them.
#[derive(Default)]
struct Bits {
    bytes: Vec<u8>,
    held: u64,
    count: u32,
}

impl Bits {
    fn put(&mut self, value: u32, width: u32) {
        self.held |= u64::from(value) << self.count;
        self.count += width;
        while self.count >= 8 {
            self.bytes.push(self.held as u8);
            self.held >>= 8;
            self.count -= 8;
        }
    }

    /// A code of deflate's fixed table: the highest bit first.
    fn code(&mut self, value: u32, width: u32) {
        self.put(value.reverse_bits() >> (32 - width), width);
    }

    fn symbol(&mut self, s: u32) {
        match s {
            0..=143 => self.code(0x30 + s, 8),
            144..=255 => self.code(0x190 + s - 144, 9),
            256..=279 => self.code(s - 256, 7),
            _ => self.code(0xc0 + s - 280, 8),
        }
    }

    /// A number of the table in which each group of `1 << step` codes has one bit more: its code, then the bits that are left.
    fn graded(value: u32, step: u32) -> (u32, u32, u32) {
        if value < 2 << step {
            return (value, 0, 0);
        }
        let extra = value.ilog2() - step;
        ((extra << step) + (value >> extra), value & ((1 << extra) - 1), extra)
    }

    fn copy(&mut self, length: usize, distance: usize) {
        if length == 258 {
            self.symbol(285);
        } else {
            let (code, rest, extra) = Bits::graded(length as u32 - 3, 2);
            self.symbol(257 + code);
            self.put(rest, extra);
        }
        let (code, rest, extra) = Bits::graded(distance as u32 - 1, 1);
        self.code(code, 5);
        self.put(rest, extra);
    }

    fn finish(mut self) -> Vec<u8> {
        self.put(0, 7);
        self.bytes
    }
}

fn deflate(data: &[u8]) -> Vec<u8> {
    const NONE: usize = usize::MAX;
    let hash = |i: usize| (usize::from(data[i]) << 10 ^ usize::from(data[i + 1]) << 5 ^ usize::from(data[i + 2])) & 0x7fff;
    let mut head = vec![NONE; 0x8000];
    let mut earlier = vec![NONE; data.len()];
    let mut bits = Bits::default();
    bits.put(0b011, 3);
    let mut i = 0;
    while i < data.len() {
        let (mut length, mut distance) = (1, 0);
        if i + 3 <= data.len() {
            let mut from = head[hash(i)];
            for _ in 0..256 {
                // No match is longer than 258, so the first of that length is kept.
                if from == NONE || i - from > 32768 || length == 258 {
                    break;
                }
                let same = data[from..].iter().zip(&data[i..]).take(258).take_while(|(a, b)| a == b).count();
                if same >= 3 && same > length {
                    (length, distance) = (same, i - from);
                }
                from = earlier[from];
            }
        }
        if distance == 0 {
            bits.symbol(u32::from(data[i]));
        } else {
            bits.copy(length, distance);
        }
        for j in i..i + length {
            if j + 3 <= data.len() {
                earlier[j] = head[hash(j)];
                head[hash(j)] = j;
            }
        }
        i += length;
    }
    bits.symbol(256);
    bits.finish()
}

fn zlib(data: &[u8]) -> Vec<u8> {
    let (mut a, mut b) = (1u32, 0u32);
    for &byte in data {
        a = (a + u32::from(byte)) % 65521;
        b = (b + a) % 65521;
    }
    let mut out = vec![0x78, 0xda];
    out.extend(deflate(data));
    out.extend((b << 16 | a).to_be_bytes());
    out
}

fn chunk(out: &mut Vec<u8>, name: &[u8; 4], data: &[u8]) {
    let body = [&name[..], data].concat();
    let mut crc = !0u32;
    for &byte in &body {
        crc ^= u32::from(byte);
        for _ in 0..8 {
            crc = crc >> 1 ^ if crc & 1 == 1 { 0xedb8_8320 } else { 0 };
        }
    }
    out.extend((data.len() as u32).to_be_bytes());
    out.extend(body);
    out.extend((!crc).to_be_bytes());
}

pub fn png(picture: &Picture) -> Vec<u8> {
    let mut head = Vec::new();
    head.extend((picture.width as u32).to_be_bytes());
    head.extend((picture.height as u32).to_be_bytes());
    head.extend([8, 2, 0, 0, 0]);
    let mut out = b"\x89PNG\r\n\x1a\n".to_vec();
    chunk(&mut out, b"IHDR", &head);
    chunk(&mut out, b"IDAT", &zlib(&rows(picture)));
    chunk(&mut out, b"IEND", &[]);
    out
}
