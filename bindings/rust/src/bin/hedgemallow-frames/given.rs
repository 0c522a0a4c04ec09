//! What the command line names: a card, a curve, areas. The rules and the words are those of the programs `filter` and `totals`.

use crate::fault::{words, Fault};
use hedgemallow::{curve_from_bytes, Station, AREAS, CURVE};
use std::ffi::OsStr;
use std::fs::File;
use std::io::{self, Read};
use std::os::unix::ffi::OsStrExt;
use std::path::Path;

/// More bytes than a card or a curve has: what is longer is refused by so many of them already.
const MOST: u64 = 4096;

fn read(name: &OsStr) -> io::Result<Vec<u8>> {
    let mut bytes = Vec::new();
    File::open(name)?.take(MOST).read_to_end(&mut bytes)?;
    Ok(bytes)
}

fn digit(byte: u8) -> Option<u8> {
    char::from(byte).to_digit(16).map(|value| value as u8)
}

/// The bytes of a text of pairs of hexadecimal digits, with spaces before, between and after them; `None` for any other text.
fn hexadecimal(text: &[u8]) -> Option<Vec<u8>> {
    let mut bytes = Vec::new();
    let mut rest = text;
    loop {
        rest = match rest {
            [] => return Some(bytes),
            [b' ', tail @ ..] => tail,
            [high, low, tail @ ..] => {
                bytes.push(16 * digit(*high)? + digit(*low)?);
                tail
            }
            [_] => return None,
        };
    }
}

/// The bytes of a card: those of the text where it is hexadecimal, else those of the file that it names.
fn card(text: &OsStr) -> Result<Vec<u8>, Fault> {
    if let Some(bytes) = hexadecimal(text.as_bytes()) {
        return Ok(bytes);
    }
    read(text).map_err(|error| {
        let neither = "neither hexadecimal (two digits for each byte) nor a file that can be read";
        Fault::of(Path::new(text).display(), format_args!("{neither}: {}", words(&error)))
    })
}

/// The station that the card opens.
pub fn station(text: &OsStr) -> Result<Station, Fault> {
    Station::open(&card(text)?)
        .map_err(|refusal| Fault::of(Path::new(text).display(), format_args!("refused: {}, {refusal}", refusal.number())))
}

/// The curve in the file of that name. A bad one is refused also where the card reads none.
pub fn curve(name: &OsStr) -> Result<[f32; CURVE], Fault> {
    let told = Path::new(name).display();
    let bytes = read(name).map_err(|error| Fault::of(&told, words(&error)))?;
    let Ok(bytes) = bytes.as_slice().try_into() else {
        return Err(Fault::of(told, "no curve: it has not 1024 bytes, which are 256 binary32, the low byte first"));
    };
    let curve = curve_from_bytes(bytes);
    if curve.iter().all(|word| (0.0..=1.0).contains(word)) {
        Ok(curve)
    } else {
        Err(Fault::of(told, "no curve: a number in it is not from 0 to 1"))
    }
}

/// Areas, each as it was written and as left, top, width and height.
#[derive(Debug, Default, PartialEq, Eq)]
pub struct Areas {
    pub texts: Vec<String>,
    pub numbers: Vec<u16>,
}

impl Areas {
    /// One more.
    pub fn add(&mut self, text: String) -> Result<(), Fault> {
        let none = |why: &str| Fault::Usage(format!("{text}: no area: {why}"));
        let parts: Vec<&str> = text.split(',').collect();
        let is_number = |part: &&str| !part.is_empty() && part.bytes().all(|byte| byte.is_ascii_digit());
        if parts.len() != 4 || !parts.iter().all(is_number) {
            return Err(none("it is LEFT,TOP,WIDTH,HEIGHT, four numbers"));
        }
        let numbers: Result<Vec<u16>, _> = parts.iter().map(|part| part.parse()).collect();
        self.numbers.extend(numbers.map_err(|_| none("a number is above 65535"))?);
        self.texts.push(text);
        if self.texts.len() > AREAS {
            return Err(Fault::Usage(format!("too many areas: at most {AREAS}")));
        }
        Ok(())
    }
}

#[cfg(test)]
mod tests {
    use super::*;

    #[test]
    fn hexadecimal_is_pairs_and_spaces() {
        for (text, bytes) in [("", &[][..]), ("  ", &[]), ("10", &[16]), ("11 a9Fc", &[0x11, 0xA9, 0xFC]), (" 0F  1f ", &[15, 31])] {
            assert_eq!(hexadecimal(text.as_bytes()), Some(bytes.to_vec()), "{text}");
        }
        for text in [" 0  1f ", "1", "11 A", "1 1", "0x11", "1G", "11\t10", "+1", "\u{661}\u{661}"] {
            assert_eq!(hexadecimal(text.as_bytes()), None, "{text}");
        }
    }

    #[test]
    fn an_area_is_four_numbers() {
        let mut areas = Areas::default();
        assert_eq!(areas.add("0136,120,016,65535".into()), Ok(()));
        assert_eq!(areas.numbers, [136, 120, 16, 65535]);
        for text in ["", "1,2,3", "1,2,3,4,5", "1,2,3,", ",1,2,3", "1,2,3,-4", "1,2,3,+4", "1, 2,3,4", "a,b,c,d"] {
            let line = format!("{text}: no area: it is LEFT,TOP,WIDTH,HEIGHT, four numbers");
            assert_eq!(Areas::default().add(text.into()), Err(Fault::Usage(line)));
        }
        for text in ["65536,0,1,1", "0,0,1,99999999999999999999999999"] {
            assert_eq!(Areas::default().add(text.into()), Err(Fault::Usage(format!("{text}: no area: a number is above 65535"))));
        }
    }

    #[test]
    fn at_most_64_areas_are_taken() {
        let mut areas = Areas::default();
        for _ in 0..AREAS {
            assert_eq!(areas.add("0,0,1,1".into()), Ok(()));
        }
        assert_eq!(areas.add("0,0,1,1".into()), Err(Fault::Usage("too many areas: at most 64".into())));
    }
}
