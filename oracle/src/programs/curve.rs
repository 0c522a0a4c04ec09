//! A file with a curve, as the programs `filter` and `sheet` take one: 256 binary32, the low byte first, each of them from 0 to 1.

use super::files::File;
use super::process::Said;
use crate::passes::curves;

/// Why a file holds none.
#[derive(Clone, Copy, PartialEq, Debug)]
pub enum Fault {
    Missing,
    Length,
    Word,
}

const OTHER_LENGTH: &str =
    "no curve: it has not 1024 bytes, which are 256 binary32, the low byte first";
const BAD_WORD: &str = "no curve: a number in it is not from 0 to 1";

/// The words of the curve; or why there are none, and what is said of that.
pub fn taken(File { name, bytes }: &File) -> Result<Vec<f32>, (Fault, Said)> {
    let none = |fault, why: &str| (fault, Said::refusal(name, why));
    let bytes = bytes.as_ref().map_err(|why| none(Fault::Missing, why))?;
    if bytes.len() != 4 * curves::READ {
        return Err(none(Fault::Length, OTHER_LENGTH));
    }
    let word = |four: &[u8]| f32::from_le_bytes([four[0], four[1], four[2], four[3]]);
    let words: Vec<f32> = bytes.chunks(4).map(word).collect();
    if !curves::is_good(&words) {
        return Err(none(Fault::Word, BAD_WORD));
    }
    Ok(words)
}
