//! The cabinet, by document 02's P14: what is wrong with a source, its enlarged frame place by place, and a frame of it on the machine of
//! the runs, the original's pipeline.

use crate::bridge::Source;
use crate::cards::paper::Size;
#[cfg(with_original)]
use crate::reports::Reports;
#[cfg(with_original)]
use crate::runs::machine::Machine;
#[cfg(with_original)]
use crate::runs::ours::laid;
#[cfg(with_original)]
use crate::runs::station::Lengths;

/// The longest side of a source, and its colours.
pub const LONGEST: usize = 341;
pub const COLOURS: usize = 64;

/// Whether a source is refused, by 21.
pub fn is_bad(source: Source) -> bool {
    let fine = |side: usize| (1..=LONGEST).contains(&side);
    if !fine(source.width) || !fine(source.height) {
        return true;
    }
    source.picture.len() < source.width * source.height || source.colours.len() < COLOURS
}

/// The sides of the enlarged frame of a good source.
pub fn sides(source: Source) -> Size {
    (3 * source.width, 3 * source.height)
}

/// The words of the enlarged frame of a good source.
pub fn enlarged(source: Source) -> Vec<u32> {
    let (wide, high) = sides(source);
    let places = (0..high).flat_map(|y| (0..wide).map(move |x| (x / 3, y / 3)));
    let number = |(x, y): (usize, usize)| source.picture[y * source.width + x];
    let colour = |number: u8| source.colours[usize::from(number) % COLOURS];
    places.map(|place| colour(number(place))).collect()
}

/// A frame of a source. Gives what it reports, or why it is refused: then the framebuffer is as it was.
#[cfg(with_original)]
pub fn show(
    machine: &mut Machine,
    source: Source,
    framebuffer: &mut [u32],
    lent: &Lengths,
    curve: &[f32],
) -> Result<Reports, u32> {
    if is_bad(source) {
        return Err(21);
    }
    let mut shown = laid(&enlarged(source), framebuffer);
    let counted = machine.frame(&mut shown, sides(source), lent, curve)?;
    framebuffer.copy_from_slice(&shown);
    Ok(counted)
}
