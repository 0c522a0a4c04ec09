//! The steps and passes under comparison, the reading of a sheet's words and the enlarging of a source, from the static library `probe`,
//! as safe functions. Nothing checks these declarations against the library's source in crates/probe/src, so a change there must be made
//! here too. What a pass requires is asserted.

use crate::bridge::Source;
use crate::cards::paper::Size;
use crate::reports::Reports;

/// The declarations, in a module of their own so that the safe functions may bear short names.
mod exports {
    #[link(name = "probe", kind = "static")]
    extern "C" {
        pub fn probe_cut(xs: *const f32, xs_len: usize, out: *mut u32, out_len: usize);
        pub fn probe_cut_clamped(xs: *const f32, xs_len: usize, out: *mut u32, out_len: usize);
        pub fn probe_cut_unit(xs: *const f32, xs_len: usize, out: *mut u32, out_len: usize);
        pub fn probe_nearest(xs: *const f32, xs_len: usize, out: *mut u32, out_len: usize);
        pub fn probe_round(xs: *const f32, xs_len: usize, out: *mut f32, out_len: usize);
        pub fn probe_root(xs: *mut f32, xs_len: usize);
        pub fn probe_card(
            card: *const u8,
            card_len: usize,
            at: usize,
            width: u16,
            height: u16,
            out: *mut u8,
            out_len: usize,
        ) -> usize;
        pub fn probe_clamp(x: f32, lo: f32, hi: f32) -> f32;
        pub fn probe_min(a: f32, b: f32) -> f32;
        pub fn probe_max(a: f32, b: f32) -> f32;
        pub fn probe_abs(x: f32) -> f32;
        pub fn probe_limit(x: f32, lo: f32, hi: f32) -> f32;
        pub fn probe_auto_gradient(
            frame: *mut u32,
            frame_len: usize,
            width: usize,
            height: usize,
            strength: f32,
            vertical: f32,
            horizontal: f32,
        ) -> u32;
        pub fn probe_bloom(
            frame: *mut u32,
            frame_len: usize,
            scratch: *mut f32,
            scratch_len: usize,
            width: usize,
            height: usize,
            threshold: u8,
            strength: f32,
            radius: usize,
            samples: *mut u32,
        ) -> u32;
        pub fn probe_color_correction(
            frame: *mut u32,
            frame_len: usize,
            curve: *const f32,
            curve_len: usize,
            brightness: f32,
            contrast: f32,
            saturation: f32,
            gamma: f32,
        ) -> u32;
        pub fn probe_crt(
            frame: *mut u32,
            frame_len: usize,
            width: usize,
            height: usize,
            strength: f32,
        );
        pub fn probe_curvature(
            frame: *mut u32,
            frame_len: usize,
            scratch: *mut u32,
            scratch_len: usize,
            width: usize,
            height: usize,
            amount: f32,
        );
        pub fn probe_lut(frame: *mut u32, frame_len: usize, preset: u8, strength: f32) -> u32;
        pub fn probe_ntsc(
            frame: *mut u32,
            frame_len: usize,
            width: usize,
            height: usize,
            strength: f32,
            bleed: usize,
            samples: *mut u32,
        ) -> u32;
        pub fn probe_persistence(
            frame: *mut u32,
            frame_len: usize,
            history: *mut u32,
            history_len: usize,
            scratch: *mut u32,
            scratch_len: usize,
            amount: f32,
            depth: u8,
            held: *const u16,
            size: *const u16,
            clipped: *mut u32,
        );
        pub fn probe_unpack(
            words: *mut u32,
            words_len: usize,
            sheet: *const u8,
            sheet_len: usize,
            from: usize,
        );
        pub fn probe_enlarge(
            out: *mut u32,
            out_len: usize,
            picture: *const u8,
            picture_len: usize,
            width: usize,
            height: usize,
            colours: *const u32,
            colours_len: usize,
        );
        pub fn probe_scanlines(
            frame: *mut u32,
            frame_len: usize,
            width: usize,
            height: usize,
            strength: f32,
        );
        pub fn probe_vignette(
            frame: *mut u32,
            frame_len: usize,
            scratch: *mut f32,
            scratch_len: usize,
            width: usize,
            height: usize,
            strength: f32,
        );
    }
}

/// An export over slices: it reads `xs`, and writes `out` up to the shorter of the two lengths.
type Export<T> = unsafe extern "C" fn(*const f32, usize, *mut T, usize);

/// Calls an export on two slices. `export` must be one of those declared above.
fn over<T>(export: Export<T>, xs: &[f32], out: &mut [T]) {
    assert_lendable(xs.as_ptr(), xs.len());
    assert_lendable(out.as_ptr(), out.len());
    // SAFETY: both pointers come with the length of their own slice, and a shared and a mutable
    // slice never overlap. The export keeps neither pointer.
    unsafe { export(xs.as_ptr(), xs.len(), out.as_mut_ptr(), out.len()) }
}

/// What `probe_card` adds to a refusal's number: no card is so long.
const REFUSED: usize = 256;

/// Opens a card, lets the place `at` of its station, if there is such a one, remember frames of size `held`, and writes it. Answers the
/// length, or a refusal's number.
pub fn card(card: &[u8], at: usize, held: Size, out: &mut [u8]) -> Result<usize, u32> {
    assert_lendable(card.as_ptr(), card.len());
    assert_lendable(out.as_ptr(), out.len());
    // SAFETY: both pointers come with the length of their own slice, and a shared and a mutable
    // slice never overlap. The export keeps neither pointer.
    let [width, height] = sides(held);
    let answer = unsafe {
        exports::probe_card(
            card.as_ptr(),
            card.len(),
            at,
            width,
            height,
            out.as_mut_ptr(),
            out.len(),
        )
    };
    match answer.checked_sub(REFUSED) {
        None => Ok(answer),
        Some(number) => Err(number as u32),
    }
}

/// A size as the library takes it.
fn sides((width, height): Size) -> [u16; 2] {
    [width, height].map(|side| side.try_into().expect("a side has 16 bits"))
}

/// What the library takes for granted of a slice that it is lent, an empty one included: bytes, or
/// words of four bytes, a pointer that is aligned and not null, and a size that a pointer can span. A
/// Rust slice has all this. It is asserted because the other side cannot be seen from here.
fn assert_lendable<T>(start: *const T, len: usize) {
    assert!(matches!(size_of::<T>(), 1 | 4));
    assert!(!start.is_null() && start.is_aligned());
    assert!(len <= isize::MAX as usize / size_of::<T>());
}

pub fn cut(xs: &[f32], out: &mut [u32]) {
    over(exports::probe_cut, xs, out);
}

pub fn cut_clamped(xs: &[f32], out: &mut [u32]) {
    over(exports::probe_cut_clamped, xs, out);
}

pub fn cut_unit(xs: &[f32], out: &mut [u32]) {
    over(exports::probe_cut_unit, xs, out);
}

pub fn nearest(xs: &[f32], out: &mut [u32]) {
    over(exports::probe_nearest, xs, out);
}

pub fn round(xs: &[f32], out: &mut [f32]) {
    over(exports::probe_round, xs, out);
}

/// The export works in place: `out` is given the operands first.
pub fn root(xs: &[f32], out: &mut [f32]) {
    let n = xs.len().min(out.len());
    let out = &mut out[..n];
    out.copy_from_slice(&xs[..n]);
    assert_lendable(out.as_ptr(), out.len());
    // SAFETY: the pointer comes with the length of its own slice, and the export does not keep it.
    unsafe { exports::probe_root(out.as_mut_ptr(), out.len()) }
}

/// The words of 24 bits that stand on a sheet from the bit `from` on. A sheet begins with its event count, so no frame begins at bit 0.
pub fn unpack(words: &mut [u32], sheet: &[u8], from: usize) {
    assert_lendable(words.as_ptr(), words.len());
    assert_lendable(sheet.as_ptr(), sheet.len());
    assert!(0 < from && from < 1 << 44);
    assert!(from + 24 * words.len() <= 8 * sheet.len());
    let (start, len) = (words.as_mut_ptr(), words.len());
    // SAFETY: both pointers come with the length of their own slice, and a shared and a mutable
    // slice never overlap. The export keeps neither pointer.
    unsafe { exports::probe_unpack(start, len, sheet.as_ptr(), sheet.len(), from) }
}

/// The enlarged frame of a source, in exactly its words.
pub fn enlarge(out: &mut [u32], source: Source) {
    let Source {
        picture,
        width,
        height,
        colours,
    } = source;
    assert_lendable(out.as_ptr(), out.len());
    assert_lendable(picture.as_ptr(), picture.len());
    assert_lendable(colours.as_ptr(), colours.len());
    assert!(width <= 341 && height <= 341);
    assert!(picture.len() >= height * width && colours.len() >= 64);
    assert!(out.len() == 3 * height * (3 * width));
    // SAFETY: each pointer comes with the length of its own slice, and shared and mutable slices never overlap. The export keeps none.
    unsafe {
        exports::probe_enlarge(
            out.as_mut_ptr(),
            out.len(),
            picture.as_ptr(),
            picture.len(),
            width,
            height,
            colours.as_ptr(),
            colours.len(),
        )
    }
}

// These take numbers only and are defined for all of them, so there is nothing to assert.

pub fn clamp(x: f32, lo: f32, hi: f32) -> f32 {
    // SAFETY: numbers in, a number out.
    unsafe { exports::probe_clamp(x, lo, hi) }
}

pub fn min(a: f32, b: f32) -> f32 {
    // SAFETY: as above.
    unsafe { exports::probe_min(a, b) }
}

pub fn max(a: f32, b: f32) -> f32 {
    // SAFETY: as above.
    unsafe { exports::probe_max(a, b) }
}

pub fn abs(x: f32) -> f32 {
    // SAFETY: as above.
    unsafe { exports::probe_abs(x) }
}

pub fn limit(x: f32, lo: f32, hi: f32) -> f32 {
    // SAFETY: as above.
    unsafe { exports::probe_limit(x, lo, hi) }
}

// The passes. Those with a final clamp give how many channels it clipped, and a blur also how many samples it took. What is safe of a
// call is the same for all: each buffer is a slice or an array of its own, goes with its own length and is not kept.

/// What stands where a pass puts a number, before it does: no pass counts so many.
const UNTOLD: [u32; 1] = [u32::MAX];

/// What a pass requires of its frame, by rows of `width` words. Not more is lent than that.
fn assert_frame(frame: &[u32], width: usize, height: usize) {
    assert!(width <= 1024 && height <= 1024);
    assert!(frame.len() == height * width);
    assert_lendable(frame.as_ptr(), frame.len());
}

pub fn auto_gradient(
    frame: &mut [u32],
    width: usize,
    height: usize,
    strength: f32,
    vertical: f32,
    horizontal: f32,
) -> u32 {
    assert_frame(frame, width, height);
    let (start, len) = (frame.as_mut_ptr(), frame.len());
    // SAFETY: as said of the passes.
    unsafe {
        exports::probe_auto_gradient(start, len, width, height, strength, vertical, horizontal)
    }
}

pub fn bloom(
    frame: &mut [u32],
    scratch: &mut [f32],
    width: usize,
    height: usize,
    threshold: u8,
    strength: f32,
    radius: usize,
) -> Reports {
    assert_frame(frame, width, height);
    assert_lendable(scratch.as_ptr(), scratch.len());
    assert!(scratch.len() >= 3 * frame.len());
    assert!(radius <= 64);
    let mut samples = UNTOLD;
    // SAFETY: as said of the passes.
    let clipped = unsafe {
        exports::probe_bloom(
            frame.as_mut_ptr(),
            frame.len(),
            scratch.as_mut_ptr(),
            scratch.len(),
            width,
            height,
            threshold,
            strength,
            radius,
            samples.as_mut_ptr(),
        )
    };
    let [samples] = samples;
    Reports { clipped, samples }
}

pub fn color_correction(
    frame: &mut [u32],
    curve: &[f32],
    brightness: f32,
    contrast: f32,
    saturation: f32,
    gamma: f32,
) -> u32 {
    assert_lendable(frame.as_ptr(), frame.len());
    assert_lendable(curve.as_ptr(), curve.len());
    assert!(frame.len() <= 1024 * 1024);
    assert!(gamma == 1.0 || curve.len() >= 256);
    // SAFETY: as said of the passes.
    unsafe {
        exports::probe_color_correction(
            frame.as_mut_ptr(),
            frame.len(),
            curve.as_ptr(),
            curve.len(),
            brightness,
            contrast,
            saturation,
            gamma,
        )
    }
}

pub fn crt(frame: &mut [u32], width: usize, height: usize, strength: f32) {
    assert_frame(frame, width, height);
    let (start, len) = (frame.as_mut_ptr(), frame.len());
    // SAFETY: as said of the passes.
    unsafe { exports::probe_crt(start, len, width, height, strength) }
}

pub fn curvature(frame: &mut [u32], scratch: &mut [u32], width: usize, height: usize, amount: f32) {
    assert_frame(frame, width, height);
    assert_lendable(scratch.as_ptr(), scratch.len());
    assert!(scratch.len() >= frame.len());
    // SAFETY: as said of the passes.
    unsafe {
        exports::probe_curvature(
            frame.as_mut_ptr(),
            frame.len(),
            scratch.as_mut_ptr(),
            scratch.len(),
            width,
            height,
            amount,
        )
    }
}

pub fn lut(frame: &mut [u32], preset: u8, strength: f32) -> u32 {
    assert_lendable(frame.as_ptr(), frame.len());
    assert!(frame.len() <= 1024 * 1024);
    // SAFETY: as said of the passes.
    unsafe { exports::probe_lut(frame.as_mut_ptr(), frame.len(), preset, strength) }
}

pub fn ntsc(
    frame: &mut [u32],
    width: usize,
    height: usize,
    strength: f32,
    bleed: usize,
) -> Reports {
    assert_frame(frame, width, height);
    assert!(bleed <= 64);
    let (start, len) = (frame.as_mut_ptr(), frame.len());
    let mut samples = UNTOLD;
    let told = samples.as_mut_ptr();
    // SAFETY: as said of the passes.
    let clipped = unsafe { exports::probe_ntsc(start, len, width, height, strength, bleed, told) };
    let [samples] = samples;
    Reports { clipped, samples }
}

/// Gives the clipped channels. `held` is the size of the frames that the history holds; after the call, `size` is.
pub fn persistence(
    frame: &mut [u32],
    history: &mut [u32],
    scratch: &mut [u32],
    amount: f32,
    depth: u8,
    held: Size,
    size: Size,
) -> u32 {
    assert_frame(frame, size.0, size.1);
    assert_lendable(history.as_ptr(), history.len());
    assert_lendable(scratch.as_ptr(), scratch.len());
    assert!((1..=8).contains(&depth));
    assert!(history.len() >= usize::from(depth) * frame.len());
    assert!(scratch.len() >= frame.len());
    let (held, size) = (sides(held), sides(size));
    let mut clipped = UNTOLD;
    // SAFETY: as said of the passes.
    unsafe {
        exports::probe_persistence(
            frame.as_mut_ptr(),
            frame.len(),
            history.as_mut_ptr(),
            history.len(),
            scratch.as_mut_ptr(),
            scratch.len(),
            amount,
            depth,
            held.as_ptr(),
            size.as_ptr(),
            clipped.as_mut_ptr(),
        )
    };
    clipped[0]
}

pub fn scanlines(frame: &mut [u32], width: usize, height: usize, strength: f32) {
    assert_frame(frame, width, height);
    let (start, len) = (frame.as_mut_ptr(), frame.len());
    // SAFETY: as said of the passes.
    unsafe { exports::probe_scanlines(start, len, width, height, strength) }
}

pub fn vignette(
    frame: &mut [u32],
    scratch: &mut [f32],
    width: usize,
    height: usize,
    strength: f32,
) {
    assert_frame(frame, width, height);
    assert!(width > 0 && height > 0);
    assert_lendable(scratch.as_ptr(), scratch.len());
    assert!(scratch.len() >= frame.len());
    // SAFETY: as said of the passes.
    unsafe {
        exports::probe_vignette(
            frame.as_mut_ptr(),
            frame.len(),
            scratch.as_mut_ptr(),
            scratch.len(),
            width,
            height,
            strength,
        )
    }
}
