//! What the fuzz targets share. libFuzzer calls `fuzz_station` (station/fuzz.rs), `fuzz_bridge` (runs/fuzz.rs), `fuzz_card` or
//! `fuzz_filter` (programs/fuzz.rs) or `fuzz_sheet` (programs/sheet/fuzz.rs) with bytes of its own making, guided by the coverage of
//! this program: the model, and the original's files. A difference is a panic, which ends the process, and libFuzzer keeps the bytes.

use crate::met::{Listed, Met};

/// More than there are cases of any target.
const CASES: usize = 512;

// A second guide beside the coverage: libFuzzer clears this section before each input and reads it after.
#[used]
#[link_section = "__libfuzzer_extra_counters"]
static mut COUNTERS: [u8; CASES] = [0; CASES];

/// Tells libFuzzer which cases an input met, and how often.
pub fn guide<C: Listed>(met: &Met<C>) {
    guide_from(0, met);
}

/// The same for a target with more than one list of cases: this one's counters begin at place `first`.
pub fn guide_from<C: Listed>(first: usize, met: &Met<C>) {
    assert!(first + met.counts().len() <= CASES);
    for (place, &count) in met.counts().iter().enumerate() {
        // SAFETY: one thread, and libFuzzer reads it between two inputs.
        unsafe { COUNTERS[first + place] = count.min(255) as u8 };
    }
}

/// The bytes of an input.
///
/// # Safety
/// As libFuzzer calls its target: `data` has `len` bytes, which stay as they are for the call.
pub unsafe fn input<'a>(data: *const u8, len: usize) -> &'a [u8] {
    std::slice::from_raw_parts(data, len)
}

/// The fuzzer's bytes in turn, and zeros after the last.
pub struct Tape<'a> {
    pub rest: &'a [u8],
}

impl Tape<'_> {
    pub fn byte(&mut self) -> u8 {
        let Some((&byte, rest)) = self.rest.split_first() else {
            return 0;
        };
        self.rest = rest;
        byte
    }

    pub fn bytes(&mut self, count: usize) -> Vec<u8> {
        (0..count).map(|_| self.byte()).collect()
    }

    /// As many bytes as two bytes say, the low one first, or as there are.
    pub fn string(&mut self) -> Vec<u8> {
        let length = usize::from(u16::from_le_bytes([self.byte(), self.byte()]));
        self.bytes(length.min(self.rest.len()))
    }

    /// Up to 128 more than this, or less.
    pub fn near(&mut self, needed: usize) -> usize {
        let more = self.byte() as i8;
        needed.saturating_add_signed(more.into())
    }
}
