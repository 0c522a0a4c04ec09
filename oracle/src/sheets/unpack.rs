//! The words of a frame, read from any bit of a sheet on: compared with the bits one by one, on copies that end, and then begin, at a page
//! that nobody may touch.

use crate::pages::{Guard, Room};
use crate::probe;
use crate::random::Random;
use crate::tally::{Tally, Total};

/// What stands in the words before the call: no word of 24 bits.
const MARK: u32 = 0xa5a5_5a5a;

/// Bits of a sheet before a frame: at each bit of a byte, in the first byte too, and far behind it.
const FIRST: usize = 40;
const FAR: usize = 100_000;

/// Lengths of frames: short ones, since a loop may treat its last few words in another way than those before them, and others.
fn lengths() -> impl Iterator<Item = usize> {
    (0..=67).chain([128, 255, 256, 257, 1000, 4096])
}

pub fn run(total: &mut Total) {
    let random = &mut Random::named("unpack");
    let mut rooms = [Room::new(), Room::new()];
    let mut tally = Tally::<0>::new("unpack", &[]);
    for length in lengths() {
        for from in (1..=FIRST).chain(FAR..FAR + 8) {
            // Not a byte more than the words take, and some.
            for more in [0, 0, 5] {
                let bytes = (from + 24 * length).div_ceil(8) + more;
                let sheet: Vec<u8> = (0..bytes).map(|_| random.word() as u8).collect();
                for guard in [Guard::After, Guard::Before] {
                    compare(&sheet, length, from, guard, &mut rooms, &mut tally);
                }
            }
        }
    }
    total.add(&tally);
}

fn compare(
    sheet: &[u8],
    length: usize,
    from: usize,
    guard: Guard,
    [words, bytes]: &mut [Room; 2],
    tally: &mut Tally<0>,
) {
    let words = words.lay(&vec![MARK; length], guard);
    let bytes = bytes.lay(sheet, guard);
    probe::unpack(words, bytes, from);
    for (place, &here) in words.iter().enumerate() {
        let asked = word(sheet, from + 24 * place);
        tally.count(here == asked, || {
            format!("word {place} of {length} from bit {from} on: here {here:06x}, by its bits {asked:06x}")
        });
    }
    tally.count(bytes == sheet, || {
        format!("{length} words from bit {from} on: the sheet was written")
    });
}

/// The 24 bits from this one on, most significant first.
fn word(sheet: &[u8], from: usize) -> u32 {
    let bits = (from..from + 24).map(|place| sheet[place / 8] >> (7 - place % 8) & 1);
    bits.fold(0, |word, bit| word << 1 | u32::from(bit))
}
