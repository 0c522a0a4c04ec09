//! The enlarged frame of a source alone: compared with the model place by place, on copies that end, and then begin, at a page that nobody
//! may touch.

use super::model::{self, COLOURS, LONGEST};
use crate::bridge::Source;
use crate::cards::paper::Size;
use crate::pages::{Guard, Room};
use crate::probe;
use crate::random::Random;
use crate::tally::{Tally, Total};

/// What stands in the frame before the call: no colour.
const MARK: u32 = 0xa5a5_5a5a;

/// Widths that are short, since a loop may treat its last few words in another way than those before them; thin ones and the largest.
fn sizes() -> impl Iterator<Item = Size> {
    let short = (1..=67).flat_map(|width| [(width, 1), (width, 2), (width, 5)]);
    let few = [
        (1, LONGEST),
        (LONGEST, 1),
        (LONGEST - 1, 3),
        (85, 80),
        (256, 240),
        (LONGEST, LONGEST),
    ];
    short.chain(few)
}

pub fn run(total: &mut Total) {
    let random = &mut Random::named("enlarge");
    let mut rooms = [Room::new(), Room::new(), Room::new()];
    let mut tally = Tally::<0>::new("enlarge", &[]);
    for (width, height) in sizes() {
        // Not a number or a colour more than is read, and some.
        for more in [0, 0, 5] {
            let numbers = width * height + more;
            let picture: Vec<u8> = (0..numbers).map(|_| random.word() as u8).collect();
            let colours: Vec<u32> = (0..COLOURS + more).map(|_| random.word()).collect();
            let source = Source {
                picture: &picture,
                width,
                height,
                colours: &colours,
            };
            for guard in [Guard::After, Guard::Before] {
                compare(source, guard, &mut rooms, &mut tally);
            }
        }
    }
    total.add(&tally);
}

fn compare(
    source: Source,
    guard: Guard,
    [frame, bytes, words]: &mut [Room; 3],
    tally: &mut Tally<0>,
) {
    let (width, height) = (source.width, source.height);
    let asked = model::enlarged(source);
    let frame = frame.lay(&vec![MARK; 9 * width * height], guard);
    let picture = bytes.lay(source.picture, guard);
    let colours = words.lay(source.colours, guard);
    let laid = Source {
        picture,
        colours,
        ..source
    };
    probe::enlarge(frame, laid);
    for (place, here) in frame.iter().enumerate() {
        let asked = asked.get(place);
        tally.count(Some(here) == asked, || {
            format!("word {place} of a source of {width} by {height}: here {here:08x}, by the model {asked:08x?}")
        });
    }
    let read = picture == source.picture && colours == source.colours;
    tally.count(read, || {
        format!("a source of {width} by {height}: it was written")
    });
}
