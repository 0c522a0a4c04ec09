//! The memory that a frame takes: of what is lent and of the stack here, of the heap in the original. The stack that the
//! totals of rectangles take, that a sheet takes, and that a source takes.

use std::io::{self, Write};
use std::process::ExitCode;

use super::cases::{self, Case};
use super::stand::{card, picture, Side, Size, Stand, CONSOLE};
use super::{heap, stack};
use crate::areas::bench::narrow;
use crate::bridge::{self, Source};
use crate::cabinet::model::{COLOURS, LONGEST};
use crate::sheets::paper::{write, Event};

/// The chains once more: whether the stack grows with the size.
const LARGEST: Size = (1024, 1024);

/// What stands in the scratch before a frame: as a float a NaN, and no pixel of the frame.
const MARK: u32 = 0xffa5_5a5a;

/// Prints a line for each case.
pub fn run() -> ExitCode {
    println!("Memory of a frame whose history is full. scratch_words: up to the last word written of the lent floats and of");
    println!("the lent ints; per_pixel: the same by the pixels. stack_bytes: down to the deepest byte written. Of the original's heap:");
    println!("all that a frame allocates, the most of it at one time, and what the effects keep between frames.");
    for case in cases::all() {
        line(&case, CONSOLE);
    }
    for case in cases::chains() {
        line(&case, LARGEST);
    }
    let (width, height) = LARGEST;
    println!(
        "memory call=areas size={width}x{height} stack_bytes={}",
        stack_of_areas()
    );
    for case in cases::chains() {
        let (pass, setting) = (case.pass, &case.setting);
        let stack = stack_of_sheet(&case);
        println!("memory call=play pass={pass} size={width}x{height} setting={setting} stack_bytes={stack}");
    }
    for case in cases::chains() {
        let (pass, setting) = (case.pass, &case.setting);
        let stack = stack_of_source(&case);
        println!("memory call=show pass={pass} source={LONGEST}x{LONGEST} setting={setting} stack_bytes={stack}");
    }
    ExitCode::SUCCESS
}

/// Writes an input of program `station` that makes it do the most: the dearest card and two frames of the largest
/// size that it takes, the first of which fills the history.
pub fn input() -> ExitCode {
    let [_, dearest] = cases::chains();
    let card = card(&dearest);
    let side = 32;
    let mut bytes = vec![card.len() as u8];
    bytes.extend(card);
    for _ in 0..2 {
        bytes.extend([b'F', side, side]);
        let words = picture((side.into(), side.into()));
        for word in words {
            bytes.extend(&word.to_be_bytes()[1..]);
        }
    }
    match io::stdout().write_all(&bytes) {
        Ok(()) => ExitCode::SUCCESS,
        Err(error) => {
            eprintln!("the input was not written: {error}");
            ExitCode::FAILURE
        }
    }
}

fn line(case: &Case, size: Size) {
    let mut stand = Stand::new(case, size);
    let given = picture(size);
    let scratch = scratch_and_stack(&mut stand, &given);
    let heap = heap_of(&mut stand, &given);
    let (pass, (width, height), setting) = (case.pass, size, &case.setting);
    let history = stand.history.len();
    println!("memory pass={pass} size={width}x{height} setting={setting} {scratch} history_words={history} {heap}");
}

/// What a frame here takes, in the words of its line.
fn scratch_and_stack(stand: &mut Stand, given: &[u32]) -> String {
    stand.floats.fill(f32::from_bits(MARK));
    stand.ints.fill(MARK);
    // The first frame fills the history, the second uses it.
    let stack = stack_of(stand, given).max(stack_of(stand, given));
    let floats = end(stand.floats.iter().map(|x| x.to_bits()));
    let ints = end(stand.ints.iter().copied());
    let words = floats + ints;
    let per_pixel = words as f64 / given.len() as f64;
    format!("scratch_words={words} floats={floats} ints={ints} per_pixel={per_pixel:.2} stack_bytes={stack}")
}

/// Of the totals of 64 stripes.
fn stack_of_areas() -> usize {
    let (width, height) = LARGEST;
    let words = picture(LARGEST);
    let list = narrow(width, height);
    let (mut result, mut read) = ([0; 192], [0]);
    stack::used(|| {
        let lent = (words.as_ptr(), words.len());
        let answer = bridge::areas(lent, width, height, &list, &mut result, &mut read);
        assert_eq!(answer, Ok(0), "the list was refused");
    })
}

/// Of a sheet with each event, and with a frame at each preset: the first fills the history, the others use it.
fn stack_of_sheet(case: &Case) -> usize {
    let mut stand = Stand::new(case, LARGEST);
    let mut words = picture(LARGEST);
    let colours = words.iter().map(|word| word & 0xff_ffff);
    let frame = Event::Frame(LARGEST, colours.collect());
    let mut events = vec![[frame, Event::Step]; 7].concat();
    events.extend([
        Event::Ask(10, false),
        Event::Commit,
        Event::Switch(10, true),
        Event::Reset,
    ]);
    let sheet = write(&events);
    stack::used(|| stand.play(&sheet, &mut words))
}

/// Of the largest source at each preset: the first fills the history, the others use it.
fn stack_of_source(case: &Case) -> usize {
    let side = 3 * LONGEST;
    let mut stand = Stand::new(case, (side, side));
    let mut words = picture((side, side));
    let (picture, colours) = words.split_at(LONGEST * LONGEST);
    let picture: Vec<u8> = picture.iter().map(|&word| word as u8).collect();
    let colours = colours[..COLOURS].to_vec();
    let source = Source {
        picture: &picture,
        width: LONGEST,
        height: LONGEST,
        colours: &colours,
    };
    stack::used(|| {
        for _ in 0..7 {
            stand.show(source, &mut words);
            stand.step();
        }
    })
}

fn stack_of(stand: &mut Stand, given: &[u32]) -> usize {
    let mut words = given.to_vec();
    stack::used(|| stand.frame(Side::Ours, &mut words))
}

/// What a frame of the original allocates, in the words of its line.
fn heap_of(stand: &mut Stand, given: &[u32]) -> String {
    let (mut first, mut second) = (given.to_vec(), given.to_vec());
    let kept = heap::used(|| stand.frame(Side::Original, &mut first)).kept;
    let heap = heap::used(|| stand.frame(Side::Original, &mut second));
    let (total, most) = (heap.total, heap.most);
    format!("original_heap_bytes={total} original_heap_peak={most} original_heap_kept={kept}")
}

/// How many words there are up to the last that was written.
fn end(words: impl DoubleEndedIterator<Item = u32> + ExactSizeIterator) -> usize {
    let count = words.len();
    let untouched = words.rev().take_while(|&word| word == MARK).count();
    count - untouched
}
