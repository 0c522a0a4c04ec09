//! A program inside the fuzzer's process: its object file, in which oracle/fuzz renamed `main`, `open`, `read`, `write`, `lseek` and
//! `close`. What it calls of the system stands here, over arguments, files and a standard input that are in memory. Assumes one thread.

use std::cell::RefCell;

use crate::programs::process::{Bytes, Said, FOLDER};

/// What a program meets.
#[derive(Clone, Default)]
pub struct World {
    /// Those after the program's own name.
    pub arguments: Vec<String>,
    /// Files by their name; a folder too. What is not among them is not there.
    pub files: Vec<(String, Bytes)>,
    pub input: Vec<u8>,
}

/// A program that runs.
struct Running {
    world: World,
    /// The most bytes that one read or write takes.
    most: usize,
    /// Of each file that was opened, its place in the world and how much of it was read; none once it is closed.
    open: Vec<Option<(usize, usize)>>,
    said: Said,
    errno: i32,
}

/// The descriptor of the first file that is opened.
const FIRST: usize = 3;

const ENOENT: i32 = 2;
const EISDIR: i32 = 21;
const EINVAL: i32 = 22;
const ESPIPE: i32 = 29;

thread_local! {
    static RUNNING: RefCell<Option<Running>> = const { RefCell::new(None) };
}

fn with<T>(act: impl FnOnce(&mut Running) -> T) -> T {
    RUNNING.with_borrow_mut(|running| act(running.as_mut().expect("a program runs")))
}

/// Runs the program with whole reads and writes, and with such as take a few bytes at once: what it writes must be what is asked.
///
/// # Safety
/// `main` is that of a program whose object file calls the functions below.
pub unsafe fn compare(main: Main, world: &World, asked: &Said) {
    for most in [usize::MAX, 1 + asked.output.len() % 7] {
        let here = run(main, world.clone(), most);
        assert!(
            here == *asked,
            "different, at most {most} bytes at once, with {:?}: here {}, by the model {}",
            world.arguments,
            shown(&here),
            shown(asked)
        );
    }
}

fn shown(Said { output, error }: &Said) -> String {
    let (output, error) = (output.escape_ascii(), error.escape_ascii());
    format!("{output}, and on standard error {error}")
}

type Main = unsafe extern "C" fn() -> i32;

/// What the program writes. No read and no write of it takes more than `most` bytes.
unsafe fn run(main: Main, world: World, most: usize) -> Said {
    let running = Running {
        world,
        most,
        open: Vec::new(),
        said: Said::output(Vec::new()),
        errno: 0,
    };
    RUNNING.set(Some(running));
    assert_eq!(main(), 0, "the program's status");
    let ended = RUNNING.take().expect("the program ran");
    assert!(
        ended.open.iter().all(Option::is_none),
        "a file was left open"
    );
    ended.said
}

/// The place of an open file's descriptor.
fn place(file: i32) -> usize {
    usize::try_from(file).expect("a descriptor") - FIRST
}

impl Running {
    /// What is left of an open file, and of the standard input; none of a folder.
    fn rest(&self, file: i32) -> Option<&[u8]> {
        if file == 0 {
            return Some(&self.world.input);
        }
        let (file, read) = self.open[place(file)].expect("the file is open");
        let bytes = self.world.files[file].1.as_ref().ok()?;
        Some(&bytes[read..])
    }

    fn advance(&mut self, file: i32, count: usize) {
        if file == 0 {
            self.world.input.drain(..count);
        } else if let Some((_, read)) = &mut self.open[place(file)] {
            *read += count;
        }
    }
}

#[no_mangle]
extern "C" fn inside_read(file: i32, to: *mut u8, room: usize) -> isize {
    with(|running| {
        let Some(rest) = running.rest(file) else {
            running.errno = EISDIR;
            return -1;
        };
        let count = room.min(running.most).min(rest.len());
        // SAFETY: the program lends `room` bytes.
        unsafe { std::slice::from_raw_parts_mut(to, count) }.copy_from_slice(&rest[..count]);
        running.advance(file, count);
        count as isize
    })
}

#[no_mangle]
extern "C" fn inside_write(file: i32, from: *const u8, room: usize) -> isize {
    with(|running| {
        let count = room.min(running.most);
        // SAFETY: the program lends `room` bytes.
        let bytes = unsafe { std::slice::from_raw_parts(from, count) };
        match file {
            1 => running.said.output.extend_from_slice(bytes),
            2 => running.said.error.extend_from_slice(bytes),
            _ => panic!("the program writes to descriptor {file}"),
        }
        count as isize
    })
}

#[no_mangle]
extern "C" fn inside_close(file: i32) -> i32 {
    with(|running| {
        let open = running.open[place(file)].take();
        assert!(open.is_some(), "a file is closed twice");
        0
    })
}

/// Where the next read of a file begins. The standard input is a pipe, which has no such place.
#[no_mangle]
extern "C" fn inside_lseek(file: i32, offset: i64, whence: i32) -> i64 {
    with(|running| {
        if file < FIRST as i32 {
            running.errno = ESPIPE;
            return -1;
        }
        let (name, read) = running.open[place(file)].expect("the file is open");
        let length = running.world.files[name].1.as_ref().map_or(0, Vec::len);
        let from = [0, read, length][whence as usize] as i64;
        match usize::try_from(from + offset) {
            Ok(to) => {
                running.open[place(file)] = Some((name, to.min(length)));
                to as i64
            }
            Err(_) => {
                running.errno = EINVAL;
                -1
            }
        }
    })
}

/// Opens a file, or a folder, to be read: the flags ask for no more.
#[no_mangle]
extern "C" fn inside_open(path: *const std::ffi::c_char, flags: i32) -> i32 {
    assert!(flags & 3 == 0, "a file is opened to be written");
    // SAFETY: the program lends a path that is ended by 0.
    let path = unsafe { std::ffi::CStr::from_ptr(path) }.to_bytes();
    with(|running| {
        let files = &running.world.files;
        let there = |(name, bytes): &(String, Bytes)| {
            name.as_bytes() == path && (bytes.is_ok() || *bytes == FOLDER)
        };
        let Some(file) = files.iter().position(there) else {
            running.errno = ENOENT;
            return -1;
        };
        running.open.push(Some((file, 0)));
        (FIRST + running.open.len() - 1) as i32
    })
}

#[no_mangle]
extern "C" fn rattle_errno() -> i32 {
    with(|running| running.errno)
}

#[no_mangle]
extern "C" fn rattle_set_errno(error: i32) {
    with(|running| running.errno = error);
}

#[no_mangle]
extern "C" fn rattle_arg_count() -> usize {
    with(|running| 1 + running.world.arguments.len())
}

/// Argument i: its length, -1 where it is missing, -2 where it does not fit, and then the room is full.
#[no_mangle]
extern "C" fn rattle_arg(i: usize, to: *mut u8, room: usize) -> isize {
    with(|running| {
        let argument = match i.checked_sub(1) {
            None => Some("program"),
            Some(place) => running.world.arguments.get(place).map(String::as_str),
        };
        let Some(argument) = argument.map(str::as_bytes) else {
            return -1;
        };
        let count = room.min(argument.len());
        // SAFETY: the program lends `room` bytes.
        unsafe { std::slice::from_raw_parts_mut(to, count) }.copy_from_slice(&argument[..count]);
        if argument.len() > room {
            -2
        } else {
            count as isize
        }
    })
}
