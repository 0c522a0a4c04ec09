//! Program `sheet` inside the fuzzer (inside.rs). Its bytes are read as arguments, a card, a curve and a file, as ../seeds.rs writes them; what
//! the program writes must be the model's.

use super::runs::{Run, FORMS};
use super::said;
use crate::fuzz::{self, Tape};
use crate::inside::{self, World};
use crate::met::Met;
use crate::programs::files::File;
use crate::programs::fuzz::{argument, curve, given, Files};
use crate::programs::process::{FOLDER, MISSING};

extern "C" {
    fn sheet_main() -> i32;
}

#[no_mangle]
extern "C" fn fuzz_sheet(data: *const u8, len: usize) -> i32 {
    // SAFETY: libFuzzer calls this.
    let tape = &mut Tape {
        rest: unsafe { fuzz::input(data, len) },
    };
    let words = FORMS[usize::from(tape.byte()) % FORMS.len()];
    let (card, stored) = argument(tape, "a card");
    let (curve, file) = (curve(tape), file(tape));

    let mut files: Files = stored.into_iter().collect();
    let named = [&curve, &file].into_iter();
    files.extend(named.map(|file| (file.name.clone(), file.bytes.clone())));
    let mut run = Run {
        words,
        card: given(&card, &files),
        curve,
        file,
    };
    let met = &mut Met::new();
    let asked = said::run(&run, met);
    // A card whose name is too long is told as another.
    run.card.argument = card;
    let arguments = run.arguments().into_iter().map(str::to_string).collect();
    let world = World {
        arguments,
        files,
        input: Vec::new(),
    };
    // SAFETY: it is the program's.
    unsafe { inside::compare(sheet_main, &world, &asked) };
    fuzz::guide(met);
    0
}

/// What is printed, played or recorded: any bytes, no file or a folder.
fn file(tape: &mut Tape) -> File {
    let bytes = match tape.byte() {
        0..248 => Ok(tape.string()),
        248..252 => MISSING,
        _ => FOLDER,
    };
    File {
        name: "a sheet".to_string(),
        bytes,
    }
}
