//! Program `station` inside the fuzzer (inside.rs). Each input is run with whole reads and writes and with short ones, and what
//! is printed must be the model's.

use super::model;
use crate::fuzz;
use crate::inside::{self, World};
use crate::met::Met;
use crate::programs::process::Said;

extern "C" {
    fn station_main() -> i32;
}

#[no_mangle]
extern "C" fn fuzz_station(data: *const u8, len: usize) -> i32 {
    // SAFETY: libFuzzer calls this.
    let input = unsafe { fuzz::input(data, len) };
    let met = &mut Met::new();
    let asked = Said::output(model::run(input, met));
    let world = World {
        input: input.to_vec(),
        ..World::default()
    };
    // SAFETY: it is the program's.
    unsafe { inside::compare(station_main, &world, &asked) };
    fuzz::guide(met);
    0
}
