// Writes the curve of a gamma to standard output, as `filter --curve` takes it: 256 binary32, word k being k/255 to the power gamma, the
// least significant byte of each first. The words are those of this machine's `powf`, which Rust takes from the system's library: on
// another machine one may come out another in its last bit. So a curve is made once and handed out, as the two beside this file were, by
//
//     rustc -O -o curve examples/curves/curve.rs
//     for gamma in 1.8 2.2; do ./curve $gamma >examples/curves/gamma-$gamma.curve; done
//
// with Rust 1.95 and glibc 2.36 on x86-64, on 2026-11-16. Each of their words is also the binary32 nearest the true power of the
// binary32 k/255, as was found once by a reckoning with 80 digits.
use std::io::{self, Write};

fn curve(gamma: f32) -> Vec<u8> {
    (0u8..=255).flat_map(|k| (f32::from(k) / 255.0).powf(gamma).to_le_bytes()).collect()
}

fn main() -> io::Result<()> {
    let arguments: Vec<String> = std::env::args().skip(1).collect();
    let gamma = match &arguments[..] {
        [text] => text.parse().ok().filter(|gamma| (0.01..=4.0).contains(gamma)),
        _ => None,
    };
    let Some(gamma) = gamma else {
        eprintln!("usage: curve GAMMA   (from 0.01 to 4; 1,024 bytes go to standard output)");
        std::process::exit(2);
    };
    io::stdout().write_all(&curve(gamma))
}
