// Turns the last frame of a stream of binary PPM on standard input into PNG on standard output, for the README's pictures. Reader and
// writer are those of the tool hedgemallow-frames, which is not needed for it: rustc alone builds this file.
use std::io::{self, Write};

#[path = "../bindings/rust/src/bin/hedgemallow-frames/png.rs"]
mod png;
// No PNG has the header of its frame.
#[allow(dead_code)]
#[path = "../bindings/rust/src/bin/hedgemallow-frames/ppm.rs"]
mod ppm;

fn last_frame() -> Result<ppm::Frame, ppm::Fault> {
    let mut stream = ppm::Stream::new(io::stdin().lock());
    let mut last = Err(ppm::Fault::Empty);
    while let Some(frame) = stream.next()? {
        last = Ok(frame);
    }
    last
}

fn main() -> io::Result<()> {
    let frame = last_frame().unwrap_or_else(|fault| {
        eprintln!("Error: standard input is not a stream of binary PPM: {fault}");
        std::process::exit(1);
    });
    let picture = png::Picture { width: frame.width, height: frame.height, pixels: &frame.pixels };
    io::stdout().write_all(&png::png(&picture))
}
