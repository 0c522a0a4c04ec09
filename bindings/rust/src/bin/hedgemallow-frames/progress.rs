//! How far it is, for who waits: one line that is written anew, a few times a second. What cannot be written of it is left out.

use std::io::Write;
use std::time::{Duration, Instant};

/// The time from one line to the next, and before the first: who waits no longer sees none.
const PAUSE: Duration = Duration::from_millis(200);

pub struct Progress<W: Write> {
    /// `None`: nobody looks.
    to: Option<W>,
    began: Instant,
    /// When the last line was written; at first, when it began.
    last: Instant,
    frames: u64,
    /// Whether a line stands there that is not ended.
    stands: bool,
}

/// The line after so many frames.
fn line(frames: u64, took: Duration) -> String {
    let speed = frames as f64 / took.as_secs_f64().max(1e-3);
    format!("frame {frames}, {speed:.1} a second")
}

impl<W: Write> Progress<W> {
    pub fn new(to: Option<W>) -> Self {
        let now = Instant::now();
        Progress { to, began: now, last: now, frames: 0, stands: false }
    }

    /// One frame more was shown. A single frame has no progress.
    pub fn step(&mut self) {
        self.frames += 1;
        if self.frames > 1 && self.last.elapsed() >= PAUSE {
            self.write();
        }
    }

    fn write(&mut self) {
        self.last = Instant::now();
        if let Some(to) = &mut self.to {
            // To the start of the line, and clear what stands behind the new words.
            let _ = write!(to, "\r{}\x1b[K", line(self.frames, self.began.elapsed()));
            let _ = to.flush();
            self.stands = true;
        }
    }

    /// The last line, if there was one before it, says all frames; whatever is told next has a line of its own.
    pub fn end(&mut self) {
        if self.stands {
            self.write();
            self.stands = false;
            if let Some(to) = &mut self.to {
                let _ = writeln!(to);
            }
        }
    }
}

#[cfg(test)]
mod tests {
    use super::*;

    /// What is written of two frames after so long.
    fn written(after: Duration) -> String {
        let mut bytes = Vec::new();
        let mut progress = Progress::new(Some(&mut bytes));
        progress.step();
        std::thread::sleep(after);
        progress.step();
        progress.end();
        drop(progress);
        String::from_utf8(bytes).unwrap()
    }

    #[test]
    fn a_short_run_has_no_line() {
        assert_eq!(written(Duration::ZERO), "");
    }

    #[test]
    fn a_long_run_has_one_line_that_is_ended() {
        let text = written(2 * PAUSE);
        assert!(text.starts_with("\rframe 2, ") && text.ends_with(" a second\x1b[K\n"), "{text:?}");
        assert_eq!(text.matches('\n').count(), 1);
    }

    #[test]
    fn nobody_looks() {
        let mut progress: Progress<Vec<u8>> = Progress::new(None);
        progress.step();
        std::thread::sleep(2 * PAUSE);
        progress.step();
        assert!(!progress.stands);
    }

    #[test]
    fn the_speed_is_that_of_the_whole_run() {
        assert_eq!(line(120, Duration::from_secs(4)), "frame 120, 30.0 a second");
        assert_eq!(line(2, Duration::ZERO), "frame 2, 2000.0 a second");
    }
}
