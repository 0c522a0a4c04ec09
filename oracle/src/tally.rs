//! The count that each comparison keeps: how many values or frames, how many that differ, and how
//! many fell under each listed difference.

use std::fmt;

use crate::cards::paper::Size;
use crate::reports::Reports;
use crate::sheets::paper::Event;

/// How many differences of a count are printed.
const SHOWN: usize = 5;

/// What differed: how often, and the first few times, each with its place. A thread takes place after place.
#[derive(Default)]
struct Differences {
    count: u64,
    shown: Vec<(usize, String)>,
}

impl Differences {
    /// Counts one. It is the rare case of a loop over billions.
    #[cold]
    fn note(&mut self, at: usize, text: impl FnOnce() -> String) {
        self.count += 1;
        if self.shown.len() < SHOWN {
            self.shown.push((at, text()));
        }
    }

    /// Adds those of another thread. What was met twice is shown once.
    fn join(&mut self, other: Differences) {
        self.count += other.count;
        self.shown.extend(other.shown);
        self.shown.sort_by_key(|&(at, _)| at);
        self.shown.dedup();
        self.shown.truncate(SHOWN);
    }

    /// The first few, a line each.
    fn list(&self, f: &mut fmt::Formatter) -> fmt::Result {
        for (_, text) in &self.shown {
            writeln!(f, "    different at {text}")?;
        }
        Ok(())
    }
}

/// The end of a count's line, and the lines under it.
impl fmt::Display for Differences {
    fn fmt(&self, f: &mut fmt::Formatter) -> fmt::Result {
        write!(f, "{} different", self.count)?;
        if let Some((at, _)) = self.shown.first() {
            write!(f, ", first at {at}")?;
        }
        writeln!(f)?;
        self.list(f)
    }
}

/// The number of the last refusal.
const LAST: usize = 21;

/// How often a call had to be refused, by the number.
#[derive(Default)]
struct Refused([u64; LAST + 1]);

impl Refused {
    fn note(&mut self, number: u32) {
        self.0[number as usize] += 1;
    }

    fn count(&self) -> u64 {
        self.0.iter().sum()
    }

    /// Adds those of another thread.
    fn join(&mut self, other: Refused) {
        for (count, more) in self.0.iter_mut().zip(other.0) {
            *count += more;
        }
    }
}

impl fmt::Display for Refused {
    fn fmt(&self, f: &mut fmt::Formatter) -> fmt::Result {
        write!(f, "refused")?;
        for (number, count) in self.0.iter().enumerate().filter(|(_, &count)| count > 0) {
            write!(f, " {number}: {count}")?;
        }
        Ok(())
    }
}

/// A result of a step.
pub trait Outcome: Copy + fmt::Debug {
    /// What an output slice is filled with before a call. No step has it as a result, so a slot
    /// that a call leaves out is seen.
    const MARK: Self;

    fn same(self, other: Self) -> bool;
}

impl Outcome for u32 {
    const MARK: u32 = u32::MAX;

    fn same(self, other: u32) -> bool {
        self == other
    }
}

impl Outcome for f32 {
    /// Neither a whole number nor a root.
    const MARK: f32 = -0.75;

    /// Equal bits, so that 0.0 and -0.0 count as different. Of a NaN nothing is promised but that
    /// it is one.
    fn same(self, other: f32) -> bool {
        self.to_bits() == other.to_bits() || (self.is_nan() && other.is_nan())
    }
}

/// What a step's result is held to.
pub enum Asked<T> {
    /// Rust's own result.
    Rust(T),
    /// A listed difference: its place in the step's list, and the result that is promised there.
    Listed(usize, T),
}

/// The count for one step of `K` operands.
pub struct Tally<const K: usize> {
    name: &'static str,
    compared: u64,
    /// By the pattern of the first operand.
    differences: Differences,
    listed: Vec<Listed<K>>,
}

struct Listed<const K: usize> {
    what: &'static str,
    values: u64,
    /// The operands with the smallest patterns.
    smallest: Option<[u32; K]>,
}

impl<const K: usize> Tally<K> {
    pub fn new(name: &'static str, listed: &[&'static str]) -> Self {
        let listed = listed.iter().map(|&what| Listed {
            what,
            values: 0,
            smallest: None,
        });
        Tally {
            name,
            compared: 0,
            differences: Differences::default(),
            listed: listed.collect(),
        }
    }

    /// Holds the result `here` for these operands to what is asked of it.
    pub fn check<T: Outcome>(&mut self, operands: [f32; K], here: T, asked: Asked<T>) {
        self.compared += 1;
        match asked {
            Asked::Rust(rust) => {
                if !here.same(rust) {
                    self.differ_at(operands, || format!("here {here:?}, Rust {rust:?}"));
                }
            }
            Asked::Listed(place, promised) => {
                let listed = &mut self.listed[place];
                listed.values += 1;
                let patterns = operands.map(f32::to_bits);
                if listed.smallest.is_none_or(|smallest| patterns < smallest) {
                    listed.smallest = Some(patterns);
                }
                if !here.same(promised) {
                    self.differ_at(operands, || format!("here {here:?}, promised {promised:?}"));
                }
            }
        }
    }

    /// Counts one value, which is either right or as `text` says.
    pub fn count(&mut self, right: bool, text: impl FnOnce() -> String) {
        self.compared += 1;
        if !right {
            self.differ(text);
        }
    }

    /// Counts a difference at no operands: it comes after all others.
    pub fn differ(&mut self, text: impl FnOnce() -> String) {
        self.differences.note(usize::MAX, text);
    }

    #[cold]
    fn differ_at(&mut self, operands: [f32; K], text: impl FnOnce() -> String) {
        let first = operands.first().map_or(0, |x| x.to_bits());
        let text = || format!("{}: {}", shown(operands), text());
        self.differences.note(first as usize, text);
    }

    /// Adds the count of another thread for the same step.
    pub fn join(&mut self, other: Tally<K>) {
        self.compared += other.compared;
        self.differences.join(other.differences);
        for (listed, more) in self.listed.iter_mut().zip(other.listed) {
            listed.values += more.values;
            listed.smallest = listed.smallest.into_iter().chain(more.smallest).min();
        }
    }
}

/// Operands as patterns and as values.
fn shown<const K: usize>(operands: [f32; K]) -> String {
    let patterns = operands.map(|x| format!("{:#010x}", x.to_bits()));
    let values = operands.map(|x| format!("{x:?}"));
    format!("{} ({})", patterns.join(" "), values.join(", "))
}

impl<const K: usize> fmt::Display for Tally<K> {
    fn fmt(&self, f: &mut fmt::Formatter) -> fmt::Result {
        let (name, compared, different) = (self.name, self.compared, self.differences.count);
        writeln!(
            f,
            "{name}: {compared} values compared, {different} different"
        )?;
        self.differences.list(f)?;
        for listed in &self.listed {
            write!(f, "    listed, {}: {} of them", listed.what, listed.values)?;
            if let Some(smallest) = listed.smallest {
                write!(f, ", smallest {}", shown(smallest.map(f32::from_bits)))?;
            }
            writeln!(f)?;
        }
        Ok(())
    }
}

/// The count for one pass.
#[derive(Default)]
pub struct FrameTally {
    name: &'static str,
    frames: u64,
    words: u64,
    /// The channels that the original clips, and the samples that it takes.
    clipped: u64,
    samples: u64,
    /// The frames at which the original's memory is made to begin anew.
    turned: u64,
    /// Those whose channels start from a curve.
    curved: u64,
    differences: Differences,
}

impl FrameTally {
    pub fn new(name: &'static str) -> Self {
        FrameTally {
            name,
            ..FrameTally::default()
        }
    }

    /// Holds the picture `here` of the frame `given` to the original's. `at` is the place of the
    /// case, `what` tells how to make it again.
    pub fn check(
        &mut self,
        at: usize,
        given: &[u32],
        here: &[u32],
        original: &[u32],
        what: impl FnOnce() -> String,
    ) {
        assert!(given.len() == here.len() && given.len() == original.len());
        self.frames += 1;
        self.words += given.len() as u64;
        if here == original {
            return;
        }
        let words = || here.iter().zip(original);
        let place = words().position(|(here, original)| here != original);
        let place = place.unwrap_or_default();
        self.differ(at, || {
            format!(
                "{}, word {place}: given {:#010x}, here {:#010x}, original {:#010x}",
                what(),
                given[place],
                here[place],
                original[place]
            )
        });
        // The one that is shown is counted already.
        let different = words().filter(|(here, original)| here != original).count();
        self.differences.count += different as u64 - 1;
    }

    /// Counts a turned frame.
    pub fn turn(&mut self) {
        self.turned += 1;
    }

    /// Counts a frame with a curve.
    pub fn curve(&mut self) {
        self.curved += 1;
    }

    pub fn curved(&self) -> u64 {
        self.curved
    }

    /// Holds what is reported here to what the original counts.
    pub fn check_reports(
        &mut self,
        at: usize,
        here: Reports,
        original: Reports,
        what: impl FnOnce() -> String,
    ) {
        self.clipped += u64::from(original.clipped);
        self.samples += u64::from(original.samples);
        if here != original {
            self.differ(at, || {
                format!("{}: here {here:?}, original {original:?}", what())
            });
        }
    }

    /// Holds the samples that the original takes to those of the paper.
    pub fn check_paper(
        &mut self,
        at: usize,
        original: u32,
        paper: u32,
        what: impl FnOnce() -> String,
    ) {
        if original != paper {
            self.differ(at, || {
                format!(
                    "{}: {original} samples of the original, by the paper {paper}",
                    what()
                )
            });
        }
    }

    /// Counts a difference.
    pub fn differ(&mut self, at: usize, text: impl FnOnce() -> String) {
        self.differences.note(at, text);
    }

    /// Adds the count of another thread for the same pass.
    pub fn join(&mut self, other: FrameTally) {
        self.frames += other.frames;
        self.words += other.words;
        self.clipped += other.clipped;
        self.samples += other.samples;
        self.turned += other.turned;
        self.curved += other.curved;
        self.differences.join(other.differences);
    }
}

impl fmt::Display for FrameTally {
    fn fmt(&self, f: &mut fmt::Formatter) -> fmt::Result {
        let FrameTally {
            name,
            frames,
            words,
            clipped,
            samples,
            differences,
            ..
        } = self;
        write!(
            f,
            "{name}: {frames} frames, {words} words, {clipped} clipped channels, {samples} blur samples compared, {differences}"
        )
    }
}

/// An answer to a card: the length that was written, or a refusal's number.
type Answer = Result<usize, u32>;

/// The count of cards.
#[derive(Default)]
pub struct CardTally {
    taken: u64,
    refused: Refused,
    differences: Differences,
}

impl CardTally {
    pub fn new() -> Self {
        CardTally::default()
    }

    /// Holds the answer to a card and the buffer after it to the paper's.
    pub fn check(
        &mut self,
        card: &[u8],
        held: (usize, Size),
        here: (Answer, &[u8]),
        paper: (Answer, &[u8]),
    ) {
        match paper.0 {
            Ok(_) => self.taken += 1,
            Err(number) => self.refused.note(number),
        }
        if here == paper {
            return;
        }
        let at = self.cards() as usize - 1;
        self.differences.note(at, || {
            format!(
                "card {card:02x?}, held at a place {held:?}: here {:?} and {:02x?}, by the paper {:?} and {:02x?}",
                here.0, here.1, paper.0, paper.1
            )
        });
    }

    fn cards(&self) -> u64 {
        self.taken + self.refused.count()
    }
}

impl fmt::Display for CardTally {
    fn fmt(&self, f: &mut fmt::Formatter) -> fmt::Result {
        write!(f, "cards: {} compared, {}", self.cards(), self.differences)?;
        writeln!(f, "    {} taken; {}", self.taken, self.refused)
    }
}

/// How many bytes of a differing input are printed.
const SHOWN_BYTES: usize = 400;

/// The count of inputs to a program.
#[derive(Default)]
pub struct ProgramTally {
    name: &'static str,
    /// What its inputs are.
    unit: &'static str,
    inputs: u64,
    lines: u64,
    differences: Differences,
}

impl ProgramTally {
    pub fn new(name: &'static str) -> Self {
        ProgramTally::of(name, "inputs")
    }

    pub fn of(name: &'static str, unit: &'static str) -> Self {
        ProgramTally {
            name,
            unit,
            ..ProgramTally::default()
        }
    }

    /// Holds what the program wrote to what is asked. `at` is the place of the input.
    pub fn check(
        &mut self,
        at: usize,
        input: &[u8],
        here: &[u8],
        asked: &[u8],
        what: impl FnOnce() -> String,
    ) {
        self.inputs += 1;
        self.lines += asked.iter().filter(|&&byte| byte == b'\n').count() as u64;
        self.compare(at, input, here, asked, what);
    }

    /// The same, of an input that is counted already.
    pub fn compare(
        &mut self,
        at: usize,
        input: &[u8],
        here: &[u8],
        asked: &[u8],
        what: impl FnOnce() -> String,
    ) {
        if here == asked {
            return;
        }
        self.differences.note(at, || {
            let lines = |text: &[u8]| -> Vec<String> {
                let text = String::from_utf8_lossy(text).into_owned();
                text.split_inclusive('\n').map(str::to_string).collect()
            };
            let (here, asked) = (lines(here), lines(asked));
            let line = (0..).find(|&n| here.get(n) != asked.get(n));
            let line = line.unwrap_or_default();
            let bytes: Vec<String> = input.iter().map(|byte| format!("{byte:02X}")).collect();
            let bytes = &bytes[..bytes.len().min(SHOWN_BYTES)];
            format!(
                "{}, line {}: here {:?}, asked {:?}, input of {} bytes {}",
                what(),
                line + 1,
                here.get(line),
                asked.get(line),
                input.len(),
                bytes.join(" ")
            )
        });
    }

    /// Adds the count of another thread.
    pub fn join(&mut self, other: ProgramTally) {
        self.inputs += other.inputs;
        self.lines += other.lines;
        self.differences.join(other.differences);
    }
}

impl fmt::Display for ProgramTally {
    fn fmt(&self, f: &mut fmt::Formatter) -> fmt::Result {
        let ProgramTally {
            name,
            unit,
            inputs,
            lines,
            differences,
        } = self;
        write!(
            f,
            "{name}: {inputs} {unit}, {lines} lines compared, {differences}"
        )
    }
}

/// What a program wrote to standard output and to standard error.
type Written<'a> = (&'a [u8], &'a [u8]);

/// The count of runs of files through a program.
#[derive(Default)]
pub struct FileTally {
    name: &'static str,
    runs: u64,
    files: u64,
    frames: u64,
    pixels: u64,
    differences: Differences,
}

impl FileTally {
    pub fn new(name: &'static str) -> Self {
        FileTally {
            name,
            ..FileTally::default()
        }
    }

    /// Counts a run of so many files, which has to show frames of so many pixels each.
    pub fn begin(&mut self, files: usize, frames: &[usize]) {
        self.runs += 1;
        self.files += files as u64;
        self.frames += frames.len() as u64;
        self.pixels += frames.iter().sum::<usize>() as u64;
    }

    /// Holds what the program wrote to what is asked. `at` is the place of the run.
    pub fn check(
        &mut self,
        at: usize,
        here: Written,
        asked: Written,
        what: impl FnOnce() -> String,
    ) {
        if here == asked {
            return;
        }
        self.differences.note(at, || {
            let place = (0..).find(|&n| here.0.get(n) != asked.0.get(n) || n >= asked.0.len());
            let place = place.unwrap_or_default();
            format!(
                "{}: here {} bytes and {:?}, asked {} bytes and {:?}; byte {place}: here {:02x?}, asked {:02x?}",
                what(),
                here.0.len(),
                String::from_utf8_lossy(here.1),
                asked.0.len(),
                String::from_utf8_lossy(asked.1),
                here.0.get(place),
                asked.0.get(place)
            )
        });
    }

    /// Adds the count of another thread.
    pub fn join(&mut self, other: FileTally) {
        self.runs += other.runs;
        self.files += other.files;
        self.frames += other.frames;
        self.pixels += other.pixels;
        self.differences.join(other.differences);
    }
}

impl fmt::Display for FileTally {
    fn fmt(&self, f: &mut fmt::Formatter) -> fmt::Result {
        let FileTally {
            name,
            runs,
            files,
            frames,
            pixels,
            differences,
        } = self;
        write!(
            f,
            "{name}: {runs} runs of {files} files, {frames} frames of {pixels} pixels compared, {differences}"
        )
    }
}

/// The count of runs of calls on stations.
#[derive(Default)]
pub struct RunTally {
    name: &'static str,
    runs: u64,
    calls: u64,
    frames: u64,
    /// Of the pictures, and of the history buffers after each call.
    words: u64,
    history: u64,
    refused: Refused,
    differences: Differences,
}

impl RunTally {
    pub fn new(name: &'static str) -> Self {
        RunTally {
            name,
            ..RunTally::default()
        }
    }

    /// Counts a run.
    pub fn begin(&mut self) {
        self.runs += 1;
    }

    /// Counts a call with what it had to answer, after which so many history words were compared.
    pub fn called(&mut self, asked: Result<u32, u32>, history: usize) {
        self.calls += 1;
        self.history += history as u64;
        if let Err(number) = asked {
            self.refused.note(number);
        }
    }

    /// Counts the picture of an accepted frame.
    pub fn frame(&mut self, words: usize) {
        self.frames += 1;
        self.words += words as u64;
    }

    /// Counts a difference, which ends its run.
    pub fn differ(&mut self, at: usize, text: impl FnOnce() -> String) {
        self.differences.note(at, text);
    }

    /// Adds the count of another thread.
    pub fn join(&mut self, other: RunTally) {
        self.runs += other.runs;
        self.calls += other.calls;
        self.frames += other.frames;
        self.words += other.words;
        self.history += other.history;
        self.refused.join(other.refused);
        self.differences.join(other.differences);
    }
}

impl fmt::Display for RunTally {
    fn fmt(&self, f: &mut fmt::Formatter) -> fmt::Result {
        let RunTally {
            name,
            runs,
            calls,
            frames,
            words,
            history,
            refused,
            differences,
        } = self;
        write!(
            f,
            "{name}: {runs} runs of {calls} calls, {frames} frames of {words} words"
        )?;
        if *history > 0 {
            write!(f, " and {history} history words")?;
        }
        write!(f, " compared, {differences}")?;
        writeln!(f, "    {refused}")
    }
}

/// The count of calls on lists of rectangles.
#[derive(Default)]
pub struct AreaTally {
    name: &'static str,
    calls: u64,
    areas: u64,
    /// Of the accepted ones.
    words: u64,
    refused: Refused,
    differences: Differences,
}

impl AreaTally {
    pub fn new(name: &'static str) -> Self {
        AreaTally {
            name,
            ..AreaTally::default()
        }
    }

    /// Counts a call of so many rectangles with what it had to answer, which it did or not.
    pub fn check(
        &mut self,
        at: usize,
        asked: Result<u32, u32>,
        areas: usize,
        right: bool,
        text: impl FnOnce() -> String,
    ) {
        self.calls += 1;
        self.areas += areas as u64;
        match asked {
            Ok(words) => self.words += u64::from(words),
            Err(number) => self.refused.note(number),
        }
        if !right {
            self.differences.note(at, text);
        }
    }

    /// Adds the count of another thread.
    pub fn join(&mut self, other: AreaTally) {
        self.calls += other.calls;
        self.areas += other.areas;
        self.words += other.words;
        self.refused.join(other.refused);
        self.differences.join(other.differences);
    }
}

impl fmt::Display for AreaTally {
    fn fmt(&self, f: &mut fmt::Formatter) -> fmt::Result {
        let AreaTally {
            name,
            calls,
            areas,
            words,
            refused,
            differences,
        } = self;
        write!(
            f,
            "{name}: {calls} lists of {areas} rectangles, {words} words read, {differences}"
        )?;
        writeln!(f, "    {refused}")
    }
}

/// The count of sheets that were played on stations.
#[derive(Default)]
pub struct SheetTally {
    name: &'static str,
    sheets: u64,
    /// Of the sheets that were not refused.
    events: u64,
    frames: u64,
    words: u64,
    history: u64,
    refused: Refused,
    refused_events: Refused,
    differences: Differences,
}

impl SheetTally {
    pub fn new(name: &'static str) -> Self {
        SheetTally {
            name,
            ..SheetTally::default()
        }
    }

    /// Counts an event with what its call had to answer.
    pub fn event(&mut self, event: &Event, asked: Result<u32, u32>) {
        self.events += 1;
        match (asked, event) {
            (Err(number), _) => self.refused_events.note(number),
            (Ok(_), Event::Frame(_, words)) => {
                self.frames += 1;
                self.words += words.len() as u64;
            }
            _ => {}
        }
    }

    /// Counts a sheet with what it had to be answered, after which so many history words were compared.
    pub fn sheet(&mut self, asked: Result<u32, u32>, history: usize) {
        self.sheets += 1;
        self.history += history as u64;
        if let Err(number) = asked {
            self.refused.note(number);
        }
    }

    /// Counts a difference, which ends what is played on its station.
    pub fn differ(&mut self, at: usize, text: impl FnOnce() -> String) {
        self.differences.note(at, text);
    }

    /// Adds the count of another thread.
    pub fn join(&mut self, other: SheetTally) {
        self.sheets += other.sheets;
        self.events += other.events;
        self.frames += other.frames;
        self.words += other.words;
        self.history += other.history;
        self.refused.join(other.refused);
        self.refused_events.join(other.refused_events);
        self.differences.join(other.differences);
    }
}

impl fmt::Display for SheetTally {
    fn fmt(&self, f: &mut fmt::Formatter) -> fmt::Result {
        let SheetTally {
            name,
            sheets,
            events,
            frames,
            words,
            history,
            refused,
            refused_events,
            differences,
        } = self;
        write!(
            f,
            "{name}: {sheets} sheets of {events} events, {frames} frames of {words} words and {history} history words compared, {differences}"
        )?;
        writeln!(f, "    {refused}; events {refused_events}")
    }
}

/// The count over all steps, cards, passes, calls, sheets and inputs of the programs.
#[derive(Default)]
pub struct Total {
    compared: u64,
    cards: u64,
    lists: u64,
    frames: u64,
    words: u64,
    inputs: u64,
    calls: u64,
    sheets: u64,
    turned: u64,
    resized: u64,
    several: u64,
    curved: u64,
    pub different: u64,
    /// What a comparison was to meet and did not.
    pub unmet: u64,
}

/// In a list of the comparison at least so many frames have to be turned, so many have to come after a new depth, so many have to go
/// through several glows, and so many have to have a curve: else it shows little of them.
const LEAST: u64 = 150;

impl Total {
    /// Prints a step's count and adds it.
    pub fn add<const K: usize>(&mut self, tally: &Tally<K>) {
        print!("{tally}");
        self.compared += tally.compared;
        self.different += tally.differences.count;
    }

    /// Prints the count of cards and adds it.
    pub fn add_cards(&mut self, tally: &CardTally) {
        print!("{tally}");
        self.cards += tally.cards();
        self.different += tally.differences.count;
    }

    /// Prints the count of inputs and adds it.
    pub fn add_programs(&mut self, tally: &ProgramTally) {
        print!("{tally}");
        self.inputs += tally.inputs;
        self.different += tally.differences.count;
    }

    /// Prints the count of runs of files and adds it.
    pub fn add_files(&mut self, tally: &FileTally) {
        print!("{tally}");
        self.inputs += tally.runs;
        self.frames += tally.frames;
        self.words += tally.pixels;
        self.different += tally.differences.count;
    }

    /// Prints the count of runs and adds it.
    pub fn add_runs(&mut self, tally: &RunTally) {
        print!("{tally}");
        self.calls += tally.calls;
        self.frames += tally.frames;
        self.words += tally.words;
        self.different += tally.differences.count;
    }

    /// Prints the count of lists and adds it.
    pub fn add_areas(&mut self, tally: &AreaTally) {
        print!("{tally}");
        self.lists += tally.calls;
        self.different += tally.differences.count;
    }

    /// Prints the count of sheets and adds it.
    pub fn add_sheets(&mut self, tally: &SheetTally) {
        print!("{tally}");
        self.sheets += tally.sheets;
        self.frames += tally.frames;
        self.words += tally.words;
        self.different += tally.differences.count;
    }

    /// Prints a pass's count and adds it.
    pub fn add_frames(&mut self, tally: &FrameTally) {
        print!("{tally}");
        self.frames += tally.frames;
        self.words += tally.words;
        self.different += tally.differences.count;
    }

    /// The same of a pass with memory.
    pub fn add_runs_of_frames(&mut self, tally: &FrameTally) {
        self.add_frames(tally);
        self.add_turned(tally.turned);
    }

    /// Prints how many frames of a list came in another shape than the ones before them, with as many words, and adds them. The
    /// original would mix such a frame with those: there it was made to begin anew.
    pub fn add_turned(&mut self, turned: u64) {
        self.turned += turned;
        self.ask_for("turned frames", turned);
    }

    /// Prints how many frames of a list came after a new depth, and adds them. The original cannot change its depth: there it was one
    /// that was built with the new depth and shown what was held.
    pub fn add_resized(&mut self, resized: u64) {
        self.resized += resized;
        self.ask_for("frames after a new depth", resized);
    }

    /// Prints how many frames of a list went through more than one glow that was on, and adds them.
    pub fn add_several(&mut self, several: u64) {
        self.several += several;
        self.ask_for("frames through several glows", several);
    }

    /// Prints how many frames of a list started their channels from a curve, and adds them.
    pub fn add_curved(&mut self, curved: u64) {
        self.curved += curved;
        self.ask_for("curved frames", curved);
    }

    /// Prints how many of a list's frames are such.
    fn ask_for(&mut self, such: &str, frames: u64) {
        println!("    {such}: {frames}");
        if frames < LEAST {
            println!("    too few: less than {LEAST}");
            self.unmet += 1;
        }
    }
}

impl fmt::Display for Total {
    fn fmt(&self, f: &mut fmt::Formatter) -> fmt::Result {
        let Total {
            compared,
            cards,
            lists,
            frames,
            words,
            inputs,
            calls,
            sheets,
            turned,
            resized,
            several,
            curved,
            different,
            unmet,
        } = self;
        write!(
            f,
            "{compared} values, {cards} cards, {lists} lists of rectangles"
        )?;
        if *frames > 0 {
            write!(f, ", {frames} frames of {words} words, {calls} calls")?;
        }
        if *sheets > 0 {
            write!(f, ", {sheets} sheets")?;
        }
        if *turned > 0 {
            write!(f, ", {turned} turned frames")?;
        }
        if *resized > 0 {
            write!(f, ", {resized} frames after a new depth")?;
        }
        if *several > 0 {
            write!(f, ", {several} frames through several glows")?;
        }
        if *curved > 0 {
            write!(f, ", {curved} curved frames")?;
        }
        write!(
            f,
            " and {inputs} inputs of the programs compared, {different} different"
        )?;
        if *unmet > 0 {
            write!(f, ", {unmet} cases not met")?;
        }
        Ok(())
    }
}
