//! Agreement by trial: two stations from cards that normalise alike, each with its own past and its own
//! buffers, then one shared list of calls. From the point that document 01 gives, document 02's P11 where the depth is
//! changed, and its P12 where there are several glows, answers, reports, states and pictures have to be equal; before it they are looked
//! at, since a trial in which nothing can differ shows nothing. The samples that a frame reports have to be equal from the first call on.

use super::calls::{self, Call, Frame, Sizes};
use super::cards;
use super::cases::Point;
use super::noise::Noise;
use super::sides::Checked;
use super::station::{Pending, Station};
use crate::bridge::{self, Answer, Lent, State, STATE, UNTOLD};
use crate::cards::paper::Size;
use crate::cards::spelling;
use crate::met::Met;
use crate::passes::chain::{COLOUR, PERSISTENCE};
use crate::passes::curves::{self, Curve};
use crate::random::Random;
use crate::tally::RunTally;

/// One station of a pair.
struct Own {
    state: State,
    history: Vec<u32>,
    /// What it has to be: this decides the point.
    station: Station,
    sizes: Sizes,
    /// The curve that was lent last.
    curve: Vec<f32>,
}

/// What a call gave. The picture is empty where there is none, and the places of a report as they were.
#[derive(PartialEq, Debug)]
struct Seen {
    answer: Answer,
    state: State,
    picture: Vec<u32>,
    reports: [u32; 2],
}

impl Seen {
    /// Those of a frame that was accepted.
    fn samples(&self) -> Option<u32> {
        let [_, samples] = self.reports;
        (self.reports != UNTOLD).then_some(samples)
    }
}

/// Whether some picture before the point differed.
pub fn compare(seed: u64, at: usize, tally: &mut RunTally, met: &mut Met<Point>) -> bool {
    let random = &mut Random::new(seed);
    tally.begin();
    let trial = trial(random, tally, met);
    trial.unwrap_or_else(|text| {
        tally.differ(at, || format!("trial {at}, seed {seed:#018x}: {text}"));
        false
    })
}

fn trial(random: &mut Random, tally: &mut RunTally, met: &mut Met<Point>) -> Checked<bool> {
    let (mut a, mut b) = pair(random, met)?;
    own_list(&mut a, random, tally, met)?;
    own_list(&mut b, random, tally, met)?;
    if random.one_in(4) {
        turn(&a, &mut b, random, tally)?;
    }
    if random.one_in(2) {
        std::mem::swap(&mut a, &mut b);
    }
    if a.station.depth() != b.station.depth() {
        met.note(Point::DepthDiffers);
    }
    equalise(&a, &mut b, random, tally)?;
    if a.station.held != b.station.held {
        met.note(Point::HeldDiffers);
    }
    if a.station.holds() && a.station.turned(b.station.shape()) {
        met.note(Point::HeldTurned);
    }
    if a.station.pending.is_some() {
        met.note(Point::Pending);
    }
    shared_list(&mut a, &mut b, random, tally, met)
}

/// Two stations from the same card, spelt differently or alike.
fn pair(random: &mut Random, met: &mut Met<Point>) -> Checked<(Own, Own)> {
    let card = match random.below(8) {
        0 => cards::card(random),
        1..4 => cards::shallow(random),
        _ => cards::remembering(random),
    };
    let station = Station::open(&card).expect("the card is a good one");
    let other = if random.one_in(4) {
        card.clone()
    } else {
        spelling::respelt(&station.opened, random)
    };
    if card != other {
        met.note(Point::Respelt);
    }
    let longest = random.choose(&[2, 4, 4, 8, 8, 16, 32]);
    Ok((
        own(&card, &station, longest, random)?,
        own(&other, &station, longest, random)?,
    ))
}

fn own(card: &[u8], station: &Station, longest: usize, random: &mut Random) -> Checked<Own> {
    let mut state = [0xa5; STATE];
    let answer = bridge::open(card, &mut state);
    if (answer, state) != (Ok(0), station.state()) {
        return Err(format!(
            "opening {card:02x?}: here {answer:?} and {state:02x?}"
        ));
    }
    // Room for every frame and every depth in most cases, and in some not.
    let most = station.frames_at_most().max(1) * longest * longest;
    let words = if random.one_in(8) {
        random.below(most + 1)
    } else {
        most + random.below(100)
    };
    Ok(Own {
        state,
        history: Noise::any(random.next()).words(words),
        station: station.clone(),
        sizes: Sizes::new(longest, &[], random),
        curve: Vec::new(),
    })
}

/// Any past, none included.
fn own_list(
    own: &mut Own,
    random: &mut Random,
    tally: &mut RunTally,
    met: &mut Met<Point>,
) -> Checked {
    for _ in 0..random.below(20) {
        let room = own.history.len();
        let call = if random.one_in(16) {
            calls::set_depth(&own.station, room, random)
        } else {
            calls::next(&own.station, &mut own.sizes, room, random)
        };
        let before = own.station.clone();
        let seen = own.call(&call, random, tally)?;
        if turns(&before, &call, seen.answer) {
            met.note(Point::OwnTurned);
        }
        match (call, seen.answer) {
            (Call::Ask(..), Ok(_)) => met.note(Point::OwnAsked),
            (Call::Commit, Ok(_)) => met.note(Point::OwnCommitted),
            (Call::SetDepth(..), Ok(_)) => met.note(Point::OwnResized),
            _ => {}
        }
    }
    Ok(())
}

/// Whether a call was a frame that a station takes, of another shape than those before it and as many words.
fn turns(before: &Station, call: &Call, answer: Answer) -> bool {
    match call {
        Call::Frame(frame) => answer.is_ok() && before.turned(frame.size),
        _ => false,
    }
}

/// The last frames of `b` are those of a station that stands as `a` does, turned.
fn turn(a: &Own, b: &mut Own, random: &mut Random, tally: &mut RunTally) -> Checked {
    let (width, height) = a.sizes.last;
    b.sizes.last = (height, width);
    for _ in 0..random.within(1, 3) {
        let call = calls::of_size(&b.station, (height, width), b.history.len(), random);
        b.call(&call, random, tally)?;
    }
    Ok(())
}

/// Makes the switches of `b`, one kind after another, the preset, the depth and the pending switch those of `a`. Of several glows the
/// first alone can be switched or get another depth: the others stand as on the card.
fn equalise(a: &Own, b: &mut Own, random: &mut Random, tally: &mut RunTally) -> Checked {
    let asked = a.station.pending;
    // A commit alone clears another record. What it switches is made equal with the others.
    let another = b.station.pending != asked;
    if another && b.station.pending.is_some() {
        b.call(&Call::Commit, random, tally)?;
    }
    for kind in a.station.kinds() {
        let on = a.station.is_on(kind.into());
        if b.station.is_on(kind.into()) != on {
            b.call(&Call::Switch(kind, on.into()), random, tally)?;
        }
    }
    while a.station.preset() != b.station.preset() {
        b.call(&Call::Step, random, tally)?;
    }
    same_depth(a, b, random, tally)?;
    if let Some(Pending { kind, on }) = asked.filter(|_| another) {
        b.call(&Call::Ask(kind, on.into()), random, tally)?;
    }
    Ok(())
}

/// Makes the depth of `b` that of `a`. Its own buffer may be too short for what it holds; where it holds nothing, no word is asked for.
fn same_depth(a: &Own, b: &mut Own, random: &mut Random, tally: &mut RunTally) -> Checked {
    let depth = a.station.depth();
    if depth == b.station.depth() {
        return Ok(());
    }
    let call = Call::SetDepth(depth.unwrap_or_default() as u8, b.history.len());
    if b.call(&call, random, tally)?.answer.is_err() {
        b.call(&Call::Reset, random, tally)?;
        b.call(&call, random, tally)?;
    }
    Ok(())
}

/// The first glow to off.
const OFF: Pending = Pending {
    kind: PERSISTENCE as u8,
    on: false,
};

/// Whether the first glow is the only one that is on.
fn first_alone(station: &Station) -> bool {
    station.is_on(PERSISTENCE) && station.lit().len() == 1
}

/// Where a shared list stands.
struct Course {
    /// How many frames are still to be taken.
    left: usize,
    /// The same as if no change of depth began the count anew, and whether one did.
    left_of_first: usize,
    anew: bool,
    /// The same as if the deepest glow alone were counted.
    left_of_deepest: usize,
    /// How many glows were on as the count began.
    lit: usize,
    /// Whether one of several was switched off, and others stayed on; and whether the first was switched on beside others.
    one_off: bool,
    one_on: bool,
    agreed: bool,
}

impl Course {
    /// At the start: with no glow on there is nothing to wait for.
    fn new(station: &Station, met: &mut Met<Point>) -> Self {
        if !station.has(PERSISTENCE) {
            met.note(Point::Absent);
        } else if !station.remembers() {
            met.note(Point::Off);
        }
        let mut course = Course {
            left: 0,
            left_of_first: 0,
            anew: false,
            left_of_deepest: 0,
            lit: 0,
            one_off: false,
            one_on: false,
            agreed: !station.remembers(),
        };
        course.count(station);
        course.left_of_first = course.left;
        course
    }

    /// Begins to count: as many frames as the depths of the glows that are on add up to.
    fn count(&mut self, station: &Station) {
        let lit = station.lit();
        let depths = lit.iter().map(|&place| station.depth_at(place));
        self.left = station.frames_of(&lit);
        self.left_of_deepest = depths.max().unwrap_or_default();
        self.lit = lit.len();
    }

    /// Before a call on this station: whether the point is reached by it.
    fn reach(&mut self, station: &Station, call: &Call, met: &mut Met<Point>) {
        if self.agreed {
            return;
        }
        let point = match call {
            _ if self.left == 0 && self.anew => Point::FramesAnew(self.lit),
            _ if self.left == 0 => Point::Frames(self.lit),
            Call::Reset => Point::Reset(self.lit > 1),
            // These leave no glow on.
            Call::Switch(kind, 0) if *kind == OFF.kind && first_alone(station) => {
                Point::SwitchedOff
            }
            Call::Commit if station.pending == Some(OFF) && first_alone(station) => {
                Point::CommittedOff
            }
            _ => return,
        };
        assert!(station.remembers());
        self.agreed = true;
        met.note(point);
        if self.one_off {
            met.note(Point::OneOff);
        }
        if self.one_on {
            met.note(Point::OneOn);
        }
    }

    /// After a call, with the stations as they were before and what they answered: whether the list goes on. It does not where, before
    /// the point, one takes a new depth and the other refuses it, which can only be by 10: they hold frames of two sizes.
    fn goes_on(
        &mut self,
        stations: [&Station; 2],
        call: &Call,
        answers: [Answer; 2],
        met: &mut Met<Point>,
    ) -> bool {
        if self.agreed {
            if let (Call::SetDepth(..), [Ok(_), _]) = (call, answers) {
                met.note(Point::Resized);
            }
            return true;
        }
        let Call::SetDepth(depth, _) = call else {
            self.went(stations[0], call, answers[0], met);
            return true;
        };
        match answers {
            [Ok(_), Ok(_)] => self.resized(stations, *depth, met),
            [Err(number), Err(_)] => met.note(Point::ResizingRefused(number)),
            _ => met.note(Point::Outside),
        }
        answers[0].is_ok() == answers[1].is_ok()
    }

    /// After a new depth before the point, which both took: the count begins anew, with it and with those of the other glows that are on.
    fn resized(&mut self, [here, there]: [&Station; 2], depth: u8, met: &mut Met<Point>) {
        let mut after = here.clone();
        let taken = after.set_depth(depth, usize::MAX);
        assert!(taken.is_ok());
        self.count(&after);
        self.anew = true;
        met.note(Point::ResizedBefore(here.beside(depth)));
        if here.glows().len() > 1 {
            met.note(Point::ResizedSeveral(here.beside(depth)));
        }
        if here.held != there.held {
            met.note(Point::ResizedApart);
        }
    }

    /// After any other call before the point. Both stations answer it alike.
    fn went(&mut self, station: &Station, call: &Call, answer: Answer, met: &mut Met<Point>) {
        match (call, answer) {
            (Call::Frame(frame), Ok(_)) => {
                self.left -= 1;
                self.left_of_first = self.left_of_first.saturating_sub(1);
                self.left_of_deepest = self.left_of_deepest.saturating_sub(1);
                let refills = |&place: &usize| !station.meets(place, frame.size);
                if station.lit().iter().any(refills) {
                    met.note(Point::RefillBefore);
                }
                if station.turned(frame.size) {
                    met.note(Point::TurnedBefore);
                }
            }
            (Call::Switch(kind, on), Ok(_)) => self.switched(station, *kind, *on != 0, met),
            (Call::Ask(..), Ok(_)) => met.note(Point::AskedBefore),
            (Call::Commit, Ok(_)) => {
                met.note(Point::CommittedBefore);
                if let Some(Pending { kind, on }) = station.pending {
                    self.switched(station, kind, on, met);
                }
            }
            (_, Err(_)) => met.note(Point::RefusedBefore),
            _ => {}
        }
    }

    /// After a frame before the point of which the pictures differ.
    fn note_different(&self, met: &mut Met<Point>) {
        let several = self.lit > 1;
        let cases = [
            (self.left_of_first == 0, Point::DiffersAnew),
            (
                several && self.left_of_deepest == 0,
                Point::DiffersPastDeepest(self.lit),
            ),
            (several && self.left == 1, Point::DiffersLast(self.lit)),
            (self.one_off, Point::DiffersOneOff),
            (self.one_on, Point::DiffersOneOn),
        ];
        for (_, case) in cases.iter().filter(|(is, _)| *is) {
            met.note(*case);
        }
    }

    /// After a switch before the point, on a station that stood so before it: of the first glow while others are on, it changes nothing
    /// of the count.
    fn switched(&mut self, station: &Station, kind: u8, on: bool, met: &mut Met<Point>) {
        let was = station.is_on(PERSISTENCE);
        if kind != OFF.kind || was == on {
            return;
        }
        if on {
            self.one_on = true;
            met.note(Point::FirstOn);
        } else {
            self.one_off = true;
            met.note(Point::FirstOff);
        }
    }
}

/// Whether some picture before the point differed.
fn shared_list(
    a: &mut Own,
    b: &mut Own,
    random: &mut Random,
    tally: &mut RunTally,
    met: &mut Met<Point>,
) -> Checked<bool> {
    let room = a.history.len().min(b.history.len());
    let mut course = Course::new(&a.station, met);
    let mut differed = false;
    // Several glows take longer.
    let more = course.left.saturating_sub(course.left_of_deepest);
    for number in 0..random.within(4, 28) + more {
        let call = shared_call(a, b, room, random);
        course.reach(&a.station, &call, met);
        let before = a.station.clone();
        let beside = b.station.clone();
        let here = a.call(&call, random, tally)?;
        let there = b.call(&call, random, tally)?;
        // What a blur takes is a matter of the card and of the size: it waits for no point.
        if course.agreed && here != there || here.samples() != there.samples() {
            return Err(format!(
                "call {number} of the shared list, {call}: {here:08x?} and {there:08x?}"
            ));
        }
        if here.picture != there.picture {
            differed = true;
            course.note_different(met);
        }
        if here.reports != there.reports {
            met.note(Point::ClippedDiffers);
        }
        note_samples(&here, course.agreed, met);
        if let Call::Frame(frame) = &call {
            let turned = [(&before, &here), (&beside, &there)]
                .map(|(station, seen)| turns(station, &call, seen.answer));
            let [here_meets, there_meets] =
                [&before, &beside].map(|station| station.shape() == frame.size);
            if turned[0] && there_meets || turned[1] && here_meets {
                met.note(Point::OneTurned);
            }
            note_curves(a, b, here.answer, course.agreed, met);
        }
        let answers = [here.answer, there.answer];
        if !course.goes_on([&before, &beside], &call, answers, met) {
            return Ok(differed);
        }
    }
    if !course.agreed {
        met.note(Point::Never);
    }
    Ok(differed)
}

/// Notes whether samples were taken for a shared frame.
fn note_samples(seen: &Seen, agreed: bool, met: &mut Met<Point>) {
    match seen.samples() {
        None | Some(0) => {}
        Some(_) if agreed => met.note(Point::Sampled),
        Some(_) => met.note(Point::SampledBefore),
    }
}

/// Notes what the curves of a shared frame were, which both took or refused.
fn note_curves(a: &Own, b: &Own, answer: Answer, agreed: bool, met: &mut Met<Point>) {
    let same = curves::same(&a.curve, &b.curve);
    met.note(match (answer, a.station.curved()) {
        (Err(16), _) if agreed => Point::BadCurve,
        (Err(16), _) => Point::BadCurveBefore,
        (Ok(_), None) if agreed && a.curve.len() != b.curve.len() => Point::LengthsUnread,
        (Ok(_), None) if agreed && !same => Point::CurvesUnread,
        (Ok(_), Some(_)) if agreed && a.station.is_on(COLOUR) => {
            if same {
                Point::Curved
            } else {
                Point::CurvesPast
            }
        }
        _ => return,
    });
}

/// Frames above all: a reset or a switching-off brings the point at once, but not of one of several glows. A new depth asks for words of
/// what one of the two holds.
fn shared_call(a: &mut Own, b: &Own, room: usize, random: &mut Random) -> Call {
    if a.station.pending.is_some() && random.one_in(16) {
        Call::Commit
    } else if a.station.glows().len() > 1 && random.one_in(16) {
        Call::Switch(PERSISTENCE as u8, random.below(2) as u8)
    } else if random.one_in(12) {
        let own = if random.one_in(2) { &*a } else { b };
        calls::set_depth(&own.station, room, random)
    } else if random.one_in(4) {
        calls::next(&a.station, &mut a.sizes, room, random)
    } else {
        calls::good(&a.station, &mut a.sizes, room, random)
    }
}

impl Own {
    /// Makes a call and holds the answer and the state to the paper's station. What is not the call's own, noise
    /// in the scratch, past the picture and past what is read of the curve, is another each time.
    fn call(&mut self, call: &Call, random: &mut Random, tally: &mut RunTally) -> Checked<Seen> {
        let mut picture = Vec::new();
        let mut reports = UNTOLD;
        let (here, asked) = match call {
            Call::Frame(frame) => {
                self.curve = self.curve_of(frame, random);
                let (width, height) = frame.size;
                let asked = self.station.frame(width, height, &frame.lent, &self.curve);
                let here = self.frame(frame, random, &mut picture, &mut reports);
                if asked.is_ok() {
                    self.station.take(frame.size);
                    tally.frame(picture.len());
                }
                (here, asked.map(|()| 0))
            }
            Call::Reset => (bridge::reset(&mut self.state), self.station.reset()),
            Call::Switch(kind, on) => {
                let asked = self.station.switch(*kind, *on != 0);
                (bridge::set_enabled(&mut self.state, *kind, *on), asked)
            }
            Call::Ask(kind, on) => {
                let asked = self.station.ask(*kind, *on != 0);
                (bridge::ask(&mut self.state, *kind, *on), asked)
            }
            Call::Commit => (bridge::commit(&mut self.state), self.station.commit()),
            Call::Step => (bridge::cycle_lut(&mut self.state), self.station.step()),
            Call::SetDepth(depth, words) => {
                let asked = self.station.set_depth(*depth, *words);
                let lent = &mut self.history[..*words];
                (bridge::set_depth(&mut self.state, lent, *depth), asked)
            }
            Call::Write(_) | Call::Depth => {
                let asked = self.station.frames() as u32;
                (bridge::depth(&self.state), Ok(asked))
            }
        };
        tally.called(asked, 0);
        if (here, self.state) != (asked, self.station.state()) {
            let Own { state, station, .. } = self;
            return Err(format!(
                "{call}: here {here:?} and {state:02x?}, by the model {asked:?} and {:02x?}",
                station.state()
            ));
        }
        if let Call::Frame(frame) = call {
            self.reported(frame.size, here.is_ok(), reports)
                .map_err(|text| format!("{call}: {text}"))?;
        }
        Ok(Seen {
            answer: here,
            state: self.state,
            picture,
            reports,
        })
    }

    /// That an accepted frame reports the samples of the paper's station, and a refused one nothing. The clipped channels depend on the
    /// history: the runs hold them to the original's.
    fn reported(&self, size: Size, accepted: bool, reports: [u32; 2]) -> Checked {
        let [clipped, _] = reports;
        let asked = if accepted {
            [clipped, self.station.samples(size)]
        } else {
            UNTOLD
        };
        if reports == asked {
            return Ok(());
        }
        Err(format!("reports: here {reports:?}, by the model {asked:?}"))
    }

    /// That of the call, where the chain reads it; else any.
    fn curve_of(&self, frame: &Frame, random: &mut Random) -> Vec<f32> {
        let curve = match self.station.curved() {
            Some(_) => frame.curve,
            None => Curve::any(random),
        };
        curve.words(random.next())
    }

    fn frame(
        &mut self,
        frame: &Frame,
        random: &mut Random,
        picture: &mut Vec<u32>,
        reports: &mut [u32; 2],
    ) -> Answer {
        let Frame { size, lent, .. } = frame;
        let mut words = frame.words(random.next());
        let buffers = Lent {
            framebuffer: &mut words,
            history: &mut self.history[..lent.history],
            floats: &mut Noise::of(random.next()).floats(lent.floats),
            ints: &mut Noise::of(random.next()).words(lent.ints),
            curve: &self.curve,
            reports,
        };
        let answer = bridge::apply(&mut self.state, size.0, size.1, buffers);
        if answer.is_ok() {
            words.truncate(size.0 * size.1);
            *picture = words;
        }
        answer
    }
}
