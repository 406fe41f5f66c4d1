//! Sessions, played one after the other until enough events are over.

use crate::counts::Counts;
use crate::model::Venue;
use crate::rng::Rng;
use crate::streams::{Call, Session};

/// What differs, or a claim that failed.
pub type Fault = String;

pub fn ensure(condition: bool, claim: &str) -> Result<(), Fault> {
    if condition {
        Ok(())
    } else {
        Err(claim.to_owned())
    }
}

/// One who looks at sessions, event by event.
pub trait Examiner {
    fn start(&mut self, seed: u64, session: &Session, counts: &mut Counts) -> Result<(), Fault>;

    /// The venue as it stands, for which the next event is made.
    fn venue(&self) -> &Venue;

    fn event(&mut self, call: &Call, counts: &mut Counts) -> Result<(), Fault>;

    /// After the last event.
    fn end(&mut self, counts: &mut Counts) -> Result<(), Fault>;

    /// Throws away the buffers that a fault may have spoilt.
    fn recover(&mut self);
}

/// At so many faults a run ends: where each session has one at its start, no
/// event would ever be over.
const MOST_FAULTS: u64 = 1_000;

/// Plays sessions until so many events are over, the rest of a session with a
/// fault left out. Prints the counts and gives whether there was no fault and every
/// refusal of an event came.
pub fn run(seed: u64, events: u64, examiner: &mut impl Examiner) -> bool {
    let mut seeds = Rng::new(seed);
    let mut counts = Counts::default();
    while counts.events < events && counts.differences < MOST_FAULTS {
        let seed = seeds.next();
        let before = counts.events;
        if let Err(fault) = play(seed, examiner, &mut counts) {
            counts.differ(seed, counts.events - before, &fault);
            examiner.recover();
        }
    }
    println!("{counts}");
    counts.are_well()
}

fn play(seed: u64, examiner: &mut impl Examiner, counts: &mut Counts) -> Result<(), Fault> {
    let mut session = Session::new(seed);
    counts.session(&session);
    examiner.start(seed, &session, counts)?;
    while let Some(call) = session.next(examiner.venue()) {
        counts.events += 1;
        examiner.event(&call, counts)?;
    }
    examiner.end(counts)
}
