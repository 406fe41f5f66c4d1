//! `compare`: the proved engine and the model on the same streams.
//!
//! What is taken for granted of the host calls beyond document 01: a record is
//! read before the venue is looked at, so 9 to 12 come before 16; bytes behind
//! the record don't matter; open refuses a run that is too short with 16, before
//! 17 for the step and 3 for the close; the permitted price is 0 for both of
//! these; a fresh venue is 0 in every place; later, places that the
//! venue doesn't use may hold anything; spare words and words behind the venue keep
//! their content, and so do all words of the kept prices but in a timed price and
//! a day end; a side is a buy where it is 0, and depth refuses with 2^64 - 1. Play
//! looks at the venue first, so there 16 comes before 9 to 12. The fill question
//! refuses a run that is too short with 16 too.

use crate::applier::{Applied, Applier};
use crate::asker::{self, Pending};
use crate::counts::Counts;
use crate::firms::Firms;
use crate::full_books;
use crate::model::{read_record, Event, Refusal, Report, Venue, LEAST_BUFFER};
use crate::observe::Observer;
use crate::pauses::Pauses;
use crate::replay::Replay;
use crate::rng::Rng;
use crate::sessions::{self, Examiner, Fault};
use crate::sides::Sides;
use crate::slid_prices::SlidPrices;
use crate::streams::{Call, Session};

/// At so many events, on average, the observing calls are compared once.
const EVENTS_A_LOOK: u32 = 8;

/// Of so many entries, on average, one is asked for before it is sent.
const ENTRIES_A_QUESTION: u32 = 2;

/// Plays sessions until so many events are over. Gives whether nothing
/// differed.
pub fn run(seed: u64, events: u64) -> bool {
    sessions::run(seed, events, &mut Pair::new())
}

pub fn same<T: PartialEq + std::fmt::Debug>(what: &str, engine: T, model: T) -> Result<(), Fault> {
    if engine == model {
        Ok(())
    } else {
        Err(format!("{what}: engine {engine:?}, model {model:?}"))
    }
}

/// Both sides, and what they are lent; the owners of the engine's orders as the events that
/// it accepted gave them; and from open the law of slid prices and the pauses, of the engine's
/// answers and reports.
struct Pair {
    sides: Sides,
    firms: Firms,
    slid_prices: Option<SlidPrices>,
    pauses: Option<Pauses>,
    applier: Applier,
    observer: Observer,
    replay: Replay,
    rng: Rng,
}

impl Pair {
    fn new() -> Self {
        let sides = Sides::new();
        Pair {
            firms: Firms::start(&sides.venue),
            slid_prices: None,
            pauses: None,
            sides,
            applier: Applier::new(),
            observer: Observer::new(),
            replay: Replay::new(),
            rng: Rng::new(0),
        }
    }

    /// Compares a call of apply, and counts what it got.
    fn apply(&mut self, call: &Call, counts: &mut Counts) -> Result<Applied, Fault> {
        let read = read_record(call.record, 0);
        let before = self.sides.venue.clone();
        let applied = self.applier.call(&mut self.sides, call);
        let applied = applied.map_err(|fault| format!("{fault}\n  in {read:?}"))?;
        match (read, applied.answer) {
            (Err(refusal), _) => counts.refuse_record(refusal),
            (Ok((event, _)), Err(refusal)) => {
                counts.refuse(&before, &event, refusal);
                self.read(&event, Err(refusal))?;
                self.check_full(&before, &event, call.buffer, Err(refusal), counts)?;
            }
            (Ok((event, _)), Ok(count)) => {
                let reports = Report::read_all(&applied.bytes);
                let reports = reports.map_err(|refusal| format!("reports: {refusal:?}"))?;
                self.read(&event, Ok(&applied.bytes))?;
                counts.accept(&before, &event, count, &reports);
                self.check_full(&before, &event, call.buffer, Ok(&reports), counts)?;
            }
        }
        Ok(applied)
    }

    /// What is read from events and the engine's answers and report bytes alone.
    fn read(&mut self, event: &Event, answer: Result<&[u8], Refusal>) -> Result<(), Fault> {
        if let Some(pauses) = &mut self.pauses {
            pauses.take(event, answer)?;
        }
        let Ok(bytes) = answer else {
            return Ok(());
        };
        self.firms.take(event, bytes)?;
        match &mut self.slid_prices {
            Some(slid_prices) => slid_prices.take(event, bytes),
            None => Ok(()),
        }
    }

    /// What the engine answered to an entry, held against the rule for full books and
    /// against the model where there is room.
    fn check_full(
        &self,
        before: &Venue,
        event: &Event,
        buffer: usize,
        answer: Result<&[Report], Refusal>,
        counts: &mut Counts,
    ) -> Result<(), Fault> {
        let after = &self.sides.venue;
        let with_room = full_books::check(before, event, buffer, answer, after)?;
        counts.full_books.check(with_room);
        Ok(())
    }

    /// Compares the calls that only observe, which keep every word.
    fn look(&mut self, counts: &mut Counts) -> Result<(), Fault> {
        let resting = self.sides.venue.orders.len();
        let (venue, words) = self.sides.lend();
        let book = venue.map(|venue| &*venue);
        self.observer
            .look(&mut self.rng, book, resting, words, counts)?;
        self.sides.compare_kept("a word after copy out")?;
        asker::ask_any(&mut self.sides, &mut self.rng, counts)
    }

    /// Asks for some entries whether they would fill.
    fn ask(&mut self, call: &Call, counts: &mut Counts) -> Result<Option<Pending>, Fault> {
        match read_record(call.record, 0) {
            Ok((Event::Entry(entry), _)) if self.rng.one_in(ENTRIES_A_QUESTION) => {
                asker::ask_for(&mut self.sides, entry, counts).map(Some)
            }
            _ => Ok(None),
        }
    }
}

impl Examiner for Pair {
    /// Brings both sides to the session's start.
    fn start(&mut self, seed: u64, session: &Session, counts: &mut Counts) -> Result<(), Fault> {
        self.rng = Rng::new(!seed);
        self.sides.start(&mut self.rng, session, counts)?;
        self.firms = Firms::start(&self.sides.venue);
        let from_open = session.kind.is_from_open();
        self.slid_prices = SlidPrices::start(from_open);
        self.pauses = Pauses::start(from_open, self.sides.venue.step);
        self.replay.start(&self.sides);
        self.look(counts)
    }

    fn venue(&self) -> &Venue {
        &self.sides.venue
    }

    fn event(&mut self, call: &Call, counts: &mut Counts) -> Result<(), Fault> {
        let asked = self.ask(call, counts)?;
        let mut applied = self.apply(call, counts)?;
        if applied.answer == Err(Refusal::ShortBuffer) {
            // Once more with room, as a host would; so the event is one of a
            // play too.
            let again = Call {
                buffer: LEAST_BUFFER,
                ..*call
            };
            applied = self.apply(&again, counts)?;
        }
        if let Some(asked) = asked {
            let entered = applied.answer.map(|_| &applied.bytes[..]);
            asker::hold(&self.sides, &asked, entered, counts)?;
        }
        self.replay.gather(call.record, &applied);
        if self.rng.one_in(EVENTS_A_LOOK) {
            self.look(counts)?;
        }
        Ok(())
    }

    fn end(&mut self, counts: &mut Counts) -> Result<(), Fault> {
        self.look(counts)?;
        self.replay.run(&self.sides, &mut self.rng, counts)
    }

    fn recover(&mut self) {
        self.applier = Applier::new();
        self.observer = Observer::new();
        self.replay = Replay::new();
    }
}
