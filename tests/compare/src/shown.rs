//! Streams shown to tests, event by event.

use crate::model::{read_record, Event, RecordCheck, Refusal, Report, Venue, CENT, HALF_CENT};
use crate::rng::Rng;
use crate::streams::{Session, MOST_BUFFER};

/// An event of a stream, what it got and the venue around it.
pub struct Shown<'a> {
    pub before: &'a Venue,
    pub event: &'a Event,
    pub answer: Result<&'a [Report], Refusal>,
    pub after: &'a Venue,
    /// The close of the day before; on the first day of a session that of the day.
    pub close_before: u32,
    /// Whether it is the first that the session shows.
    pub first: bool,
    /// Whether the session began with open.
    pub from_open: bool,
}

/// What a venue does to an event with a report buffer.
pub type Apply = fn(&mut Venue, &Event, &mut [u8]) -> Result<Vec<Report>, Refusal>;

/// What the model does.
pub fn apply(venue: &mut Venue, event: &Event, buffer: &mut [u8]) -> Result<Vec<Report>, Refusal> {
    let count = venue.apply(event, buffer, RecordCheck::Done)?;
    Report::read_all(&buffer[..count])
}

/// Shows so many events, but for those that can't be read.
pub fn show_all(seed: u64, events: u32, mut see: impl FnMut(&Shown)) {
    show_while(seed, events, apply, |shown| {
        see(shown);
        true
    });
}

/// Shows as many of so many events as are asked for, on a venue that does as said.
pub fn show_while(seed: u64, events: u32, apply: Apply, mut see: impl FnMut(&Shown) -> bool) {
    let mut seeds = Rng::new(seed);
    let mut over = 0;
    while over < events {
        let mut session = Session::new(seeds.next());
        match show_session(&mut session, apply, &mut see) {
            Some(events) => over += events,
            None => return,
        }
    }
}

/// Gives how many events there were, if all were asked for.
fn show_session(
    session: &mut Session,
    apply: Apply,
    see: &mut impl FnMut(&Shown) -> bool,
) -> Option<u32> {
    let mut buffer = vec![0; MOST_BUFFER];
    let mut venue = session.start.clone();
    let mut close_before = venue.close;
    let (mut first, mut over) = (true, 0);
    while let Some(call) = session.next(&venue) {
        over += 1;
        let Ok((event, _)) = read_record(call.record, 0) else {
            continue;
        };
        let before = venue.clone();
        let answer = apply(&mut venue, &event, &mut buffer[..call.buffer]);
        let goes_on = see(&Shown {
            before: &before,
            event: &event,
            answer: answer.as_deref().map_err(|refusal| *refusal),
            after: &venue,
            close_before,
            first,
            from_open: session.kind.is_from_open(),
        });
        if !goes_on {
            return None;
        }
        first = false;
        if matches!((event, answer), (Event::DayEnd { .. }, Ok(_))) {
            close_before = before.close;
        }
    }
    Some(over)
}

/// Shows so many events, each with the venue before it and the answer.
pub fn show_events(
    seed: u64,
    events: u32,
    mut see: impl FnMut(&Venue, &Event, Result<(), Refusal>),
) {
    show_all(seed, events, |shown| {
        see(shown.before, shown.event, shown.answer.map(|_| ()));
    });
}

/// Shows 50,000 events of each of three seeds at each step. The versions of a rule that
/// `tell` leaves, as an event doesn't tell them from the model, are the right one alone.
pub fn assert_told_apart<N: AsRef<str> + Clone, V: Clone>(
    right: &str,
    versions: &[(N, V)],
    mut tell: impl FnMut(&Shown, &mut Vec<(N, V)>),
) {
    for seed in [1, 2, 3] {
        for step in [HALF_CENT, CENT] {
            let mut untold = versions.to_vec();
            show_all(seed, 50_000, |shown| {
                if shown.before.step == step {
                    tell(shown, &mut untold);
                }
            });
            let names: Vec<&str> = untold.iter().map(|(name, _)| name.as_ref()).collect();
            assert_eq!(names, [right], "seed {seed}, step {step}");
        }
    }
}
