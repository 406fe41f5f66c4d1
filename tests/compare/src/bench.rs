//! `bench`: events a second, of the model and, with the feature, the engine, timed prices
//! among them; and the time of a question.

use crate::bench_fill;
#[cfg(feature = "engine")]
use crate::engine;
#[cfg(feature = "engine")]
use crate::model::Venue;
use crate::model::{read_record, Progress, RecordCheck, CENT, HALF_CENT, LEAST_BUFFER};
use crate::streams::{timed_trace, trace, trace_with_kept, Trace};
use std::time::{Duration, Instant};

pub const SEED: u64 = 201;
const EVENTS: usize = 40_000;
const ROUNDS: usize = 12;
pub const BOOKS: [usize; 3] = [8, 64, 250];

/// Events that are timed together. Of each such part the best round counts, so
/// that the machine's other work doesn't.
const PART: usize = 500;

/// What is lent to every side: a report buffer that is long enough for a part,
/// and a place for the end of each of its events.
struct Lent {
    reports: Vec<u8>,
    ends: Vec<u64>,
}

impl Lent {
    fn new(reports: usize) -> Self {
        Lent {
            reports: vec![0; reports],
            ends: vec![0; PART],
        }
    }

    /// So long that no part of the trace needs more. How much that is, is found
    /// by playing it event by event.
    fn for_parts(trace: &Trace) -> Self {
        let mut lent = Lent::new(LEAST_BUFFER);
        let mut play = model_events(trace, RecordCheck::Skipped);
        let parts = (0..EVENTS.div_ceil(PART)).map(|_| play(&mut lent));
        let most = parts.max().unwrap_or(0);
        Lent::new(most + LEAST_BUFFER)
    }
}

/// One side of the benchmark, which plays the next part of a trace at each call
/// and gives the byte count of its reports.
type Player<'a> = Box<dyn FnMut(&mut Lent) -> usize + 'a>;

/// Plays event by event. The byte count of an event's reports is what `apply`
/// gives for its record and a buffer.
fn event_by_event<'a>(
    trace: &'a Trace,
    mut apply: impl FnMut(&[u8], &mut [u8]) -> usize + 'a,
) -> Player<'a> {
    let mut records = trace.records();
    Box::new(move |lent| {
        let part = records.by_ref().take(PART);
        let buffer = &mut lent.reports[..LEAST_BUFFER];
        part.map(|record| apply(record, buffer)).sum()
    })
}

/// Plays a part in one call, on from where the last one ended: there are as many
/// places for ends as events in a part.
fn in_one_call<'a>(
    trace: &'a Trace,
    mut play: impl FnMut(&[u8], u64, &mut Lent) -> Progress + 'a,
) -> Player<'a> {
    let mut at = 0;
    Box::new(move |lent| {
        let progress = play(trace.bytes(), at, lent);
        at = progress.at;
        progress.bytes as usize
    })
}

fn model_events(trace: &Trace, check: RecordCheck) -> Player<'_> {
    let mut venue = trace.start.clone();
    event_by_event(trace, move |record, buffer| {
        let answer =
            read_record(record, 0).and_then(|(event, _)| venue.apply(&event, buffer, check));
        answer.unwrap_or(0)
    })
}

/// Without any record check.
fn model_day(trace: &Trace) -> Player<'_> {
    let mut venue = trace.start.clone();
    in_one_call(trace, move |records, from, lent| {
        let mut progress = Progress::default();
        let (reports, ends) = (&mut lent.reports, &mut lent.ends);
        let check = RecordCheck::Skipped;
        // The bytes played tell whether it came to the end of the part.
        let _ = venue.play(records, from, reports, ends, &mut progress, check);
        progress
    })
}

#[cfg(feature = "engine")]
fn words_of(venue: &Venue) -> Vec<u32> {
    let mut words = vec![0; engine::VENUE_WORDS];
    engine::store(venue, &mut words);
    words
}

#[cfg(feature = "engine")]
fn engine_events(trace: &Trace) -> Player<'_> {
    let mut words = words_of(&trace.start);
    event_by_event(trace, move |record, buffer| {
        engine::apply(&mut words, record, buffer) as usize & 0xFFFF
    })
}

/// With the record check once a call.
#[cfg(feature = "engine")]
fn engine_day(trace: &Trace) -> Player<'_> {
    let mut words = words_of(&trace.start);
    in_one_call(trace, move |records, from, lent| {
        let mut progress = Progress::default();
        let (reports, ends) = (&mut lent.reports, &mut lent.ends);
        engine::play(&mut words, records, from, reports, ends, &mut progress);
        progress
    })
}

/// The sides at the start of a trace, with their names.
fn players(trace: &Trace) -> Vec<(&'static str, Player<'_>)> {
    Vec::from([
        ("model", model_events(trace, RecordCheck::Skipped)),
        ("model with check", model_events(trace, RecordCheck::Done)),
        #[cfg(feature = "engine")]
        ("engine", engine_events(trace)),
        ("model, a day in one call", model_day(trace)),
        #[cfg(feature = "engine")]
        ("engine, a day in one call", engine_day(trace)),
    ])
}

/// The best times of one side's parts, and the bytes of its reports.
struct Side {
    name: &'static str,
    best: Vec<Duration>,
    bytes: usize,
}

impl Side {
    fn new(name: &'static str) -> Self {
        Side {
            name,
            best: vec![Duration::MAX; EVENTS.div_ceil(PART)],
            bytes: 0,
        }
    }

    fn round(&mut self, mut play_part: Player, lent: &mut Lent) {
        self.bytes = 0;
        for best in &mut self.best {
            let start = Instant::now();
            self.bytes += play_part(lent);
            *best = start.elapsed().min(*best);
        }
    }

    fn nanoseconds(&self) -> f64 {
        let total: Duration = self.best.iter().sum();
        total.as_secs_f64() * 1e9 / EVENTS as f64
    }
}

/// A stream at a step, from a seed, with so many resting orders and so many events.
type MakeTrace = fn(u32, u64, usize, usize) -> Trace;

/// What is timed on every book, with its title.
const STREAMS: [(&str, u32, MakeTrace); 4] = [
    ("events:", CENT, trace),
    ("half-cent stocks:", HALF_CENT, trace),
    ("events with 512 kept prices:", CENT, trace_with_kept),
    ("timed prices with about 512 kept:", CENT, timed_trace),
];

/// Times every side on every stream and book, round by round in turn, and then questions.
/// Gives whether all sides wrote as many report bytes and read as many orders.
pub fn run() -> bool {
    let mut same = true;
    for (title, step, make) in STREAMS {
        println!("{title}");
        for book in BOOKS {
            same &= bench_book(&make(step, SEED, book, EVENTS), book);
        }
    }
    bench_fill::run() && same
}

fn bench_book(trace: &Trace, book: usize) -> bool {
    let mut lent = Lent::for_parts(trace);
    let names = players(trace).into_iter().map(|(name, _)| name);
    let mut sides: Vec<Side> = names.map(Side::new).collect();
    for _ in 0..ROUNDS {
        for (side, (_, player)) in sides.iter_mut().zip(players(trace)) {
            side.round(player, &mut lent);
        }
    }
    println!("{book} orders resting (mean {:.0}):", trace.mean_resting);
    for (at, side) in sides.iter().enumerate() {
        print_line(side, &sides[..at]);
    }
    sides.iter().all(|side| side.bytes == sides[0].bytes)
}

/// One side's rate, and its ratio to the rate of each side before it.
fn print_line(side: &Side, others: &[Side]) {
    let time = side.nanoseconds();
    let rate = 1e9 / time;
    print!("  {:<25}{rate:>12.0} events/s {time:>6.0} ns", side.name);
    for other in others {
        let ratio = other.nanoseconds() / time;
        print!("   {ratio:.2} of {}", other.name);
    }
    println!();
}
