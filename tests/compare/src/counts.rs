//! What a run counts, and the buffer that it lends.

use crate::asked::Asked;
use crate::falls::Falls;
use crate::full_book_counts::FullBooks;
use crate::half_cents::HalfCents;
use crate::market_orders::MarketOrders;
#[cfg(feature = "engine")]
use crate::model::{is_step, Stop};
use crate::model::{Event, Refusal, Report, Venue, Watch};
use crate::pause_counts::Pausing;
use crate::refused_entries::RefusedEntries;
use crate::rng::Rng;
use crate::slid_price_counts::Slides;
use crate::streams::{Kind, Session, MOST_BUFFER};
use crate::withdrawals::Withdrawals;
use std::fmt;

/// How many differences are printed in full.
const MOST_PRINTED: u64 = 10;

/// What an event may be refused with, its record included.
const OF_EVENTS: [usize; 19] = [
    1, 2, 3, 4, 5, 6, 7, 8, 9, 10, 11, 12, 16, 18, 19, 20, 21, 22, 23,
];

/// How often a call was accepted, and how often refused with which number.
#[derive(Default)]
pub struct Answers {
    accepted: u64,
    refused: [u64; 24],
}

impl Answers {
    pub fn add<T>(&mut self, answer: Result<T, Refusal>) {
        match answer {
            Ok(_) => self.accepted += 1,
            Err(refusal) => self.refused[refusal as usize] += 1,
        }
    }
}

impl fmt::Display for Answers {
    fn fmt(&self, f: &mut fmt::Formatter) -> fmt::Result {
        write!(f, "refusals:")?;
        for (number, count) in self.refused.iter().enumerate() {
            if *count > 0 {
                write!(f, " {number}: {count}")?;
            }
        }
        Ok(())
    }
}

#[derive(Default)]
pub struct Counts {
    pub events: u64,
    pub differences: u64,
    sessions: [u64; Kind::COUNT],
    answers: Answers,
    executions: u64,
    repricings: u64,
    most_bytes: usize,
    market_orders: MarketOrders,
    pub half_cents: HalfCents,
    refused_entries: RefusedEntries,
    pub asked: Asked,
    pub falls: Falls,
    pub withdrawals: Withdrawals,
    pub full_books: FullBooks,
    slides: Slides,
    pausing: Pausing,
    #[cfg(feature = "engine")]
    host: HostCounts,
}

/// Of the calls other than events.
#[cfg(feature = "engine")]
#[derive(Default)]
struct HostCounts {
    opens: Answers,
    copies: Answers,
    copied: u64,
    depths: Answers,
    large_depths: u64,
    permitted: Answers,
    watches: Answers,
    changed: u64,
    plays: PlayCounts,
}

/// Of plays of whole days, of pieces and in mixes.
#[cfg(feature = "engine")]
#[derive(Default)]
struct PlayCounts {
    days: u64,
    pieces: u64,
    events: u64,
    answers: [u64; 17],
    both_ways: u64,
    both_ways_events: u64,
    not_comparable: u64,
    mixed: u64,
    mixed_applies: u64,
}

impl Counts {
    pub fn session(&mut self, session: &Session) {
        self.sessions[session.kind as usize] += 1;
        self.market_orders.start(&session.start);
        self.half_cents.start(session);
        self.falls.start(&session.start);
        let from_open = session.kind.is_from_open();
        self.withdrawals.start(&session.start, from_open);
        self.full_books.start(from_open);
        self.slides.start(from_open);
        self.pausing.start(&session.start, from_open);
    }

    /// A record that can't be read.
    pub fn refuse_record(&mut self, refusal: Refusal) {
        self.answers.add::<()>(Err(refusal));
    }

    /// A refused event, with the venue, which stays.
    pub fn refuse(&mut self, venue: &Venue, event: &Event, refusal: Refusal) {
        self.answers.add::<()>(Err(refusal));
        self.market_orders.refuse(event, refusal);
        self.half_cents.refuse(venue.step, event, refusal);
        self.refused_entries.refuse(venue, event, refusal);
        self.full_books.refuse(venue, event, refusal);
        self.pausing.take(venue, event, Err(refusal));
    }

    /// An accepted event, with the venue before it, the byte count of its
    /// reports and these.
    pub fn accept(&mut self, before: &Venue, event: &Event, bytes: usize, reports: &[Report]) {
        self.answers.add(Ok(()));
        self.market_orders.accept(before, event, reports);
        self.half_cents.accept(before, event, reports);
        self.falls.accept(before, event, reports);
        self.withdrawals.accept(before, event, reports);
        self.full_books.accept(before, event, reports);
        self.slides.accept(before, event, reports);
        self.pausing.take(before, event, Ok(reports));
        self.most_bytes = self.most_bytes.max(bytes);
        for report in reports {
            match report {
                Report::Executed { .. } => self.executions += 1,
                Report::Repriced { .. } => self.repricings += 1,
                _ => {}
            }
        }
    }

    /// A watch before a tape price at a step, and the answer.
    pub fn watch(&mut self, step: u32, before: &Watch, price: u32, answer: Result<(), Refusal>) {
        self.half_cents.watch(step, price, answer);
        if answer.is_ok() {
            self.falls.watch(step, before, price);
        }
    }

    /// The refusals of events that never came.
    fn missing(&self) -> Vec<usize> {
        let never = |number: &usize| self.answers.refused[*number] == 0;
        OF_EVENTS.into_iter().filter(never).collect()
    }

    /// Whether nothing differs and every refusal of an event came.
    pub fn are_well(&self) -> bool {
        self.differences == 0 && self.missing().is_empty()
    }

    pub fn differ(&mut self, seed: u64, event: u64, what: &str) {
        self.differences += 1;
        if self.differences <= MOST_PRINTED {
            println!("difference in session {seed:#x} at event {event}: {what}");
        }
    }
}

#[cfg(feature = "engine")]
impl Counts {
    pub fn open(&mut self, step: u32, close: u32, answer: Result<usize, Refusal>) {
        self.host.opens.add(answer);
        self.half_cents.open(step, close, answer);
        let short = answer == Err(Refusal::VenueRecord);
        self.half_cents.open_run(short && !is_step(step));
    }

    pub fn permitted(&mut self, step: u32, bid: u32, answer: Result<u32, Refusal>) {
        self.host.permitted.add(answer);
        self.half_cents.permitted(step, bid, answer);
    }

    pub fn copy(&mut self, answer: Result<usize, Refusal>) {
        self.host.copies.add(answer);
        self.host.copied += answer.unwrap_or(0) as u64;
    }

    pub fn depth(&mut self, answer: Result<u64, Refusal>) {
        self.host.depths.add(answer);
        self.host.large_depths += u64::from(answer.is_ok_and(|sum| sum > u32::MAX.into()));
    }

    /// The answer of a host's watch, and whether its phase changed.
    pub fn host_watch(&mut self, answer: Result<(), Refusal>, changed: bool) {
        self.host.watches.add(answer);
        self.host.changed += u64::from(changed);
    }

    pub fn day(&mut self) {
        self.host.plays.days += 1;
    }

    pub fn piece(&mut self) {
        self.host.plays.pieces += 1;
    }

    /// A day that was played and applied one by one, with so many events; none
    /// where what both gave can't be compared.
    pub fn both_ways(&mut self, events: Option<usize>) {
        let plays = &mut self.host.plays;
        if let Some(events) = events {
            plays.both_ways += 1;
            plays.both_ways_events += events as u64;
        } else {
            plays.not_comparable += 1;
        }
    }

    /// A day that is gone through by a mix of both.
    pub fn mix(&mut self) {
        self.host.plays.mixed += 1;
    }

    /// A call of apply in such a mix.
    pub fn mixed_apply(&mut self) {
        self.host.plays.mixed_applies += 1;
    }

    /// A call of play that played so many events, whether of a whole day, of a
    /// piece or in a mix.
    pub fn play(&mut self, answer: Result<Stop, Refusal>, events: u64) {
        let number = match answer {
            Ok(stop) => stop as usize,
            Err(refusal) => refusal as usize,
        };
        self.host.plays.answers[number] += 1;
        self.host.plays.events += events;
    }
}

#[cfg(feature = "engine")]
impl fmt::Display for PlayCounts {
    fn fmt(&self, f: &mut fmt::Formatter) -> fmt::Result {
        let (days, pieces, events) = (self.days, self.pieces, self.events);
        write!(
            f,
            "played days {days} pieces {pieces} events {events} answers:"
        )?;
        for number in [0, 1, 2, 9, 10, 11, 12, 16] {
            write!(f, " {number}: {}", self.answers[number])?;
        }
        let (days, events) = (self.both_ways, self.both_ways_events);
        write!(f, "\ndays both ways {days} events {events} ")?;
        let (days, mixed, applies) = (self.not_comparable, self.mixed, self.mixed_applies);
        write!(f, "not comparable {days} mixed {mixed} applies {applies}")
    }
}

#[cfg(feature = "engine")]
impl fmt::Display for HostCounts {
    fn fmt(&self, f: &mut fmt::Formatter) -> fmt::Result {
        let (opens, copies) = (&self.opens, &self.copies);
        let (depths, watches) = (&self.depths, &self.watches);
        writeln!(f, "opens {} {opens}", opens.accepted)?;
        let records = self.copied;
        writeln!(f, "copies {} records {records} {copies}", copies.accepted)?;
        let large = self.large_depths;
        writeln!(
            f,
            "depths {} over 32 bits {large} {depths}",
            depths.accepted
        )?;
        let permitted = &self.permitted;
        writeln!(f, "permitted prices {} {permitted}", permitted.accepted)?;
        let changed = self.changed;
        writeln!(
            f,
            "watches {} changed {changed} {watches}",
            watches.accepted
        )?;
        writeln!(f, "{}", self.plays)
    }
}

impl fmt::Display for Counts {
    fn fmt(&self, f: &mut fmt::Formatter) -> fmt::Result {
        let [sound, nonsense, damaged, made_up, spoilt] = self.sessions;
        write!(f, "sessions: {sound} sound, {nonsense} nonsense, ")?;
        writeln!(f, "{damaged} damaged, {made_up} made up, {spoilt} spoilt")?;
        writeln!(
            f,
            "events {} accepted {}",
            self.events, self.answers.accepted
        )?;
        writeln!(
            f,
            "executions {} re-pricings {} most report bytes {}",
            self.executions, self.repricings, self.most_bytes
        )?;
        writeln!(f, "{}", self.answers)?;
        writeln!(f, "{}", self.market_orders)?;
        writeln!(f, "{}", self.half_cents)?;
        writeln!(f, "{}", self.refused_entries)?;
        writeln!(f, "{}", self.asked)?;
        writeln!(f, "{}", self.falls)?;
        writeln!(f, "{}", self.withdrawals)?;
        writeln!(f, "{}", self.full_books)?;
        writeln!(f, "{}", self.slides)?;
        writeln!(f, "{}", self.pausing)?;
        #[cfg(feature = "engine")]
        if self.host.copies.accepted > 0 {
            write!(f, "{}", self.host)?;
        }
        let missing = self.missing();
        if !missing.is_empty() {
            writeln!(f, "refusals of events that NEVER CAME: {missing:?}")?;
        }
        write!(f, "differences {}", self.differences)
    }
}

/// A report buffer that is full of noise before each event, so that a byte
/// written behind the reports shows.
pub struct Lent {
    noise: Vec<u8>,
    buffer: Vec<u8>,
}

impl Lent {
    pub fn new() -> Self {
        let mut rng = Rng::new(0);
        let noise: Vec<u8> = (0..MOST_BUFFER).map(|_| rng.word() as u8).collect();
        let buffer = noise.clone();
        Lent { noise, buffer }
    }

    pub fn lend(&mut self, len: usize) -> &mut [u8] {
        &mut self.buffer[..len]
    }

    pub fn front(&self, count: usize) -> &[u8] {
        &self.buffer[..count]
    }

    pub fn keeps_from(&self, count: usize) -> bool {
        self.buffer[count..] == self.noise[count..]
    }

    /// Puts the noise back over the front.
    pub fn restore(&mut self, count: usize) {
        self.buffer[..count].copy_from_slice(&self.noise[..count]);
    }
}
