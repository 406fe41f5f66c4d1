//! What a run counts of half-cent stocks, so that its end shows that document 02's
//! No. 2 was reached.

use crate::model::{
    is_legal, Event, Refusal, Report, TimedPrice, Venue, CENT, DOLLAR, HALF_CENT, HIGHEST,
};
use crate::reached::{self, Line, Named};
use crate::streams::Session;
use std::fmt;

/// A price that is legal at the half-cent step alone.
fn is_half_cent(price: u32) -> bool {
    is_legal(HALF_CENT, price) && !is_legal(CENT, price)
}

/// The same record at another step.
fn at_step(venue: &Venue, step: u32) -> Venue {
    Venue {
        step,
        ..venue.clone()
    }
}

/// How many half-cent prices a record has in each of the places that the step
/// judges.
fn half_cents_by_place(venue: &Venue) -> ByPlace {
    let mut counts = [venue.close, venue.bid, 0, 0, 0, 0].map(|price| is_half_cent(price).into());
    for order in &venue.orders {
        let places = [order.limit, order.price, order.entry_bid];
        for (count, price) in counts[2..].iter_mut().zip(places) {
            *count += u64::from(is_half_cent(price));
        }
    }
    let kept = venue.kept.iter().filter(|old| is_half_cent(old.price));
    counts[5] = kept.count() as u64;
    counts
}

/// The price of an event, and a number for its kind.
fn price_of(event: &Event) -> Option<(usize, u32)> {
    match *event {
        Event::Entry(entry) => Some((0, entry.price)),
        Event::Cancel { .. } => None,
        Event::Bid { price } => Some((1, price)),
        Event::Tape { price } => Some((2, price)),
        Event::DayEnd { price } => Some((3, price)),
        Event::Timed(TimedPrice { price, .. }) => Some((4, price)),
    }
}

/// Of events by their kind: entries, bids, tape prices, day ends, timed prices.
type ByKind = [u64; 5];

/// Of a record's prices by their places: close, bid; limits, prices and entry bids
/// of orders; kept prices.
type ByPlace = [u64; 6];

fn by_kind(counts: &ByKind) -> Vec<Named> {
    let kinds = ["entries", "bids", "tape prices", "closes", "timed prices"];
    counts.iter().copied().zip(kinds).collect()
}

#[derive(Default)]
pub struct HalfCents {
    sessions: Sessions,
    /// Half-cent prices that were accepted.
    accepted: ByKind,
    reached: Reached,
    /// Half-cent prices that were refused with 3 at the step of a cent, and
    /// numbers between two of them at the half-cent step.
    at_cent: ByKind,
    between: ByKind,
    opens: Calls,
    permitted: Calls,
    watches: Calls,
    /// Opens of runs that are too short beside another step; none where a run
    /// doesn't lend any.
    short_opens: Option<u64>,
    /// Events that were checked by document 01 and with doubled prices; none
    /// where a run doesn't check so.
    checked: Option<[u64; 2]>,
}

/// The venues at the starts of sessions, and what of them are made-up records.
#[derive(Default)]
struct Sessions {
    half_cent: u64,
    cent: u64,
    others: u64,
    /// Sound at the half-cent step and broken at the other.
    sound: u64,
    /// Broken by a number that isn't a step and by nothing else; and those of
    /// them with half-cent prices.
    by_step: u64,
    by_step_half_cent: u64,
    /// Broken at the step of a cent and sound at the other; and those of them
    /// with one half-cent price alone.
    other_step: u64,
    by_one: ByPlace,
}

/// What followed from half-cent prices and the half-cent step.
#[derive(Default)]
struct Reached {
    working: u64,
    executions: u64,
    repricings: u64,
    triggers: u64,
    /// Orders priced at 10,050 over a bid of 10,000.
    border: u64,
    /// Bids of 99,999,950, and orders priced over them.
    highest_bids: u64,
    highest: u64,
}

/// Calls that take a step.
#[derive(Default)]
struct Calls {
    /// Half-cent prices, taken and refused with 3 at the step of a cent.
    taken: u64,
    at_cent: u64,
    /// Refused with 17 beside a price that is legal at both steps, and beside one
    /// that is legal at none.
    beside_legal: u64,
    beside_illegal: u64,
}

impl Sessions {
    fn count_step(&mut self, step: u32) {
        match step {
            HALF_CENT => self.half_cent += 1,
            CENT => self.cent += 1,
            _ => self.others += 1,
        }
    }

    /// Takes a made-up record. What is sound at the step of a cent is so at the
    /// half-cent step.
    fn count_record(&mut self, venue: &Venue) {
        if !at_step(venue, HALF_CENT).is_sound() {
            return;
        }
        let half_cents = !at_step(venue, CENT).is_sound();
        match venue.step {
            HALF_CENT => self.sound += u64::from(half_cents),
            CENT => {
                self.other_step += u64::from(half_cents);
                let places = half_cents_by_place(venue);
                if places.iter().sum::<u64>() == 1 {
                    (0..6).for_each(|place| self.by_one[place] += places[place]);
                }
            }
            _ => {
                self.by_step += 1;
                self.by_step_half_cent += u64::from(half_cents);
            }
        }
    }

    fn steps(&self) -> Vec<Named> {
        Vec::from([
            (self.half_cent, "at 50"),
            (self.cent, "at 100"),
            (self.others, "at another step"),
        ])
    }

    fn records(&self) -> Vec<Named> {
        Vec::from([
            (self.sound, "sound by half cents"),
            (self.other_step, "broken at 100 and sound at 50"),
            (self.by_step, "broken by another step alone"),
            (self.by_step_half_cent, "of these with half-cent prices"),
        ])
    }

    fn places(&self) -> Vec<Named> {
        let places = ["close", "bid", "limit", "price", "entry bid", "kept price"];
        self.by_one.into_iter().zip(places).collect()
    }
}

impl Reached {
    fn prices(&self) -> Vec<Named> {
        Vec::from([
            (self.working, "working prices above the limit"),
            (self.executions, "executions"),
            (self.repricings, "re-pricings"),
            (self.triggers, "triggers"),
        ])
    }

    fn borders(&self) -> Vec<Named> {
        Vec::from([
            (self.border, "priced 10,050 at bid 10,000"),
            (self.highest_bids, "bids 99,999,950"),
            (self.highest, "priced 100,000,000 at it"),
        ])
    }

    /// Takes the reports of an event at the half-cent step, and the bid after it.
    fn take(&mut self, event: &Event, close: u32, bid: u32, reports: &[Report]) {
        for report in reports {
            match *report {
                Report::Accepted { price, .. } => {
                    let slid = price_of(event) != Some((0, price));
                    self.working += u64::from(slid && is_half_cent(price));
                    self.price(bid, price);
                }
                Report::Repriced { price, .. } => {
                    self.repricings += u64::from(is_half_cent(price));
                    self.price(bid, price);
                }
                Report::Executed { price, .. } => {
                    self.executions += u64::from(is_half_cent(price));
                }
                Report::RestrictionOn => {
                    let tape = price_of(event).map_or(0, |(_, price)| price);
                    self.triggers += u64::from(is_half_cent(tape) || is_half_cent(close));
                }
                Report::Cancelled { .. } | Report::DayEnded { .. } | Report::Pause { .. } => {}
            }
        }
        let highest = Event::Bid {
            price: HIGHEST - HALF_CENT,
        };
        self.highest_bids += u64::from(*event == highest);
    }

    /// Takes a price that was given at a bid.
    fn price(&mut self, bid: u32, price: u32) {
        let above = |below| bid == below && price == below + HALF_CENT;
        self.border += u64::from(above(DOLLAR));
        self.highest += u64::from(above(HIGHEST - HALF_CENT));
    }
}

impl Calls {
    fn counts(&self) -> Vec<Named> {
        Vec::from([
            (self.taken, "half-cent prices taken"),
            (self.at_cent, "refused at 100"),
            (self.beside_legal, "17 beside a legal one"),
            (self.beside_illegal, "17 beside another"),
        ])
    }

    fn add<T>(&mut self, step: u32, price: u32, answer: Result<T, Refusal>) {
        match answer {
            Ok(_) => self.taken += u64::from(is_half_cent(price)),
            Err(Refusal::Price) => {
                self.at_cent += u64::from(step == CENT && is_half_cent(price));
            }
            Err(Refusal::Step) if is_legal(CENT, price) => self.beside_legal += 1,
            Err(Refusal::Step) if !is_legal(HALF_CENT, price) => self.beside_illegal += 1,
            Err(_) => {}
        }
    }
}

impl HalfCents {
    /// Takes the start of a session.
    pub fn start(&mut self, session: &Session) {
        self.sessions.count_step(session.start.step);
        if !session.kind.is_from_open() {
            self.sessions.count_record(&session.start);
        }
    }

    /// Takes an event that a venue of that step refused.
    pub fn refuse(&mut self, step: u32, event: &Event, refusal: Refusal) {
        let Some((kind, price)) = price_of(event).filter(|_| refusal == Refusal::Price) else {
            return;
        };
        let between = price > DOLLAR && price < HIGHEST;
        match step {
            CENT => self.at_cent[kind] += u64::from(is_half_cent(price)),
            _ => self.between[kind] += u64::from(between),
        }
    }

    /// Takes an accepted event, the venue before it and its reports.
    pub fn accept(&mut self, before: &Venue, event: &Event, reports: &[Report]) {
        if before.step != HALF_CENT {
            return;
        }
        if let Some((kind, price)) = price_of(event) {
            self.accepted[kind] += u64::from(is_half_cent(price));
        }
        let bid = match *event {
            Event::Bid { price } => price,
            _ => before.bid,
        };
        self.reached.take(event, before.close, bid, reports);
    }

    pub fn open<T>(&mut self, step: u32, close: u32, answer: Result<T, Refusal>) {
        self.opens.add(step, close, answer);
    }

    /// Takes an open of a run, too short and beside another step or not.
    #[cfg(feature = "engine")]
    pub fn open_run(&mut self, short_and_step: bool) {
        *self.short_opens.get_or_insert_default() += u64::from(short_and_step);
    }

    pub fn permitted<T>(&mut self, step: u32, bid: u32, answer: Result<T, Refusal>) {
        self.permitted.add(step, bid, answer);
    }

    pub fn watch<T>(&mut self, step: u32, price: u32, answer: Result<T, Refusal>) {
        self.watches.add(step, price, answer);
    }

    /// Takes an event that was checked, by document 01 and with doubled prices or
    /// not.
    pub fn check(&mut self, by_document_01: bool, by_cents: bool) {
        let [ones, others] = self.checked.get_or_insert_default();
        *ones += u64::from(by_document_01);
        *others += u64::from(by_cents);
    }

    /// All counts in lines, with their names.
    fn lines(&self) -> Vec<Line<&'static str>> {
        let mut lines = Vec::from([
            ("sessions", self.sessions.steps()),
            ("records", self.sessions.records()),
            ("broken at 100 by one number", self.sessions.places()),
            ("half-cent prices accepted", by_kind(&self.accepted)),
            ("half-cent prices refused at 100", by_kind(&self.at_cent)),
            ("numbers between refused at 50", by_kind(&self.between)),
            ("from half-cent prices", self.reached.prices()),
            ("at the borders", self.reached.borders()),
            ("opens", self.opens.counts()),
            ("permitted prices", self.permitted.counts()),
            ("watches", self.watches.counts()),
        ]);
        if let Some(count) = self.short_opens {
            lines.push(("short runs to open", vec![(count, "with another step")]));
        }
        if let Some([ones, others]) = self.checked {
            let ways = [(ones, "by document 01"), (others, "by doubled prices")];
            lines.push(("events checked", ways.to_vec()));
        }
        lines
    }
}

impl fmt::Display for HalfCents {
    fn fmt(&self, f: &mut fmt::Formatter) -> fmt::Result {
        reached::write(f, "half-cent stocks", &self.lines())
    }
}
