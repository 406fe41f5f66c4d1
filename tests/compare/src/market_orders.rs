//! What a run counts of market orders, so that its end shows that document 02's
//! No. 1 was reached.

use crate::by_limits::{follows_bid, market_shorts, with_plain_shorts};
use crate::counts::Answers;
use crate::model::{
    Entry, Event, Order, RecordCheck, Refusal, Report, Venue, LEAST_BUFFER, LOWEST, SHORT,
};
use std::fmt;

#[derive(Default)]
pub struct MarketOrders {
    /// Entries, accepted or not.
    answers: Answers,
    /// Taken as immediate or cancel, by mark; and the restricted shorts, which
    /// found no bid.
    immediate: [u64; 4],
    restricted: u64,
    /// Market shorts, by slide; and those that came to rest.
    shorts: [u64; 4],
    rested: u64,
    /// Market shorts that stayed in a pass with no bid, by slide, where a short
    /// with limit 1 would have moved; and those of them in a tape price's pass.
    stayed: [u64; 4],
    stayed_at_tape: u64,
    /// Shorts with limit 1 that are no market shorts and fell to 1.
    fell: u64,
    /// Market shorts that were re-priced up, down, and by a bid that came back.
    up: u64,
    down: u64,
    back: u64,
    /// Market shorts that rested until a day end.
    ended: u64,
    /// Made-up records with market shorts that are sound, and those that are
    /// broken by nothing but the flag.
    sound: u64,
    broken: u64,
}

impl MarketOrders {
    /// Takes the venue at the start of a session.
    pub fn start(&mut self, venue: &Venue) {
        if market_shorts(venue).next().is_none() {
            return;
        }
        if venue.is_sound() {
            self.sound += 1;
        } else if with_plain_shorts(venue).is_sound() {
            self.broken += 1;
        }
    }

    pub fn refuse(&mut self, event: &Event, refusal: Refusal) {
        if matches!(event, Event::Entry(entry) if entry.is_market()) {
            self.answers.add::<()>(Err(refusal));
        }
    }

    /// Takes an accepted event, the venue before it and its reports.
    pub fn accept(&mut self, before: &Venue, event: &Event, reports: &[Report]) {
        match *event {
            Event::Entry(entry) if entry.is_market() => self.enter(before, &entry, reports),
            Event::Entry(_) | Event::Cancel { .. } => {}
            Event::Bid { price } => {
                self.stay(before, price, event);
                self.reprice(before, price, reports);
            }
            Event::Tape { .. } | Event::Timed(_) => {
                self.stayed_at_tape += self.stay(before, before.bid, event);
                self.reprice(before, before.bid, reports);
            }
            Event::DayEnd { .. } => self.ended += market_shorts(before).count() as u64,
        }
    }

    fn enter(&mut self, before: &Venue, entry: &Entry, reports: &[Report]) {
        self.answers.add(Ok(()));
        if !follows_bid(before, entry) {
            let restricted = entry.mark == SHORT && before.phase != 0;
            self.immediate[entry.mark as usize] += 1;
            self.restricted += u64::from(restricted);
            return;
        }
        self.shorts[entry.slide as usize] += 1;
        let gone = reports.iter().map(|report| match report {
            Report::Executed { shares, .. } => *shares,
            Report::Cancelled { id, shares, .. } if *id == entry.id => *shares,
            _ => 0,
        });
        self.rested += u64::from(gone.sum::<u32>() < entry.shares);
    }

    /// Takes the market shorts that a pass with no bid leaves where they are:
    /// those that move where no order is a market short. Gives how many.
    fn stay(&mut self, before: &Venue, bid: u32, event: &Event) -> u64 {
        if bid != 0 || market_shorts(before).next().is_none() {
            return 0;
        }
        let mut buffer = vec![0; LEAST_BUFFER];
        let mut other = with_plain_shorts(before);
        let answer = other.apply(event, &mut buffer, RecordCheck::Skipped);
        let count = answer.unwrap_or(0);
        let reports = Report::read_all(&buffer[..count]).unwrap_or_default();
        let mut stayed = 0;
        for (order, _) in repriced(before, &reports).filter(|(order, _)| order.market) {
            self.stayed[order.slide as usize] += 1;
            stayed += 1;
        }
        stayed
    }

    /// Takes the re-pricings of a pass at a bid.
    fn reprice(&mut self, before: &Venue, bid: u32, reports: &[Report]) {
        for (order, price) in repriced(before, reports) {
            if !order.market {
                self.fell += u64::from(price == LOWEST);
                continue;
            }
            if price > order.price {
                self.up += 1;
            } else {
                self.down += 1;
            }
            self.back += u64::from(before.bid == 0 && bid != 0);
        }
    }
}

/// The orders that reports re-price, as they were before, and their new prices.
fn repriced<'a>(
    before: &'a Venue,
    reports: &'a [Report],
) -> impl Iterator<Item = (&'a Order, u32)> {
    reports.iter().filter_map(|report| match *report {
        Report::Repriced { id, price, .. } => {
            let order = before.orders.iter().find(|order| order.id == id)?;
            Some((order, price))
        }
        _ => None,
    })
}

impl fmt::Display for MarketOrders {
    fn fmt(&self, f: &mut fmt::Formatter) -> fmt::Result {
        let [buys, longs, shorts, exempts] = self.immediate;
        let no_bid = self.restricted;
        write!(f, "market orders: immediate {buys} buys, {longs} longs, ")?;
        writeln!(
            f,
            "{shorts} shorts ({no_bid} with no bid), {exempts} exempt"
        )?;
        let [continuous, once, no_more, opt_out] = self.shorts;
        let rested = self.rested;
        write!(
            f,
            "  following the bid {continuous} continuous, {once} once, "
        )?;
        writeln!(f, "{no_more} no more, {opt_out} opt-out, rested {rested}")?;
        let [continuous, once, ..] = self.stayed;
        let (tape, fell) = (self.stayed_at_tape, self.fell);
        write!(
            f,
            "  stayed with no bid {continuous} continuous, {once} once "
        )?;
        writeln!(f, "({tape} at a tape price), other shorts fell to 1 {fell}")?;
        let (up, down, back, ended) = (self.up, self.down, self.back, self.ended);
        write!(
            f,
            "  re-priced up {up} down {down}, by a bid that came back "
        )?;
        writeln!(f, "{back}, rested until a day end {ended}")?;
        let (sound, broken) = (self.sound, self.broken);
        write!(
            f,
            "  made-up records sound {sound}, broken by the flag alone "
        )?;
        write!(f, "{broken}; {}", self.answers)
    }
}
