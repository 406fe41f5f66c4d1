//! What a run counts of entries in full books, so that its end shows that document 02's
//! No. 8 was reached.

use crate::by_owners::withdrawn;
use crate::fronts::{limit, shares_in_reach, working_price};
use crate::full_books::{follows_bid, is_full, needs_place};
use crate::model::{Entry, Event, Refusal, Report, Venue, BUY, CENT, OPT_OUT, SHORT};
use crate::reached::{self, grouped, smaller, Line};
use std::fmt;

/// An entry that a full book took, or refused with 7.
struct Tried<'a> {
    from_open: bool,
    before: &'a Venue,
    entry: &'a Entry,
    /// None where it was refused.
    reports: Option<&'a [Report]>,
}

impl Tried<'_> {
    fn is_accepted(&self) -> bool {
        self.reports.is_some()
    }

    fn is_refused(&self) -> bool {
        self.reports.is_none()
    }

    /// Accepted as an immediate or cancel order with a limit.
    fn is_immediate(&self) -> bool {
        self.is_accepted() && self.entry.life == 1 && !self.entry.is_market()
    }

    /// Accepted as a market order with this life.
    fn is_market(&self, life: u32) -> bool {
        self.is_accepted() && self.entry.is_market() && self.entry.life == life
    }

    fn has_mark(&self, mark: u32) -> bool {
        self.entry.mark == mark
    }

    fn is_restricted(&self) -> bool {
        self.has_mark(SHORT) && self.before.phase != 0
    }

    fn has_bid(&self) -> bool {
        self.before.bid != 0
    }

    fn is_adjusted(&self) -> bool {
        let asked = self.entry.question();
        working_price(&asked, self.before) > limit(&asked)
    }

    fn is_opt_out(&self) -> bool {
        self.entry.slide == OPT_OUT
    }

    fn is_market_short(&self) -> bool {
        self.entry.is_market() && follows_bid(self.entry, self.before)
    }

    /// Whether an order of its owner rests on the other side.
    fn has_own(&self) -> bool {
        let is_buy = self.has_mark(BUY);
        let mut others = self.before.orders.iter();
        others.any(|order| Some(order.owner) == self.entry.owner && (order.mark == BUY) != is_buy)
    }

    /// The shares in its reach, where its owner has no orders on the other side.
    fn in_reach(&self) -> Option<u64> {
        let all = self.before.orders.len();
        let found = shares_in_reach(&self.entry.question(), self.before, all);
        (!self.has_own()).then_some(found)
    }

    fn would_fill(&self) -> bool {
        let found = self.in_reach();
        found.is_some_and(|found| found >= self.entry.shares.into())
    }

    /// The shares of each of its executions, with the shares that the order had which it
    /// met.
    fn executed(&self) -> Vec<(u32, u32)> {
        let reports = self.reports.unwrap_or_default().iter();
        let had = |of: u32| {
            let mut orders = self.before.orders.iter();
            orders.find(|order| order.id == of).map(|it| it.shares)
        };
        let executed = reports.filter_map(|report| match *report {
            Report::Executed {
                buyer,
                seller,
                shares,
                ..
            } => Some((shares, had(buyer).or(had(seller))?)),
            _ => None,
        });
        executed.collect()
    }

    fn withdrawals(&self) -> usize {
        let reports = self.reports.unwrap_or_default().iter();
        reports.filter_map(withdrawn).count()
    }

    /// Whether it met so many orders of others, one of them last in part or not, and none
    /// of its own; and whether it was filled.
    fn meets(&self, several: bool, in_part: bool, filled: bool) -> bool {
        let executed = self.executed();
        let Some(&(shares, had)) = executed.last() else {
            return false;
        };
        let sum: u32 = executed.iter().map(|(shares, _)| shares).sum();
        self.withdrawals() == 0
            && (executed.len() > 1) == several
            && (shares < had) == in_part
            && (sum == self.entry.shares) == filled
    }

    /// How many orders are gone.
    fn places_freed(&self) -> usize {
        let executed = self.executed();
        let whole = executed.iter().filter(|(shares, had)| shares == had);
        whole.count() + self.withdrawals()
    }
}

/// A count, and the line that it stands in.
type Kind = (&'static str, &'static str, fn(&Tried) -> bool);

const IMMEDIATE: &str = "accepted as immediate";
const MARKET: &str = "accepted as a market order of life 0";
const BOTH: &str = "accepted as a market order of life 1";
const REFUSED: &str = "refused with 7";
const WOULD: &str = "of these would have";
const MEETS: &str = "an order let in";
const FREED: &str = "the book behind it";
const STANDS: &str = "both, by the venue";

const KINDS: [Kind; 58] = [
    (IMMEDIATE, "buys", |it| it.is_immediate() && it.has_mark(0)),
    (IMMEDIATE, "longs", |it| it.is_immediate() && it.has_mark(1)),
    (IMMEDIATE, "free shorts", |it| {
        it.is_immediate() && it.has_mark(2) && !it.is_restricted()
    }),
    (IMMEDIATE, "restricted shorts", |it| {
        it.is_immediate() && it.is_restricted() && !it.is_adjusted()
    }),
    (IMMEDIATE, "adjusted shorts", |it| {
        it.is_immediate() && it.is_adjusted() && !it.is_opt_out()
    }),
    (IMMEDIATE, "adjusted opt-outs", |it| {
        it.is_immediate() && it.is_adjusted() && it.is_opt_out()
    }),
    (IMMEDIATE, "exempts", |it| {
        it.is_immediate() && it.has_mark(3)
    }),
    (IMMEDIATE, "hidden", |it| {
        it.is_immediate() && it.entry.show == 0
    }),
    (IMMEDIATE, "of kind 1", |it| {
        it.is_immediate() && it.entry.owner.is_none()
    }),
    (IMMEDIATE, "of kind 6", |it| {
        it.is_immediate() && it.entry.owner.is_some()
    }),
    (MARKET, "buys", |it| it.is_market(0) && it.has_mark(0)),
    (MARKET, "longs", |it| it.is_market(0) && it.has_mark(1)),
    (MARKET, "free shorts with no bid", |it| {
        it.is_market(0) && it.has_mark(2) && !it.is_restricted() && !it.has_bid()
    }),
    (MARKET, "free shorts with a bid", |it| {
        it.is_market(0) && it.has_mark(2) && !it.is_restricted() && it.has_bid()
    }),
    (MARKET, "restricted shorts with no bid", |it| {
        it.is_market(0) && it.is_restricted()
    }),
    (MARKET, "restricted opt-outs with no bid", |it| {
        it.is_market(0) && it.is_restricted() && it.is_opt_out()
    }),
    (MARKET, "exempts", |it| it.is_market(0) && it.has_mark(3)),
    (MARKET, "of kind 1", |it| {
        it.is_market(0) && it.entry.owner.is_none()
    }),
    (MARKET, "of kind 6", |it| {
        it.is_market(0) && it.entry.owner.is_some()
    }),
    (BOTH, "buys", |it| it.is_market(1) && it.has_mark(0)),
    (BOTH, "longs", |it| it.is_market(1) && it.has_mark(1)),
    (BOTH, "free shorts", |it| {
        it.is_market(1) && it.has_mark(2) && !it.is_restricted()
    }),
    (BOTH, "restricted shorts with no bid", |it| {
        it.is_market(1) && it.is_restricted() && !it.has_bid()
    }),
    (BOTH, "restricted shorts with a bid", |it| {
        it.is_market(1) && it.is_restricted() && it.has_bid()
    }),
    (BOTH, "exempts", |it| it.is_market(1) && it.has_mark(3)),
    (REFUSED, "buys", |it| it.is_refused() && it.has_mark(0)),
    (REFUSED, "longs", |it| it.is_refused() && it.has_mark(1)),
    (REFUSED, "free shorts", |it| {
        it.is_refused() && it.has_mark(2) && !it.is_restricted()
    }),
    (REFUSED, "adjusted opt-outs", |it| {
        it.is_refused() && it.is_adjusted() && it.is_opt_out() && !it.is_market_short()
    }),
    (REFUSED, "other opt-outs", |it| {
        it.is_refused() && !it.is_adjusted() && it.is_opt_out()
    }),
    (REFUSED, "market shorts", |it| {
        it.is_refused() && it.is_market_short() && !it.is_opt_out()
    }),
    (REFUSED, "market opt-outs", |it| {
        it.is_refused() && it.is_market_short() && it.is_opt_out()
    }),
    (REFUSED, "exempts", |it| it.is_refused() && it.has_mark(3)),
    (REFUSED, "of kind 1", |it| {
        it.is_refused() && it.entry.owner.is_none()
    }),
    (REFUSED, "of kind 6", |it| {
        it.is_refused() && it.entry.owner.is_some()
    }),
    (WOULD, "filled", |it| it.is_refused() && it.would_fill()),
    (WOULD, "filled as an adjusted opt-out", |it| {
        it.is_refused() && it.would_fill() && it.is_adjusted() && it.is_opt_out()
    }),
    (WOULD, "filled as a market short", |it| {
        it.is_refused() && it.would_fill() && it.is_market_short()
    }),
    (WOULD, "traded in part", |it| {
        it.is_refused() && !it.would_fill() && it.in_reach().is_some_and(|found| found > 0)
    }),
    (WOULD, "met nothing", |it| {
        it.is_refused() && it.in_reach() == Some(0)
    }),
    (MEETS, "meets nothing", |it| {
        it.is_accepted() && it.executed().is_empty() && it.withdrawals() == 0
    }),
    (MEETS, "part of one order", |it| it.meets(false, true, true)),
    (MEETS, "just one", |it| it.meets(false, false, true)),
    (MEETS, "one and is cancelled", |it| {
        it.meets(false, false, false)
    }),
    (MEETS, "several and part of the last", |it| {
        it.meets(true, true, true)
    }),
    (MEETS, "just several", |it| it.meets(true, false, true)),
    (MEETS, "several and is cancelled", |it| {
        it.meets(true, false, false)
    }),
    (MEETS, "own orders alone", |it| {
        it.withdrawals() > 0 && it.executed().is_empty()
    }),
    (MEETS, "own orders and others", |it| {
        it.withdrawals() > 0 && !it.executed().is_empty()
    }),
    (FREED, "is full", |it| {
        it.is_accepted() && it.places_freed() == 0
    }),
    (FREED, "has one place", |it| it.places_freed() == 1),
    (FREED, "is empty", |it| it.places_freed() == 256),
    (STANDS, "accepted from open", |it| {
        it.from_open && it.is_accepted()
    }),
    (STANDS, "refused from open", |it| {
        it.from_open && it.is_refused()
    }),
    (STANDS, "accepted on made-up records", |it| {
        !it.from_open && it.is_accepted()
    }),
    (STANDS, "refused on made-up records", |it| {
        !it.from_open && it.is_refused()
    }),
    (STANDS, "accepted in phase 2", |it| {
        it.before.phase == 2 && it.is_accepted()
    }),
    (STANDS, "refused in phase 2", |it| {
        it.before.phase == 2 && it.is_refused()
    }),
];

/// Entries with one place left.
const ONE_LEFT: [&str; 3] = ["takes it", "is immediate", "trades or is cancelled"];

#[derive(Default)]
pub struct FullBooks {
    half_cent: AtStep,
    cent: AtStep,
    /// Whether the session is from open.
    from_open: bool,
    /// Entries that were also tried where there is room.
    with_room: u64,
}

/// The counts at one step.
struct AtStep {
    accepted: u64,
    refused: u64,
    kinds: [u64; KINDS.len()],
    one_left: [u64; ONE_LEFT.len()],
}

impl Default for AtStep {
    fn default() -> Self {
        AtStep {
            accepted: 0,
            refused: 0,
            kinds: [0; KINDS.len()],
            one_left: [0; ONE_LEFT.len()],
        }
    }
}

impl AtStep {
    fn take(&mut self, tried: &Tried) {
        self.accepted += u64::from(tried.is_accepted());
        self.refused += u64::from(tried.is_refused());
        for (count, (_, _, is_kind)) in self.kinds.iter_mut().zip(KINDS) {
            *count += u64::from(is_kind(tried));
        }
    }

    /// Takes an accepted entry where 255 orders rest.
    fn take_last_place(&mut self, before: &Venue, entry: &Entry, reports: &[Report]) {
        let alone = reports.len() == 1;
        let kinds = [
            alone,
            !needs_place(entry, before),
            needs_place(entry, before) && !alone,
        ];
        for (count, is_kind) in self.one_left.iter_mut().zip(kinds) {
            *count += u64::from(is_kind);
        }
    }

    fn lines(&self) -> Vec<Line<&'static str>> {
        let kinds = self.kinds.into_iter().zip(KINDS);
        let mut lines = grouped(kinds.map(|(count, (line, name, _))| (line, (count, name))));
        let one_left = self.one_left.into_iter().zip(ONE_LEFT);
        lines.push(("an entry with one place left", one_left.collect()));
        lines
    }
}

impl FullBooks {
    fn at_step(&mut self, step: u32) -> &mut AtStep {
        match step {
            CENT => &mut self.cent,
            _ => &mut self.half_cent,
        }
    }

    /// Takes how a session starts.
    pub fn start(&mut self, from_open: bool) {
        self.from_open = from_open;
    }

    fn take(&mut self, before: &Venue, entry: &Entry, reports: Option<&[Report]>) {
        let from_open = self.from_open;
        self.at_step(before.step).take(&Tried {
            from_open,
            before,
            entry,
            reports,
        });
    }

    /// Takes an accepted event, the venue before it and its reports.
    pub fn accept(&mut self, before: &Venue, event: &Event, reports: &[Report]) {
        let Event::Entry(entry) = event else {
            return;
        };
        if is_full(before) {
            self.take(before, entry, Some(reports));
        } else if before.orders.len() == 255 {
            let counts = self.at_step(before.step);
            counts.take_last_place(before, entry, reports);
        }
    }

    pub fn refuse(&mut self, venue: &Venue, event: &Event, refusal: Refusal) {
        if let (Event::Entry(entry), Refusal::Full) = (event, refusal) {
            self.take(venue, entry, None);
        }
    }

    /// Takes an event that was checked, where there is room too or not.
    pub fn check(&mut self, with_room: bool) {
        self.with_room += u64::from(with_room);
    }

    /// Whether each count is above 0 at both steps.
    #[cfg(test)]
    pub fn are_complete(&self) -> bool {
        reached::never(&self.lines()).is_empty()
    }

    /// The smaller one of the counts at both steps.
    fn lines(&self) -> Vec<Line<&'static str>> {
        smaller(self.half_cent.lines(), self.cent.lines())
    }
}

impl fmt::Display for FullBooks {
    fn fmt(&self, f: &mut fmt::Formatter) -> fmt::Result {
        let accepted = [self.half_cent.accepted, self.cent.accepted];
        let refused = [self.half_cent.refused, self.cent.refused];
        let title = format!(
            "full books, {} and {} entries accepted at 50 and 100, {} and {} refused with 7, \
             {} tried with room, the smaller count of both steps",
            accepted[0], accepted[1], refused[0], refused[1], self.with_room
        );
        reached::write(f, &title, &self.lines())
    }
}

#[cfg(test)]
mod tests {
    use super::*;
    use crate::shown::show_all;

    /// Streams reach each count at both steps.
    #[test]
    fn full_books_are_complete() {
        let mut full_books = FullBooks::default();
        show_all(1, 200_000, |shown| {
            full_books.start(shown.from_open);
            match shown.answer {
                Ok(reports) => full_books.accept(shown.before, shown.event, reports),
                Err(refusal) => full_books.refuse(shown.before, shown.event, refusal),
            }
        });
        assert!(full_books.are_complete(), "{full_books}");
    }
}
