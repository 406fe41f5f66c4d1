//! What a run counts of slid orders and of stamps on streams from open, so that its end shows
//! that document 02's No. 9 was reached.

use crate::model::{Event, Order, Report, Venue, CENT, OPT_OUT};
use crate::reached::{self, grouped, smaller, Line};
use crate::slid_prices::{Given, SlidPrices};
use std::fmt;

/// A report of an accepted event, with the list before it.
struct Seen<'a> {
    before: &'a Venue,
    event: &'a Event,
    report: &'a Report,
    list: &'a SlidPrices,
    /// Whether a day of the list has ended.
    later_day: bool,
}

impl Seen<'_> {
    /// Whether an order comes in that is such.
    fn enters(&self, is_such: fn(&Given) -> bool) -> bool {
        match (self.report, self.event) {
            (Report::Accepted { price, stamp, .. }, Event::Entry(entry)) => {
                is_such(&Given::at_entry(*entry, *price, *stamp))
            }
            _ => false,
        }
    }

    /// Whether an order that No. 9 means comes in.
    fn enters_slid(&self, is_such: fn(&Given) -> bool) -> bool {
        self.enters(Given::is_slid) && self.enters(is_such)
    }

    /// Whether an order is re-priced that was given such things before, to such a price.
    fn moves(&self, is_such: impl Fn(&Given, u32) -> bool) -> bool {
        match *self.report {
            Report::Repriced { id, price, .. } => {
                self.list.given(id).is_ok_and(|given| is_such(given, price))
            }
            _ => false,
        }
    }

    /// Whether one that No. 9 means is re-priced.
    fn moves_slid(&self, is_such: fn(&Given, u32) -> bool) -> bool {
        self.moves(|given, price| given.is_slid() && is_such(given, price))
    }

    /// Whether a short is re-priced to above the price before.
    fn rises(&self, is_such: fn(&Given) -> bool) -> bool {
        self.moves(|given, price| price > given.price && is_such(given))
    }

    /// Whether an execution is such, from the order with the later stamp and the other one.
    fn executes(&self, is_such: fn(&Given, &Given) -> bool) -> bool {
        let Report::Executed { buyer, seller, .. } = *self.report else {
            return false;
        };
        match (self.list.given(buyer), self.list.given(seller)) {
            (Ok(buy), Ok(sale)) if buy.stamp > sale.stamp => is_such(buy, sale),
            (Ok(buy), Ok(sale)) => is_such(sale, buy),
            _ => false,
        }
    }
}

/// A count of reports, and the line that it stands in.
type Kind = (&'static str, &'static str, fn(&Seen) -> bool);

const ENTERED: &str = "displayed shorts adjusted at entry";
const MOVED: &str = "their re-pricings";
const NUMBER: &str = "of these an order's";
const RISES: &str = "prices that rise";
const LATER: &str = "executions, the later stamp is";
const STAMPS: &str = "stamps on a later day";

const KINDS: [Kind; 32] = [
    (ENTERED, "continuous", |it| {
        it.enters_slid(|given| given.entry.slide == 0)
    }),
    (ENTERED, "once", |it| {
        it.enters_slid(|given| given.entry.slide == 1)
    }),
    (ENTERED, "no more", |it| {
        it.enters_slid(|given| given.entry.slide == 2)
    }),
    (ENTERED, "opt-out", |it| {
        it.enters_slid(|given| given.entry.slide == OPT_OUT)
    }),
    (ENTERED, "market", |it| {
        it.enters_slid(|given| given.entry.is_market())
    }),
    (ENTERED, "of kind 1", |it| {
        it.enters_slid(|given| given.entry.owner.is_none())
    }),
    (ENTERED, "of kind 6", |it| {
        it.enters_slid(|given| given.entry.owner.is_some())
    }),
    (ENTERED, "in phase 2", |it| {
        it.before.phase == 2 && it.enters(Given::is_slid)
    }),
    (MOVED, "continuous", |it| {
        it.moves_slid(|given, _| given.entry.slide == 0)
    }),
    (MOVED, "once", |it| {
        it.moves_slid(|given, _| given.entry.slide == 1)
    }),
    (MOVED, "market", |it| {
        it.moves_slid(|given, _| given.entry.is_market())
    }),
    (MOVED, "market once", |it| {
        it.moves_slid(|given, _| given.entry.is_market() && given.entry.slide == 1)
    }),
    (MOVED, "of kind 1", |it| {
        it.moves_slid(|given, _| given.entry.owner.is_none())
    }),
    (MOVED, "of kind 6", |it| {
        it.moves_slid(|given, _| given.entry.owner.is_some())
    }),
    (MOVED, "in phase 2", |it| {
        it.before.phase == 2 && it.moves_slid(|_, _| true)
    }),
    (MOVED, "to the limit", |it| {
        it.moves_slid(|given, price| price == given.limit())
    }),
    (MOVED, "to above it", |it| {
        it.moves_slid(|given, price| price > given.limit())
    }),
    (NUMBER, "first", |it| {
        it.moves_slid(|given, _| given.repricings == 0)
    }),
    (NUMBER, "second", |it| {
        it.moves_slid(|given, _| given.repricings == 1)
    }),
    (NUMBER, "third", |it| {
        it.moves_slid(|given, _| given.repricings == 2)
    }),
    (NUMBER, "later", |it| {
        it.moves_slid(|given, _| given.repricings > 2)
    }),
    (NUMBER, "third of a market short", |it| {
        it.moves_slid(|given, _| given.repricings == 2 && given.entry.is_market())
    }),
    (RISES, "hidden, adjusted at entry", |it| {
        it.rises(|given| given.entry.show == 0 && given.accepted > given.limit())
    }),
    (RISES, "hidden no more", |it| {
        it.rises(|given| given.entry.show == 0 && given.entry.slide == 2)
    }),
    (RISES, "displayed before the trigger", |it| {
        it.rises(|given| given.entry.show == 1)
    }),
    (LATER, "an entry's", |it| {
        it.executes(|later, _| later.repricings == 0)
    }),
    (LATER, "an entry's, the other re-priced", |it| {
        it.executes(|later, other| later.repricings == 0 && other.repricings > 0)
    }),
    (LATER, "a re-priced order's", |it| {
        it.executes(|later, _| later.repricings > 0)
    }),
    (LATER, "that of one adjusted at entry", |it| {
        it.executes(|later, _| later.repricings > 0 && later.is_slid())
    }),
    (LATER, "that of one with the earlier id", |it| {
        it.executes(|later, other| later.entry.id < other.entry.id)
    }),
    (STAMPS, "of entries", |it| {
        it.later_day && it.enters(|_| true)
    }),
    (STAMPS, "of re-pricings", |it| {
        it.later_day && it.moves(|_, _| true)
    }),
];

/// What an order may be that No. 9 means and that a rising bid reaches or passes.
type Stays = (&'static str, fn(&Order) -> bool);

const STAYS: [Stays; 4] = [
    ("continuous", |order| order.slide == 0),
    ("once", |order| order.slide == 1),
    ("no more", |order| order.slide == 2),
    ("market", |order| order.market),
];

/// The orders that No. 9 means and that stay at or below a bid which rose to there.
fn staying<'a>(
    list: &'a SlidPrices,
    before: &'a Venue,
    event: &Event,
) -> impl Iterator<Item = &'a Order> {
    let bid = match *event {
        Event::Bid { price } => price,
        _ => 0,
    };
    let passed = move |order: &&Order| (before.bid + 1..=bid).contains(&order.price);
    let orders = before.orders.iter().filter(passed);
    orders.filter(|order| list.given(order.id).is_ok_and(Given::is_slid))
}

#[derive(Default)]
pub struct Slides {
    half_cent: AtStep,
    cent: AtStep,
    /// Of the session, if it is from open.
    list: Option<SlidPrices>,
    later_day: bool,
}

/// The counts at one step.
struct AtStep {
    kinds: [u64; KINDS.len()],
    stays: [u64; STAYS.len()],
}

impl Default for AtStep {
    fn default() -> Self {
        AtStep {
            kinds: [0; KINDS.len()],
            stays: [0; STAYS.len()],
        }
    }
}

impl AtStep {
    fn take(&mut self, seen: &Seen) {
        for (count, (_, _, is_kind)) in self.kinds.iter_mut().zip(KINDS) {
            *count += u64::from(is_kind(seen));
        }
    }

    fn stay(&mut self, order: &Order) {
        for (count, (_, is_such)) in self.stays.iter_mut().zip(STAYS) {
            *count += u64::from(is_such(order));
        }
    }

    fn lines(&self) -> Vec<Line<&'static str>> {
        let kinds = self.kinds.into_iter().zip(KINDS);
        let mut lines = grouped(kinds.map(|(count, (line, name, _))| (line, (count, name))));
        let stays = self.stays.into_iter().zip(STAYS.map(|(name, _)| name));
        lines.push(("they stay where the bid rises to them", stays.collect()));
        lines
    }
}

impl Slides {
    /// Takes how a session starts.
    pub fn start(&mut self, from_open: bool) {
        self.list = SlidPrices::start(from_open);
        self.later_day = false;
    }

    /// Takes an accepted event, the venue before it and its reports.
    pub fn accept(&mut self, before: &Venue, event: &Event, reports: &[Report]) {
        let Some(list) = &mut self.list else {
            return;
        };
        let counts = match before.step {
            CENT => &mut self.cent,
            _ => &mut self.half_cent,
        };
        staying(list, before, event).for_each(|order| counts.stay(order));
        let later_day = self.later_day;
        // What can't be followed is a fault of the law, not of the counts.
        let _ = list.follow(event, reports, |list, report| {
            counts.take(&Seen {
                before,
                event,
                report,
                list,
                later_day,
            });
            Ok(())
        });
        self.later_day |= matches!(event, Event::DayEnd { .. });
    }

    /// Whether each count is above 0 at both steps.
    #[cfg(test)]
    pub fn are_complete(&self) -> bool {
        reached::never(&self.lines()).is_empty()
    }

    /// The smaller one of the counts at both steps.
    fn lines(&self) -> Vec<Line<&'static str>> {
        smaller(self.half_cent.lines(), self.cent.lines())
    }
}

impl fmt::Display for Slides {
    fn fmt(&self, f: &mut fmt::Formatter) -> fmt::Result {
        let title = "slid orders from open, the smaller count of both steps";
        reached::write(f, title, &self.lines())
    }
}

#[cfg(test)]
mod tests {
    use super::*;
    use crate::shown::show_all;

    /// Streams reach each count at both steps.
    #[test]
    fn slides_are_complete() {
        let mut slides = Slides::default();
        show_all(1, 200_000, |shown| {
            if shown.first {
                slides.start(shown.from_open);
            }
            if let Ok(reports) = shown.answer {
                slides.accept(shown.before, shown.event, reports);
            }
        });
        assert!(slides.are_complete(), "{slides}");
    }
}
