//! What a run counts of firms and of own orders that were cancelled, so that its end
//! shows that document 02's No. 7 was reached.

use crate::by_owners::{withdrawn, without_owners};
use crate::model::{Entry, Event, Order, Report, Venue, BUY, CENT, SHORT};
use crate::reached::{self, grouped, smaller, Line, Named};
use std::fmt;

/// A working order's turn in an event: at an entry, or in the pass.
struct Turn<'a> {
    from_open: bool,
    before: &'a Venue,
    event: &'a Event,
    /// All reports of the event.
    reports: &'a [Report],
    /// The order as it came in or was re-priced.
    working: Working,
    /// Its executions, and own orders that were cancelled for it.
    met: &'a [Report],
    /// The cause of its own cancel right behind these.
    cause: Option<u32>,
}

struct Working {
    id: u32,
    mark: u32,
    price: u32,
    shares: u32,
    owner: u32,
    market: bool,
}

impl Working {
    fn entered(entry: &Entry, price: u32) -> Self {
        Working {
            id: entry.id,
            mark: entry.mark,
            price,
            shares: entry.shares,
            owner: entry.owner.unwrap_or(0),
            market: entry.is_market(),
        }
    }

    fn repriced(order: &Order, price: u32) -> Self {
        Working {
            id: order.id,
            mark: order.mark,
            price,
            shares: order.shares,
            owner: order.owner,
            market: order.market,
        }
    }
}

fn order_of(venue: &Venue, id: u32) -> Option<&Order> {
    venue.orders.iter().find(|order| order.id == id)
}

fn is_execution(report: &Report) -> bool {
    matches!(report, Report::Executed { .. })
}

fn is_withdrawal(report: &Report) -> bool {
    withdrawn(report).is_some()
}

/// Whether an order is named by a report of an event.
fn names(report: &Report, of: u32) -> bool {
    match *report {
        Report::Executed { buyer, seller, .. } => buyer == of || seller == of,
        Report::Cancelled { id, .. } => id == of,
        _ => false,
    }
}

impl Turn<'_> {
    fn is_entry(&self) -> bool {
        matches!(self.event, Event::Entry(_))
    }

    /// The entry, where it has an owner.
    fn owned(&self) -> Option<&Entry> {
        match self.event {
            Event::Entry(entry) if entry.owner.is_some() => Some(entry),
            _ => None,
        }
    }

    fn withdrawals(&self) -> usize {
        self.met
            .iter()
            .filter(|report| is_withdrawal(report))
            .count()
    }

    fn withdraws(&self) -> bool {
        self.withdrawals() > 0
    }

    /// Whether it met own orders and no others.
    fn only_own(&self) -> bool {
        !self.met.is_empty() && self.met.iter().all(is_withdrawal)
    }

    fn left(&self) -> u32 {
        let executed = self.met.iter().map(|report| match report {
            Report::Executed { shares, .. } => *shares,
            _ => 0,
        });
        self.working.shares - executed.sum::<u32>()
    }

    /// Whether an own order was cancelled behind an execution and before another.
    fn between(&self) -> bool {
        let Some(first) = self.met.iter().position(is_execution) else {
            return false;
        };
        let last = self.met.iter().rposition(is_execution).unwrap_or(first);
        self.met[first..last].iter().any(is_withdrawal)
    }

    /// The orders that were cancelled for it, as they were before the event.
    fn gone(&self) -> impl Iterator<Item = &Order> {
        let ids = self.met.iter().filter_map(withdrawn);
        ids.filter_map(|id| order_of(self.before, id))
    }

    fn any_gone(&self, is_such: fn(&Order) -> bool) -> bool {
        self.gone().any(is_such)
    }

    /// Whether an order that was cancelled for it had just been executed in part.
    fn gone_partly_executed(&self) -> bool {
        self.gone().any(|order| {
            let mut reports = self.reports.iter();
            reports.any(|report| is_execution(report) && names(report, order.id))
        })
    }

    /// Whether an own order in its reach stays, as the order was filled before it.
    fn leaves_own(&self) -> bool {
        let Working {
            mark, price, owner, ..
        } = self.working;
        let in_reach = |order: &&Order| match mark {
            BUY => order.mark != BUY && order.price <= price,
            _ => order.mark == BUY && order.price >= price,
        };
        let mut own = self.before.orders.iter().filter(in_reach);
        let stays = |order: &Order| {
            let mut reports = self.reports.iter();
            owner > 0 && order.owner == owner && !reports.any(|report| names(report, order.id))
        };
        self.left() == 0 && own.any(stays)
    }

    /// The owners of the two orders of each execution, the lower first.
    fn executed(&self) -> impl Iterator<Item = (u32, u32)> + '_ {
        self.met.iter().filter_map(|report| match *report {
            Report::Executed { buyer, seller, .. } => {
                let other = if buyer == self.working.id {
                    seller
                } else {
                    buyer
                };
                let resting = order_of(self.before, other)?.owner;
                let own = self.working.owner;
                Some((own.min(resting), own.max(resting)))
            }
            _ => None,
        })
    }
}

/// A count of turns, and the line that it stands in.
type Kind = (&'static str, &'static str, fn(&Turn) -> bool);

const KINDS: [Kind; 50] = [
    (OWNED, "buys", |turn| {
        is_owned(turn, |entry| entry.mark == BUY)
    }),
    (OWNED, "longs", |turn| {
        is_owned(turn, |entry| entry.mark == 1)
    }),
    (OWNED, "shorts", |turn| {
        is_owned(turn, |entry| entry.mark == SHORT)
    }),
    (OWNED, "exempts", |turn| {
        is_owned(turn, |entry| entry.mark == 3)
    }),
    (OWNED, "immediate", |turn| {
        is_owned(turn, |entry| entry.life == 1)
    }),
    (OWNED, "opt-outs", |turn| {
        is_owned(turn, |entry| entry.slide == 3)
    }),
    (OWNED, "market orders", |turn| {
        is_owned(turn, Entry::is_market)
    }),
    (OWNED, "of firm 1", |turn| {
        is_owned(turn, |entry| entry.owner == Some(1))
    }),
    (OWNED, "of firm 65,535", |turn| {
        is_owned(turn, |entry| entry.owner == Some(65_535))
    }),
    (TRADES, "nobody with nobody", |turn| {
        turn.executed().any(|owners| owners == (0, 0))
    }),
    (TRADES, "nobody with a firm", |turn| {
        turn.executed().any(|(low, high)| low == 0 && high > 0)
    }),
    (TRADES, "two firms", |turn| {
        turn.executed().any(|(low, _)| low > 0)
    }),
    (TRADES, "two that a byte takes for one", |turn| {
        turn.executed()
            .any(|(low, high)| low > 0 && low % 256 == high % 256)
    }),
    (GONE, "at an entry", |turn| {
        turn.withdraws() && turn.is_entry()
    }),
    (GONE, "in the pass of a bid", |turn| {
        turn.withdraws() && matches!(turn.event, Event::Bid { .. })
    }),
    (GONE, "in the pass of a tape price", |turn| {
        turn.withdraws() && matches!(turn.event, Event::Tape { .. })
    }),
    (GONE, "in that of a timed price", |turn| {
        turn.withdraws() && matches!(turn.event, Event::Timed(_))
    }),
    (GONE, "from open at an entry", |turn| {
        turn.withdraws() && turn.from_open && turn.is_entry()
    }),
    (GONE, "from open in the pass", |turn| {
        turn.withdraws() && turn.from_open && !turn.is_entry()
    }),
    (PLACE, "before an execution", |turn| {
        turn.met.first().is_some_and(is_withdrawal) && !turn.only_own()
    }),
    (PLACE, "between two executions", |turn| turn.between()),
    (PLACE, "between two in the pass", |turn| {
        turn.between() && !turn.is_entry()
    }),
    (PLACE, "behind the last", |turn| {
        turn.met.last().is_some_and(is_withdrawal) && !turn.only_own()
    }),
    (PLACE, "several", |turn| turn.withdrawals() > 1),
    (PLACE, "several in the pass", |turn| {
        turn.withdrawals() > 1 && !turn.is_entry()
    }),
    (ONLY_OWN, "rests", |turn| {
        turn.only_own() && turn.is_entry() && turn.cause.is_none()
    }),
    (ONLY_OWN, "is cancelled as immediate", |turn| {
        turn.only_own() && turn.cause == Some(2) && !turn.working.market
    }),
    (ONLY_OWN, "as a market order", |turn| {
        turn.only_own() && turn.cause == Some(2) && turn.working.market
    }),
    (ONLY_OWN, "as an opt-out", |turn| {
        turn.only_own() && turn.cause == Some(3)
    }),
    (ONLY_OWN, "rests in the pass", |turn| {
        turn.only_own() && !turn.is_entry()
    }),
    (ALSO_OWN, "rests", |turn| {
        also_own(turn) && turn.left() > 0 && turn.cause.is_none()
    }),
    (ALSO_OWN, "is filled", |turn| {
        also_own(turn) && turn.left() == 0
    }),
    (ALSO_OWN, "is cancelled as immediate", |turn| {
        also_own(turn) && turn.cause == Some(2) && !turn.working.market
    }),
    (ALSO_OWN, "as a market order", |turn| {
        also_own(turn) && turn.cause == Some(2) && turn.working.market
    }),
    (ALSO_OWN, "as an opt-out", |turn| {
        also_own(turn) && turn.cause == Some(3)
    }),
    (WORKING, "buy", |turn| {
        turn.withdraws() && turn.working.mark == BUY
    }),
    (WORKING, "long", |turn| {
        turn.withdraws() && turn.working.mark == 1
    }),
    (WORKING, "short", |turn| {
        turn.withdraws() && turn.working.mark == SHORT
    }),
    (WORKING, "exempt", |turn| {
        turn.withdraws() && turn.working.mark == 3
    }),
    (WORKING, "market short in the pass", |turn| {
        turn.withdraws() && turn.working.market && !turn.is_entry()
    }),
    (WORKING, "of firm 65,535", |turn| {
        turn.withdraws() && turn.working.owner == 65_535
    }),
    (RESTING, "buy", |turn| {
        turn.any_gone(|order| order.mark == BUY)
    }),
    (RESTING, "long", |turn| {
        turn.any_gone(|order| order.mark == 1)
    }),
    (RESTING, "short", |turn| {
        turn.any_gone(|order| order.mark == SHORT)
    }),
    (RESTING, "exempt", |turn| {
        turn.any_gone(|order| order.mark == 3)
    }),
    (RESTING, "hidden", |turn| {
        turn.any_gone(|order| order.show == 0)
    }),
    (RESTING, "market short", |turn| {
        turn.any_gone(|order| order.market)
    }),
    (RESTING, "just executed in part", |turn| {
        turn.gone_partly_executed()
    }),
    (STAYS, "at an entry", |turn| {
        turn.leaves_own() && turn.is_entry()
    }),
    (STAYS, "in the pass", |turn| {
        turn.leaves_own() && !turn.is_entry()
    }),
];

const OWNED: &str = "accepted entries of kind 6";
const TRADES: &str = "executions of";
const GONE: &str = "own orders cancelled";
const PLACE: &str = "where these stand";
const ONLY_OWN: &str = "an order that meets own orders alone";
const ALSO_OWN: &str = "an order that meets own orders and others";
const WORKING: &str = "the working order is a";
const RESTING: &str = "the order cancelled is a";
const STAYS: &str = "own orders in reach stay behind a fill";

fn is_owned(turn: &Turn, is_such: fn(&Entry) -> bool) -> bool {
    turn.owned().is_some_and(is_such)
}

/// Whether it met own orders and others.
fn also_own(turn: &Turn) -> bool {
    turn.withdraws() && !turn.only_own()
}

/// What a made-up record may be.
type Record = (&'static str, fn(&Venue) -> bool);

const RECORDS: [Record; 5] = [
    ("sound with owners", |venue| {
        venue.is_sound() && has_owner(venue, |owner| owner > 0)
    }),
    ("sound with 65,535", |venue| {
        venue.is_sound() && has_owner(venue, |owner| owner == 65_535)
    }),
    ("broken by 65,536 alone", |venue| {
        is_broken_by_owner(venue) && has_owner(venue, |owner| owner == 65_536)
    }),
    ("by 4,294,967,295 alone", |venue| {
        is_broken_by_owner(venue) && has_owner(venue, |owner| owner == u32::MAX)
    }),
    ("by an owner with good low bits", |venue| {
        is_broken_by_owner(venue)
            && has_owner(venue, |owner| {
                owner > 65_536 && matches!(owner % 65_536, 1..=3)
            })
    }),
];

fn has_owner(venue: &Venue, is_such: fn(u32) -> bool) -> bool {
    venue.orders.iter().any(|order| is_such(order.owner))
}

fn is_broken_by_owner(venue: &Venue) -> bool {
    !venue.is_sound() && without_owners(venue).is_sound()
}

#[derive(Default)]
pub struct Withdrawals {
    half_cent: AtStep,
    cent: AtStep,
    /// Whether the session is from open.
    from_open: bool,
    /// Events that were checked by matching without owners, and on a book without own
    /// orders; none where a run doesn't check so.
    checked: Option<[u64; 2]>,
}

/// The counts at one step.
struct AtStep {
    events: u64,
    kinds: [u64; KINDS.len()],
    records: [u64; RECORDS.len()],
}

impl Default for AtStep {
    fn default() -> Self {
        AtStep {
            events: 0,
            kinds: [0; KINDS.len()],
            records: [0; RECORDS.len()],
        }
    }
}

impl AtStep {
    fn turn(&mut self, turn: &Turn) {
        for (count, (_, _, is_kind)) in self.kinds.iter_mut().zip(KINDS) {
            *count += u64::from(is_kind(turn));
        }
    }

    fn lines(&self) -> Vec<Line<&'static str>> {
        let kinds = self.kinds.into_iter().zip(KINDS);
        let mut lines = grouped(kinds.map(|(count, (line, name, _))| (line, (count, name))));
        let names = RECORDS.iter().map(|(name, _)| *name);
        let records: Vec<Named> = self.records.into_iter().zip(names).collect();
        lines.push(("made-up records", records));
        lines
    }
}

impl Withdrawals {
    fn at_step(&mut self, step: u32) -> &mut AtStep {
        match step {
            CENT => &mut self.cent,
            _ => &mut self.half_cent,
        }
    }

    /// Takes the venue at the start of a session, from open or made up.
    pub fn start(&mut self, venue: &Venue, from_open: bool) {
        self.from_open = from_open;
        let records = &mut self.at_step(venue.step).records;
        for (count, (_, is_such)) in records.iter_mut().zip(RECORDS) {
            *count += u64::from(is_such(venue));
        }
    }

    /// Takes an accepted event, the venue before it and its reports.
    pub fn accept(&mut self, before: &Venue, event: &Event, reports: &[Report]) {
        let from_open = self.from_open;
        let counts = self.at_step(before.step);
        let withdraws = reports.iter().any(is_withdrawal);
        counts.events += u64::from(withdraws);
        let mut rest = reports;
        while let [report, behind @ ..] = rest {
            rest = behind;
            let working = match (*report, event) {
                (Report::Accepted { price, .. }, Event::Entry(entry)) => {
                    Some(Working::entered(entry, price))
                }
                (Report::Repriced { id, price, .. }, _) => {
                    order_of(before, id).map(|order| Working::repriced(order, price))
                }
                _ => None,
            };
            let Some(working) = working else {
                continue;
            };
            let is_met = |report: &&Report| is_execution(report) || is_withdrawal(report);
            let met = rest.iter().take_while(is_met).count();
            let (met, behind) = rest.split_at(met);
            let cause = match behind.first() {
                Some(Report::Cancelled { id, cause, .. }) if *id == working.id => Some(*cause),
                _ => None,
            };
            rest = behind;
            counts.turn(&Turn {
                from_open,
                before,
                event,
                reports,
                working,
                met,
                cause,
            });
        }
    }

    /// Takes an event that was checked, by matching without owners and on a book without
    /// own orders, or not.
    pub fn check(&mut self, as_before: bool, without_owners: bool) {
        let [ones, others] = self.checked.get_or_insert_default();
        *ones += u64::from(as_before);
        *others += u64::from(without_owners);
    }

    /// Whether each count is above 0 at both steps.
    #[cfg(test)]
    pub fn are_complete(&self) -> bool {
        reached::never(&self.lines()).is_empty()
    }

    /// The smaller one of the counts at both steps.
    fn lines(&self) -> Vec<Line<&'static str>> {
        let mut lines = smaller(self.half_cent.lines(), self.cent.lines());
        if let Some([ones, others]) = self.checked {
            let ways = [
                (ones, "by matching without owners"),
                (others, "on a book without own orders"),
            ];
            lines.push(("events checked at both steps", ways.to_vec()));
        }
        lines
    }
}

impl fmt::Display for Withdrawals {
    fn fmt(&self, f: &mut fmt::Formatter) -> fmt::Result {
        let (half_cent, cent) = (self.half_cent.events, self.cent.events);
        let title = format!(
            "firms, own orders cancelled in {half_cent} events at 50 and {cent} at 100, \
             the smaller count of both steps"
        );
        reached::write(f, &title, &self.lines())
    }
}

#[cfg(test)]
mod tests {
    use super::*;
    use crate::shown::show_all;

    /// Streams reach each count at both steps.
    #[test]
    fn withdrawals_are_complete() {
        let mut withdrawals = Withdrawals::default();
        show_all(1, 200_000, |shown| {
            if shown.first {
                withdrawals.start(shown.before, shown.from_open);
            }
            if let Ok(reports) = shown.answer {
                withdrawals.accept(shown.before, shown.event, reports);
            }
        });
        assert!(withdrawals.are_complete(), "{withdrawals}");
    }
}
