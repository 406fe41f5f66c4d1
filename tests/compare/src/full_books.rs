//! No. 8 of document 02 a second time: which orders need a place; that the refusal of an
//! entry is the one from before, but for those that need none; and that an order which is
//! let into a full book does what it does where there is room, which the model plays. No
//! formula here is the model's.

use crate::conditions::{condition, refusal_of, Condition, CONDITIONS};
use crate::model::{Entry, Event, Order, RecordCheck, Refusal, Report, Venue};
use crate::sessions::{ensure, Fault};

/// "With 256 orders resting"
pub fn is_full(venue: &Venue) -> bool {
    venue.orders.len() == 256
}

/// "an immediate or cancel order needs no place, nor does a market order taken as one",
/// by the terms alone (F8.1).
pub fn needs_place(entry: &Entry, venue: &Venue) -> bool {
    match (entry.life, entry.price) {
        (1, _) => false,
        (_, 0) => follows_bid(entry, venue),
        _ => true,
    }
}

/// Of a market order: "A restricted short with a bid present instead counts as limit 1 and
/// slides, rests or is cancelled by 01's rules, its life included."
pub fn follows_bid(entry: &Entry, venue: &Venue) -> bool {
    matches!((entry.mark, venue.phase, venue.bid), (2, 1 | 2, 1..))
}

/// The conditions of an entry before No. 8, whose last was "7 if 256 orders rest" for
/// every order.
const BEFORE: [Condition; CONDITIONS.len()] = {
    let mut conditions = CONDITIONS;
    conditions[CONDITIONS.len() - 1] = condition(7, "full book", |_, venue| is_full(venue));
    conditions
};

/// Checks an entry on a sound venue record with a report buffer of that length. Gives
/// whether it was let into a full book and also tried where there is room.
pub fn check(
    before: &Venue,
    event: &Event,
    buffer: usize,
    answer: Result<&[Report], Refusal>,
    after: &Venue,
) -> Result<bool, Fault> {
    let Event::Entry(entry) = event else {
        return Ok(false);
    };
    if let Err(Refusal::VenueRecord | Refusal::ShortBuffer | Refusal::Spent) = answer {
        return Ok(false);
    }
    check_refusal(before, entry, answer.err().map(Refusal::number))?;
    ensure(after.orders.len() <= 256, "at most 256 orders rest")?;
    match answer {
        Ok(reports) if is_full(before) => {
            check_remainder(entry, reports, after)?;
            check_with_room(before, entry, buffer, reports, after)
        }
        _ => Ok(false),
    }
}

/// "only the remaining orders meet 7": all others that broke nothing else are taken, and
/// every other refusal stays, as does every entry that was accepted.
fn check_refusal(before: &Venue, entry: &Entry, found: Option<u32>) -> Result<(), Fault> {
    match refusal_of(&BEFORE, entry, before) {
        Some(7) => {
            let expected = needs_place(entry, before).then_some(7);
            ensure(found == expected, "7 by an order's terms")
        }
        was => ensure(found == was, "the refusal from before No. 8"),
    }
}

/// An order that needs no place doesn't get one: all its shares are executed, or the rest
/// is cancelled last (cause 2).
fn check_remainder(entry: &Entry, reports: &[Report], after: &Venue) -> Result<(), Fault> {
    let executed = reports.iter().map(|report| match *report {
        Report::Executed { shares, .. } => u64::from(shares),
        _ => 0,
    });
    let left = u64::from(entry.shares).saturating_sub(executed.sum()) as u32;
    let cancelled = Report::Cancelled {
        id: entry.id,
        shares: left,
        cause: 2,
    };
    let is_cancelled = reports.last() == Some(&cancelled);
    ensure(
        is_cancelled == (left > 0),
        "the remainder of an order without a place",
    )?;
    let rests = after.orders.iter().any(|order| order.id == entry.id);
    ensure(!rests, "an order without a place rests")
}

/// Whether a report is about a resting order.
fn names(report: &Report, order: &Order) -> bool {
    match *report {
        Report::Executed { buyer, seller, .. } => buyer == order.id || seller == order.id,
        Report::Cancelled { id, .. } => id == order.id,
        _ => false,
    }
}

/// "It is now handled as any other": it gets the same reports and leaves the same orders
/// where one of those that it doesn't meet isn't there, which is a book that had room for
/// it before No. 8 too. Where it meets all 256 there is none, and nothing is tried.
fn check_with_room(
    before: &Venue,
    entry: &Entry,
    buffer: usize,
    reports: &[Report],
    after: &Venue,
) -> Result<bool, Fault> {
    let is_met = |order: &Order| reports.iter().any(|report| names(report, order));
    let others = before.orders.iter().filter(|order| !is_met(order));
    let others: Vec<Order> = others.copied().collect();
    if others.is_empty() {
        return Ok(false);
    }
    let away = others[entry.id as usize % others.len()];
    let mut other = without(before, &away);
    let mut bytes = vec![0; buffer];
    let answer = other.apply(&Event::Entry(*entry), &mut bytes, RecordCheck::Done);
    let answer = answer.and_then(|count| Report::read_all(&bytes[..count]));
    let same = answer.as_deref() == Ok(reports);
    ensure(same, "the reports where there is room")?;
    ensure(after.orders.contains(&away), "an order that wasn't met")?;
    let same = without(after, &away) == other;
    ensure(same, "the venue where there is room")?;
    Ok(true)
}

/// The same venue without one of its orders.
fn without(venue: &Venue, away: &Order) -> Venue {
    let mut other = venue.clone();
    other.orders.retain(|order| order.id != away.id);
    other
}

#[cfg(test)]
mod tests {
    use super::*;
    use crate::conditions::Breaks;
    use crate::fronts::{limit, working_price};
    use crate::shown::assert_told_apart;

    fn buy(id: u32) -> Order {
        Order {
            id,
            mark: 0,
            limit: 100,
            shares: 1,
            show: 1,
            life: 0,
            slide: 0,
            stamp: id,
            price: 100,
            entry_bid: 0,
            adjusted: false,
            used: false,
            clear: true,
            market: false,
            owner: 0,
        }
    }

    /// So many buys of one share at 100.
    fn book_of(orders: u32) -> Venue {
        Venue {
            last_id: 256,
            last_stamp: 256,
            accepted: 256,
            orders: (1..=orders).map(buy).collect(),
            ..Venue::fresh(100, 100_000)
        }
    }

    /// A buy of 5 shares at 100 with this life.
    fn entry_of(life: u32) -> Entry {
        Entry {
            id: 257,
            mark: 0,
            price: 100,
            shares: 5,
            show: 1,
            life,
            slide: 0,
            owner: None,
        }
    }

    const ACCEPTED: Report = Report::Accepted {
        id: 257,
        stamp: 257,
        price: 100,
    };

    fn cancelled(shares: u32, cause: u32) -> Report {
        Report::Cancelled {
            id: 257,
            shares,
            cause,
        }
    }

    /// Checks these reports of the immediate buy in a full book, with what comes after it.
    fn let_in(reports: &[Report], change: impl Fn(&mut Venue)) -> Result<bool, Fault> {
        let before = book_of(256);
        let mut after = before.clone();
        (after.last_id, after.last_stamp, after.accepted) = (257, 257, 257);
        change(&mut after);
        let event = Event::Entry(entry_of(1));
        check(&before, &event, 16_384, Ok(reports), &after)
    }

    #[test]
    fn a_wrong_order_in_a_full_book_is_seen() {
        let right = [ACCEPTED, cancelled(5, 2)];
        assert_eq!(let_in(&right, |_| {}), Ok(true));
        assert!(let_in(&[ACCEPTED], |_| {}).is_err());
        assert!(let_in(&[ACCEPTED], |after| after.orders[255] = buy(257)).is_err());
        assert!(let_in(&[ACCEPTED], |after| after.orders.push(buy(257))).is_err());
        assert!(let_in(&[ACCEPTED, cancelled(5, 3)], |_| {}).is_err());
        assert!(let_in(&[ACCEPTED, cancelled(4, 2)], |_| {}).is_err());
        assert!(let_in(&[cancelled(5, 2)], |_| {}).is_err());
        assert!(let_in(&right, |after| after.last_stamp = 256).is_err());
        assert!(let_in(&right, |after| after.last_id = 256).is_err());
        assert!(let_in(&right, |after| after.accepted = 256).is_err());
        for at in 0..256 {
            let changed = |after: &mut Venue| after.orders[at].shares = 2;
            assert!(let_in(&right, changed).is_err());
            let gone = |after: &mut Venue| {
                after.orders.remove(at);
            };
            assert!(let_in(&right, gone).is_err());
        }
    }

    /// 7 meets those that need a place, in a full book alone.
    #[test]
    fn a_wrong_7_is_seen() {
        let refused = |orders, life, refusal| {
            let venue = book_of(orders);
            let event = Event::Entry(entry_of(life));
            check(&venue, &event, 16_384, Err(refusal), &venue)
        };
        assert_eq!(refused(256, 0, Refusal::Full), Ok(false));
        assert!(refused(256, 1, Refusal::Full).is_err());
        assert!(refused(255, 0, Refusal::Full).is_err());
        assert!(refused(255, 1, Refusal::Full).is_err());
        assert!(refused(256, 0, Refusal::Id).is_err());
        assert_eq!(refused(256, 1, Refusal::Spent), Ok(false));
        let event = Event::Entry(entry_of(0));
        let taken = check(
            &book_of(256),
            &event,
            16_384,
            Ok(&[ACCEPTED]),
            &book_of(256),
        );
        assert!(taken.is_err());
    }

    /// A wrong version of the last condition, and what is wrong with it.
    type Wrong = (&'static str, Breaks);

    const RULE: &str = "the rule";

    /// The rule, with an order let in that meets 7.
    fn but(entry: &Entry, venue: &Venue, let_in: bool) -> bool {
        is_full(venue) && needs_place(entry, venue) && !let_in
    }

    /// The rule, with an order refused that needs no place.
    fn also(entry: &Entry, venue: &Venue, refused: bool) -> bool {
        is_full(venue) && (needs_place(entry, venue) || refused)
    }

    fn is_restricted(entry: &Entry, venue: &Venue) -> bool {
        entry.mark == 2 && venue.phase != 0
    }

    fn is_market(entry: &Entry, life: u32) -> bool {
        entry.price == 0 && entry.life == life
    }

    /// The orders in an entry's reach, own ones or those of others.
    fn reached<'a>(entry: &Entry, venue: &'a Venue, own: bool) -> Vec<&'a Order> {
        let price = working_price(&entry.question(), venue);
        let is_reached = |order: &&Order| match (entry.mark, order.mark) {
            (0, 1..) => order.price <= price,
            (1.., 0) => order.price >= price,
            _ => false,
        };
        let is_own = |order: &&Order| Some(order.owner) == entry.owner && order.owner > 0;
        let reached = venue.orders.iter().filter(is_reached);
        reached.filter(|order| is_own(order) == own).collect()
    }

    fn shares(orders: &[&Order]) -> u64 {
        orders.iter().map(|order| u64::from(order.shares)).sum()
    }

    /// Whether an entry would be executed in full.
    fn fills(entry: &Entry, venue: &Venue) -> bool {
        shares(&reached(entry, venue, false)) >= entry.shares.into()
    }

    fn trades(entry: &Entry, venue: &Venue) -> bool {
        !reached(entry, venue, false).is_empty()
    }

    /// Whether an order that it reaches would be gone.
    fn frees(entry: &Entry, venue: &Venue) -> bool {
        let others = reached(entry, venue, false);
        let least = others.iter().map(|order| order.shares).min();
        let own = !reached(entry, venue, true).is_empty();
        own || least.is_some_and(|least| least <= entry.shares)
    }

    fn is_adjusted_opt_out(entry: &Entry, venue: &Venue) -> bool {
        let asked = entry.question();
        entry.slide == 3 && working_price(&asked, venue) > limit(&asked)
    }

    /// Everyone, nobody, other borders and other counts of orders.
    const OTHER_BOOKS: [Wrong; 7] = [
        ("every order let in", |_, _| false),
        ("every order refused", |_, venue| is_full(venue)),
        ("border 255", |entry, venue| {
            venue.orders.len() > 254 && needs_place(entry, venue)
        }),
        ("border 257", |entry, venue| {
            venue.orders.len() > 256 && needs_place(entry, venue)
        }),
        ("every order refused with 255", |entry, venue| {
            venue.orders.len() == 255 || also(entry, venue, false)
        }),
        ("own side full", |entry, venue| {
            let is_own_side = |order: &&Order| (order.mark == 0) == (entry.mark == 0);
            let own_side = venue.orders.iter().filter(is_own_side).count();
            own_side == 256 && needs_place(entry, venue)
        }),
        ("displayed orders alone need a place", |entry, venue| {
            but(entry, venue, entry.show == 0)
        }),
    ];

    /// By what becomes of the order in place of its terms.
    const BY_OUTCOME: [Wrong; 12] = [
        ("let in if it would fill", |entry, venue| {
            but(entry, venue, fills(entry, venue))
        }),
        ("let in if it would not rest", |entry, venue| {
            let gone = fills(entry, venue) || is_adjusted_opt_out(entry, venue);
            but(entry, venue, gone)
        }),
        ("let in if it would trade", |entry, venue| {
            but(entry, venue, trades(entry, venue))
        }),
        ("let in if a place would be free", |entry, venue| {
            but(entry, venue, frees(entry, venue))
        }),
        ("let in if own orders would go", |entry, venue| {
            but(entry, venue, !reached(entry, venue, true).is_empty())
        }),
        ("adjusted opt-outs let in", |entry, venue| {
            but(entry, venue, is_adjusted_opt_out(entry, venue))
        }),
        ("adjusted opt-outs with a limit let in", |entry, venue| {
            let opts_out = is_adjusted_opt_out(entry, venue) && entry.price != 0;
            but(entry, venue, opts_out)
        }),
        ("opt-outs let in", |entry, venue| {
            but(entry, venue, entry.slide == 3)
        }),
        ("immediate refused if it meets nothing", |entry, venue| {
            also(entry, venue, !frees(entry, venue) && !trades(entry, venue))
        }),
        ("immediate refused if it would not fill", |entry, venue| {
            also(entry, venue, !fills(entry, venue))
        }),
        ("immediate refused if it frees no place", |entry, venue| {
            also(entry, venue, !frees(entry, venue))
        }),
        ("immediate opt-outs refused", |entry, venue| {
            also(entry, venue, entry.slide == 3)
        }),
    ];

    /// Market orders taken as immediate or cancel, or not.
    const OTHER_MARKET_ORDERS: [Wrong; 15] = [
        ("its own life alone", |entry, venue| {
            is_full(venue) && entry.life != 1
        }),
        ("market shorts let in", |entry, venue| {
            but(entry, venue, entry.price == 0)
        }),
        ("market shorts let in in phase 2", |entry, venue| {
            but(entry, venue, entry.price == 0 && venue.phase == 2)
        }),
        ("market shorts let in in phase 1", |entry, venue| {
            but(entry, venue, entry.price == 0 && venue.phase == 1)
        }),
        ("restricted without a bid refused", |entry, venue| {
            also(
                entry,
                venue,
                is_market(entry, 0) && is_restricted(entry, venue),
            )
        }),
        ("shorts with a bid refused in phase 0", |entry, venue| {
            let refused = is_market(entry, 0) && entry.mark == 2 && venue.bid != 0;
            also(entry, venue, refused)
        }),
        ("free market shorts refused", |entry, venue| {
            let free = entry.mark == 2 && venue.phase == 0;
            also(entry, venue, is_market(entry, 0) && free)
        }),
        ("market buys refused", |entry, venue| {
            also(entry, venue, is_market(entry, 0) && entry.mark == 0)
        }),
        ("market longs refused", |entry, venue| {
            also(entry, venue, is_market(entry, 0) && entry.mark == 1)
        }),
        ("market exempts refused", |entry, venue| {
            also(entry, venue, is_market(entry, 0) && entry.mark == 3)
        }),
        ("restricted exempts follow the bid", |entry, venue| {
            let exempt = entry.mark == 3 && venue.phase != 0 && venue.bid != 0;
            also(entry, venue, is_market(entry, 0) && exempt)
        }),
        ("immediate market shorts refused", |entry, venue| {
            let refused = is_market(entry, 1) && follows_bid(entry, venue);
            also(entry, venue, refused)
        }),
        (
            "immediate restricted market shorts refused",
            |entry, venue| {
                let refused = is_market(entry, 1) && is_restricted(entry, venue);
                also(entry, venue, refused)
            },
        ),
        ("immediate market orders refused", |entry, venue| {
            also(entry, venue, is_market(entry, 1))
        }),
        ("all market orders refused", |entry, venue| {
            also(entry, venue, entry.price == 0)
        }),
    ];

    /// Immediate orders with a limit, and the two kinds of entry.
    const OTHER_LIVES: [Wrong; 9] = [
        ("immediate orders refused", |entry, venue| {
            also(entry, venue, entry.life == 1 && entry.price != 0)
        }),
        ("immediate buys refused", |entry, venue| {
            also(entry, venue, entry.life == 1 && entry.mark == 0)
        }),
        ("immediate longs refused", |entry, venue| {
            also(entry, venue, entry.life == 1 && entry.mark == 1)
        }),
        ("immediate shorts refused", |entry, venue| {
            also(entry, venue, entry.life == 1 && entry.mark == 2)
        }),
        ("immediate exempts refused", |entry, venue| {
            also(entry, venue, entry.life == 1 && entry.mark == 3)
        }),
        ("restricted immediate shorts refused", |entry, venue| {
            also(
                entry,
                venue,
                entry.life == 1 && is_restricted(entry, venue) && entry.price != 0,
            )
        }),
        ("hidden immediate orders refused", |entry, venue| {
            also(entry, venue, entry.show == 0)
        }),
        ("kind 6 as before", |entry, venue| {
            also(entry, venue, entry.owner.is_some())
        }),
        ("kind 1 as before", |entry, venue| {
            also(entry, venue, entry.owner.is_none())
        }),
    ];

    /// The conditions with another last one.
    fn with_last(breaks: Breaks) -> Vec<Condition> {
        let mut conditions = CONDITIONS.to_vec();
        let last = conditions.len() - 1;
        conditions[last] = condition(7, "full book", breaks);
        conditions
    }

    /// All versions, and the rule as it stands here and as it was before.
    fn versions() -> Vec<(String, Vec<Condition>)> {
        let rule: Wrong = (RULE, |entry, venue| {
            is_full(venue) && needs_place(entry, venue)
        });
        let all = [
            &[rule][..],
            &OTHER_BOOKS,
            &BY_OUTCOME,
            &OTHER_MARKET_ORDERS,
            &OTHER_LIVES,
        ]
        .concat();
        let mut versions: Vec<(String, Vec<Condition>)> = all
            .into_iter()
            .map(|(name, breaks)| (name.to_owned(), with_last(breaks)))
            .collect();
        // 7 stays last.
        for (place, passed) in CONDITIONS[..CONDITIONS.len() - 1].iter().enumerate() {
            let mut conditions = CONDITIONS.to_vec();
            conditions[place..].rotate_right(1);
            versions.push((format!("7 before {}", passed.name), conditions));
        }
        versions.push(("as before No. 8".to_owned(), BEFORE.to_vec()));
        versions
    }

    #[test]
    fn wrong_versions_are_told_apart_and_the_rule_is_not() {
        assert_told_apart(RULE, &versions(), |shown, untold| {
            let Event::Entry(entry) = shown.event else {
                return;
            };
            let early = [Refusal::VenueRecord, Refusal::ShortBuffer, Refusal::Spent];
            let answer = shown.answer.err();
            if answer.is_some_and(|it| early.contains(&it)) {
                return;
            }
            let right = answer.map(Refusal::number);
            untold.retain(|(_, wrong)| refusal_of(wrong, entry, shown.before) == right);
        });
    }
}
