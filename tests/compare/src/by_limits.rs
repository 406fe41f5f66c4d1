//! No. 1 of document 02 in document 01's words: each event on a venue with
//! market orders does what another event does on a venue without. One that is taken as
//! immediate or cancel becomes an entry that is, so in a full book neither meets 7 (No. 8).

use crate::model::{
    Entry, Event, Order, RecordCheck, Refusal, Report, Venue, BUY, HIGHEST, LOWEST, SHORT,
};
use crate::sessions::{ensure, Fault};

/// The same venue, with shorts of the same limit for its market shorts.
pub fn with_plain_shorts(venue: &Venue) -> Venue {
    let mut other = venue.clone();
    for order in &mut other.orders {
        order.market = false;
    }
    other
}

fn without_market_shorts(venue: &Venue) -> Venue {
    let mut other = venue.clone();
    other.orders.retain(|order| !order.market);
    other
}

pub fn market_shorts(venue: &Venue) -> impl Iterator<Item = &Order> {
    venue.orders.iter().filter(|order| order.market)
}

/// Whether a market order becomes a market short: "A restricted short with a
/// bid present".
pub fn follows_bid(venue: &Venue, entry: &Entry) -> bool {
    entry.mark == SHORT && venue.phase != 0 && venue.bid != 0
}

/// An event without a market order that does the same: "A buy works at
/// 100,000,000 and any sell at 1, as immediate or cancel. A restricted short
/// with a bid present instead counts as limit 1", "its life included".
fn by_limit(venue: &Venue, event: &Event) -> Event {
    let Event::Entry(entry) = *event else {
        return *event;
    };
    if !entry.is_market() {
        return *event;
    }
    let price = if entry.mark == BUY { HIGHEST } else { LOWEST };
    // A life that is neither is refused as ever.
    let life = match entry.life {
        0 | 1 if !follows_bid(venue, &entry) => 1,
        life => life,
    };
    Event::Entry(Entry {
        price,
        life,
        ..entry
    })
}

/// "With no bid a resting market short stays where it is": whether the event
/// runs a pass with no bid.
fn passes_with_no_bid(venue: &Venue, event: &Event) -> bool {
    match *event {
        Event::Bid { price } => price == 0,
        Event::Tape { .. } | Event::Timed(_) => venue.bid == 0,
        _ => false,
    }
}

/// Checks an event with a report buffer of that length, whose answer is its
/// reports or a refusal other than 16.
pub fn check(
    before: &Venue,
    event: &Event,
    buffer: usize,
    answer: Result<&[Report], Refusal>,
    after: &Venue,
) -> Result<(), Fault> {
    let no_bid = passes_with_no_bid(before, event);
    let without = if no_bid {
        without_market_shorts
    } else {
        with_plain_shorts
    };
    let mut other = without(before);
    let mut bytes = vec![0; buffer];
    let other_event = by_limit(before, event);
    let other_answer = other.apply(&other_event, &mut bytes, RecordCheck::Done);
    let other_answer = other_answer.and_then(|count| Report::read_all(&bytes[..count]));
    let same = answer == other_answer.as_deref().map_err(|refusal| *refusal);
    ensure(same, "the answer by limits")?;
    ensure(without(after) == other, "the venue by limits")?;
    if no_bid {
        let stay = market_shorts(before).eq(market_shorts(after));
        return ensure(stay, "a market short stays with no bid");
    }
    check_flags(before, event, after)
}

/// Re-pricing and trading keep the flag, and only an entry gives it.
fn check_flags(before: &Venue, event: &Event, after: &Venue) -> Result<(), Fault> {
    let is_new = |order: &Order| match event {
        Event::Entry(entry) => entry.is_market() && entry.id == order.id,
        _ => false,
    };
    for order in &after.orders {
        let at = before.orders.binary_search_by_key(&order.id, |was| was.id);
        let market = match at {
            Ok(at) => before.orders[at].market,
            Err(_) => is_new(order),
        };
        ensure(order.market == market, "market shorts by their entries")?;
    }
    Ok(())
}

#[cfg(test)]
mod tests {
    use super::*;

    /// Checks an event on a venue with a market short at 90,100, with what comes
    /// after it.
    fn checked(event: Event, bytes: &[u8], change: impl Fn(&mut Venue)) -> Result<(), Fault> {
        let short = Order {
            id: 1,
            mark: SHORT,
            limit: LOWEST,
            shares: 5,
            show: 1,
            life: 0,
            slide: 0,
            stamp: 1,
            price: 90_100,
            entry_bid: 90_000,
            adjusted: true,
            used: false,
            clear: true,
            market: true,
            owner: 0,
        };
        let before = Venue {
            phase: 1,
            bid: 90_000,
            last_id: 1,
            last_stamp: 1,
            accepted: 3,
            orders: vec![short],
            ..Venue::fresh(100, 100_000)
        };
        let mut after = before.clone();
        after.accepted += 1;
        change(&mut after);
        let reports = Report::read_all(bytes).expect("reports");
        check(&before, &event, 16_384, Ok(&reports), &after)
    }

    #[test]
    fn a_market_short_that_falls_to_1_is_seen() {
        let gone = Event::Bid { price: 0 };
        assert_eq!(checked(gone, &[], |after| after.bid = 0), Ok(()));
        let fallen = |after: &mut Venue| {
            after.bid = 0;
            after.last_stamp = 2;
            (after.orders[0].price, after.orders[0].stamp) = (1, 2);
        };
        assert!(checked(gone, &[4, 1, 1, 2], fallen).is_err());
        let quietly = |after: &mut Venue| {
            after.bid = 0;
            after.orders[0].price = 1;
        };
        assert!(checked(gone, &[], quietly).is_err());
    }

    #[test]
    fn a_flag_that_is_lost_on_re_pricing_is_seen() {
        let lower = Event::Bid { price: 89_000 };
        let reports = [4, 1, 0x8C, 0xB8, 5, 2];
        let slide = |after: &mut Venue| {
            after.bid = 89_000;
            after.last_stamp = 2;
            (after.orders[0].price, after.orders[0].stamp) = (89_100, 2);
        };
        assert_eq!(checked(lower, &reports, slide), Ok(()));
        let lose = |after: &mut Venue| {
            slide(after);
            after.orders[0].market = false;
        };
        assert!(checked(lower, &reports, lose).is_err());
    }
}
