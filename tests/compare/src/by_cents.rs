//! No. 2 of document 02 by document 01's step: a venue at the half-cent step does
//! what one at the step of a cent does with its prices from 10,000 up doubled.
//!
//! That keeps the order of prices, which are legal, which are bids, the permitted
//! price, the trigger and No. 10's falls and rises. Left out are prices whose double is
//! too high, other than the highest, at which a market buy works; a bid of 9,999, whose
//! permitted price is doubled and it isn't; and a trigger, fall or rise between prices of
//! which one is doubled and the other isn't.

use crate::model::{
    Entry, Event, Order, RecordCheck, Refusal, Report, TimedPrice, Venue, CENT, DOLLAR, HALF_CENT,
    HIGHEST,
};
use crate::sessions::{ensure, Fault};

/// The highest bid whose permitted price can be doubled and is then below the
/// highest price.
const MOST: u32 = HIGHEST / 2 - CENT;

fn doubled(price: u32) -> u32 {
    if price < DOLLAR || price == HIGHEST {
        price
    } else {
        2 * price
    }
}

fn can_double(price: u32) -> bool {
    price <= MOST || price == HIGHEST
}

fn order_doubled(order: &Order) -> Order {
    Order {
        limit: doubled(order.limit),
        price: doubled(order.price),
        entry_bid: doubled(order.entry_bid),
        ..*order
    }
}

fn venue_doubled(venue: &Venue) -> Venue {
    Venue {
        step: CENT,
        close: doubled(venue.close),
        bid: doubled(venue.bid),
        orders: venue.orders.iter().map(order_doubled).collect(),
        kept: venue.kept.iter().map(timed_doubled).collect(),
        ..*venue
    }
}

fn timed_doubled(timed: &TimedPrice) -> TimedPrice {
    TimedPrice {
        price: doubled(timed.price),
        ..*timed
    }
}

fn event_doubled(event: &Event) -> Event {
    match *event {
        Event::Entry(entry) => Event::Entry(Entry {
            price: doubled(entry.price),
            ..entry
        }),
        Event::Cancel { id } => Event::Cancel { id },
        Event::Bid { price } => Event::Bid {
            price: doubled(price),
        },
        Event::Tape { price } => Event::Tape {
            price: doubled(price),
        },
        Event::DayEnd { price } => Event::DayEnd {
            price: doubled(price),
        },
        Event::Timed(timed) => Event::Timed(timed_doubled(&timed)),
    }
}

fn report_doubled(report: &Report) -> Report {
    let mut other = *report;
    if let Report::Accepted { price, .. }
    | Report::Executed { price, .. }
    | Report::Repriced { price, .. }
    | Report::Pause { price, .. } = &mut other
    {
        *price = doubled(*price);
    }
    other
}

/// Whether both prices are doubled, or neither is.
fn are_alike(price: u32, other: u32) -> bool {
    let stays = |price| doubled(price) == price;
    stays(price) == stays(other)
}

/// Whether an event on a venue is one of those that can be doubled.
fn applies(venue: &Venue, event: &Event) -> bool {
    let price = match *event {
        Event::Entry(Entry { price, .. })
        | Event::Bid { price }
        | Event::Tape { price }
        | Event::DayEnd { price }
        | Event::Timed(TimedPrice { price, .. }) => price,
        Event::Cancel { .. } => 0,
    };
    let over_dollar = (price < DOLLAR) != (venue.close < DOLLAR);
    let is_alike = |old: &TimedPrice| are_alike(price, old.price);
    let borderline = match event {
        Event::Bid { .. } => price == DOLLAR - 1,
        Event::Tape { .. } => over_dollar,
        Event::Timed(_) => over_dollar || !venue.kept.iter().all(is_alike),
        _ => false,
    };
    let orders = venue.orders.iter();
    let mut prices = orders.flat_map(|order| [order.limit, order.price, order.entry_bid]);
    let mut kept = venue.kept.iter().map(|old| old.price);
    venue.step == HALF_CENT
        && !borderline
        && venue.bid != DOLLAR - 1
        && venue.close <= MOST
        && [price, venue.bid].into_iter().all(can_double)
        && prices.all(can_double)
        && kept.all(can_double)
}

/// Checks an event on a sound venue record with a report buffer of that length.
/// Gives whether it is one that can be doubled.
pub fn check(
    before: &Venue,
    event: &Event,
    buffer: usize,
    answer: Result<&[Report], Refusal>,
    after: &Venue,
) -> Result<bool, Fault> {
    if !applies(before, event) {
        return Ok(false);
    }
    let mut other = venue_doubled(before);
    let mut bytes = vec![0; buffer];
    let other_answer = other.apply(&event_doubled(event), &mut bytes, RecordCheck::Done);
    let other_answer = other_answer.and_then(|count| Report::read_all(&bytes[..count]));
    let answer = answer.map(|reports| reports.iter().map(report_doubled).collect());
    ensure(answer == other_answer, "the answer by cents")?;
    ensure(venue_doubled(after) == other, "the venue by cents")?;
    Ok(true)
}

#[cfg(test)]
mod tests {
    use super::*;

    /// A restricted short with limit 90,000 comes in at a bid and is accepted at a
    /// price; as it is immediate or cancel, it doesn't rest.
    fn checked(price: u32, bid: u32) -> Result<bool, Fault> {
        let before = Venue {
            phase: 1,
            bid,
            ..Venue::fresh(HALF_CENT, 100_000)
        };
        let entry = Entry {
            id: 1,
            mark: 2,
            price: 90_000,
            shares: 5,
            show: 1,
            life: 1,
            slide: 0,
            owner: None,
        };
        let reports = [
            Report::Accepted {
                id: 1,
                stamp: 1,
                price,
            },
            Report::Cancelled {
                id: 1,
                shares: 5,
                cause: 2,
            },
        ];
        let mut after = before.clone();
        (after.last_id, after.last_stamp, after.accepted) = (1, 1, 1);
        check(&before, &Event::Entry(entry), 16_384, Ok(&reports), &after)
    }

    #[test]
    fn a_cent_above_the_bid_is_seen() {
        assert_eq!(checked(91_050, 91_000), Ok(true));
        assert!(checked(91_100, 91_000).is_err());
        assert!(checked(91_000, 91_000).is_err());
    }

    /// At the border the bid isn't doubled and its permitted price is.
    #[test]
    fn what_cannot_be_doubled_is_left_out() {
        assert_eq!(checked(90_000, 9_999), Ok(false));
        assert_eq!(checked(50_000_000, 49_999_950), Ok(false));
        assert_eq!(checked(49_999_950, 49_999_900), Ok(true));
    }

    #[test]
    fn a_half_cent_refused_at_its_step_is_seen() {
        let venue = Venue::fresh(HALF_CENT, 100_000);
        let refused = |price| {
            let answer = Err(Refusal::Price);
            check(&venue, &Event::Bid { price }, 16_384, answer, &venue)
        };
        assert!(refused(90_050).is_err());
        assert_eq!(refused(90_025), Ok(true));
    }
}
