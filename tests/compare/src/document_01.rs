//! The price rules of document 01 as they stand there, before any step, and an
//! event at the step of a cent checked by them. No formula here is the model's.

use crate::model::{Event, Order, Refusal, Report, TimedPrice, Venue};
use crate::sessions::{ensure, Fault};

/// "legal from 1 to 100,000,000; from 10,000 up it is a multiple of 100"
pub fn is_legal(price: u32) -> bool {
    let between = (1..=100_000_000).contains(&price);
    between && (price < 10_000 || price.is_multiple_of(100))
}

/// "A bid is 0 (no bid) or a legal price up to 99,999,900."
pub fn is_bid(bid: u32) -> bool {
    bid == 0 || (is_legal(bid) && bid <= 99_999_900)
}

/// "Permitted price of bid b: 1 if b = 0; b + 1 if 1 ≤ b < 10,000; otherwise
/// b + 100."
pub fn permitted_price(bid: u32) -> u32 {
    if bid == 0 {
        1
    } else if bid < 10_000 {
        bid + 1
    } else {
        bid + 100
    }
}

/// "a tape price p with 10 × p ≤ 9 × close"
pub fn triggers(close: u32, price: u32) -> bool {
    10 * u64::from(price) <= 9 * u64::from(close)
}

/// Checks an event on a sound venue record at the step of a cent: refusal 3, the
/// working price and the prices of re-pricings.
pub fn check(
    before: &Venue,
    event: &Event,
    answer: Result<&[Report], Refusal>,
    after: &Venue,
) -> Result<(), Fault> {
    let takes = match *event {
        Event::Entry(entry) => entry.price == 0 || is_legal(entry.price),
        Event::Cancel { .. } => true,
        Event::Bid { price } => is_bid(price),
        Event::Tape { price }
        | Event::DayEnd { price }
        | Event::Timed(TimedPrice { price, .. }) => is_legal(price),
    };
    let reports = match answer {
        Err(Refusal::ShortBuffer | Refusal::Spent) => return Ok(()),
        Err(refusal) => return ensure(takes == (refusal != Refusal::Price), "document 01's 3"),
        Ok(reports) => reports,
    };
    ensure(takes, "document 01's 3")?;
    let mut reports = reports.iter();
    reports.try_for_each(|report| check_price(before, event, after, report))
}

/// A working price is the limit or "the larger of limit and permitted price"; a
/// re-priced order gets the permitted price, or "t", which is that, its limit or
/// its entry bid.
fn check_price(before: &Venue, event: &Event, after: &Venue, report: &Report) -> Result<(), Fault> {
    let permitted = permitted_price(after.bid);
    let sound = match (*report, event) {
        (Report::Accepted { price, .. }, Event::Entry(entry)) => {
            let limit = match (entry.price, entry.mark) {
                (0, 0) => 100_000_000,
                (0, _) => 1,
                (limit, _) => limit,
            };
            let restricted = entry.mark == 2 && before.phase != 0;
            price
                == if restricted {
                    limit.max(permitted)
                } else {
                    limit
                }
        }
        (Report::Repriced { id, price, .. }, _) => {
            let is_it = |order: &&Order| order.id == id;
            let order = before.orders.iter().find(is_it);
            order.is_some_and(|order| [permitted, order.limit, order.entry_bid].contains(&price))
        }
        _ => true,
    };
    ensure(sound, "document 01's prices")
}

#[cfg(test)]
mod tests {
    use super::*;
    use crate::model::Entry;

    /// Eight of "Twelve sums".
    #[test]
    fn sums() {
        let bids = [9_998, 9_999, 10_000, 99_999_900];
        let prices = [9_999, 10_000, 10_100, 100_000_000];
        assert_eq!(bids.map(permitted_price), prices);
        assert!(triggers(100_000, 90_000) && !triggers(100_000, 90_100));
        assert!(triggers(9_999, 8_999) && !triggers(9_999, 9_000));
    }

    /// A restricted short with limit 90,000 at bid 91,000, and its reports.
    fn checked(reports: &[Report]) -> Result<(), Fault> {
        let before = Venue {
            phase: 1,
            bid: 91_000,
            ..Venue::fresh(100, 100_000)
        };
        let entry = Entry {
            id: 1,
            mark: 2,
            price: 90_000,
            shares: 5,
            show: 1,
            life: 1,
            slide: 0,
            owner: None,
        };
        check(&before, &Event::Entry(entry), Ok(reports), &before)
    }

    #[test]
    fn a_wrong_working_price_is_seen() {
        let accepted = |price| Report::Accepted {
            id: 1,
            stamp: 1,
            price,
        };
        assert_eq!(checked(&[accepted(91_100)]), Ok(()));
        assert!(checked(&[accepted(91_050)]).is_err());
        assert!(checked(&[accepted(90_000)]).is_err());
    }

    #[test]
    fn a_half_cent_that_is_taken_at_the_step_of_a_cent_is_seen() {
        let venue = Venue::fresh(100, 100_000);
        for price in [10_050, 99_999_950] {
            let events = [
                Event::Bid { price },
                Event::Tape { price },
                Event::DayEnd { price },
                Event::Timed(TimedPrice { time: 0, price }),
            ];
            for event in events {
                assert!(check(&venue, &event, Ok(&[]), &venue).is_err());
                let refused = check(&venue, &event, Err(Refusal::Price), &venue);
                assert_eq!(refused, Ok(()));
            }
        }
    }
}
