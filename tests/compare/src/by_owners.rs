//! No. 7 of document 02 without owners: an event in which own orders are cancelled does
//! what the same event of kind 1 does on a book that never had them. And the owners of a
//! venue record.

use crate::firms::CAUSE;
use crate::model::{Entry, Event, RecordCheck, Refusal, Report, Venue};
use crate::sessions::{ensure, Fault};

/// The same venue with owner 0 everywhere.
pub fn without_owners(venue: &Venue) -> Venue {
    let mut other = venue.clone();
    for order in &mut other.orders {
        order.owner = 0;
    }
    other
}

/// "The order record and copy out show the owner, 0 to 65,535 in a sound venue record."
pub fn check_record(venue: &Venue) -> Result<(), Fault> {
    let mut owners = venue.orders.iter().map(|order| order.owner);
    let sound = owners.all(|owner| owner < 65_536) && without_owners(venue).is_sound();
    ensure(venue.is_sound() == sound, "a record with owners")
}

fn event_without_owner(event: &Event) -> Event {
    match *event {
        Event::Entry(entry) => Event::Entry(Entry {
            owner: None,
            ..entry
        }),
        other => other,
    }
}

/// The order that a report cancels with cause 5.
pub fn withdrawn(report: &Report) -> Option<u32> {
    match *report {
        Report::Cancelled { id, cause, .. } if cause == CAUSE => Some(id),
        _ => None,
    }
}

fn executes(report: &Report, id: u32) -> bool {
    matches!(*report, Report::Executed { buyer, seller, .. } if buyer == id || seller == id)
}

/// Checks an event on a sound venue record with a report buffer of that length. Left out
/// are 21, which kind 1 doesn't know, and events that first execute an order in part and
/// then cancel it. Gives whether it was one of the others.
pub fn check(
    before: &Venue,
    event: &Event,
    buffer: usize,
    answer: Result<&[Report], Refusal>,
    after: &Venue,
) -> Result<bool, Fault> {
    if answer == Err(Refusal::Owner) {
        return Ok(false);
    }
    let reports = answer.unwrap_or_default();
    let gone: Vec<u32> = reports.iter().filter_map(withdrawn).collect();
    let traded = |id: &u32| reports.iter().any(|report| executes(report, *id));
    if gone.iter().any(traded) {
        return Ok(false);
    }
    let mut other = without_owners(before);
    other.orders.retain(|order| !gone.contains(&order.id));
    let mut bytes = vec![0; buffer];
    let other_answer = other.apply(&event_without_owner(event), &mut bytes, RecordCheck::Done);
    let other_answer = other_answer.and_then(|count| Report::read_all(&bytes[..count]));
    let kept = |report: &&Report| withdrawn(report).is_none();
    let answer = answer.map(|reports| reports.iter().filter(kept).copied().collect());
    ensure(answer == other_answer, "the answer without owners")?;
    ensure(without_owners(after) == other, "the venue without owners")?;
    Ok(true)
}

#[cfg(test)]
mod tests {
    use super::*;
    use crate::model::{Order, CENT};
    use crate::shown::show_all;

    fn buy(id: u32, price: u32, owner: u32) -> Order {
        Order {
            id,
            mark: 0,
            limit: price,
            shares: 5,
            show: 1,
            life: 0,
            slide: 0,
            stamp: id,
            price,
            entry_bid: 0,
            adjusted: false,
            used: false,
            clear: true,
            market: false,
            owner,
        }
    }

    /// Buys of firms 7 and 8, and a sale of 5 shares by firm 7 with these report bytes,
    /// which leaves these ids.
    fn checked(bytes: &[u8], left: &[u32]) -> Result<bool, Fault> {
        let before = Venue {
            last_id: 2,
            last_stamp: 2,
            accepted: 2,
            orders: vec![buy(1, 91, 7), buy(2, 90, 8)],
            ..Venue::fresh(CENT, 100_000)
        };
        let entry = Entry {
            id: 3,
            mark: 1,
            price: 90,
            shares: 5,
            show: 1,
            life: 0,
            slide: 0,
            owner: Some(7),
        };
        let mut after = before.clone();
        (after.last_id, after.last_stamp, after.accepted) = (3, 3, 3);
        after.orders.retain(|order| left.contains(&order.id));
        let reports = Report::read_all(bytes).expect("reports");
        check(&before, &Event::Entry(entry), 16_384, Ok(&reports), &after)
    }

    #[test]
    fn a_wrong_event_with_owners_is_seen() {
        assert_eq!(
            checked(&[1, 3, 3, 90, 3, 1, 5, 5, 2, 2, 3, 90, 5], &[]),
            Ok(true)
        );
        assert!(checked(&[1, 3, 3, 90, 3, 1, 5, 5], &[2]).is_err());
        assert!(checked(&[1, 3, 3, 90, 2, 2, 3, 90, 5], &[1]).is_err());
        assert!(checked(&[1, 3, 3, 90, 3, 1, 5, 5, 2, 2, 3, 90, 5], &[2]).is_err());
    }

    #[test]
    fn an_owner_too_large_in_a_record_is_16() {
        let of = |owner| Venue {
            last_id: 1,
            last_stamp: 1,
            accepted: 1,
            orders: vec![buy(1, 90, owner)],
            ..Venue::fresh(CENT, 100_000)
        };
        for (owner, sound) in [
            (0, true),
            (65_535, true),
            (65_536, false),
            (u32::MAX, false),
        ] {
            assert_eq!(of(owner).is_sound(), sound, "{owner}");
            assert_eq!(check_record(&of(owner)), Ok(()));
            let mut venue = of(owner);
            let answer = venue.apply(
                &Event::Cancel { id: 1 },
                &mut [0; 16_384],
                RecordCheck::Done,
            );
            assert_eq!(answer.is_ok(), sound);
            assert_eq!(answer == Err(Refusal::VenueRecord), !sound);
        }
    }

    /// Whether an owner may stand in a venue record.
    type MayStand = fn(u32) -> bool;

    const RULE: &str = "the rule";

    /// The rule, and wrong versions of it.
    const VERSIONS: [(&str, MayStand); 7] = [
        (RULE, |owner| owner <= 65_535),
        ("65,536 too", |owner| owner <= 65_536),
        ("not 65,535", |owner| owner < 65_535),
        ("not 0", |owner| (1..=65_535).contains(&owner)),
        ("a byte", |owner| owner <= 255),
        ("signed", |owner| owner as i32 <= 65_535),
        ("any", |_| true),
    ];

    /// Streams tell each wrong version within so many events.
    #[test]
    fn wrong_owners_of_records_are_told_apart_and_the_rule_is_not() {
        for seed in [1, 2, 3] {
            let mut untold = VERSIONS.to_vec();
            show_all(seed, 50_000, |shown| {
                let record = shown.before;
                if !shown.first || !without_owners(record).is_sound() {
                    return;
                }
                let is_sound = shown.answer != Err(Refusal::VenueRecord);
                untold.retain(|(_, may_stand)| {
                    let mut owners = record.orders.iter().map(|order| order.owner);
                    owners.all(may_stand) == is_sound
                });
            });
            let names: Vec<&str> = untold.into_iter().map(|(name, _)| name).collect();
            assert_eq!(names, [RULE], "seed {seed}");
        }
    }
}
