//! Tests of the step in open and in the venue record, worked out by hand from No.
//! 2 of document 02.

use super::book::{copy_out, Order, SHORT};
use super::form::Event;
use super::play::Progress;
use super::venue::{RecordCheck, Venue, LEAST_BUFFER};
use super::Refusal;

/// Numbers that aren't steps: near to one, between the two, twice one.
const BAD_STEPS: [u32; 10] = [0, 1, 49, 51, 75, 99, 101, 150, 200, u32::MAX];

/// "Any other step is refused with 17, before the close or price is looked at".
#[test]
fn open_refuses_other_steps_before_the_close() {
    for step in BAD_STEPS {
        for close in [1, 10_000, 10_050, 0, 10_001, 100_000_001] {
            assert_eq!(Venue::open(step, close), Err(Refusal::Step));
        }
    }
}

#[test]
fn open_takes_a_close_that_is_legal_at_its_step() {
    for step in [50, 100] {
        for close in [1, 9_999, 10_000, 10_100, 100_000_000] {
            assert_eq!(Venue::open(step, close), Ok(Venue::fresh(step, close)));
        }
        for close in [0, 10_001, 10_025, 10_051, 99_999_999, 100_000_001] {
            assert_eq!(Venue::open(step, close), Err(Refusal::Price));
        }
    }
    for close in [10_050, 99_999_950] {
        assert_eq!(Venue::open(50, close), Ok(Venue::fresh(50, close)));
        assert_eq!(Venue::open(100, close), Err(Refusal::Price));
    }
}

/// A sound record at both steps, with one order.
fn of_cents(step: u32) -> Venue {
    let order = Order {
        id: 1,
        mark: SHORT,
        limit: 90_500,
        shares: 5,
        show: 1,
        life: 0,
        slide: 0,
        stamp: 1,
        price: 91_100,
        entry_bid: 91_000,
        adjusted: true,
        used: false,
        clear: true,
        market: false,
        owner: 0,
    };
    Venue {
        phase: 1,
        bid: 91_000,
        last_id: 1,
        last_stamp: 1,
        accepted: 3,
        orders: vec![order],
        ..Venue::fresh(step, 100_000)
    }
}

/// Applying, playing and copying out give the same answer about the record:
/// nothing refused, or 16.
fn takes(venue: &Venue) -> bool {
    let mut buffer = vec![0; LEAST_BUFFER];
    let event = Event::Cancel { id: 1 };
    let applied = venue.clone().apply(&event, &mut buffer, RecordCheck::Done);
    let mut progress = Progress::default();
    let check = RecordCheck::Done;
    let played = venue
        .clone()
        .play(&[], 0, &mut [], &mut [], &mut progress, check);
    let copied = copy_out(venue, &mut []);
    let refused = [
        applied == Err(Refusal::VenueRecord),
        played == Err(Refusal::VenueRecord),
        copied == Err(Refusal::VenueRecord),
    ];
    assert_eq!(refused, [refused[0]; 3], "{venue:?}");
    assert_eq!(applied.is_ok(), !refused[0], "{venue:?}");
    !refused[0]
}

/// "in a venue record it is a broken condition".
#[test]
fn another_step_breaks_the_venue_record() {
    assert!(takes(&of_cents(50)));
    assert!(takes(&of_cents(100)));
    for step in BAD_STEPS {
        assert!(!takes(&of_cents(step)), "{step}");
        let empty = Venue::fresh(step, 1);
        assert_eq!(copy_out(&empty, &mut []), Err(Refusal::VenueRecord));
    }
}

/// Puts a number in the place of one of the prices of the record.
type Put = fn(&mut Venue, u32);

const PRICES: [Put; 3] = [
    |venue, number| venue.close = number,
    |venue, number| venue.orders[0].price = number,
    |venue, number| venue.orders[0].limit = number,
];
const BIDS: [Put; 2] = [
    |venue, number| venue.bid = number,
    |venue, number| venue.orders[0].entry_bid = number,
];

/// Whether a record with one such number is sound, at 50 and at 100.
fn assert_sound(places: &[Put], number: u32, at_half: bool, at_cent: bool) {
    for put in places {
        for (step, sound) in [(50, at_half), (100, at_cent)] {
            let mut venue = of_cents(step);
            put(&mut venue, number);
            assert_eq!(takes(&venue), sound, "{number} in {venue:?}");
        }
    }
}

/// "prices and limits legal", "close legal", "bid and entry bids each a bid",
/// at the venue's step.
#[test]
fn prices_and_bids_of_a_venue_record_follow_its_step() {
    for number in [10_050, 90_950, 99_999_950] {
        assert_sound(&PRICES, number, true, false);
        assert_sound(&BIDS, number, true, false);
    }
    for number in [9_951, 9_999, 10_000, 10_100, 99_999_900] {
        assert_sound(&PRICES, number, true, true);
        assert_sound(&BIDS, number, true, true);
    }
    for number in [10_001, 10_025, 10_049, 10_051, 99_999_999, 100_000_050] {
        assert_sound(&PRICES, number, false, false);
        assert_sound(&BIDS, number, false, false);
    }
    assert_sound(&PRICES, 100_000_000, true, true);
    assert_sound(&BIDS, 100_000_000, false, false);
    assert_sound(&PRICES, 0, false, false);
    assert_sound(&BIDS, 0, true, true);
}
