//! Open, the permitted price, the watch and the venue record of the model at any
//! step, against document 01's own formulas and what No. 2 of document 02 says
//! beside them.

use crate::counts::Counts;
use crate::document_01;
use crate::model::{permitted_price, watch_tape, Order, Refusal, Venue, Watch, CENT, HALF_CENT};
use crate::odd::{any_price, any_step, any_watch};
use crate::phase_table::watched;
use crate::rng::Rng;
use crate::sessions::{ensure, Fault};

/// "There legal prices are its multiples": between two prices of document 01 lies
/// one more, 50 below the higher.
pub fn is_legal(step: u32, price: u32) -> bool {
    let between = price > 10_000 && document_01::is_legal(price.saturating_add(50));
    document_01::is_legal(price) || (step == HALF_CENT && between)
}

/// A bid is 0 or a legal price that has another above it: "The highest bid is
/// 100,000,000 less the step."
fn is_bid(step: u32, bid: u32) -> bool {
    match step {
        CENT => document_01::is_bid(bid),
        _ => bid == 0 || (is_legal(step, bid) && bid < 100_000_000),
    }
}

/// The lowest legal price above the bid; at the step of a cent as document 01
/// says it too.
pub fn permitted(step: u32, bid: u32) -> u32 {
    match step {
        CENT => document_01::permitted_price(bid),
        _ => {
            let above = (bid + 1..).find(|&price| is_legal(step, price));
            above.expect("a bid has a legal price above it")
        }
    }
}

/// What a call at a step answers where it takes the number or not: "Any other step
/// is refused with 17, before the close or price is looked at".
fn answer_of(step: u32, takes: bool) -> Result<(), Refusal> {
    match (step, takes) {
        (HALF_CENT | CENT, true) => Ok(()),
        (HALF_CENT | CENT, false) => Err(Refusal::Price),
        _ => Err(Refusal::Step),
    }
}

/// The same record with low prices in place of its own, which are legal at both
/// steps. A limit stays 1 or another, as a market short depends on it.
fn with_low_prices(venue: &Venue) -> Venue {
    let mut other = venue.clone();
    (other.step, other.close, other.bid) = (CENT, 1, 0);
    for order in &mut other.orders {
        order.limit = if order.limit == 1 { 1 } else { 2 };
        (order.price, order.entry_bid) = (1, 0);
    }
    other.kept.iter_mut().for_each(|old| old.price = 1);
    other
}

/// A venue record is sound where its step is one, "prices and limits legal",
/// "close legal", "bid and entry bids each a bid" at that step, no kept price is "an illegal
/// one", and the rest is.
pub fn check_record(venue: &Venue) -> Result<(), Fault> {
    let step = venue.step;
    let is_priced = |order: &Order| {
        let prices = is_legal(step, order.price) && is_legal(step, order.limit);
        prices && is_bid(step, order.entry_bid)
    };
    let sound = matches!(step, HALF_CENT | CENT)
        && is_legal(step, venue.close)
        && is_bid(step, venue.bid)
        && venue.orders.iter().all(is_priced)
        && venue.kept.iter().all(|old| is_legal(step, old.price))
        && with_low_prices(venue).is_sound();
    ensure(venue.is_sound() == sound, "a record at its step")
}

/// Checks one call of open, of the permitted price and of the watch.
pub fn check(rng: &mut Rng, counts: &mut Counts) -> Result<(), Fault> {
    check_open(any_step(rng), any_price(rng), counts)?;
    check_permitted(any_step(rng), any_price(rng), counts)?;
    let (watch, price) = any_watch(rng);
    check_watch(any_step(rng), watch, price, counts)
}

fn check_open(step: u32, close: u32, counts: &mut Counts) -> Result<(), Fault> {
    let opened = Venue::open(step, close);
    let answer = answer_of(step, is_legal(step, close));
    counts.half_cents.open(step, close, answer);
    let expected = answer.map(|()| Venue::fresh(step, close));
    ensure(opened == expected, "open at a step")
}

fn check_permitted(step: u32, bid: u32, counts: &mut Counts) -> Result<(), Fault> {
    let answer = answer_of(step, is_bid(step, bid));
    counts.half_cents.permitted(step, bid, answer);
    let expected = answer.map(|()| permitted(step, bid));
    ensure(
        permitted_price(step, bid) == expected,
        "the permitted price at a step",
    )
}

fn check_watch(step: u32, before: Watch, price: u32, counts: &mut Counts) -> Result<(), Fault> {
    let mut watch = before;
    let found = watch_tape(&mut watch, step, price);
    let answer = answer_of(step, is_legal(step, price));
    let mut expected = before;
    if answer.is_ok() {
        expected.phase = watched(&before, price);
    }
    counts.watch(step, &before, price, answer);
    ensure(found == answer, "the watch's answer at a step")?;
    ensure(watch == expected, "the watch at a step")
}
