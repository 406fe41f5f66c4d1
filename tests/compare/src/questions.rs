//! Questions of No. 4 of document 02 for a venue as it stands.

use crate::fronts::shares_in_reach;
use crate::model::{Question, Venue, BUY, HIGHEST, MOST_EVENTS, MOST_SHARES, PLACES, SHORT};
use crate::odd::{near_miss, odd_code, odd_number, odd_price};
use crate::rng::Rng;

/// So many questions are asked at once of a venue that is rare, and of a full book.
const OF_RARE: usize = 16;
const OF_FULL: usize = 2;

/// Questions to ask of a venue, of most at most so many: spent events and a full book are
/// there for fewer events, so more is asked of them.
pub fn any_questions(rng: &mut Rng, venue: &Venue, most: u32) -> Vec<Question> {
    let count = if venue.accepted == MOST_EVENTS {
        OF_RARE
    } else if venue.orders.len() == PLACES {
        OF_FULL
    } else {
        rng.up_to(most) as usize
    };
    (0..count).map(|_| any_question(rng, venue)).collect()
}

/// A question that the book has shares for, or nearly; or one with some fields odd.
fn any_question(rng: &mut Rng, venue: &Venue) -> Question {
    let (mark, price) = around_an_order(rng, venue);
    let mut asked = Question {
        mark,
        price,
        shares: 1,
    };
    if venue.is_sound() {
        asked.shares = shares_around(rng, &asked, venue);
    }
    if rng.one_in(4) {
        spoil(rng, &mut asked);
    }
    asked
}

/// A mark, mostly one opposite to an order, and the order's price, the bid, market
/// or the highest; at times a number next to one of these.
fn around_an_order(rng: &mut Rng, venue: &Venue) -> (u32, u32) {
    let (sells, any) = (rng.pick(&[1, SHORT, SHORT, 3]), rng.up_to(3));
    let (opposite, order) = match venue.orders.len() {
        0 => (sells, venue.bid),
        len => match venue.orders[rng.place(len)] {
            order if order.mark == BUY => (sells, order.price),
            order => (BUY, order.price),
        },
    };
    let price = rng.pick(&[order, order, order, order, venue.bid, 0, 0, HIGHEST]);
    let miss = rng.one_in(12);
    (
        rng.pick(&[opposite, opposite, opposite, any]),
        if miss { near_miss(rng, price) } else { price },
    )
}

/// What some front of the book has in reach, one share less or one more; or few.
fn shares_around(rng: &mut Rng, asked: &Question, venue: &Venue) -> u32 {
    let whole = venue.orders.len() as u32;
    let some = rng.up_to(whole);
    let front = rng.pick(&[whole, some, some.min(4)]);
    let found = shares_in_reach(asked, venue, front as usize) as u32;
    let few = rng.between(1, 9);
    let around = [found, found, found + 1, found.saturating_sub(1)];
    match rng.up_to(9) {
        0 => few,
        1 => MOST_SHARES,
        _ => rng.pick(&around).max(1),
    }
}

/// Makes one field odd, or some at once.
fn spoil(rng: &mut Rng, asked: &mut Question) {
    let drawn = rng.up_to(6);
    if matches!(drawn, 0 | 3 | 4 | 6) {
        asked.mark = odd_code(rng);
    }
    if matches!(drawn, 1 | 3 | 5 | 6) {
        let (price, number) = (odd_price(rng), odd_number(rng));
        asked.price = rng.pick(&[price, number]);
    }
    if matches!(drawn, 2 | 4 | 5 | 6) {
        let number = odd_number(rng);
        asked.shares = rng.pick(&[0, MOST_SHARES, MOST_SHARES + 1, u32::MAX, number]);
    }
}
