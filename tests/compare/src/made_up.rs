//! Venue records that open need not reach, sound and spoilt.

use crate::model::{
    Order, Venue, CENT, HALF_CENT, HIGHEST, LOWEST, MOST_EVENTS, MOST_SHARES, PLACES, SHORT,
};
use crate::odd::{half_cent_price, odd_number, odd_owner, odd_price, odd_step};
use crate::rng::Rng;
use crate::streams::Market;
use crate::timed_events::{made_up_kept, spoil_kept};

/// So many different numbers from 1 to `last`, rising.
fn rising(rng: &mut Rng, count: u32, last: u32) -> Vec<u32> {
    let room = last - count;
    let least = rng.pick(&[0, 0, room.saturating_sub(3)]);
    let mut offsets: Vec<u32> = (0..count).map(|_| rng.between(least, room)).collect();
    offsets.sort_unstable();
    let numbered = (1..=count).zip(offsets);
    numbered.map(|(number, offset)| number + offset).collect()
}

fn shuffle(rng: &mut Rng, numbers: &mut [u32]) {
    for at in (1..numbers.len()).rev() {
        numbers.swap(at, rng.place(at + 1));
    }
}

/// A sound venue record that open need not reach: crossed books, prices below
/// limits, any flags, market shorts in any phase, own orders on both sides, full books,
/// any kept prices, last numbers close to their ends.
pub fn made_up(rng: &mut Rng, market: &Market) -> Venue {
    let most = PLACES as u32;
    let (few, some) = (rng.up_to(8), rng.up_to(most));
    let count = rng.pick(&[few, few, few, some, most - 1, most, most, most]);
    let any_events = rng.between(1, MOST_EVENTS);
    let late = MOST_EVENTS - rng.up_to(3);
    let accepted = rng.pick(&[1, any_events, any_events, any_events, late]);
    let any_stamp = rng.between(count, most * accepted);
    let last_stamp = rng.pick(&[count, any_stamp, most * accepted]);
    let any_id = rng.between(count, u32::MAX);
    let highest = rng.pick(&[u32::MAX - 2, u32::MAX]);
    let last_id = rng.pick(&[count, count + 3, any_id, any_id, any_id, highest]);
    let mut stamps = rising(rng, count, last_stamp);
    shuffle(rng, &mut stamps);
    let bid = market.bid(rng, 0);
    let ids = rising(rng, count, last_id).into_iter().zip(stamps);
    let close = market.close(rng);
    Venue {
        step: market.ladder.step,
        close,
        phase: rng.pick(&[0, 0, 1, 2, 2, 2]),
        bid,
        last_id,
        last_stamp,
        accepted,
        orders: ids
            .map(|(id, stamp)| made_up_order(rng, market, id, stamp))
            .collect(),
        kept: made_up_kept(rng, market, close),
    }
}

fn made_up_order(rng: &mut Rng, market: &Market, id: u32, stamp: u32) -> Order {
    let mark = rng.pick(market.marks);
    let lowest = mark == SHORT && rng.one_in(3);
    let limit = market.ladder.near(rng, market.centre, market.reach);
    Order {
        id,
        mark,
        limit: if lowest { LOWEST } else { limit },
        shares: rng.pick(&[1, 2, 3, 5, 100, MOST_SHARES]),
        show: rng.up_to(1),
        life: 0,
        slide: match mark {
            SHORT => rng.up_to(3),
            _ => 0,
        },
        stamp,
        price: market.ladder.near(rng, market.centre, market.reach),
        entry_bid: market.bid(rng, 0),
        adjusted: rng.one_in(2),
        used: rng.one_in(2),
        clear: rng.one_in(2),
        market: lowest && !rng.one_in(3),
        owner: market.owner(rng),
    }
}

/// Puts all shorts hidden below the market, so that one bid re-prices them all, or a
/// tape price if there is a bid already.
pub fn sink_shorts(rng: &mut Rng, venue: &mut Venue, market: &Market) {
    let rung = market.centre.saturating_sub(market.reach).max(1);
    venue.phase = rng.between(1, 2);
    let shorts = venue.orders.iter_mut().filter(|order| order.mark == SHORT);
    for order in shorts {
        order.price = market.ladder.price_of(rung);
        order.show = 0;
        order.slide = 0;
    }
}

/// Makes all orders buys, or all of them long sells, of few shares, so that one entry may
/// take the whole book.
pub fn put_on_one_side(rng: &mut Rng, venue: &mut Venue) {
    let mark = rng.up_to(1);
    for order in &mut venue.orders {
        (order.mark, order.slide, order.market) = (mark, 0, false);
        order.shares = rng.between(1, 9);
    }
}

/// Changes one thing of a venue record so that it may break a condition.
pub fn spoil_record(rng: &mut Rng, venue: &mut Venue) {
    let odd = odd_number(rng);
    let len = venue.orders.len();
    match rng.up_to(63) {
        0 => venue.close = odd,
        1 => venue.phase = odd,
        2 => venue.bid = odd,
        3 => venue.last_id = rng.up_to(venue.last_id),
        4 => venue.last_stamp = rng.up_to(venue.last_stamp),
        5 => venue.last_stamp = venue.last_stamp.saturating_add(rng.between(1, 300)),
        6 => venue.accepted = odd,
        7 if len == PLACES => {
            let last = venue.orders[len - 1];
            let id = last.id.saturating_add(1);
            venue.last_id = venue.last_id.max(id);
            venue.orders.push(Order { id, ..last });
        }
        8..14 => spoil_step(rng, venue),
        14..24 => spoil_price(rng, venue),
        24..32 if len > 0 => venue.orders[rng.place(len)].owner = bad_owner(rng),
        44.. => spoil_kept(rng, &mut venue.kept),
        _ if len > 0 => {
            let (at, any) = (rng.place(len), rng.place(len));
            let other = rng.pick(&[at.saturating_sub(1), any]);
            spoil_order(rng, venue, at, other, odd);
        }
        _ => {}
    }
}

/// Says the other step, which breaks a record with half-cent prices and no
/// other, or what isn't a step.
fn spoil_step(rng: &mut Rng, venue: &mut Venue) {
    let other = match venue.step {
        HALF_CENT => CENT,
        _ => HALF_CENT,
    };
    let odd = odd_step(rng);
    venue.step = rng.pick(&[other, other, odd]);
}

/// An owner that breaks a record, or an odd one, which may not.
fn bad_owner(rng: &mut Rng) -> u32 {
    let (odd, low) = (odd_owner(rng), rng.between(1, 3));
    rng.pick(&[65_536, u32::MAX, 65_536 + low, odd])
}

/// Puts a number in one place where a price or a bid stands: mostly one that is
/// legal at the half-cent step alone.
fn spoil_price(rng: &mut Rng, venue: &mut Venue) {
    let (half_cents, odd) = (half_cent_price(rng), odd_price(rng));
    let number = rng.pick(&[half_cents, half_cents, HIGHEST - HALF_CENT, odd]);
    let (len, kept) = (venue.orders.len(), venue.kept.len());
    let place = match rng.up_to(9) {
        0 => &mut venue.close,
        1 => &mut venue.bid,
        8.. if kept > 0 => &mut venue.kept[rng.place(kept)].price,
        _ if len == 0 => &mut venue.bid,
        2..4 => &mut venue.orders[rng.place(len)].limit,
        4..6 => &mut venue.orders[rng.place(len)].price,
        _ => &mut venue.orders[rng.place(len)].entry_bid,
    };
    *place = number;
}

fn spoil_order(rng: &mut Rng, venue: &mut Venue, at: usize, other: usize, odd: u32) {
    let (id, stamp) = (venue.orders[other].id, venue.orders[other].stamp);
    let order = &mut venue.orders[at];
    match rng.up_to(17) {
        0 => order.id = id,
        1 => order.id = odd,
        2 => order.mark = odd,
        3 => order.limit = odd,
        4 => order.shares = odd,
        5 => order.show = odd,
        6 => order.life = odd,
        7 => order.slide = odd,
        8..10 => order.stamp = stamp,
        10 => order.stamp = odd,
        11 => order.price = odd,
        12 => order.entry_bid = rng.pick(&[odd, HIGHEST]),
        _ => flag_order(rng, order, odd),
    }
}

/// Makes an order a market short as far as the flag goes: with whatever mark and
/// limit it has, a short with limit 1, which is one, with another mark, with
/// another limit.
fn flag_order(rng: &mut Rng, order: &mut Order, odd: u32) {
    order.market = true;
    let drawn = rng.up_to(4);
    if drawn > 0 {
        order.mark = SHORT;
        order.limit = LOWEST;
    }
    match drawn {
        2 => {
            order.mark = rng.pick(&[0, 1, 3]);
            order.slide = 0;
        }
        3 => order.limit = rng.pick(&[LOWEST + 1, order.price, HIGHEST]),
        4 => order.limit = odd,
        _ => {}
    }
}
