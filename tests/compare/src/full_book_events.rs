//! Events that fill a book up, and entries for one that is full or has one place left,
//! which chance alone brings about too seldom.

use crate::fronts::shares_in_reach;
use crate::model::{
    is_legal, Entry, Event, Order, Question, Venue, BUY, HIGHEST, MOST_SHARES, OPT_OUT, PLACES,
    SHORT,
};
use crate::rng::Rng;
use crate::streams::Market;

/// An event that brings a book to 256 orders or is for one that has as many, or one less;
/// none where any other will do.
pub fn near_full(rng: &mut Rng, market: &Market, venue: &Venue) -> Option<Event> {
    let places = PLACES.saturating_sub(venue.orders.len());
    let fills = match places {
        0 => false,
        1 => rng.one_in(2),
        2..9 => !rng.one_in(8),
        _ => !rng.one_in(24),
    };
    if fills {
        return Some(Event::Entry(resting_entry(rng, market, venue)));
    }
    if places > 1 || rng.one_in(6) {
        return None;
    }
    Some(match venue.phase {
        0 if rng.one_in(60) => Event::Tape {
            price: market.ladder.near_trigger(rng, venue.close),
        },
        1 | 2 if rng.one_in(16) => Event::Bid {
            price: bid_for_shorts(rng, market, venue),
        },
        _ => Event::Entry(entry_near_full(rng, market, venue)),
    })
}

/// No bid, any, or one below a buy, so that a restricted short that comes in reaches it.
fn bid_for_shorts(rng: &mut Rng, market: &Market, venue: &Venue) -> u32 {
    let any = market.bid(rng, venue.bid);
    let buys: Vec<&Order> = venue.orders.iter().filter(|it| it.mark == BUY).collect();
    if buys.is_empty() {
        return rng.pick(&[0, any]);
    }
    let rung = market.ladder.rung_of(rng.pick(&buys).price);
    let below = rung.saturating_sub(rng.between(1, 3)).max(1);
    rng.pick(&[0, any, market.ladder.price_of(below)])
}

/// An entry that mostly rests: a buy below all that trades around the centre, a sell above.
fn resting_entry(rng: &mut Rng, market: &Market, venue: &Venue) -> Entry {
    let entry = market.entry(rng, venue);
    let away = market.reach + rng.between(1, 2 * market.reach);
    let rung = match entry.mark {
        BUY => market.centre.saturating_sub(away).max(1),
        _ => (market.centre + away).min(market.ladder.top()),
    };
    Entry {
        price: market.ladder.price_of(rung),
        shares: rng.pick(&[1, 2, 5, 100, 100, 700]),
        life: 0,
        ..entry
    }
}

/// An entry of any mark and either life, at, through or short of an order of the other
/// side, or market; for none of the shares in reach, some, all or more; at times of that
/// order's firm.
fn entry_near_full(rng: &mut Rng, market: &Market, venue: &Venue) -> Entry {
    let mark = match venue.bid {
        0 => rng.pick(&[BUY, 1, SHORT, SHORT, SHORT, 3]),
        _ => rng.pick(&[BUY, BUY, 1, SHORT, SHORT, 3]),
    };
    let is_opposite = |order: &&Order| (order.mark == BUY) != (mark == BUY);
    let opposite: Vec<&Order> = venue.orders.iter().filter(is_opposite).collect();
    let entry = market.entry(rng, venue);
    let entry = match opposite.is_empty() {
        true => Entry { mark, ..entry },
        false => {
            let any = rng.pick(&opposite);
            let order = rng.pick(&[any, best(&opposite)]);
            let price = price_around(rng, market, order);
            let own = (order.owner > 0).then_some(order.owner);
            Entry {
                mark,
                price: rng.pick(&[price, price, entry.price, 0, 0]),
                owner: rng.pick(&[entry.owner, entry.owner, own]),
                ..entry
            }
        }
    };
    let entry = Entry {
        life: rng.up_to(1),
        slide: match mark {
            SHORT => rng.up_to(3),
            _ => 0,
        },
        ..entry
    };
    let entry = restricted(rng, market, venue, entry);
    Entry {
        shares: shares_around(rng, venue, &entry),
        ..entry
    }
}

/// The order with the best price on its side.
fn best<'a>(side: &[&'a Order]) -> &'a Order {
    let price = |order: &&&Order| match order.mark {
        BUY => HIGHEST - order.price.min(HIGHEST),
        _ => order.price,
    };
    side.iter().min_by_key(price).expect("an order")
}

/// An order's price, or some rungs away.
fn price_around(rng: &mut Rng, market: &Market, order: &Order) -> u32 {
    let rung = market.ladder.rung_of(order.price);
    let price = market.ladder.near(rng, rung, 6);
    rng.pick(&[order.price, price])
}

/// Of the shorts in the restriction, some as market orders and some as opt-outs at or
/// below the bid.
fn restricted(rng: &mut Rng, market: &Market, venue: &Venue, entry: Entry) -> Entry {
    if entry.mark != SHORT || venue.phase == 0 {
        return entry;
    }
    let below = market
        .ladder
        .rung_of(venue.bid)
        .saturating_sub(rng.up_to(6));
    match rng.up_to(4) {
        0 | 1 => Entry { price: 0, ..entry },
        2 => Entry {
            price: market.ladder.price_of(below.max(1)),
            slide: OPT_OUT,
            ..entry
        },
        _ => entry,
    }
}

/// Mostly few, so that the book stays full or nearly so; or what is in an entry's reach,
/// one share less or one more, or some of it.
fn shares_around(rng: &mut Rng, venue: &Venue, entry: &Entry) -> u32 {
    let asked = Question {
        mark: entry.mark,
        price: entry.price,
        shares: 1,
    };
    let is_price = asked.is_market() || is_legal(venue.step, asked.price);
    if !venue.is_sound() || !is_price {
        return entry.shares;
    }
    let found = shares_in_reach(&asked, venue, venue.orders.len());
    let found = found.clamp(1, u64::from(MOST_SHARES)) as u32;
    if found > 50 && !rng.one_in(8) {
        return rng.pick(&[1, 1, 2, 3, 5, 9]);
    }
    let some = rng.between(1, found);
    let around = [some, found, found + 1, found - 1];
    rng.pick(&around).clamp(1, MOST_SHARES)
}
