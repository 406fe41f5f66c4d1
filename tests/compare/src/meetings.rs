//! Events in which an order meets one of its own firm's, which chance alone brings
//! about too seldom.

use crate::model::{Entry, Event, Order, Venue, BUY, OPT_OUT, SHORT};
use crate::rng::Rng;
use crate::streams::Market;

/// An entry that may reach an order of its own firm, or a bid to which a short may slide
/// down onto one; none where all orders are nobody's.
pub fn meet_own(rng: &mut Rng, market: &Market, venue: &Venue) -> Option<Event> {
    let owned: Vec<&Order> = venue.orders.iter().filter(|it| it.owner > 0).collect();
    if owned.is_empty() {
        return None;
    }
    let below: Vec<&&Order> = owned.iter().filter(|it| is_slid_onto(venue, it)).collect();
    if !below.is_empty() && rng.one_in(2) {
        let buy = rng.pick(&below);
        return Some(bid_below(rng, market, buy));
    }
    let order = rng.pick(&owned);
    Some(Event::Entry(own_entry(rng, market, venue, order)))
}

/// Whether the order is a buy onto which a short of its own firm may slide.
fn is_slid_onto(venue: &Venue, buy: &Order) -> bool {
    let slides = |it: &Order| it.mark == SHORT && it.adjusted && it.slide < 2;
    let reaches = |it: &Order| it.limit <= buy.price && buy.price < it.price;
    let mut own = venue.orders.iter().filter(|it| it.owner == buy.owner);
    venue.phase != 0 && buy.mark == BUY && own.any(|it| slides(it) && reaches(it))
}

/// A bid some rungs below a buy, so that the permitted price reaches it.
fn bid_below(rng: &mut Rng, market: &Market, buy: &Order) -> Event {
    let rung = market.ladder.rung_of(buy.price);
    let below = rung.saturating_sub(rng.between(1, 4)).max(1);
    let price = market.ladder.price_of(below);
    Event::Bid { price }
}

/// An entry on the other side of an order and of the same owner, at its price, through it,
/// or market; more often immediate or an opt-out than others.
fn own_entry(rng: &mut Rng, market: &Market, venue: &Venue, order: &Order) -> Entry {
    let mark = match order.mark {
        BUY => rng.pick(&[1, SHORT, SHORT, SHORT, 3]),
        _ => BUY,
    };
    let rung = market.ladder.rung_of(order.price);
    let further = rng.up_to(6);
    let through = match mark {
        BUY => (rung + further).min(market.ladder.top()),
        _ => rung.saturating_sub(further).max(1),
    };
    let through = market.ladder.price_of(through);
    let entry = market.entry(rng, venue);
    Entry {
        mark,
        price: rng.pick(&[order.price, through, through, through, entry.price, 0]),
        life: rng.pick(&[0, 0, 0, 1]),
        slide: match mark {
            SHORT => rng.pick(&[0, 1, OPT_OUT, OPT_OUT]),
            _ => 0,
        },
        owner: Some(order.owner),
        ..entry
    }
}
