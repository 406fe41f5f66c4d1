//! Bids by which a short slides down once more, which chance alone brings about too seldom.

use crate::model::{Event, Order, Venue, SHORT};
use crate::rng::Rng;
use crate::streams::Market;

/// A bid some rungs below a displayed short that follows it down, so that the permitted price
/// is below the order's; none where no such short rests.
pub fn slide_again(rng: &mut Rng, market: &Market, venue: &Venue) -> Option<Event> {
    let orders: Vec<&Order> = venue.orders.iter().filter(|it| slides(venue, it)).collect();
    if orders.is_empty() {
        return None;
    }
    let rung = market.ladder.rung_of(rng.pick(&orders).price);
    let below = rung.saturating_sub(rng.between(2, 4)).max(1);
    let price = market.ladder.price_of(below);
    Some(Event::Bid { price })
}

/// Whether a displayed short follows the bid and is above its limit.
fn slides(venue: &Venue, order: &Order) -> bool {
    let follows = order.mark == SHORT && order.adjusted && order.slide == 0;
    venue.phase != 0 && follows && order.show == 1 && order.price > order.limit
}
