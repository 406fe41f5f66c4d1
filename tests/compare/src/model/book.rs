//! "Orders": resting orders, the best opposite order, copy out and depth.

use super::prices::{is_bid, is_legal, HIGHEST, LOWEST};
use super::venue::MOST_SHARES;
use super::{Refusal, Venue};

/// "keeps up to 256 orders"
pub const PLACES: usize = 256;

/// Marks: "0 buy, 1 long sell, 2 short, 3 short exempt"
pub const BUY: u32 = 0;
pub const SHORT: u32 = 2;
pub const HIGHEST_MARK: u32 = 3;

/// Slides: "0 continuous, 1 once, 2 no more, 3 opt-out"
pub const CONTINUOUS: u32 = 0;
pub const ONCE: u32 = 1;
pub const OPT_OUT: u32 = 3;

/// Show: "1 displayed, 0 not"; life: "0 day, 1 immediate or cancel"
pub const DISPLAYED: u32 = 1;
pub const DAY: u32 = 0;
pub const IMMEDIATE: u32 = 1;

/// "0 to 65,535 in a sound venue record"; 0 is no firm's.
pub const NO_OWNER: u32 = 0;
pub const HIGHEST_OWNER: u32 = 65_535;

/// A resting order: the entry's fields and what "The venue adds". "A resting
/// order's shares are those left." Market: "a resting market short stays where
/// it is, so the order record says that it is one".
#[derive(Clone, Copy, Debug, PartialEq, Eq)]
pub struct Order {
    pub id: u32,
    pub mark: u32,
    pub limit: u32,
    pub shares: u32,
    pub show: u32,
    pub life: u32,
    pub slide: u32,
    pub stamp: u32,
    pub price: u32,
    pub entry_bid: u32,
    pub adjusted: bool,
    pub used: bool,
    pub clear: bool,
    pub market: bool,
    pub owner: u32,
}

impl Order {
    /// The conditions of refusal 16 on one order by itself, in a venue of that
    /// step.
    pub(super) fn is_sound(&self, step: u32) -> bool {
        is_legal(step, self.price)
            && is_legal(step, self.limit)
            && (1..=MOST_SHARES).contains(&self.shares)
            && self.mark <= HIGHEST_MARK
            && self.show <= DISPLAYED
            && self.life == DAY
            && is_slide(self.slide)
            && suits_mark(self.slide, self.mark)
            && is_bid(step, self.entry_bid)
            && (!self.market || self.may_be_market())
            && self.owner <= HIGHEST_OWNER
    }

    /// "said of anything but a short with limit 1, that breaks the venue
    /// record"; neither the phase nor the present price matters (F1.4).
    fn may_be_market(&self) -> bool {
        self.mark == SHORT && self.limit == LOWEST
    }

    /// "a resting order of the same owner above 0"
    pub(super) fn is_of_same_firm(&self, working: &Order) -> bool {
        self.owner != NO_OWNER && self.owner == working.owner
    }

    /// Whether a working buy reaches it, and whether a working sell does: "opposite
    /// order that the working price reaches (equal counts)".
    #[inline]
    pub(super) fn is_sell_up_to(&self, price: u32) -> bool {
        (self.mark != BUY) & (self.price <= price)
    }

    #[inline]
    pub(super) fn is_buy_from(&self, price: u32) -> bool {
        (self.mark == BUY) & (self.price >= price)
    }

    /// "Best is by price, then displayed before not, then lower stamp": the
    /// three in one number, the lowest best, from the price's distance to the
    /// best price there is. Legal prices take 27 bits.
    #[inline]
    fn rank(&self, distance: u32) -> u64 {
        let hidden = u64::from(self.show != DISPLAYED);
        u64::from(distance) << 33 | hidden << 32 | u64::from(self.stamp)
    }
}

/// A record of a lent run, laid out as include/venue.h says, so that runs of it
/// can be lent to the engine too: any words, a flag as 0 or 1 where copy out
/// wrote it.
#[derive(Clone, Copy, Debug, PartialEq, Eq)]
#[repr(C)]
pub struct OrderRecord {
    pub id: u32,
    pub mark: u32,
    pub limit: u32,
    pub shares: u32,
    pub show: u32,
    pub life: u32,
    pub slide: u32,
    pub stamp: u32,
    pub price: u32,
    pub entry_bid: u32,
    pub adjusted: u32,
    pub used: u32,
    pub clear: u32,
    pub market: u32,
    pub owner: u32,
}

impl From<&Order> for OrderRecord {
    fn from(order: &Order) -> Self {
        OrderRecord {
            id: order.id,
            mark: order.mark,
            limit: order.limit,
            shares: order.shares,
            show: order.show,
            life: order.life,
            slide: order.slide,
            stamp: order.stamp,
            price: order.price,
            entry_bid: order.entry_bid,
            adjusted: order.adjusted.into(),
            used: order.used.into(),
            clear: order.clear.into(),
            market: order.market.into(),
            owner: order.owner,
        }
    }
}

/// "slide (0 continuous, 1 once, 2 no more, 3 opt-out"
pub(super) fn is_slide(slide: u32) -> bool {
    slide <= OPT_OUT
}

/// "0 for marks other than 2"
pub(super) fn suits_mark(slide: u32, mark: u32) -> bool {
    slide == CONTINUOUS || mark == SHORT
}

/// Where the best order lies that the working order can trade with: "the best
/// opposite order that the working price reaches (equal counts)".
pub(super) fn best_opposite(orders: &[Order], working: &Order) -> Option<usize> {
    let price = working.price;
    if working.mark == BUY {
        best(orders, |order| (order.is_sell_up_to(price), order.price))
    } else {
        best(orders, |order| {
            (order.is_buy_from(price), HIGHEST - order.price)
        })
    }
}

/// The place of the lowest rank among the reached. Whether an order is reached
/// is hard to foretell, so the walk has no branch on it.
#[inline]
fn best(orders: &[Order], reach: impl Fn(&Order) -> (bool, u32)) -> Option<usize> {
    let mut lowest = u64::MAX;
    let mut found = None;
    for (at, order) in orders.iter().enumerate() {
        let (reached, distance) = reach(order);
        let rank = if reached {
            order.rank(distance)
        } else {
            u64::MAX
        };
        if rank < lowest {
            lowest = rank;
            found = Some(at);
        }
    }
    found
}

/// "a lent run of order records, filled in id order, the rest kept, the result
/// being how many were filled; 16 first, then 14 if the run is shorter than the
/// book"
pub fn copy_out(venue: &Venue, run: &mut [OrderRecord]) -> Result<usize, Refusal> {
    if !venue.is_sound() {
        return Err(Refusal::VenueRecord);
    }
    let filled = venue.orders.len();
    let front = run.get_mut(..filled).ok_or(Refusal::ShortRun)?;
    for (record, order) in front.iter_mut().zip(&venue.orders) {
        *record = order.into();
    }
    Ok(filled)
}

#[derive(Clone, Copy, Debug, PartialEq, Eq)]
pub enum Side {
    Buy,
    Sell,
}

/// "the displayed shares whose present price that is: 15 if the run has over
/// 256 records. Mark 0 counts as a buy, 1 to 3 as a sell, any other mark and
/// any show but 1 as nothing."
pub fn depth(run: &[OrderRecord], price: u32, side: Side) -> Result<u64, Refusal> {
    if run.len() > PLACES {
        return Err(Refusal::LongRun);
    }
    let counts = |record: &&OrderRecord| {
        let of_side = match side {
            Side::Buy => record.mark == BUY,
            Side::Sell => record.mark != BUY && record.mark <= HIGHEST_MARK,
        };
        of_side && record.show == DISPLAYED && record.price == price
    };
    let shares = run.iter().filter(counts).map(|record| record.shares);
    Ok(shares.map(u64::from).sum())
}

#[cfg(test)]
mod tests {
    use super::*;

    fn order(id: u32, mark: u32, show: u32) -> Order {
        Order {
            id,
            mark,
            limit: 90_000,
            shares: 1_000_000,
            show,
            life: DAY,
            slide: 0,
            stamp: id,
            price: 90_000,
            entry_bid: 0,
            adjusted: false,
            used: false,
            clear: true,
            market: false,
            owner: 0,
        }
    }

    fn market_short() -> Order {
        Order {
            limit: 1,
            market: true,
            ..order(1, SHORT, 1)
        }
    }

    fn record(id: u32, mark: u32, show: u32) -> OrderRecord {
        (&order(id, mark, show)).into()
    }

    #[test]
    fn copy_out_refuses_in_order_and_keeps_the_rest() {
        let venue = Venue {
            last_id: 2,
            last_stamp: 2,
            accepted: 2,
            orders: vec![order(1, BUY, 1), order(2, BUY, 0)],
            ..Venue::fresh(100, 100_000)
        };
        let noise = OrderRecord {
            clear: 9,
            ..record(9, 9, 9)
        };
        let mut run = [noise; 3];
        assert_eq!(copy_out(&venue, &mut run[..1]), Err(Refusal::ShortRun));
        assert_eq!(run, [noise; 3]);
        assert_eq!(copy_out(&venue, &mut run), Ok(2));
        assert_eq!(run, [record(1, BUY, 1), record(2, BUY, 0), noise]);
        assert_eq!((run[0].adjusted, run[0].used, run[0].clear), (0, 0, 1));
        let broken = Venue { phase: 3, ..venue };
        assert_eq!(copy_out(&broken, &mut []), Err(Refusal::VenueRecord));
    }

    #[test]
    fn copy_out_says_which_order_is_a_market_short() {
        let venue = Venue {
            last_id: 2,
            last_stamp: 2,
            accepted: 2,
            orders: vec![market_short(), order(2, SHORT, 1)],
            ..Venue::fresh(100, 100_000)
        };
        let mut run = [record(9, 9, 9); 2];
        assert_eq!(copy_out(&venue, &mut run), Ok(2));
        assert_eq!(
            run.map(|record| (record.limit, record.market)),
            [(1, 1), (90_000, 0)]
        );
    }

    /// "said of anything but a short with limit 1, that breaks the venue record"
    #[test]
    fn only_a_short_with_limit_1_is_a_market_short() {
        let short = market_short();
        for slide in 0..=OPT_OUT {
            for price in [1, 2, 90_000, HIGHEST] {
                for show in [0, 1] {
                    let sound = Order {
                        slide,
                        price,
                        show,
                        ..short
                    };
                    assert!(sound.is_sound(100), "{sound:?}");
                }
            }
        }
        let marks = [BUY, 1, 3].map(|mark| Order { mark, ..short });
        let limits = [2, 100, 90_000, HIGHEST].map(|limit| Order { limit, ..short });
        for order in marks.into_iter().chain(limits) {
            assert!(!order.is_sound(100), "{order:?}");
            let plain = Order {
                market: false,
                ..order
            };
            assert!(plain.is_sound(100), "{plain:?}");
        }
    }

    /// "The order record and copy out show the owner, 0 to 65,535 in a sound venue
    /// record."
    #[test]
    fn copy_out_shows_the_owner() {
        let owned = |id, owner| Order {
            owner,
            ..order(id, BUY, 1)
        };
        let of = |owner| Venue {
            last_id: 2,
            last_stamp: 2,
            accepted: 2,
            orders: vec![order(1, BUY, 1), owned(2, owner)],
            ..Venue::fresh(100, 100_000)
        };
        let mut run = [record(9, 9, 9); 2];
        for owner in [0, 1, 7, 65_535] {
            assert_eq!(copy_out(&of(owner), &mut run), Ok(2));
            assert_eq!(run.map(|record| record.owner), [0, owner]);
        }
        for owner in [65_536, 65_543, u32::MAX] {
            let copied = copy_out(&of(owner), &mut run);
            assert_eq!(copied, Err(Refusal::VenueRecord));
        }
    }

    #[test]
    fn depth_counts_displayed_shares_of_a_side_at_a_price() {
        let marks = [BUY, 1, SHORT, 3, 4, u32::MAX];
        let run = marks.map(|mark| record(1, mark, 1));
        assert_eq!(depth(&run, 90_000, Side::Buy), Ok(1_000_000));
        assert_eq!(depth(&run, 90_000, Side::Sell), Ok(3_000_000));
        assert_eq!(depth(&run, 90_100, Side::Sell), Ok(0));
        let shows = [0, 2, u32::MAX].map(|show| record(1, BUY, show));
        assert_eq!(depth(&shows, 90_000, Side::Buy), Ok(0));
        let large = OrderRecord {
            shares: u32::MAX,
            ..record(1, BUY, 1)
        };
        let sum = 256 * u64::from(u32::MAX);
        assert_eq!(depth(&[large; 256], 90_000, Side::Buy), Ok(sum));
        // "Depth checks nothing else" (D5), so any owner counts.
        let owned = [0, 65_535, 65_536, u32::MAX].map(|owner| OrderRecord {
            owner,
            ..record(1, BUY, 1)
        });
        assert_eq!(depth(&owned, 90_000, Side::Buy), Ok(4_000_000));
        let long = depth(&[large; 257], 90_000, Side::Buy);
        assert_eq!(long, Err(Refusal::LongRun));
    }
}
