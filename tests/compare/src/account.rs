//! "The account of demand 3" and its law as checks. The account sees the close,
//! the events, their answers and their reports; the law also sees the resting
//! ids, prices and shares.

use crate::model::{
    phase_after_day_end, phase_after_tape, Entry, Event, Report, TimedPrice, BUY, SHORT,
};

/// What breaks, with the id it breaks for where there is one.
#[derive(Clone, Copy, Debug, PartialEq, Eq)]
pub enum Breach {
    /// (a) With the restriction on a resting short is at or below the bid and
    /// isn't a displayed one whose price was above the bid when given.
    RestingShort(u32),
    /// (b) With the restriction on a short traded at or below the bid and
    /// wasn't resting, displayed and at a price above the bid when given.
    ShortSale(u32),
    /// (c) The best buy reaches the best sell.
    Crossed { buy: u32, sell: u32 },
    /// (d) Shares entered aren't executed, cancelled and left together.
    ShareSum(u32),
    /// "their present prices (each equal to the one last given)"
    PresentPrice(u32),
    /// "its own price is the one last given", and a trade is at that price.
    TradePrice(u32),
    /// A report or a resting order of an id without a tally.
    UnknownId(u32),
    /// Two orders trade of which neither is the working one.
    NoWorkingOrder { buyer: u32, seller: u32 },
}

/// What "The venue after the list gives": id, present price and shares left.
#[derive(Clone, Copy, Debug)]
pub struct Resting {
    pub id: u32,
    pub price: u32,
    pub shares: u32,
}

/// "a tally for its id: mark, show, shares entered, executed 0, cancelled 0",
/// and the price and the bid noted as last given. An entry's own price is no
/// part of it, so a market order has one like any other.
#[derive(Clone, Copy, Debug)]
struct Tally {
    id: u32,
    mark: u32,
    show: u32,
    entered: u64,
    executed: u64,
    cancelled: u64,
    price: u32,
    bid: u32,
}

impl Tally {
    fn new(entry: &Entry) -> Self {
        Tally {
            id: entry.id,
            mark: entry.mark,
            show: entry.show,
            entered: entry.shares.into(),
            executed: 0,
            cancelled: 0,
            price: 0,
            bid: 0,
        }
    }

    /// A displayed order whose price was above the bid in force when given.
    fn was_shown_above(&self) -> bool {
        self.show == 1 && self.price > self.bid
    }
}

/// "It starts with phase 0, bid 0 and no tallies." Tallies in rising id.
pub struct Account {
    close: u32,
    phase: u32,
    bid: u32,
    tallies: Vec<Tally>,
}

impl Account {
    pub fn new(close: u32) -> Self {
        Account {
            close,
            phase: 0,
            bid: 0,
            tallies: Vec::new(),
        }
    }

    /// Takes an accepted event and its reports; "A refused event changes
    /// nothing", so it isn't given here.
    pub fn take(&mut self, event: &Event, reports: &[Report]) -> Result<(), Breach> {
        match event {
            Event::Entry(entry) => self.start(Tally::new(entry)),
            Event::Cancel { .. } => {}
            Event::Bid { price } => self.bid = *price,
            // No. 6 changes this rule with the venue's, and in No. 10 "kind 7 acts as kind
            // 4" (E4).
            Event::Tape { price } | Event::Timed(TimedPrice { price, .. }) => {
                self.phase = phase_after_tape(self.phase, self.close, *price);
            }
            Event::DayEnd { price } => {
                self.phase = phase_after_day_end(self.phase);
                self.close = *price;
                self.bid = 0;
            }
        }
        let mut working = None;
        for report in reports {
            self.read(report, &mut working)?;
        }
        Ok(())
    }

    fn start(&mut self, tally: Tally) {
        match self.position(tally.id) {
            Ok(at) => self.tallies[at] = tally,
            Err(at) => self.tallies.insert(at, tally),
        }
    }

    fn position(&self, id: u32) -> Result<usize, usize> {
        self.tallies.binary_search_by_key(&id, |tally| tally.id)
    }

    fn tally(&mut self, id: u32) -> Result<&mut Tally, Breach> {
        let at = self.position(id).map_err(|_| Breach::UnknownId(id))?;
        Ok(&mut self.tallies[at])
    }

    fn read(&mut self, report: &Report, working: &mut Option<u32>) -> Result<(), Breach> {
        match *report {
            Report::Accepted { id, price, .. } | Report::Repriced { id, price, .. } => {
                let bid = self.bid;
                let tally = self.tally(id)?;
                (tally.price, tally.bid) = (price, bid);
                *working = Some(id);
            }
            Report::Executed {
                buyer,
                seller,
                price,
                shares,
            } => {
                self.tally(buyer)?.executed += u64::from(shares);
                self.tally(seller)?.executed += u64::from(shares);
                let resting = match *working {
                    Some(id) if id == buyer => seller,
                    Some(id) if id == seller => buyer,
                    _ => return Err(Breach::NoWorkingOrder { buyer, seller }),
                };
                self.judge_trade(seller, resting, price)?;
            }
            Report::Cancelled { id, shares, .. } => {
                self.tally(id)?.cancelled += u64::from(shares);
            }
            // "report 7 is an "other report"" (E4).
            Report::RestrictionOn | Report::DayEnded { .. } | Report::Pause { .. } => {}
        }
        Ok(())
    }

    /// Part (b), at "the bid and phase of their moment", which "are those after
    /// the event"; and the trade price.
    fn judge_trade(&mut self, seller: u32, resting: u32, price: u32) -> Result<(), Breach> {
        let (bid, on) = (self.bid, self.is_on());
        if self.tally(resting)?.price != price {
            return Err(Breach::TradePrice(resting));
        }
        let sold = self.tally(seller)?;
        let is_free = seller == resting && sold.was_shown_above();
        if on && sold.mark == SHORT && price <= bid && !is_free {
            return Err(Breach::ShortSale(seller));
        }
        Ok(())
    }

    /// "The restriction is on in phases 1 and 2"
    fn is_on(&self) -> bool {
        self.phase != 0
    }

    /// The law of the venue after the list: parts (a), (c) and (d), and "each
    /// equal to the one last given". The resting orders come in rising id.
    pub fn judge(&self, resting: impl Iterator<Item = Resting>) -> Result<(), Breach> {
        let mut tallies = self.tallies.iter();
        let mut best_buy = None;
        let mut best_sell = None;
        for order in resting {
            let tally = skip_to(&mut tallies, order.id)?;
            judge_shares(tally, order.shares)?;
            if order.price != tally.price {
                return Err(Breach::PresentPrice(order.id));
            }
            if tally.mark == BUY {
                best_buy = best_buy.max(Some(order.price));
            } else {
                best_sell = Some(best_sell.map_or(order.price, |sell| order.price.min(sell)));
            }
            let is_low = order.price <= self.bid && !tally.was_shown_above();
            if self.is_on() && tally.mark == SHORT && is_low {
                return Err(Breach::RestingShort(order.id));
            }
        }
        tallies.try_for_each(|tally| judge_shares(tally, 0))?;
        match (best_buy, best_sell) {
            (Some(buy), Some(sell)) if buy >= sell => Err(Breach::Crossed { buy, sell }),
            _ => Ok(()),
        }
    }
}

/// The tally of a resting id; those before it don't rest and have 0 left.
fn skip_to<'a>(
    tallies: &mut impl Iterator<Item = &'a Tally>,
    id: u32,
) -> Result<&'a Tally, Breach> {
    for tally in tallies {
        if tally.id == id {
            return Ok(tally);
        }
        judge_shares(tally, 0)?;
    }
    Err(Breach::UnknownId(id))
}

/// Part (d) for one id.
fn judge_shares(tally: &Tally, left: u32) -> Result<(), Breach> {
    if tally.entered == tally.executed + tally.cancelled + u64::from(left) {
        Ok(())
    } else {
        Err(Breach::ShareSum(tally.id))
    }
}

#[cfg(test)]
mod tests {
    use super::*;
    use crate::shown::show_all;

    const ON: Event = Event::Tape { price: 90_000 };

    fn entry(id: u32, mark: u32, price: u32) -> Event {
        Event::Entry(Entry {
            id,
            mark,
            price,
            shares: 5,
            show: 1,
            life: 0,
            slide: 0,
            owner: None,
        })
    }

    fn accepted(id: u32, price: u32) -> Report {
        Report::Accepted {
            id,
            stamp: id,
            price,
        }
    }

    fn sold(seller: u32, price: u32) -> Report {
        Report::Executed {
            buyer: 2,
            seller,
            price,
            shares: 5,
        }
    }

    fn rest(id: u32, price: u32) -> Resting {
        Resting {
            id,
            price,
            shares: 5,
        }
    }

    fn at_bid(bid: u32) -> Account {
        let mut account = Account::new(100_000);
        assert_eq!(account.take(&Event::Bid { price: bid }, &[]), Ok(()));
        account
    }

    /// "Trusting a short shown at the bid before the trigger. It isn't clear."
    #[test]
    fn a_short_left_at_the_bid_is_seen() {
        let mut account = at_bid(91_000);
        let entered = account.take(&entry(1, 2, 91_000), &[accepted(1, 91_000)]);
        assert_eq!(entered, Ok(()));
        assert_eq!(account.judge([rest(1, 91_000)].into_iter()), Ok(()));
        assert_eq!(account.take(&ON, &[Report::RestrictionOn]), Ok(()));
        let judged = account.judge([rest(1, 91_000)].into_iter());
        assert_eq!(judged, Err(Breach::RestingShort(1)));
        let bought = [accepted(2, 91_000), sold(1, 91_000)];
        let taken = account.take(&entry(2, 0, 91_000), &bought);
        assert_eq!(taken, Err(Breach::ShortSale(1)));
    }

    /// A displayed short above the bid when its price was given may trade.
    #[test]
    fn a_clear_displayed_short_may_trade() {
        let mut account = at_bid(91_000);
        assert_eq!(account.take(&ON, &[Report::RestrictionOn]), Ok(()));
        let entered = account.take(&entry(1, 2, 91_100), &[accepted(1, 91_100)]);
        assert_eq!(entered, Ok(()));
        assert_eq!(account.take(&Event::Bid { price: 92_000 }, &[]), Ok(()));
        assert_eq!(account.judge([rest(1, 91_100)].into_iter()), Ok(()));
        let bought = [accepted(2, 92_000), sold(1, 91_100)];
        assert_eq!(account.take(&entry(2, 0, 92_000), &bought), Ok(()));
        assert_eq!(account.judge([].into_iter()), Ok(()));
    }

    /// No. 6: a fall on the second day restricts the third, and without one it is
    /// free.
    #[test]
    fn a_short_at_the_bid_on_the_third_day_is_seen() {
        let third_day = |second: Event| {
            let mut account = Account::new(100_000);
            let first = [ON, Event::DayEnd { price: 90_000 }];
            let last = [
                second,
                Event::DayEnd { price: 81_000 },
                Event::Bid { price: 80_000 },
            ];
            for event in first.iter().chain(&last) {
                assert_eq!(account.take(event, &[]), Ok(()));
            }
            let entered = account.take(&entry(1, 2, 80_000), &[accepted(1, 80_000)]);
            assert_eq!(entered, Ok(()));
            account.judge([rest(1, 80_000)].into_iter())
        };
        let restricted = Err(Breach::RestingShort(1));
        assert_eq!(third_day(Event::Tape { price: 81_000 }), restricted);
        let timed = |price| Event::Timed(TimedPrice { time: 5, price });
        assert_eq!(third_day(timed(81_000)), restricted);
        assert_eq!(third_day(timed(81_100)), Ok(()));
        assert_eq!(third_day(Event::Tape { price: 81_100 }), Ok(()));
    }

    /// The account knows no step: half a cent above the bid is above it.
    #[test]
    fn a_short_at_a_half_cent_bid_is_seen() {
        let mut account = at_bid(91_050);
        assert_eq!(account.take(&ON, &[Report::RestrictionOn]), Ok(()));
        let entered = account.take(&entry(1, 2, 90_000), &[accepted(1, 91_100)]);
        assert_eq!(entered, Ok(()));
        assert_eq!(account.judge([rest(1, 91_100)].into_iter()), Ok(()));
        let entered = account.take(&entry(2, 2, 90_000), &[accepted(2, 91_050)]);
        assert_eq!(entered, Ok(()));
        let judged = account.judge([rest(1, 91_100), rest(2, 91_050)].into_iter());
        assert_eq!(judged, Err(Breach::RestingShort(2)));
    }

    /// "Demand 3 covers these orders too": a price of 0 starts a tally as any
    /// entry, and the prices are those of the reports.
    #[test]
    fn market_orders_have_tallies() {
        let mut account = at_bid(91_000);
        assert_eq!(account.take(&ON, &[Report::RestrictionOn]), Ok(()));
        let entered = account.take(&entry(1, 2, 0), &[accepted(1, 91_100)]);
        assert_eq!(entered, Ok(()));
        assert_eq!(account.judge([rest(1, 91_100)].into_iter()), Ok(()));
        assert_eq!(account.judge([].into_iter()), Err(Breach::ShareSum(1)));
        let lowest = account.judge([rest(1, 1)].into_iter());
        assert_eq!(lowest, Err(Breach::PresentPrice(1)));
        let bought = [accepted(2, 100_000_000), sold(1, 91_100)];
        assert_eq!(account.take(&entry(2, 0, 0), &bought), Ok(()));
        assert_eq!(account.judge([].into_iter()), Ok(()));
        let cancelled = Report::Cancelled {
            id: 3,
            shares: 5,
            cause: 2,
        };
        let gone = account.take(&entry(3, 1, 0), &[accepted(3, 1), cancelled]);
        assert_eq!(gone, Ok(()));
        assert_eq!(account.judge([].into_iter()), Ok(()));
    }

    /// A market short at 1 would trade at the bid.
    #[test]
    fn a_market_short_at_1_is_seen() {
        let mut account = at_bid(91_000);
        assert_eq!(account.take(&ON, &[Report::RestrictionOn]), Ok(()));
        let bid = account.take(&entry(2, 0, 91_000), &[accepted(2, 91_000)]);
        assert_eq!(bid, Ok(()));
        let sale = [accepted(3, 1), sold(3, 91_000)];
        let taken = account.take(&entry(3, 2, 0), &sale);
        assert_eq!(taken, Err(Breach::ShortSale(3)));
    }

    #[test]
    fn locks_wrong_sums_and_wrong_prices_are_seen() {
        let mut account = at_bid(91_000);
        let bought = account.take(&entry(1, 0, 91_000), &[accepted(1, 91_000)]);
        assert_eq!(bought, Ok(()));
        assert_eq!(account.judge([].into_iter()), Err(Breach::ShareSum(1)));
        let judged = account.judge([rest(1, 91_100)].into_iter());
        assert_eq!(judged, Err(Breach::PresentPrice(1)));
        assert_eq!(
            account.judge([rest(3, 91_000)].into_iter()),
            Err(Breach::ShareSum(1))
        );
        let offered = account.take(&entry(2, 1, 91_000), &[accepted(2, 91_000)]);
        assert_eq!(offered, Ok(()));
        let judged = account.judge([rest(1, 91_000), rest(2, 91_000)].into_iter());
        let crossed = Breach::Crossed {
            buy: 91_000,
            sell: 91_000,
        };
        assert_eq!(judged, Err(crossed));
    }

    /// "Shares cancelled so count as cancelled", and kind 6 starts a tally like kind 1
    /// (E4): a sale meets its own firm's buy and then another's.
    #[test]
    fn own_orders_that_are_cancelled_have_tallies() {
        let owned = |id, mark, owner| match entry(id, mark, 91_000) {
            Event::Entry(entry) => Event::Entry(Entry {
                owner: Some(owner),
                ..entry
            }),
            other => other,
        };
        let start = || {
            let mut account = at_bid(0);
            for (id, owner) in [(1, 7), (2, 8)] {
                let entered = account.take(&owned(id, 0, owner), &[accepted(id, 91_000)]);
                assert_eq!(entered, Ok(()));
            }
            let buys = [rest(1, 91_000), rest(2, 91_000)];
            assert_eq!(account.judge(buys.into_iter()), Ok(()));
            account
        };
        let cancelled = |shares| Report::Cancelled {
            id: 1,
            shares,
            cause: 5,
        };
        let sale = [accepted(3, 91_000), cancelled(5), sold(3, 91_000)];
        let mut account = start();
        assert_eq!(account.take(&owned(3, 1, 7), &sale), Ok(()));
        assert_eq!(account.judge([].into_iter()), Ok(()));
        let quietly = [sale[0], sale[2]];
        let short = [sale[0], cancelled(4), sale[2]];
        for wrong in [&quietly[..], &short] {
            let mut account = start();
            assert_eq!(account.take(&owned(3, 1, 7), wrong), Ok(()));
            assert_eq!(account.judge([].into_iter()), Err(Breach::ShareSum(1)));
        }
    }

    /// How streams break the law if the account isn't given some reports; the first
    /// breach within so many events.
    fn first_breach(seed: u64, events: u32, is_given: fn(&Report) -> bool) -> Option<Breach> {
        let mut account = None;
        let mut breach = None;
        show_all(seed, events, |shown| {
            if shown.first {
                account = shown.from_open.then(|| Account::new(shown.before.close));
            }
            let (Some(account), Ok(reports)) = (&mut account, shown.answer) else {
                return;
            };
            let given: Vec<Report> = reports.iter().copied().filter(is_given).collect();
            let law = account.take(shown.event, &given);
            let resting = shown.after.orders.iter().map(|order| Resting {
                id: order.id,
                price: order.price,
                shares: order.shares,
            });
            let law = law.and_then(|()| account.judge(resting));
            breach = breach.or(law.err());
        });
        breach
    }

    /// An account that doesn't count the shares of own orders as cancelled.
    #[test]
    fn streams_tell_an_account_without_own_orders() {
        let is_given = |report: &Report| !matches!(report, Report::Cancelled { cause: 5, .. });
        for seed in [1, 2, 3] {
            let breach = first_breach(seed, 50_000, is_given);
            assert!(matches!(breach, Some(Breach::ShareSum(_))), "{breach:?}");
            assert_eq!(first_breach(seed, 50_000, |_| true), None);
        }
    }
}
