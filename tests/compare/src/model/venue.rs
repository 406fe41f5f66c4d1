//! The venue: open, the record check, the refusals in their order and the
//! seven kinds of event.

use super::book::{
    best_opposite, is_slide, suits_mark, Order, BUY, CONTINUOUS, DISPLAYED, HIGHEST_MARK,
    HIGHEST_OWNER, IMMEDIATE, NO_OWNER, ONCE, OPT_OUT, PLACES, SHORT,
};
use super::fill::Question;
use super::form::{Entry, Event, Report, ReportWriter};
use super::pauses::{are_sound, direction_of, dropped_at, TimedPrice, MOST_KEPT};
use super::prices::{is_bid, is_legal, is_step, permitted, phase_after_day_end, phase_after_tape};
use super::Refusal;

/// "1 if the buffer has under 16,384 bytes"
pub const LEAST_BUFFER: usize = 16_384;
/// "2 if 16,777,215 events were accepted"
pub const MOST_EVENTS: u32 = 16_777_215;
/// "shares 1 to 1,000,000"
pub const MOST_SHARES: u32 = 1_000_000;
/// "last stamp at most 256 × accepted events"
const STAMPS_AN_EVENT: u32 = 256;

/// Causes of report 3: "1 asked for, others above".
const ASKED_FOR: u32 = 1;
const NOT_IMMEDIATE: u32 = 2;
const OPTED_OUT: u32 = 3;
const DAY_END: u32 = 4;
const SAME_FIRM: u32 = 5;

/// Whether an event or a question looks for refusal 16. Skipping is for the benchmark only,
/// on venues that are known to be sound.
#[derive(Clone, Copy, Debug, PartialEq, Eq)]
pub enum RecordCheck {
    Done,
    Skipped,
}

/// The venue record; orders in rising id, kept prices oldest first.
#[derive(Clone, Debug, PartialEq, Eq)]
pub struct Venue {
    pub step: u32,
    pub close: u32,
    pub phase: u32,
    pub bid: u32,
    pub last_id: u32,
    pub last_stamp: u32,
    pub accepted: u32,
    pub orders: Vec<Order>,
    pub kept: Vec<TimedPrice>,
}

/// What the pass does to an order.
enum Turn {
    Stay,
    Cancel,
    PushUp { price: u32 },
    SlideDown { price: u32, used: bool },
}

impl Venue {
    /// "Open takes a close: 3 if it isn't legal; no venue is made. Fresh: phase
    /// 0, bid 0, no orders, last id, last stamp and accepted events 0." And
    /// "Opening takes a step", "Any other step is refused with 17, before the
    /// close or price is looked at".
    pub fn open(step: u32, close: u32) -> Result<Venue, Refusal> {
        refuse_unless(is_step(step), Refusal::Step)?;
        refuse_unless(is_legal(step, close), Refusal::Price)?;
        Ok(Venue::fresh(step, close))
    }

    /// A fresh venue without looking at the step and the close.
    pub fn fresh(step: u32, close: u32) -> Venue {
        Venue {
            step,
            close,
            phase: 0,
            bid: 0,
            last_id: 0,
            last_stamp: 0,
            accepted: 0,
            orders: Vec::with_capacity(PLACES),
            kept: Vec::with_capacity(MOST_KEPT),
        }
    }

    /// Whether the venue record keeps every condition of refusal 16. Another step
    /// "in a venue record [...] is a broken condition", and prices and bids are
    /// judged by the venue's own (F2.1).
    pub fn is_sound(&self) -> bool {
        is_step(self.step)
            && self.orders.len() <= PLACES
            && is_legal(self.step, self.close)
            && self.phase <= 2
            && is_bid(self.step, self.bid)
            && self.accepted <= MOST_EVENTS
            && self.last_stamp <= STAMPS_AN_EVENT * self.accepted
            && self.ids_rise()
            && self.orders.iter().all(|order| order.is_sound(self.step))
            && self.stamps_differ()
            && are_sound(&self.kept, self.step)
    }

    /// "ids rising, from 1 to the last id"
    fn ids_rise(&self) -> bool {
        let mut below = 0;
        for order in &self.orders {
            if order.id <= below {
                return false;
            }
            below = order.id;
        }
        below <= self.last_id
    }

    /// "stamps different, from 1 to the last stamp", with a hash set of 512
    /// slots on the stack; 0, which is no stamp, marks a free slot. At most 256
    /// of the slots are ever taken.
    fn stamps_differ(&self) -> bool {
        const SLOTS: usize = 2 * PLACES;
        let mut seen = [0; SLOTS];
        self.orders.iter().all(|order| {
            let stamp = order.stamp;
            let mut slot = stamp.wrapping_mul(0x9E37_79B1) as usize >> 23;
            while seen[slot % SLOTS] != 0 && seen[slot % SLOTS] != stamp {
                slot += 1;
            }
            let new = seen[slot % SLOTS] == 0;
            seen[slot % SLOTS] = stamp;
            new && (1..=self.last_stamp).contains(&stamp)
        })
    }

    /// Applies an event: its refusal, which changes nothing, or the byte count
    /// of its reports at the front of the buffer.
    pub fn apply(
        &mut self,
        event: &Event,
        buffer: &mut [u8],
        check: RecordCheck,
    ) -> Result<usize, Refusal> {
        self.refuse_any(buffer.len(), check)?;
        let mut reports = ReportWriter::new(buffer);
        self.take(event, &mut reports)?;
        self.accepted += 1;
        Ok(reports.byte_count())
    }

    /// The kind's own refusals, then what the event does.
    fn take(&mut self, event: &Event, reports: &mut ReportWriter) -> Result<(), Refusal> {
        match *event {
            Event::Entry(entry) => {
                self.refuse_entry(&entry)?;
                self.enter(&entry, reports);
            }
            Event::Cancel { id } => {
                let at = self.find(id).ok_or(Refusal::NotResting)?;
                self.cancel(at, ASKED_FOR, reports);
            }
            Event::Bid { price } => {
                refuse_unless(is_bid(self.step, price), Refusal::Price)?;
                self.bid = price;
                self.pass(reports);
            }
            Event::Tape { price } => {
                refuse_unless(is_legal(self.step, price), Refusal::Price)?;
                self.print(price, reports);
            }
            Event::DayEnd { price } => {
                refuse_unless(is_legal(self.step, price), Refusal::Price)?;
                self.end_day(price, reports);
            }
            Event::Timed(new) => {
                let dropped = self.refuse_timed(&new)?;
                self.keep(new, dropped, reports);
                self.print(new.price, reports);
            }
        }
        Ok(())
    }

    /// "Event (all kinds): 16 if the venue record breaks a condition", "Then 1
    /// if the buffer has under 16,384 bytes; 2 if 16,777,215 events were
    /// accepted."
    fn refuse_any(&self, buffer: usize, check: RecordCheck) -> Result<(), Refusal> {
        self.refuse_record(check)?;
        refuse_unless(buffer >= LEAST_BUFFER, Refusal::ShortBuffer)?;
        refuse_unless(self.accepted < MOST_EVENTS, Refusal::Spent)
    }

    /// "16 if the venue record breaks a condition"
    pub(super) fn refuse_record(&self, check: RecordCheck) -> Result<(), Refusal> {
        let sound = check == RecordCheck::Skipped || self.is_sound();
        refuse_unless(sound, Refusal::VenueRecord)
    }

    /// "Entry then: 3 price not legal; 4 shares; 5 mark, show, life or slide; 6
    /// id not above the last accepted id (0 never is); 7 if 256 orders rest." And
    /// "an owner outside its range is 21, after the slide codes" (F7.3); "only the
    /// remaining orders meet 7", which stays last (F8.1).
    fn refuse_entry(&self, entry: &Entry) -> Result<(), Refusal> {
        self.refuse_asked(&entry.question())?;
        refuse_codes(entry)?;
        refuse_owner(entry)?;
        refuse_unless(entry.id > self.last_id, Refusal::Id)?;
        let place = self.orders.len() < PLACES || !self.needs_place(entry);
        refuse_unless(place, Refusal::Full)
    }

    /// "an immediate or cancel order needs no place, nor does a market order taken as
    /// one", by its terms and whatever becomes of it (F8.1).
    fn needs_place(&self, entry: &Entry) -> bool {
        self.life_of(entry) != IMMEDIATE
    }

    /// What is looked at first in an entry: 3, 4, and 18 for the mark, "in the
    /// place where 5 stands". And "refusal 3 no longer meets an entry price of
    /// 0", the others do (F1.6); of 7 see `needs_place`.
    pub(super) fn refuse_asked(&self, asked: &Question) -> Result<(), Refusal> {
        let shares = (1..=MOST_SHARES).contains(&asked.shares);
        let price = asked.is_market() || is_legal(self.step, asked.price);
        refuse_unless(price, Refusal::Price)?;
        refuse_unless(shares, Refusal::Shares)?;
        refuse_unless(asked.mark <= HIGHEST_MARK, Refusal::Mark)
    }

    /// "works at its limit; a restricted one at the larger of limit and
    /// permitted price"
    pub(super) fn working_price(&self, mark: u32, limit: u32) -> u32 {
        if self.restricts(mark) {
            limit.max(permitted(self.step, self.bid))
        } else {
            limit
        }
    }

    /// "An entry takes a stamp and works at its limit; a restricted one at the
    /// larger of limit and permitted price, adjusted if that is above the
    /// limit. It then matches."
    fn enter(&mut self, entry: &Entry, reports: &mut ReportWriter) {
        let limit = entry.question().limit();
        let price = self.working_price(entry.mark, limit);
        let mut order = Order {
            id: entry.id,
            mark: entry.mark,
            limit,
            shares: entry.shares,
            show: entry.show,
            life: self.life_of(entry),
            slide: entry.slide,
            stamp: self.next_stamp(),
            price,
            entry_bid: self.bid,
            adjusted: price > limit,
            used: false,
            clear: self.bid == 0 || self.bid < price,
            market: self.is_market_short(entry),
            owner: entry.owner.unwrap_or(NO_OWNER),
        };
        self.last_id = order.id;
        reports.put(Report::Accepted {
            id: order.id,
            stamp: order.stamp,
            price,
        });
        self.trade(&mut order, reports);
        if order.shares > 0 {
            self.keep_remainder(order, reports);
        }
    }

    /// "A restricted short with a bid present instead counts as limit 1 and
    /// slides, rests or is cancelled by 01's rules, its life included."
    /// Restricted and bid are those at its entry (F1.2).
    fn is_market_short(&self, entry: &Entry) -> bool {
        entry.is_market() && self.restricts(entry.mark) && self.bid != 0
    }

    /// The life that counts: any other market order works "as immediate or
    /// cancel", whatever its own life (F1.1).
    fn life_of(&self, entry: &Entry) -> u32 {
        if entry.is_market() && !self.is_market_short(entry) {
            IMMEDIATE
        } else {
            entry.life
        }
    }

    /// "A remainder is cancelled if immediate or cancel (cause 2), else if
    /// adjusted and opt-out (cause 3); otherwise it rests." Its id is the
    /// highest, so its place is the last.
    fn keep_remainder(&mut self, order: Order, reports: &mut ReportWriter) {
        let cause = if order.life == IMMEDIATE {
            NOT_IMMEDIATE
        } else if order.adjusted && order.slide == OPT_OUT {
            OPTED_OUT
        } else {
            self.orders.push(order);
            return;
        };
        reports.put(cancelled(&order, cause));
    }

    /// ""Restricted" means mark 2 while the phase is 1 or 2."
    fn restricts(&self, mark: u32) -> bool {
        mark == SHORT && self.phase != 0
    }

    /// "A stamp is the next whole number, the first is 1."
    fn next_stamp(&mut self) -> u32 {
        self.last_stamp += 1;
        self.last_stamp
    }

    fn find(&self, id: u32) -> Option<usize> {
        self.orders.binary_search_by_key(&id, |order| order.id).ok()
    }

    fn cancel(&mut self, at: usize, cause: u32, reports: &mut ReportWriter) {
        let order = self.orders.remove(at);
        reports.put(cancelled(&order, cause));
    }

    /// "while shares remain, trade with the best opposite order that the
    /// working price reaches (equal counts), for the smaller amount, at the
    /// resting order's price". And "Where a working order would trade with a resting
    /// order of the same owner above 0, the resting one is cancelled (cause 5) and
    /// matching goes on": the best is looked for anew (F7.1).
    fn trade(&mut self, working: &mut Order, reports: &mut ReportWriter) {
        while working.shares > 0 {
            let Some(at) = best_opposite(&self.orders, working) else {
                return;
            };
            if self.orders[at].is_of_same_firm(working) {
                self.cancel(at, SAME_FIRM, reports);
                continue;
            }
            let resting = &mut self.orders[at];
            let shares = working.shares.min(resting.shares);
            working.shares -= shares;
            resting.shares -= shares;
            let (buyer, seller) = match working.mark {
                BUY => (working.id, resting.id),
                _ => (resting.id, working.id),
            };
            reports.put(Report::Executed {
                buyer,
                seller,
                price: resting.price,
                shares,
            });
            if resting.shares == 0 {
                self.orders.remove(at);
            }
        }
    }

    /// "Checked after the price: time before the last one of the day is 22, and a 513th kept
    /// price is 23." The last one of the day is always the last kept one, and 23 is judged
    /// after leaving out what the new time drops (F10.3). Gives how many that are.
    fn refuse_timed(&self, new: &TimedPrice) -> Result<usize, Refusal> {
        refuse_unless(is_legal(self.step, new.price), Refusal::Price)?;
        let falls = self.kept.last().is_some_and(|last| new.time < last.time);
        refuse_unless(!falls, Refusal::Time)?;
        let dropped = dropped_at(&self.kept, new.time);
        let room = self.kept.len() - dropped < MOST_KEPT;
        refuse_unless(room, Refusal::KeptPrices)?;
        Ok(dropped)
    }

    /// Report 7, if any, by the kept prices of the day before the new one, which isn't
    /// compared with itself (F10.2). "It comes before the restriction's report."
    fn keep(&mut self, new: TimedPrice, dropped: usize, reports: &mut ReportWriter) {
        self.kept.drain(..dropped);
        if let Some(direction) = direction_of(&self.kept, new.price) {
            let price = new.price;
            reports.put(Report::Pause { direction, price });
        }
        self.kept.push(new);
    }

    /// What a tape price does: "5 restriction on, before the pass" when it changes
    /// the phase, from 0 or, No. 6, from 2 to 1 (B3); then the pass.
    fn print(&mut self, price: u32, reports: &mut ReportWriter) {
        let phase = phase_after_tape(self.phase, self.close, price);
        if phase != self.phase {
            self.phase = phase;
            reports.put(Report::RestrictionOn);
        }
        self.pass(reports);
    }

    /// "The pass runs after each accepted bid or tape event, over the orders
    /// then resting, lowest id first. For a restricted one:" A walk over the
    /// live book is the same, as no order joins it meanwhile (C6).
    fn pass(&mut self, reports: &mut ReportWriter) {
        let mut at = 0;
        while let Some(order) = self.orders.get(at).copied() {
            if !self.restricts(order.mark) {
                at += 1;
                continue;
            }
            match self.turn(&order) {
                Turn::Stay => at += 1,
                Turn::Cancel => self.cancel(at, OPTED_OUT, reports),
                Turn::PushUp { price } => {
                    let adjusted = Order {
                        adjusted: true,
                        ..order
                    };
                    at = self.reprice(adjusted, price, reports);
                }
                Turn::SlideDown { price, used } => {
                    at = self.reprice(Order { used, ..order }, price, reports);
                }
            }
        }
    }

    /// What the pass does to a restricted order:
    /// - "With no bid a resting market short stays where it is", under every
    ///   slide code, and once isn't used by it (F1.3).
    /// - "If price ≤ bid, and it is not displayed or not clear: opt-out is
    ///   cancelled (cause 3), any other is re-priced to the permitted price and
    ///   becomes adjusted."
    /// - "Otherwise, if adjusted: continuous takes t = larger of limit and
    ///   permitted price, and moves if t < price. Once, if not used, takes t =
    ///   larger of limit and entry bid, moves if bid < t < price, and is then
    ///   used."
    fn turn(&self, order: &Order) -> Turn {
        if order.market && self.bid == 0 {
            return Turn::Stay;
        }
        let permitted = permitted(self.step, self.bid);
        if order.price <= self.bid && (order.show != DISPLAYED || !order.clear) {
            return match order.slide {
                OPT_OUT => Turn::Cancel,
                _ => Turn::PushUp { price: permitted },
            };
        }
        let (price, moves, used) = match order.slide {
            CONTINUOUS => (order.limit.max(permitted), true, order.used),
            ONCE => {
                let price = order.limit.max(order.entry_bid);
                (price, !order.used && self.bid < price, true)
            }
            _ => return Turn::Stay,
        };
        if order.adjusted && moves && price < order.price {
            Turn::SlideDown { price, used }
        } else {
            Turn::Stay
        }
    }

    /// "A re-priced order gets a new stamp, is clear, and matches as if it came
    /// in." A market short stays one. The old record stays in its place while it
    /// works, where only buys are looked for and it is none. Gives where the
    /// next id lies.
    fn reprice(&mut self, order: Order, price: u32, reports: &mut ReportWriter) -> usize {
        let mut working = Order {
            price,
            stamp: self.next_stamp(),
            clear: true,
            ..order
        };
        reports.put(Report::Repriced {
            id: working.id,
            price,
            stamp: working.stamp,
        });
        self.trade(&mut working, reports);
        let at = self.orders.partition_point(|other| other.id < working.id);
        if working.shares == 0 {
            self.orders.remove(at);
            at
        } else {
            self.orders[at] = working;
            at + 1
        }
    }

    /// "A day end sets the close, sets bid 0 and cancels every order, lowest id
    /// first (cause 4)." "6 day ended, last: new phase." And "a day end empties the kept
    /// prices".
    fn end_day(&mut self, close: u32, reports: &mut ReportWriter) {
        self.close = close;
        self.bid = 0;
        self.kept.clear();
        self.phase = phase_after_day_end(self.phase);
        for order in self.orders.drain(..) {
            reports.put(cancelled(&order, DAY_END));
        }
        reports.put(Report::DayEnded { phase: self.phase });
    }
}

/// "A bad mark, a bad slide code, and a slide on an order that isn't short become
/// their own answers. A bad show or life keeps 5. They are looked for in the
/// order mark, show, life, slide code, slide on the wrong mark. These carry 18, 19
/// and 20, in the place where 5 stands." A slide above 3 is 19 on every mark, 1 to
/// 3 on a mark other than 2 is 20 (F3.1). The mark was looked at before.
fn refuse_codes(entry: &Entry) -> Result<(), Refusal> {
    refuse_unless(entry.show <= DISPLAYED, Refusal::ShowOrLife)?;
    refuse_unless(entry.life <= IMMEDIATE, Refusal::ShowOrLife)?;
    refuse_unless(is_slide(entry.slide), Refusal::SlideCode)?;
    refuse_unless(suits_mark(entry.slide, entry.mark), Refusal::SlideOnMark)
}

/// "an owner, 1 to 65,535"; "kind 1 has owner 0", and can't be 21 (F7.3).
fn refuse_owner(entry: &Entry) -> Result<(), Refusal> {
    let firms = NO_OWNER + 1..=HIGHEST_OWNER;
    let sound = entry.owner.is_none_or(|owner| firms.contains(&owner));
    refuse_unless(sound, Refusal::Owner)
}

fn refuse_unless(condition: bool, refusal: Refusal) -> Result<(), Refusal> {
    if condition {
        Ok(())
    } else {
        Err(refusal)
    }
}

fn cancelled(order: &Order, cause: u32) -> Report {
    Report::Cancelled {
        id: order.id,
        shares: order.shares,
        cause,
    }
}

#[cfg(test)]
mod tests {
    use super::*;

    /// A venue with the restriction on and a market short that came in at this
    /// bid.
    fn with_market_short(bid: u32) -> Venue {
        let mut venue = Venue {
            phase: 1,
            bid,
            ..Venue::fresh(100, 100_000)
        };
        let entry = Entry {
            id: 7,
            mark: SHORT,
            price: 0,
            shares: 5,
            show: 0,
            life: 0,
            slide: ONCE,
            owner: None,
        };
        assert!(apply(&mut venue, Event::Entry(entry)).is_ok());
        venue
    }

    fn apply(venue: &mut Venue, event: Event) -> Result<Vec<Report>, Refusal> {
        let mut buffer = [0; LEAST_BUFFER];
        let count = venue.apply(&event, &mut buffer, RecordCheck::Done)?;
        Report::read_all(&buffer[..count])
    }

    /// "counts as limit 1", "so the order record says that it is one"
    #[test]
    fn the_record_of_a_market_short() {
        let short = Order {
            id: 7,
            mark: SHORT,
            limit: 1,
            shares: 5,
            show: 0,
            life: 0,
            slide: ONCE,
            stamp: 1,
            price: 91_100,
            entry_bid: 91_000,
            adjusted: true,
            used: false,
            clear: true,
            market: true,
            owner: 0,
        };
        let mut venue = with_market_short(91_000);
        assert_eq!(venue.orders, [short]);
        assert!(apply(&mut venue, Event::Bid { price: 90_000 }).is_ok());
        let slid = Order {
            stamp: 2,
            price: 91_000,
            used: true,
            ..short
        };
        assert_eq!(venue.orders, [slid]);
        assert_eq!(with_market_short(1).orders[0].price, 2);
    }

    /// Whatever else its record says, and in every phase (D1).
    #[test]
    fn any_market_short_stays_with_no_bid() {
        let start = with_market_short(91_000);
        for code in 0..768 {
            let bit = |number: u32| code >> number & 1 == 1;
            let mut venue = start.clone();
            venue.phase = code >> 8;
            let order = &mut venue.orders[0];
            order.slide = code & 3;
            order.show = code >> 2 & 1;
            (order.adjusted, order.used, order.clear) = (bit(3), bit(4), bit(5));
            order.price = if bit(6) { 1 } else { 91_100 };
            order.entry_bid = if bit(7) { 0 } else { 80_000 };
            let before = venue.orders.clone();
            assert_eq!(apply(&mut venue, Event::Bid { price: 0 }), Ok(vec![]));
            let on = match venue.phase {
                1 => vec![],
                _ => vec![Report::RestrictionOn],
            };
            assert_eq!(apply(&mut venue, Event::Tape { price: 90_000 }), Ok(on));
            assert_eq!(venue.orders, before);
        }
    }

    /// "said of anything but a short with limit 1, that breaks the venue record"
    #[test]
    fn a_wrong_market_short_breaks_the_venue_record() {
        let sound = with_market_short(91_000);
        for phase in 0..=2 {
            let mut venue = sound.clone();
            venue.phase = phase;
            assert!(apply(&mut venue, Event::Cancel { id: 7 }).is_ok());
        }
        let mut exempt = sound.clone();
        (exempt.orders[0].mark, exempt.orders[0].slide) = (3, 0);
        let mut higher = sound.clone();
        higher.orders[0].limit = 2;
        for broken in [exempt, higher] {
            let mut venue = broken.clone();
            let answer = apply(&mut venue, Event::Cancel { id: 7 });
            assert_eq!(answer, Err(Refusal::VenueRecord));
            assert_eq!(venue, broken);
            venue.orders[0].market = false;
            assert!(apply(&mut venue, Event::Cancel { id: 7 }).is_ok());
        }
    }
}
