//! "Prices of a slid order only fall", No. 9 of document 02, over a whole list "from a
//! freshly opened venue", and read from its events, their answers and their report bytes
//! alone. A made-up record doesn't count: it begins with orders that no event of the list
//! entered, so that nobody knows what these said and got. Beside it stands what No. 12 rests
//! on: in an execution the later stamp is the working order's (F12.1).

use crate::model::{Entry, Event, Report};
use crate::sessions::{ensure, Fault};
use std::collections::HashMap;

/// What an accepted entry said, and what reports 1 and 4 have given its order.
#[derive(Clone, Copy)]
pub struct Given {
    pub entry: Entry,
    /// The price of report 1.
    pub accepted: u32,
    /// The price and the stamp that were given last.
    pub price: u32,
    pub stamp: u32,
    pub repricings: u32,
}

impl Given {
    /// An order whose entry was accepted with this price and stamp.
    pub fn at_entry(entry: Entry, price: u32, stamp: u32) -> Self {
        Given {
            entry,
            accepted: price,
            price,
            stamp,
            repricings: 0,
        }
    }

    /// "A market short has limit 1 here."
    pub fn limit(&self) -> u32 {
        match self.entry.price {
            0 => 1,
            price => price,
        }
    }

    /// "a displayed short order adjusted at its entry": "From the reports: accepted price
    /// above the limit" (F9.1).
    pub fn is_slid(&self) -> bool {
        self.entry.show == 1 && self.entry.mark == 2 && self.accepted > self.limit()
    }
}

/// What must hold of such an order when report 4 gives it a price.
type Sentence = (&'static str, fn(&Given, u32) -> bool);

/// An adjusted opt-out never rests by document 01, so its sentence goes beyond No. 9.
const SENTENCES: [Sentence; 5] = [
    ("re-pricings are strictly lower", |given, price| {
        price < given.price
    }),
    ("never a price under its limit", |given, price| {
        price >= given.limit()
    }),
    ("with slide once at most one", |given, _| {
        given.entry.slide != 1 || given.repricings == 0
    }),
    ("with slide no more none", |given, _| given.entry.slide != 2),
    ("an opt-out has none", |given, _| given.entry.slide != 3),
];

/// A list up to now: its orders, the last stamp of reports 1 and 4, and the order that these
/// named last in the present event.
#[derive(Default)]
pub struct SlidPrices {
    orders: HashMap<u32, Given>,
    last_stamp: u32,
    working: Option<u32>,
}

impl SlidPrices {
    /// Of a stream, if it is from open.
    pub fn start(from_open: bool) -> Option<Self> {
        from_open.then(SlidPrices::default)
    }

    pub fn given(&self, id: u32) -> Result<&Given, Fault> {
        let given = self.orders.get(&id);
        given.ok_or_else(|| format!("no accepted entry has id {id}"))
    }

    /// Takes an accepted event and the bytes of its reports; a refused one changes nothing.
    pub fn take(&mut self, event: &Event, bytes: &[u8]) -> Result<(), Fault> {
        let reports = Report::read_all(bytes);
        let reports = reports.map_err(|refusal| format!("report bytes: {refusal:?}"))?;
        self.follow(event, &reports, judge)
    }

    /// Takes the reports of an accepted event, each of which is seen before it is noted.
    pub fn follow(
        &mut self,
        event: &Event,
        reports: &[Report],
        mut see: impl FnMut(&Self, &Report) -> Result<(), Fault>,
    ) -> Result<(), Fault> {
        self.working = None;
        for report in reports {
            see(self, report)?;
            self.note(event, report)?;
        }
        match event {
            Event::Entry(entry) => self.given(entry.id).map(|_| ()),
            _ => Ok(()),
        }
    }

    fn note(&mut self, event: &Event, report: &Report) -> Result<(), Fault> {
        match *report {
            Report::Accepted { id, stamp, price } => {
                ensure(self.given(id).is_err(), "report 1 comes once for an id")?;
                self.give(Given::at_entry(entry_of(event, id)?, price, stamp));
            }
            Report::Repriced { id, price, stamp } => {
                let before = *self.given(id)?;
                self.give(Given {
                    price,
                    stamp,
                    repricings: before.repricings + 1,
                    ..before
                });
            }
            _ => {}
        }
        Ok(())
    }

    fn give(&mut self, given: Given) {
        self.last_stamp = given.stamp;
        self.working = Some(given.entry.id);
        self.orders.insert(given.entry.id, given);
    }
}

fn entry_of(event: &Event, id: u32) -> Result<Entry, Fault> {
    match *event {
        Event::Entry(entry) if entry.id == id => Ok(entry),
        _ => Err(format!("report 1 of id {id} without its entry")),
    }
}

/// The law, of the next report of a list.
pub fn judge(list: &SlidPrices, report: &Report) -> Result<(), Fault> {
    match *report {
        Report::Accepted { stamp, .. } => judge_stamp(list, stamp),
        Report::Repriced { id, price, stamp } => {
            let given = list.given(id)?;
            if given.is_slid() {
                judge_price(given, price)?;
            }
            judge_stamp(list, stamp)
        }
        Report::Executed { buyer, seller, .. } => judge_stamps(list, buyer, seller),
        _ => Ok(()),
    }
}

pub fn judge_price(given: &Given, price: u32) -> Result<(), Fault> {
    for (sentence, holds) in SENTENCES {
        let order = given.entry.id;
        ensure(
            holds(given, price),
            &format!("{sentence}: order {order} at {price}"),
        )?;
    }
    Ok(())
}

/// "Stamps in the reports rise strictly through the whole list."
fn judge_stamp(list: &SlidPrices, stamp: u32) -> Result<(), Fault> {
    let rises = stamp > list.last_stamp;
    ensure(rises, &format!("stamps rise strictly: {stamp}"))
}

/// "The later stamp in an execution" is one, and "is always the working order" (F12.1), the
/// one that report 1 or 4 named last.
fn judge_stamps(list: &SlidPrices, buyer: u32, seller: u32) -> Result<(), Fault> {
    let (bought, sold) = (list.given(buyer)?.stamp, list.given(seller)?.stamp);
    let later = if bought > sold { buyer } else { seller };
    let sound = bought != sold && list.working == Some(later);
    ensure(
        sound,
        &format!("the later stamp is the working order's: {buyer} and {seller}"),
    )
}

#[cfg(test)]
mod tests {
    use super::*;
    use crate::days::{event_of, report_bytes, Played};

    /// What the reader says of a list in which every event was accepted.
    fn fault_in(list: &[Played]) -> Option<Fault> {
        let mut slid_prices = SlidPrices::default();
        let mut taken = list.iter().map(|(event, lines)| {
            let bytes = report_bytes(lines);
            slid_prices.take(&event_of(event), &bytes)
        });
        taken.find_map(Result::err)
    }

    /// Each list is broken by its last line: the fault is named, and there is none without
    /// that line, which may be the only one of its event.
    fn assert_broken(fault: &str, lists: &[&[Played]]) {
        for list in lists {
            let found = fault_in(list).expect("a broken law");
            assert!(found.starts_with(fault), "{found} in {list:?}");
            let (last, before) = list.split_last().expect("an event");
            let mut sound = before.to_vec();
            if let (event, [lines @ .., _]) = *last {
                sound.extend((!lines.is_empty()).then_some((event, lines)));
            }
            assert_eq!(fault_in(&sound), None, "before the end of {list:?}");
        }
    }

    /// Displayed shorts that were adjusted at their entries: with limit 90,500, market ones,
    /// of a firm, and with the other slides.
    const SHORT: Played = ("entry 1 2 90500 5 1 0 0", &["1 1 1 91100"]);
    const MARKET: Played = ("entry 1 2 0 5 1 0 0", &["1 1 1 91100"]);
    const OWNED: Played = ("owned 1 2 90500 5 1 0 0 7", &["1 1 1 91100"]);
    const ONCE: Played = ("entry 1 2 90500 5 1 0 1", &["1 1 1 91100"]);
    const MARKET_ONCE: Played = ("entry 1 2 0 5 1 0 1", &["1 1 1 91100"]);
    const NO_MORE: Played = ("entry 1 2 90500 5 1 0 2", &["1 1 1 91100"]);
    const MARKET_NO_MORE: Played = ("entry 1 2 0 5 1 0 2", &["1 1 1 91100"]);
    const OPT_OUT: Played = ("entry 1 2 90500 5 1 0 3", &["1 1 1 91100"]);

    /// "never has a rising price"; "Its re-pricings are strictly lower one after another."
    #[test]
    fn a_price_that_is_not_lower_is_seen() {
        let lists: [&[Played]; 9] = [
            &[SHORT, ("bid 9", &["4 1 91200 2"])],
            &[SHORT, ("bid 9", &["4 1 91100 2"])],
            &[MARKET, ("bid 9", &["4 1 91200 2"])],
            &[OWNED, ("bid 9", &["4 1 91200 2"])],
            &[ONCE, ("bid 9", &["4 1 91200 2"])],
            &[SHORT, ("bid 9", &["4 1 90800 2", "4 1 90800 3"])],
            &[SHORT, ("bid 9", &["4 1 90800 2", "4 1 90900 3"])],
            &[MARKET, ("bid 9", &["4 1 2 2"]), ("bid 8", &["4 1 2 3"])],
            &[
                SHORT,
                ("tape 9", &["5", "4 1 90800 2"]),
                ("bid 9", &["4 1 90700 3"]),
                ("bid 8", &["4 1 91000 4"]),
            ],
        ];
        assert_broken("re-pricings are strictly lower", &lists);
    }

    /// "never one under its limit"; "A market short has limit 1 here."
    #[test]
    fn a_price_under_the_limit_is_seen() {
        let lists: [&[Played]; 5] = [
            &[SHORT, ("bid 9", &["4 1 90499 2"])],
            &[SHORT, ("bid 9", &["4 1 90500 2", "4 1 90400 3"])],
            &[OWNED, ("bid 9", &["4 1 90400 2"])],
            &[ONCE, ("bid 9", &["4 1 90400 2"])],
            &[MARKET, ("bid 0", &["4 1 1 2"]), ("bid 0", &["4 1 0 3"])],
        ];
        assert_broken("never a price under its limit", &lists);
    }

    /// "With slide once there is at most one, with slide no more there is none."
    #[test]
    fn too_many_re_pricings_are_seen() {
        let once: [&[Played]; 2] = [
            &[ONCE, ("bid 9", &["4 1 91000 2", "4 1 90900 3"])],
            &[
                MARKET_ONCE,
                ("bid 9", &["4 1 91000 2"]),
                ("bid 8", &["4 1 90900 3"]),
            ],
        ];
        assert_broken("with slide once at most one", &once);
        let no_more: [&[Played]; 2] = [
            &[NO_MORE, ("bid 9", &["4 1 91000 2"])],
            &[MARKET_NO_MORE, ("bid 9", &["4 1 91000 2"])],
        ];
        assert_broken("with slide no more none", &no_more);
        let opt_out: [&[Played]; 1] = [&[OPT_OUT, ("bid 9", &["4 1 91000 2"])]];
        assert_broken("an opt-out has none", &opt_out);
    }

    /// "Stamps in the reports rise strictly through the whole list", those of all orders.
    #[test]
    fn a_stamp_that_does_not_rise_is_seen() {
        let lists: [&[Played]; 9] = [
            &[("entry 1 0 9 5 1 0 0", &["1 1 0 9"])],
            &[SHORT, ("entry 2 0 9 5 1 0 0", &["1 2 1 9"])],
            &[
                ("entry 1 0 9 5 1 0 0", &["1 1 7 9"]),
                ("entry 2 1 10 5 1 0 0", &["1 2 6 10"]),
            ],
            &[SHORT, ("bid 9", &["4 1 90800 1"])],
            &[SHORT, ("bid 9", &["4 1 90800 0"])],
            &[
                SHORT,
                ("entry 2 0 9 5 1 0 0", &["1 2 2 9"]),
                ("bid 9", &["4 1 90800 2"]),
            ],
            &[
                SHORT,
                ("entry 2 2 90500 5 1 0 0", &["1 2 2 91100"]),
                ("bid 9", &["4 1 90800 3", "4 2 90800 3"]),
            ],
            &[
                ("entry 1 2 90500 5 0 0 0", &["1 1 1 91100"]),
                ("bid 9", &["4 1 91200 1"]),
            ],
            &[
                SHORT,
                ("end 9", &["3 1 5 4", "6 2"]),
                ("entry 2 0 9 5 1 0 0", &["1 2 1 9"]),
            ],
        ];
        assert_broken("stamps rise strictly", &lists);
    }

    /// "The stamps that both have at that moment [...] That is always the working order"
    /// (F12.1).
    #[test]
    fn a_later_stamp_that_is_not_the_working_orders_is_seen() {
        const SALE: Played = ("entry 2 1 10 5 1 0 0", &["1 2 2 10"]);
        let lists: [&[Played]; 6] = [
            &[("entry 1 0 9 5 1 0 0", &["1 1 1 9", "2 1 1 9 5"])],
            &[
                ("entry 1 0 9 5 1 0 0", &["1 1 1 9"]),
                SALE,
                ("entry 3 1 9 5 1 0 0", &["1 3 3 9", "2 1 2 9 5"]),
            ],
            &[
                ("entry 1 0 9 5 1 0 0", &["1 1 1 9"]),
                SALE,
                ("bid 9", &["2 1 2 9 5"]),
            ],
            &[SHORT, SALE, ("bid 9", &["4 1 90800 3", "2 2 2 10 5"])],
            &[
                SHORT,
                SALE,
                ("entry 3 0 9 5 1 0 0", &["1 3 3 9"]),
                ("bid 9", &["4 1 90800 4", "2 3 2 10 5"]),
            ],
            &[
                SHORT,
                SALE,
                ("bid 9", &["4 1 90800 3"]),
                ("entry 3 0 9 5 1 0 0", &["1 3 4 9", "2 2 1 9 5"]),
            ],
        ];
        assert_broken("the later stamp is the working order's", &lists);
    }

    /// Reports that aren't those of the list's events.
    #[test]
    fn reports_of_other_orders_are_seen() {
        let unknown: [&[Played]; 4] = [
            &[SHORT, ("bid 9", &["4 2 90800 2"])],
            &[SHORT, ("entry 2 0 9 5 1 0 0", &["1 2 2 9", "2 3 2 9 5"])],
            &[SHORT, ("entry 2 1 9 5 1 0 0", &["1 2 2 9", "2 2 3 9 5"])],
            &[SHORT, ("entry 3 1 9 5 1 0 0", &["5"])],
        ];
        assert_broken("no accepted entry has id", &unknown);
        let others: [&[Played]; 2] = [
            &[SHORT, ("bid 9", &["1 2 2 91100"])],
            &[SHORT, ("entry 2 0 9 5 1 0 0", &["1 3 2 9"])],
        ];
        assert_broken("report 1 of id", &others);
        let twice: [&[Played]; 1] = [&[("entry 1 0 9 5 1 0 0", &["1 1 1 9", "1 1 2 9"])]];
        assert_broken("report 1 comes once", &twice);
        let mut slid_prices = SlidPrices::default();
        let cut = slid_prices.take(&event_of(SHORT.0), &[1, 1, 1]);
        assert!(cut.is_err_and(|fault| fault.starts_with("report bytes")));
    }

    /// Of other orders the law says nothing but what it says of stamps: hidden shorts, those
    /// at their limits, and other marks.
    #[test]
    fn prices_of_other_orders_may_rise() {
        let lists: [&[Played]; 5] = [
            &[("entry 1 2 90500 5 0 0 0", &["1 1 1 91100"])],
            &[("entry 1 2 91100 5 1 0 2", &["1 1 1 91100"])],
            &[("entry 1 2 0 5 1 0 1", &["1 1 1 1"])],
            &[("entry 1 1 90500 5 1 0 0", &["1 1 1 91100"])],
            &[("entry 1 3 90500 5 1 0 0", &["1 1 1 91100"])],
        ];
        for list in lists {
            let rises: Played = ("bid 9", &["4 1 91200 2", "4 1 91300 3", "4 1 0 4"]);
            assert_eq!(fault_in(&[list, &[rises]].concat()), None, "{list:?}");
        }
    }

    /// A stream from a made-up record isn't read.
    #[test]
    fn only_streams_from_open_are_read() {
        assert!(SlidPrices::start(true).is_some());
        assert!(SlidPrices::start(false).is_none());
    }
}
