//! "Slides gone wrong", for No. 9 of document 02: laws that say too much, which the streams
//! find false, and venues that slide in other ways, which the law finds on the streams.

use crate::days::Played;
use crate::model::{Entry, Event, Order, Refusal, Report, Venue, CENT, HIGHEST};
use crate::sessions::Fault;
use crate::shown::{apply, assert_told_apart, show_while, Apply};
use crate::slid_days::{list_of, HIDDEN, SHOWN_BEFORE_THE_TRIGGER};
use crate::slid_prices::{judge, judge_price, Given, SlidPrices};

/// What a law says of the next report of a list.
type Law = fn(&SlidPrices, &Report) -> bool;

const NAME: &str = "the law";

const LAW: (&str, Law) = (NAME, |list, report| judge(list, report).is_ok());

/// Another law of re-pricings, each with what its order was given before.
fn of_prices(list: &SlidPrices, report: &Report, holds: impl Fn(&Given, u32) -> bool) -> bool {
    match *report {
        Report::Repriced { id, price, .. } => list.given(id).is_ok_and(|it| holds(it, price)),
        _ => true,
    }
}

/// What No. 9 says of prices, of other orders.
fn of_orders(list: &SlidPrices, report: &Report, is_meant: fn(&Given) -> bool) -> bool {
    of_prices(list, report, |given, price| {
        !is_meant(given) || judge_price(given, price).is_ok()
    })
}

/// At most so many re-pricings of such orders among those that No. 9 means.
fn at_most(list: &SlidPrices, report: &Report, most: u32, is_such: fn(&Entry) -> bool) -> bool {
    of_prices(list, report, |given, _| {
        !(given.is_slid() && is_such(&given.entry)) || given.repricings < most
    })
}

/// Another law of executions, from the ids of buyer and seller and that of the order which
/// has the later stamp.
fn of_stamps(list: &SlidPrices, report: &Report, holds: fn(u32, u32, u32) -> bool) -> bool {
    let stamp = |id| list.given(id).map_or(0, |given| given.stamp);
    match *report {
        Report::Executed { buyer, seller, .. } if stamp(buyer) > stamp(seller) => {
            holds(buyer, seller, buyer)
        }
        Report::Executed { buyer, seller, .. } => holds(buyer, seller, seller),
        _ => true,
    }
}

const HIDDEN_TOO: (&str, Law) = ("hidden orders too", |list, report| {
    of_orders(list, report, |given| {
        given.entry.mark == 2 && given.accepted > given.limit()
    })
});

const EQUAL_TOO: (&str, Law) = ("adjusted if equal to its limit", |list, report| {
    of_orders(list, report, |given| {
        given.entry.show == 1 && given.entry.mark == 2 && given.accepted >= given.limit()
    })
});

const LAWS: [(&str, Law); 13] = [
    LAW,
    HIDDEN_TOO,
    EQUAL_TOO,
    ("any order", |list, report| {
        of_orders(list, report, |_| true)
    }),
    ("once with none", |list, report| {
        at_most(list, report, 0, |entry| entry.slide == 1)
    }),
    ("continuous with one", |list, report| {
        at_most(list, report, 1, |entry| entry.slide == 0)
    }),
    ("continuous with two", |list, report| {
        at_most(list, report, 2, |entry| entry.slide == 0)
    }),
    ("continuous with three", |list, report| {
        at_most(list, report, 3, |entry| entry.slide == 0)
    }),
    ("a market short with none", |list, report| {
        at_most(list, report, 0, |entry| entry.price == 0)
    }),
    ("always above its limit", |list, report| {
        of_prices(list, report, |given, price| {
            !given.is_slid() || price > given.limit()
        })
    }),
    ("the later id has the later stamp", |list, report| {
        of_stamps(list, report, |buyer, seller, later| {
            later == buyer.max(seller)
        })
    }),
    ("the buyer has the later stamp", |list, report| {
        of_stamps(list, report, |buyer, _, later| later == buyer)
    }),
    ("the seller has the later stamp", |list, report| {
        of_stamps(list, report, |_, seller, later| later == seller)
    }),
];

#[test]
fn wrong_laws_are_told_apart_and_the_law_is_not() {
    let mut list = SlidPrices::default();
    assert_told_apart(NAME, &LAWS, |shown, untold| {
        let (true, Ok(reports)) = (shown.from_open, shown.answer) else {
            return;
        };
        if shown.before.accepted == 0 {
            list = SlidPrices::default();
        }
        let tell = |list: &SlidPrices, report: &Report| {
            untold.retain(|(_, law)| law(list, report));
            Ok(())
        };
        let followed = list.follow(shown.event, reports, tell);
        followed.expect("reports of the list's orders");
    });
}

/// Whether a law holds through a day.
fn holds_through(law: Law, day: &[Played]) -> bool {
    let mut list = SlidPrices::default();
    let mut day = list_of(day).into_iter();
    day.all(|(event, reports)| {
        let judge = |list: &SlidPrices, report: &Report| match law(list, report) {
            true => Ok(()),
            false => Err(Fault::new()),
        };
        list.follow(&event, &reports, judge).is_ok()
    })
}

/// Prices of hidden orders rise, and those of shorts that were shown at the bid before the
/// trigger, so the law can't say of these what it says.
#[test]
fn each_limit_of_the_law_is_needed() {
    for (day, wrong) in [
        (&HIDDEN[..], HIDDEN_TOO.1),
        (&SHOWN_BEFORE_THE_TRIGGER, EQUAL_TOO.1),
    ] {
        assert!(holds_through(LAW.1, day));
        assert!(!holds_through(wrong, day));
    }
    assert!(holds_through(EQUAL_TOO.1, &HIDDEN));
    assert!(holds_through(HIDDEN_TOO.1, &SHOWN_BEFORE_THE_TRIGGER));
}

/// A venue that changes its shorts before it takes an event, so that they do what else they
/// would not.
fn with_shorts(
    venue: &mut Venue,
    event: &Event,
    buffer: &mut [u8],
    change: fn(&mut Order),
) -> Result<Vec<Report>, Refusal> {
    let shorts = venue.orders.iter_mut().filter(|order| order.mark == 2);
    shorts.for_each(change);
    apply(venue, event, buffer)
}

/// Makes a slide continuous.
fn go_on(order: &mut Order, slide: u32) {
    if order.slide == slide {
        order.slide = 0;
    }
}

/// A venue that reports something else of an event; it may look up the record before it.
fn with_reports(
    venue: &mut Venue,
    event: &Event,
    buffer: &mut [u8],
    change: fn(&Venue, &mut [Report]),
) -> Result<Vec<Report>, Refusal> {
    let before = venue.clone();
    let mut reports = apply(venue, event, buffer)?;
    change(&before, &mut reports);
    Ok(reports)
}

/// "Keeping the old stamp after a re-pricing." In the reports: the record's stamp before.
fn keep_stamps(before: &Venue, reports: &mut [Report]) {
    for report in reports {
        if let Report::Repriced { id, stamp, .. } = report {
            let order = before.orders.iter().find(|order| order.id == *id);
            *stamp = order.map_or(0, |order| order.stamp);
        }
    }
}

/// One stamp for all re-pricings of a pass, in the reports.
fn share_stamps(before: &Venue, reports: &mut [Report]) {
    for report in reports {
        if let Report::Repriced { stamp, .. } = report {
            *stamp = before.last_stamp + 1;
        }
    }
}

/// The executions of a working order before the report that names it.
fn name_behind(reports: &mut [Report], names: fn(&Report) -> bool) {
    for at in 1..reports.len() {
        let is_execution = matches!(reports[at], Report::Executed { .. });
        if is_execution && names(&reports[at - 1]) {
            reports.swap(at - 1, at);
        }
    }
}

/// A venue, and how the law's fault with it begins.
type Wrong = (&'static str, &'static str, Apply);

const LOWER: &str = "re-pricings are strictly lower";
const STAMPS: &str = "stamps rise strictly";

const VENUES: [Wrong; 11] = [
    (
        "re-priced up by a rising bid",
        LOWER,
        |venue, event, buffer| with_shorts(venue, event, buffer, |order| order.clear = false),
    ),
    (
        "moves though t isn't lower",
        LOWER,
        |venue, event, buffer| {
            with_shorts(venue, event, buffer, |order| {
                if order.adjusted {
                    order.price = HIGHEST;
                }
            })
        },
    ),
    (
        "slides under its limit",
        "never a price under its limit",
        |venue, event, buffer| with_shorts(venue, event, buffer, |order| order.limit = 1),
    ),
    (
        "once slides on",
        "with slide once at most one",
        |venue, event, buffer| with_shorts(venue, event, buffer, |order| go_on(order, 1)),
    ),
    (
        "no more slides",
        "with slide no more none",
        |venue, event, buffer| with_shorts(venue, event, buffer, |order| go_on(order, 2)),
    ),
    (
        "an opt-out rests and slides",
        "an opt-out has none",
        |venue, event, buffer| match *event {
            Event::Entry(entry) if entry.slide == 3 && entry.mark == 2 => {
                let event = Event::Entry(Entry { slide: 0, ..entry });
                apply(venue, &event, buffer)
            }
            _ => apply(venue, event, buffer),
        },
    ),
    ("the old stamp kept", STAMPS, |venue, event, buffer| {
        with_reports(venue, event, buffer, keep_stamps)
    }),
    ("one stamp for a pass", STAMPS, |venue, event, buffer| {
        with_reports(venue, event, buffer, share_stamps)
    }),
    ("stamps anew each day", STAMPS, |venue, event, buffer| {
        let reports = apply(venue, event, buffer)?;
        if matches!(event, Event::DayEnd { .. }) {
            venue.last_stamp = 0;
        }
        Ok(reports)
    }),
    (
        "executions before their re-pricing",
        "the later stamp is the working order's",
        |venue, event, buffer| {
            with_reports(venue, event, buffer, |_, reports| {
                name_behind(reports, |report| matches!(report, Report::Repriced { .. }));
            })
        },
    ),
    (
        "executions before their entry",
        "no accepted entry has id",
        |venue, event, buffer| {
            with_reports(venue, event, buffer, |_, reports| {
                name_behind(reports, |report| matches!(report, Report::Accepted { .. }));
            })
        },
    ),
];

/// The law's first fault with a venue at each step, within so many events.
fn faults(seed: u64, events: u32, apply: Apply) -> [Option<Fault>; 2] {
    let mut faults = [None, None];
    let mut list = SlidPrices::default();
    show_while(seed, events, apply, |shown| {
        let fault = &mut faults[usize::from(shown.before.step == CENT)];
        let (true, None, Ok(reports)) = (shown.from_open, &fault, shown.answer) else {
            return true;
        };
        if shown.before.accepted == 0 {
            list = SlidPrices::default();
        }
        *fault = list.follow(shown.event, reports, judge).err();
        faults.contains(&None)
    });
    faults
}

#[test]
fn wrong_venues_break_the_law_and_the_model_does_not() {
    for seed in [1, 2, 3] {
        assert_eq!(faults(seed, 50_000, apply), [None, None]);
        for (name, fault, wrong) in VENUES {
            for found in faults(seed, 50_000, wrong) {
                let found = found.unwrap_or_default();
                assert!(found.starts_with(fault), "seed {seed}, {name}: {found}");
            }
        }
    }
}
