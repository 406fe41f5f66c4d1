//! Days of shorts that slide, worked out by hand from documents 01 and 02 for its No. 9. The
//! lines of a day are the model's, and its reports keep to the law; with a stamp or a price
//! changed they don't.

use crate::days::{assert_day, event_of, is_refused, report_bytes, Played, ON};
use crate::model::{Event, Report, CENT, HALF_CENT};
use crate::sessions::Fault;
use crate::slid_prices::{judge, SlidPrices};

/// Id, accepted price, last price and its stamp, and how often it was re-priced.
type Slid = (u32, u32, u32, u32, u32);

/// The accepted events of a day, with the reports that its lines say.
pub fn list_of(day: &[Played]) -> Vec<(Event, Vec<Report>)> {
    let accepted = day.iter().filter(|(_, lines)| !is_refused(lines));
    let read = |bytes: Vec<u8>| Report::read_all(&bytes).expect("reports");
    accepted
        .map(|(event, lines)| (event_of(event), read(report_bytes(lines))))
        .collect()
}

fn judged(list: &[(Event, Vec<Report>)]) -> Result<SlidPrices, Fault> {
    let mut slid_prices = SlidPrices::default();
    for (event, reports) in list {
        slid_prices.follow(event, reports, judge)?;
    }
    Ok(slid_prices)
}

fn assert_slides(step: u32, day: &[Played], orders: &[Slid]) {
    assert_day(step, day);
    let slid_prices = judged(&list_of(day)).expect("the law holds");
    for order in orders {
        let given = slid_prices.given(order.0).expect("an order");
        assert!(given.is_slid(), "order {}", order.0);
        let found = (
            order.0,
            given.accepted,
            given.price,
            given.stamp,
            given.repricings,
        );
        assert_eq!(found, *order);
    }
    assert_each_number_counts(day, &slid_prices);
}

/// A stamp that is the one before, a re-pricing back to the accepted price, and one under
/// the limit.
fn wrong_reports(report: Report, slid_prices: &SlidPrices) -> Vec<Report> {
    match report {
        Report::Accepted { id, stamp, price } => {
            let stamp = stamp - 1;
            vec![Report::Accepted { id, stamp, price }]
        }
        Report::Repriced { id, price, stamp } => {
            let given = slid_prices.given(id).expect("an order");
            let wrong = [
                (price, stamp - 1),
                (given.accepted, stamp),
                (given.limit() - 1, stamp),
            ];
            let repriced = |(price, stamp)| Report::Repriced { id, price, stamp };
            wrong.map(repriced).to_vec()
        }
        _ => Vec::new(),
    }
}

fn assert_each_number_counts(day: &[Played], slid_prices: &SlidPrices) {
    let list = list_of(day);
    for (event, (_, reports)) in list.iter().enumerate() {
        for (place, report) in reports.iter().enumerate() {
            for wrong in wrong_reports(*report, slid_prices) {
                let mut list = list.clone();
                list[event].1[place] = wrong;
                assert!(judged(&list).is_err(), "{wrong:?}");
            }
        }
    }
}

/// Document 01's own day: prices 91,100, 90,800 and 90,500, stamps 1 to 4.
#[test]
fn the_day_of_document_01() {
    let day: &[Played] = &[
        ("bid 91000", &[]),
        ("tape 90000", &["5"]),
        ("entry 1 2 90500 500 1 0 0", &["1 1 1 91100"]),
        (
            "entry 2 0 91100 200 1 0 0",
            &["1 2 2 91100", "2 2 1 91100 200"],
        ),
        ("bid 90700", &["4 1 90800 3"]),
        ("bid 90200", &["4 1 90500 4"]),
        ("cancel 1", &["3 1 300 1"]),
        ("end 90000", &["6 2"]),
    ];
    assert_slides(CENT, day, &[(1, 91_100, 90_500, 4, 2)]);
}

/// The same day of a half-cent stock: the permitted price is the bid and 50.
#[test]
fn the_day_of_document_01_by_half_cents() {
    let day: &[Played] = &[
        ("bid 91000", &[]),
        ("tape 90000", &["5"]),
        ("entry 1 2 90450 500 1 0 0", &["1 1 1 91050"]),
        (
            "entry 2 0 91100 200 1 0 0",
            &["1 2 2 91100", "2 2 1 91050 200"],
        ),
        ("bid 90700", &["4 1 90750 3"]),
        ("bid 90650", &["4 1 90700 4"]),
        ("bid 90200", &["4 1 90450 5"]),
        ("bid 90150", &[]),
        ("end 90000", &["3 1 300 4", "6 2"]),
    ];
    assert_slides(HALF_CENT, day, &[(1, 91_050, 90_450, 5, 3)]);
}

/// Over the dollar border, below which the permitted price is the bid and 1.
#[test]
fn a_slide_below_a_dollar() {
    let cents: &[Played] = &[
        ("bid 10000", &[]),
        ("tape 90000", &["5"]),
        ("entry 1 2 9000 100 1 0 0", &["1 1 1 10100"]),
        ("bid 9999", &["4 1 10000 2"]),
        ("bid 9998", &["4 1 9999 3"]),
        ("bid 8000", &["4 1 9000 4"]),
        ("bid 7000", &[]),
        ("end 9000", &["3 1 100 4", "6 2"]),
    ];
    assert_slides(CENT, cents, &[(1, 10_100, 9_000, 4, 3)]);
    let mut half_cents = cents.to_vec();
    half_cents[2].1 = &["1 1 1 10050"];
    assert_slides(HALF_CENT, &half_cents, &[(1, 10_050, 9_000, 4, 3)]);
}

/// "A market short has limit 1 here." It stays where it is with no bid, and when the bid
/// rises over it; taken as immediate or cancel it works at 1, which isn't above its limit.
#[test]
fn a_market_short() {
    let day: &[Played] = &[
        ("tape 90000", &["5"]),
        ("entry 1 2 0 500 1 0 0", &["1 1 1 1", "3 1 500 2"]),
        ("bid 91000", &[]),
        ("entry 2 2 0 500 1 0 0", &["1 2 2 91100"]),
        ("bid 92000", &[]),
        ("bid 90000", &["4 2 90100 3"]),
        ("bid 0", &[]),
        ("bid 5", &["4 2 6 4"]),
        ("bid 1", &["4 2 2 5"]),
        ("bid 0", &[]),
        ("bid 91000", &[]),
        ("entry 3 0 0 100 1 0 0", &["1 3 6 100000000", "2 3 2 2 100"]),
        ("end 90000", &["3 2 400 4", "6 2"]),
    ];
    assert_slides(CENT, day, &[(2, 91_100, 2, 5, 3)]);
    let given = judged(&list_of(day)).expect("the law holds");
    assert!(!given.given(1).expect("an order").is_slid());
}

/// "With slide once there is at most one": to the entry bid or the limit, when the bid is
/// below it.
#[test]
fn slide_once() {
    let day: &[Played] = &[
        ("entry 1 2 90000 100 1 0 1", &["1 1 1 91100"]),
        ("entry 2 2 0 100 1 0 1", &["1 2 2 91100"]),
        ("entry 3 2 91000 100 1 0 1", &["1 3 3 91100"]),
        ("bid 91000", &[]),
        ("bid 90900", &["4 1 91000 4", "4 2 91000 5", "4 3 91000 6"]),
        ("bid 90000", &[]),
        ("bid 0", &[]),
        ("bid 92000", &[]),
        ("bid 89900", &[]),
        ("end 90000", &["3 1 100 4", "3 2 100 4", "3 3 100 4", "6 2"]),
    ];
    let orders = [
        (1, 91_100, 91_000, 4, 1),
        (2, 91_100, 91_000, 5, 1),
        (3, 91_100, 91_000, 6, 1),
    ];
    assert_slides(CENT, &[&ON, day].concat(), &orders);
}

/// "with slide no more there is none", wherever the bid goes. An adjusted opt-out doesn't
/// rest at all.
#[test]
fn slide_no_more_and_opt_out() {
    let day: &[Played] = &[
        ("entry 1 2 90000 100 1 0 2", &["1 1 1 91100"]),
        ("entry 2 2 0 100 1 0 2", &["1 2 2 91100"]),
        ("entry 3 2 90000 100 1 0 3", &["1 3 3 91100", "3 3 100 3"]),
        ("bid 90000", &[]),
        ("bid 0", &[]),
        ("bid 92000", &[]),
        (
            "entry 4 0 91100 150 1 0 0",
            &["1 4 4 91100", "2 4 1 91100 100", "2 4 2 91100 50"],
        ),
        ("end 90000", &["3 2 50 4", "6 2"]),
    ];
    let orders = [
        (1, 91_100, 91_100, 1, 0),
        (2, 91_100, 91_100, 2, 0),
        (3, 91_100, 91_100, 3, 0),
    ];
    assert_slides(CENT, &[&ON, day].concat(), &orders);
}

/// Shorts of kind 6, one of which slides onto an own buy and onto another's. There it has
/// the later stamp, though the buy came in behind it.
#[test]
fn a_short_of_a_firm() {
    let day: &[Played] = &[
        ("owned 1 2 90000 100 1 0 0 7", &["1 1 1 91100"]),
        ("owned 2 0 90800 40 1 0 0 7", &["1 2 2 90800"]),
        ("owned 3 0 90900 40 1 0 0 8", &["1 3 3 90900"]),
        ("bid 90000", &["4 1 90100 4", "2 3 1 90900 40", "3 2 40 5"]),
        ("owned 4 2 0 50 1 0 0 8", &["1 4 5 90100"]),
        ("bid 89900", &["4 1 90000 6", "4 4 90000 7"]),
        ("bid 89000", &["4 4 89100 8"]),
        ("cancel 1", &["3 1 60 1"]),
        ("end 90000", &["3 4 50 4", "6 2"]),
    ];
    let orders = [(1, 91_100, 90_000, 6, 2), (4, 90_100, 89_100, 8, 2)];
    assert_slides(CENT, &[&ON, day].concat(), &orders);
}

/// Refused events take no stamp and change no order, one with the order's own id neither.
/// "Stamps in the reports rise strictly through the whole list", over its day ends too.
#[test]
fn refused_events_and_several_days() {
    let day: &[Played] = &[
        ("entry 1 2 90500 500 1 0 0", &["1 1 1 91100"]),
        ("entry 1 2 90500 500 0 0 2", &["0 6"]),
        ("entry 2 4 90500 5 1 0 0", &["0 18"]),
        ("bid 90750", &["0 3"]),
        ("bid 90700", &["4 1 90800 2"]),
        ("cancel 2", &["0 8"]),
        ("entry 2 2 90500 5 1 0 4", &["0 19"]),
        ("owned 2 2 90500 5 1 0 0 0", &["0 21"]),
        ("end 90050", &["0 3"]),
        ("bid 90600", &["4 1 90700 3"]),
        ("end 90000", &["3 1 500 4", "6 2"]),
        ("entry 1 0 90000 5 1 0 0", &["0 6"]),
        ("bid 80000", &[]),
        ("entry 2 2 79000 100 1 0 0", &["1 2 4 80100"]),
        ("tape 81000", &["5"]),
        ("bid 79500", &["4 2 79600 5"]),
        ("end 81000", &["3 2 100 4", "6 2"]),
        ("end 81000", &["6 0"]),
        ("bid 80000", &[]),
        ("entry 3 2 79000 100 1 0 0", &["1 3 6 79000"]),
    ];
    let orders = [(1, 91_100, 90_700, 3, 2), (2, 80_100, 79_600, 5, 1)];
    assert_slides(CENT, &[&ON, day].concat(), &orders);
}

/// Hidden shorts of every slide, adjusted at their entries, whose prices rise: "If price ≤
/// bid, and it is not displayed or not clear: [...] re-priced to the permitted price".
pub const HIDDEN: [Played; 8] = [
    ("bid 91000", &[]),
    ("tape 90000", &["5"]),
    ("entry 1 2 90500 100 0 0 0", &["1 1 1 91100"]),
    ("entry 2 2 90500 100 0 0 1", &["1 2 2 91100"]),
    ("entry 3 2 90500 100 0 0 2", &["1 3 3 91100"]),
    ("bid 91100", &["4 1 91200 4", "4 2 91200 5", "4 3 91200 6"]),
    ("bid 90900", &["4 1 91000 7", "4 2 91000 8"]),
    ("bid 91000", &["4 1 91100 9", "4 2 91100 10"]),
];

/// "Trusting a short shown at the bid before the trigger. It isn't clear." Not adjusted at
/// its entry, it is re-priced to above its limit when the restriction comes, with slide no
/// more too.
pub const SHOWN_BEFORE_THE_TRIGGER: [Played; 6] = [
    ("bid 91000", &[]),
    ("entry 1 2 91000 100 1 0 0", &["1 1 1 91000"]),
    ("entry 2 2 91000 100 1 0 2", &["1 2 2 91000"]),
    ("entry 3 2 90900 100 1 0 1", &["1 3 3 90900"]),
    (
        "tape 90000",
        &["5", "4 1 91100 4", "4 2 91100 5", "4 3 91100 6"],
    ),
    ("bid 90900", &["4 1 91000 7", "4 3 91000 8"]),
];

/// "Hidden orders aren't meant, their prices do rise" (F9.1), nor are those that weren't
/// adjusted at their entries. That both limits are needed is tried by laws without them.
#[test]
fn prices_that_rise() {
    for day in [&HIDDEN[..], &SHOWN_BEFORE_THE_TRIGGER] {
        assert_day(CENT, day);
        let slid_prices = judged(&list_of(day)).expect("the law holds");
        for id in 1..=3 {
            assert!(!slid_prices.given(id).expect("an order").is_slid());
        }
    }
}
