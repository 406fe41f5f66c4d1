//! Days of slumps, worked out by hand from No. 6 of document 02; and tape prices on
//! made-up records, where the pass of a second fall has something to do. From open
//! it has nothing: in phase 2 every order came in restricted.

use crate::days::{assert_day, lines_after, Played};
use crate::model::{Event, Order, Venue, CENT, HALF_CENT};

fn assert_day_at_both_steps(day: &[Played]) {
    assert_day(CENT, day);
    assert_day(HALF_CENT, day);
}

/// The customer's own days: "In phase 2 a tape price that meets the trigger gives
/// phase 1 and report 5. In phase 1 it still leaves the phase alone, without
/// report 5."
#[test]
fn falling_again_on_the_second_day() {
    assert_day_at_both_steps(&[
        ("tape 90000", &["5"]),
        ("tape 80000", &[]),
        ("end 100000", &["6 2"]),
        ("tape 90100", &[]),
        ("tape 90000", &["5"]),
        ("tape 90000", &[]),
        ("end 90000", &["6 2"]),
        ("end 90000", &["6 0"]),
        ("tape 81000", &["5"]),
    ]);
}

/// The customer's own days with an order.
#[test]
fn falling_again_with_an_order() {
    assert_day(
        CENT,
        &[
            ("tape 90000", &["5"]),
            ("end 90000", &["6 2"]),
            ("bid 80000", &[]),
            ("entry 1 2 80000 5 1 0 0", &["1 1 1 80100"]),
            ("tape 81000", &["5"]),
            ("tape 70000", &[]),
            ("end 81000", &["3 1 5 4", "6 2"]),
        ],
    );
}

/// "found the third day free": now it is restricted, and so is a fourth; the day
/// after one without a fall is free.
#[test]
fn the_third_day_of_a_slump_is_restricted() {
    assert_day(
        HALF_CENT,
        &[
            ("tape 90000", &["5"]),
            ("end 90000", &["6 2"]),
            ("tape 81000", &["5"]),
            ("end 81000", &["6 2"]),
            ("bid 75000", &[]),
            ("entry 1 2 75000 5 1 0 0", &["1 1 1 75050"]),
            ("tape 72950", &[]),
            ("tape 72900", &["5"]),
            ("end 72900", &["3 1 5 4", "6 2"]),
            ("bid 75000", &[]),
            ("entry 2 2 75000 5 1 0 0", &["1 2 2 75050"]),
            ("tape 65650", &[]),
            ("end 65650", &["3 2 5 4", "6 0"]),
            ("bid 75000", &[]),
            ("entry 3 2 75000 5 1 0 0", &["1 3 3 75000"]),
        ],
    );
}

/// "The close compared is the present one, of the last day end" (F6.1): one far
/// below that of the day before, then one far above it.
#[test]
fn a_fall_is_from_the_last_close() {
    assert_day_at_both_steps(&[
        ("tape 90000", &["5"]),
        ("end 50000", &["6 2"]),
        ("tape 90000", &[]),
        ("tape 45100", &[]),
        ("tape 45000", &["5"]),
        ("end 200000", &["6 2"]),
        ("tape 180100", &[]),
        ("tape 180000", &["5"]),
        ("end 200000", &["6 2"]),
        ("end 200000", &["6 0"]),
        ("end 200000", &["6 0"]),
    ]);
}

/// At closes below a dollar, at the lowest, where no price is a fall, and at the
/// highest.
#[test]
fn falls_from_low_closes_and_the_highest() {
    assert_day_at_both_steps(&[
        ("tape 90000", &["5"]),
        ("end 9999", &["6 2"]),
        ("tape 9000", &[]),
        ("tape 8999", &["5"]),
        ("end 10", &["6 2"]),
        ("tape 10", &[]),
        ("tape 9", &["5"]),
        ("end 2", &["6 2"]),
        ("tape 2", &[]),
        ("tape 1", &["5"]),
        ("end 100000000", &["6 2"]),
        ("tape 90000100", &[]),
        ("tape 90000000", &["5"]),
        ("end 1", &["6 2"]),
        ("tape 1", &[]),
        ("end 1", &["6 0"]),
    ]);
}

/// A refused tape price or day end leaves phase 2 alone.
#[test]
fn refused_prices_on_the_second_day() {
    assert_day_at_both_steps(&[
        ("tape 90000", &["5"]),
        ("end 100000", &["6 2"]),
        ("tape 0", &["0 3"]),
        ("tape 10001", &["0 3"]),
        ("end 0", &["0 3"]),
        ("tape 90000", &["5"]),
        ("end 100000", &["6 2"]),
        ("tape 89975", &["0 3"]),
        ("end 100000", &["6 0"]),
    ]);
}

/// Orders of every slide rest through the second fall, which moves none of them;
/// the bids after it slide them as ever.
#[test]
fn orders_stay_in_the_second_fall() {
    assert_day(
        CENT,
        &[
            ("tape 90000", &["5"]),
            ("end 100000", &["6 2"]),
            ("bid 91000", &[]),
            ("entry 1 2 90000 10 1 0 0", &["1 1 1 91100"]),
            ("entry 2 2 90000 10 0 0 0", &["1 2 2 91100"]),
            ("entry 3 2 90000 10 1 0 1", &["1 3 3 91100"]),
            ("entry 4 2 91100 10 0 0 3", &["1 4 4 91100"]),
            ("entry 5 2 0 10 1 0 0", &["1 5 5 91100"]),
            ("tape 90000", &["5"]),
            ("tape 90000", &[]),
            ("bid 91100", &["4 2 91200 6", "3 4 10 3"]),
            ("tape 89000", &[]),
            (
                "bid 90500",
                &["4 1 90600 7", "4 2 90600 8", "4 3 91000 9", "4 5 90600 10"],
            ),
            (
                "end 80000",
                &["3 1 10 4", "3 2 10 4", "3 3 10 4", "3 5 10 4", "6 2"],
            ),
        ],
    );
}

/// The same by half cents, with a buy before and one after the second fall; then a
/// fall on the third day with no bid, where a market short stays.
#[test]
fn orders_stay_in_the_second_fall_of_a_half_cent_stock() {
    assert_day(
        HALF_CENT,
        &[
            ("tape 90000", &["5"]),
            ("end 80050", &["6 2"]),
            ("bid 91000", &[]),
            ("entry 1 2 90000 10 0 0 0", &["1 1 1 91050"]),
            ("entry 2 2 91050 10 0 0 3", &["1 2 2 91050"]),
            ("entry 3 2 0 10 1 0 0", &["1 3 3 91050"]),
            ("entry 4 2 1 10 1 0 0", &["1 4 4 91050"]),
            ("entry 5 0 91050 3 1 0 0", &["1 5 5 91050", "2 5 3 91050 3"]),
            ("tape 72050", &[]),
            ("tape 72000", &["5"]),
            ("entry 6 0 91050 3 1 0 0", &["1 6 6 91050", "2 6 3 91050 3"]),
            ("bid 91050", &["4 1 91100 7", "3 2 10 3"]),
            ("bid 0", &["4 1 90000 8", "4 4 1 9"]),
            ("end 80050", &["3 1 10 4", "3 3 4 4", "3 4 10 4", "6 2"]),
            ("bid 91000", &[]),
            ("entry 7 2 0 10 1 0 0", &["1 7 10 91050"]),
            ("bid 0", &[]),
            ("tape 72000", &["5"]),
            ("bid 90000", &["4 7 90050 11"]),
        ],
    );
}

/// A short of 10 shares with limit 90,000 that open can't leave like this.
fn short(id: u32, price: u32) -> Order {
    Order {
        id,
        mark: 2,
        limit: 90_000,
        shares: 10,
        show: 1,
        life: 0,
        slide: 0,
        stamp: id,
        price,
        entry_bid: 91_300,
        adjusted: false,
        used: false,
        clear: true,
        market: false,
        owner: 0,
    }
}

/// At bid 91,000 and close 100,000: a buy at 91,200, a hidden short below the bid, an
/// opt-out at the bid that isn't clear, a clear short below the bid, a once order
/// that was adjusted and a hidden market short, both above the bid.
fn made_up(step: u32, phase: u32) -> Venue {
    let buy = Order {
        mark: 0,
        shares: 4,
        ..short(1, 91_200)
    };
    let hidden = Order {
        show: 0,
        ..short(2, 90_500)
    };
    let opt_out = Order {
        slide: 3,
        clear: false,
        ..short(3, 91_000)
    };
    let once = Order {
        slide: 1,
        adjusted: true,
        ..short(5, 91_500)
    };
    let market = Order {
        limit: 1,
        show: 0,
        adjusted: true,
        market: true,
        ..short(6, 95_000)
    };
    Venue {
        phase,
        bid: 91_000,
        last_id: 6,
        last_stamp: 6,
        accepted: 8,
        orders: vec![buy, hidden, opt_out, short(4, 90_900), once, market],
        ..Venue::fresh(step, 100_000)
    }
}

/// The lines and the phase after a tape price.
fn after_tape(mut venue: Venue, price: u32) -> (Vec<String>, u32) {
    let lines = lines_after(&mut venue, &Event::Tape { price });
    (lines, venue.phase)
}

/// The pass of the record above: the hidden short goes to the permitted price and
/// sells to the buy there, the opt-out is cancelled, the once order goes to its entry
/// bid, the market short to the permitted price.
const PASS_BY_CENTS: [&str; 5] = [
    "4 2 91100 7",
    "2 1 2 91200 4",
    "3 3 10 3",
    "4 5 91300 8",
    "4 6 91100 9",
];
const PASS_BY_HALF_CENTS: [&str; 5] = [
    "4 2 91050 7",
    "2 1 2 91200 4",
    "3 3 10 3",
    "4 5 91300 8",
    "4 6 91050 9",
];

/// "5 restriction on, before the pass", with a change of phase alone (B3); and "The
/// pass runs after each accepted bid or tape event" (B2).
#[test]
fn the_pass_of_a_second_fall() {
    for (step, pass) in [(CENT, PASS_BY_CENTS), (HALF_CENT, PASS_BY_HALF_CENTS)] {
        let fall = [&["5"], &pass[..]].concat();
        let cases = [
            (2, 90_000, fall.clone(), 1),
            (2, 90_000 - step, fall.clone(), 1),
            (2, 90_000 + step, pass.to_vec(), 2),
            (1, 90_000, pass.to_vec(), 1),
            (1, 90_000 + step, pass.to_vec(), 1),
            (0, 90_000, fall, 1),
            (0, 90_000 + step, vec![], 0),
        ];
        for (phase, price, lines, after) in cases {
            let found = after_tape(made_up(step, phase), price);
            let lines = lines.into_iter().map(str::to_owned).collect();
            assert_eq!(found, (lines, after), "phase {phase}, tape {price}");
        }
    }
}
