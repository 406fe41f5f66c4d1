//! Days with market orders, worked out by hand from No. 1 of document 02.

use crate::days::{self, after_close, push_event, Played, ON};
use crate::model::CENT;
use crate::program::play;

/// A day at the step of document 01.
fn assert_day(day: &[Played]) {
    days::assert_day(CENT, day);
}

/// A day that goes on from where the restriction is on and the bid is 91,000.
fn assert_restricted_day(day: &[Played]) {
    assert_day(&[&ON, day].concat());
}

/// The customer's own day.
#[test]
fn a_market_short_follows_the_bid_until_it_is_filled() {
    assert_day(&[
        ("bid 91000", &[]),
        ("tape 90000", &["5"]),
        ("entry 1 2 0 500 1 0 0", &["1 1 1 91100"]),
        ("bid 90000", &["4 1 90100 2"]),
        ("bid 0", &[]),
        (
            "entry 2 0 0 200 1 0 0",
            &["1 2 3 100000000", "2 2 1 90100 200"],
        ),
        ("bid 90500", &[]),
        (
            "entry 3 0 0 400 1 0 0",
            &["1 3 4 100000000", "2 3 1 90100 300", "3 3 100 2"],
        ),
        ("entry 4 2 0 100 1 1 0", &["1 4 5 90600", "3 4 100 2"]),
        ("entry 5 1 0 50 1 0 0", &["1 5 6 1", "3 5 50 2"]),
        ("bid 0", &[]),
        ("entry 6 2 0 30 0 0 3", &["1 6 7 1", "3 6 30 2"]),
        ("entry 7 0 90000 10 1 0 0", &["1 7 8 90000"]),
        (
            "entry 8 2 0 30 0 0 3",
            &["1 8 9 1", "2 7 8 90000 10", "3 8 20 2"],
        ),
    ]);
}

/// "A buy works at 100,000,000 and any sell at 1, as immediate or cancel",
/// whatever life, show and slide say; shorts too while the restriction is off.
#[test]
fn market_orders_are_immediate_with_the_restriction_off() {
    assert_day(&[
        ("entry 1 2 0 5 1 0 0", &["1 1 1 1", "3 1 5 2"]),
        ("entry 2 0 0 5 1 1 0", &["1 2 2 100000000", "3 2 5 2"]),
        ("bid 91000", &[]),
        ("entry 3 0 90000 50 1 0 0", &["1 3 3 90000"]),
        ("entry 4 2 0 20 1 0 0", &["1 4 4 1", "2 3 4 90000 20"]),
        ("entry 5 3 0 20 0 0 0", &["1 5 5 1", "2 3 5 90000 20"]),
        (
            "entry 6 1 0 20 0 1 0",
            &["1 6 6 1", "2 3 6 90000 10", "3 6 10 2"],
        ),
        ("entry 7 2 0 5 0 0 3", &["1 7 7 1", "3 7 5 2"]),
        ("entry 8 2 0 5 1 0 1", &["1 8 8 1", "3 8 5 2"]),
        ("entry 9 1 100000000 5 0 0 0", &["1 9 9 100000000"]),
        ("entry 10 2 91000 5 1 0 0", &["1 10 10 91000"]),
        (
            "entry 11 0 0 11 1 0 0",
            &[
                "1 11 11 100000000",
                "2 11 10 91000 5",
                "2 11 9 100000000 5",
                "3 11 1 2",
            ],
        ),
        ("end 90000", &["6 0"]),
    ]);
}

/// Only mark 2 is restricted: a short exempt and a long sell work at 1.
#[test]
fn other_sells_stay_immediate_with_the_restriction_on() {
    assert_restricted_day(&[
        ("entry 1 3 0 5 1 0 0", &["1 1 1 1", "3 1 5 2"]),
        ("entry 2 1 0 5 1 0 0", &["1 2 2 1", "3 2 5 2"]),
        ("entry 3 0 0 5 1 0 0", &["1 3 3 100000000", "3 3 5 2"]),
    ]);
}

/// "slides, rests or is cancelled by 01's rules, its life included": it first
/// trades, and immediate or cancel comes before opt-out.
#[test]
fn a_market_short_trades_rests_or_is_cancelled_by_its_life_and_slide() {
    assert_restricted_day(&[
        ("entry 1 0 91200 30 1 0 0", &["1 1 1 91200"]),
        (
            "entry 2 2 0 50 1 0 3",
            &["1 2 2 91100", "2 1 2 91200 30", "3 2 20 3"],
        ),
        ("entry 3 2 0 50 1 1 3", &["1 3 3 91100", "3 3 50 2"]),
        ("entry 4 2 0 50 1 1 2", &["1 4 4 91100", "3 4 50 2"]),
        ("entry 5 2 0 50 1 0 2", &["1 5 5 91100"]),
        ("bid 90000", &[]),
        ("bid 0", &[]),
        ("entry 6 0 90900 10 1 0 0", &["1 6 6 90900"]),
        ("bid 90000", &[]),
        ("entry 7 2 0 40 1 0 0", &["1 7 7 90100", "2 6 7 90900 10"]),
        ("entry 8 2 0 9 1 0 3", &["1 8 8 90100", "3 8 9 3"]),
        ("cancel 7", &["3 7 30 1"]),
        ("end 90000", &["3 5 50 4", "6 2"]),
    ]);
}

/// A market short "stays where it is" with no bid, in a bid's pass and in a tape
/// price's. A short entered with limit 1 isn't one: continuous falls to 1, once
/// to its entry bid.
#[test]
fn a_short_with_limit_1_falls_where_a_market_short_stays() {
    assert_restricted_day(&[
        ("entry 1 2 0 100 1 0 0", &["1 1 1 91100"]),
        ("entry 2 2 1 100 1 0 0", &["1 2 2 91100"]),
        ("entry 3 2 1 100 1 0 1", &["1 3 3 91100"]),
        ("entry 4 2 0 100 1 0 1", &["1 4 4 91100"]),
        ("bid 0", &["4 2 1 5", "4 3 91000 6"]),
        ("tape 80000", &[]),
        ("bid 0", &[]),
        ("bid 1", &["4 1 2 7", "4 4 91000 8"]),
        ("bid 0", &[]),
        (
            "entry 5 0 0 150 1 0 0",
            &["1 5 9 100000000", "2 5 2 1 100", "2 5 1 2 50"],
        ),
        ("end 90000", &["3 1 50 4", "3 3 100 4", "3 4 100 4", "6 2"]),
    ]);
}

/// Staying doesn't use up once; t is its entry bid when a bid comes back.
#[test]
fn once_is_left_after_a_time_with_no_bid() {
    assert_restricted_day(&[
        ("entry 1 2 0 100 1 0 1", &["1 1 1 91100"]),
        ("bid 0", &[]),
        ("tape 90000", &[]),
        ("bid 91000", &[]),
        ("bid 0", &[]),
        ("bid 90900", &["4 1 91000 2"]),
        ("bid 0", &[]),
        ("bid 80000", &[]),
        ("entry 2 0 0 1 1 0 0", &["1 2 3 100000000", "2 2 1 91000 1"]),
    ]);
}

/// Hidden, under each slide but opt-out: pushed up by a rising bid, which keeps
/// it a market short, and staying with no bid.
#[test]
fn hidden_market_shorts_are_pushed_up() {
    assert_restricted_day(&[
        ("entry 1 2 0 100 0 0 0", &["1 1 1 91100"]),
        ("bid 91100", &["4 1 91200 2"]),
        ("bid 0", &[]),
        ("bid 92000", &["4 1 92100 3"]),
        ("bid 0", &[]),
        ("bid 91000", &["4 1 91100 4"]),
        ("entry 2 2 0 100 0 0 1", &["1 2 5 91100"]),
        ("entry 3 2 0 100 0 0 2", &["1 3 6 91100"]),
        ("bid 93000", &["4 1 93100 7", "4 2 93100 8", "4 3 93100 9"]),
        ("bid 0", &[]),
        ("tape 90000", &[]),
        ("bid 90000", &["4 1 90100 10", "4 2 91000 11"]),
        ("bid 92000", &["4 1 92100 12", "4 2 92100 13"]),
        ("bid 0", &[]),
        ("bid 90000", &["4 1 90100 14"]),
    ]);
}

/// It matches as it slides, and a rest of it is still a market short.
#[test]
fn a_market_short_that_traded_is_still_one() {
    assert_restricted_day(&[
        ("entry 1 2 0 100 1 0 0", &["1 1 1 91100"]),
        ("entry 2 0 90500 10 1 0 0", &["1 2 2 90500"]),
        ("bid 90300", &["4 1 90400 3", "2 2 1 90500 10"]),
        ("bid 0", &[]),
        (
            "entry 3 0 90400 10 1 0 0",
            &["1 3 4 90400", "2 3 1 90400 10"],
        ),
        ("tape 100", &[]),
        ("bid 0", &[]),
        ("bid 9999", &["4 1 10000 5"]),
        ("cancel 1", &["3 1 80 1"]),
    ]);
}

/// In phase 2 too. On its morning there is no bid, so a market short trades
/// down to 1 and doesn't rest (E5). The fall to 700 starts a new period (No. 6).
#[test]
fn a_market_short_on_the_second_day() {
    assert_restricted_day(&[
        ("entry 1 2 0 7 1 0 0", &["1 1 1 91100"]),
        ("end 100000", &["3 1 7 4", "6 2"]),
        ("entry 2 0 500 10 1 0 0", &["1 2 2 500"]),
        ("entry 3 2 0 4 1 0 0", &["1 3 3 1", "2 2 3 500 4"]),
        ("bid 600", &[]),
        ("entry 4 2 0 4 1 0 0", &["1 4 4 601"]),
        ("bid 0", &[]),
        ("tape 700", &["5"]),
        ("bid 599", &["4 4 600 5"]),
        ("bid 1", &["4 4 2 6", "2 2 4 500 4"]),
        ("end 100000", &["3 2 2 4", "6 2"]),
        ("end 100000", &["6 0"]),
        ("bid 600", &[]),
        ("entry 5 2 0 4 1 0 0", &["1 5 7 1", "3 5 4 2"]),
    ]);
}

/// At the highest bid a market short works at the highest price.
#[test]
fn a_market_short_at_the_highest_bid() {
    assert_restricted_day(&[
        ("bid 99999900", &[]),
        ("entry 1 2 0 5 0 0 0", &["1 1 1 100000000"]),
        ("bid 0", &[]),
        (
            "entry 2 0 0 2 1 0 0",
            &["1 2 2 100000000", "2 2 1 100000000 2"],
        ),
    ]);
}

/// "refusal 3 no longer meets an entry price of 0", but every other does, in its
/// order; and a tape price or a close of 0 is 3 as ever.
#[test]
fn refusals_of_market_orders() {
    assert_restricted_day(&[
        ("entry 1 0 0 0 1 0 0", &["0 4"]),
        ("entry 1 2 0 1000001 9 0 0", &["0 4"]),
        ("entry 0 4 0 5 1 0 0", &["0 18"]),
        ("entry 1 0 0 5 2 0 0", &["0 5"]),
        ("entry 1 2 0 5 1 2 0", &["0 5"]),
        ("entry 1 0 0 5 1 2 0", &["0 5"]),
        ("entry 1 2 0 5 1 0 4", &["0 19"]),
        ("entry 1 3 0 5 1 0 1", &["0 20"]),
        ("entry 0 2 0 5 1 0 0", &["0 6"]),
        ("entry 1 2 0 5 1 0 0", &["1 1 1 91100"]),
        ("entry 1 0 0 5 1 0 0", &["0 6"]),
        ("entry 2 2 100000001 5 1 0 0", &["0 3"]),
        ("tape 0", &["0 3"]),
        ("end 0", &["0 3"]),
    ]);
}

/// "7 if 256 orders rest" for a market short that follows the bid; a market buy "needs no
/// place" (No. 8).
#[test]
fn a_full_book_refuses_market_shorts() {
    let mut input = after_close(100_000);
    ON.iter()
        .for_each(|(event, _)| push_event(&mut input, event));
    for id in 1..=256 {
        push_event(&mut input, &format!("entry {id} 2 0 5 1 0 0"));
    }
    for event in ["entry 257 2 0 5 1 0 0", "entry 257 0 0 5 1 0 0"] {
        push_event(&mut input, event);
    }
    let lines = play(CENT, &input);
    let last: Vec<&str> = lines.lines().skip(256).collect();
    let buy = ["1 257 257 100000000", "2 257 1 91100 5"];
    assert_eq!(last[..2], ["1 256 256 91100", "0 7"]);
    assert_eq!(last[2..], buy);
}
