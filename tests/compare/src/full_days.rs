//! Days with full books, worked out by hand from No. 8 of document 02. An entry is id,
//! mark, price, shares, show, life, slide, and an owned one also has an owner.

use crate::days::{after_close, event_of, push_event, Played};
use crate::model::{
    Order, RecordCheck, Refusal, Venue, CENT, HALF_CENT, LEAST_BUFFER, MOST_EVENTS,
};
use crate::program::{play, venue_after};

/// After a close of 100,000, some events, and then 256 entries that rest.
fn full_book(front: &[&str], entry: impl Fn(u32) -> String) -> Vec<u8> {
    let mut input = after_close(100_000);
    front.iter().for_each(|event| push_event(&mut input, event));
    for id in 1..=256 {
        push_event(&mut input, &entry(id));
    }
    input
}

/// Plays a day at a step on from a full book, up to each of its events.
fn assert_day_after(step: u32, full_book: &[u8], day: &[Played]) {
    let before = play(step, full_book);
    let venue = venue_after(step, full_book).expect("a sound stream");
    assert_eq!(venue.orders.len(), 256);
    let mut input = full_book.to_vec();
    let mut expected: Vec<&str> = before.lines().collect();
    for (event, lines) in day {
        push_event(&mut input, event);
        expected.extend(*lines);
        let played = play(step, &input);
        let played: Vec<&str> = played.lines().collect();
        assert_eq!(played, expected, "{event} at step {step}");
    }
}

fn assert_day_at_both_steps(full_book: &[u8], day: &[Played]) {
    for step in [CENT, HALF_CENT] {
        assert_day_after(step, full_book, day);
    }
}

/// 256 buys of one share at 100.
fn one_share_each() -> Vec<u8> {
    full_book(&[], |id| format!("entry {id} 0 100 1 1 0 0"))
}

/// 256 buys of ten shares at 90,000, behind some events.
fn ten_shares_each(front: &[&str]) -> Vec<u8> {
    full_book(front, |id| format!("entry {id} 0 90000 10 1 0 0"))
}

/// The customer's own day; and on from there, until the last place is taken again.
#[test]
fn a_full_book_still_trades() {
    assert_day_at_both_steps(
        &one_share_each(),
        &[
            ("entry 257 0 100 5 1 1 0", &["1 257 257 100", "3 257 5 2"]),
            ("entry 258 0 100 5 1 0 0", &["0 7"]),
            ("entry 259 1 0 1 1 0 0", &["1 259 258 1", "2 1 259 100 1"]),
            ("entry 260 0 100 5 1 0 0", &["1 260 259 100"]),
            ("entry 261 0 100 5 1 0 0", &["0 7"]),
            ("cancel 2", &["3 2 1 1"]),
            ("entry 261 0 99 5 0 0 0", &["1 261 260 99"]),
            ("entry 262 0 99 5 0 0 0", &["0 7"]),
            ("entry 262 0 99 5 0 1 0", &["1 262 261 99", "3 262 5 2"]),
        ],
    );
}

/// "Judged by terms and not by outcome" (F8.1): whoever isn't immediate meets 7, also where
/// it would fill. An immediate one trades with several, with part of the last, with fewer
/// shares than it has, and with nobody.
#[test]
fn terms_and_not_the_outcome() {
    assert_day_at_both_steps(
        &one_share_each(),
        &[
            ("entry 257 1 100 1 1 0 0", &["0 7"]),
            ("entry 257 2 100 1 1 0 0", &["0 7"]),
            ("entry 257 3 1 1 1 0 0", &["0 7"]),
            ("entry 257 0 99 1 1 0 0", &["0 7"]),
            (
                "entry 257 1 100 3 1 1 0",
                &[
                    "1 257 257 100",
                    "2 1 257 100 1",
                    "2 2 257 100 1",
                    "2 3 257 100 1",
                ],
            ),
            ("entry 258 0 101 4 1 0 0", &["1 258 258 101"]),
            ("entry 259 0 101 4 0 0 0", &["1 259 259 101"]),
            ("entry 260 0 99 4 1 0 0", &["1 260 260 99"]),
            ("entry 261 0 99 4 1 0 0", &["0 7"]),
            (
                "entry 261 2 101 6 1 1 0",
                &["1 261 261 101", "2 258 261 101 4", "2 259 261 101 2"],
            ),
            ("entry 262 0 98 1 1 0 0", &["1 262 262 98"]),
            (
                "entry 263 3 101 9 1 1 0",
                &["1 263 263 101", "2 259 263 101 2", "3 263 7 2"],
            ),
            ("entry 264 0 98 1 1 0 0", &["1 264 264 98"]),
            ("entry 265 1 101 9 1 1 0", &["1 265 265 101", "3 265 9 2"]),
            ("entry 265 1 101 9 1 1 0", &["0 6"]),
            ("entry 266 1 101 9 1 0 0", &["0 7"]),
        ],
    );
}

/// With the restriction on and bid 91,000: "A restricted market short with a bid present
/// and life 0 meets 7", an adjusted opt-out too (F8.1). Immediate ones don't, nor do the
/// other market orders.
#[test]
fn restricted_shorts_with_a_bid() {
    let on = ten_shares_each(&["bid 91000", "tape 90000"]);
    assert_day_after(
        CENT,
        &on,
        &[
            ("entry 257 2 0 5 1 0 0", &["0 7"]),
            ("entry 257 2 0 5 1 0 3", &["0 7"]),
            ("entry 257 2 90000 5 1 0 3", &["0 7"]),
            ("entry 257 2 92000 5 1 0 3", &["0 7"]),
            ("entry 257 2 1 5 1 0 0", &["0 7"]),
            ("entry 257 2 0 5 1 1 0", &["1 257 257 91100", "3 257 5 2"]),
            (
                "entry 258 2 90000 5 1 1 3",
                &["1 258 258 91100", "3 258 5 2"],
            ),
            ("entry 259 3 0 5 1 0 0", &["1 259 259 1", "2 1 259 90000 5"]),
            ("entry 260 1 0 5 0 0 0", &["1 260 260 1", "2 1 260 90000 5"]),
            ("entry 261 0 90000 10 1 0 0", &["1 261 261 90000"]),
            (
                "entry 262 0 0 5 1 0 0",
                &["1 262 262 100000000", "3 262 5 2"],
            ),
            ("entry 263 2 0 5 1 0 1", &["0 7"]),
        ],
    );
}

/// "with no bid it doesn't" (F8.1): it is taken as immediate or cancel, whatever its slide.
/// When a bid is back below the buys it meets 7 again, though it would fill; and with one
/// place left it is accepted and fills.
#[test]
fn restricted_shorts_with_no_bid() {
    let on = ten_shares_each(&["bid 91000", "tape 90000"]);
    assert_day_after(
        CENT,
        &on,
        &[
            ("bid 0", &[]),
            (
                "entry 257 2 0 25 1 0 2",
                &[
                    "1 257 257 1",
                    "2 1 257 90000 10",
                    "2 2 257 90000 10",
                    "2 3 257 90000 5",
                ],
            ),
            ("entry 258 0 80000 1 1 0 0", &["1 258 258 80000"]),
            ("entry 259 0 80000 1 1 0 0", &["1 259 259 80000"]),
            ("entry 260 2 90000 5 1 0 0", &["0 7"]),
            ("entry 260 2 0 5 1 0 3", &["1 260 260 1", "2 3 260 90000 5"]),
            ("entry 261 0 70000 1 1 0 0", &["1 261 261 70000"]),
            ("bid 89900", &[]),
            ("entry 262 2 0 10 1 0 0", &["0 7"]),
            ("entry 262 2 89000 10 1 0 3", &["0 7"]),
            (
                "entry 262 2 0 10 1 1 0",
                &["1 262 262 90000", "2 4 262 90000 10"],
            ),
            (
                "entry 263 2 0 9 1 0 0",
                &["1 263 263 90000", "2 5 263 90000 9"],
            ),
            ("entry 264 0 70000 1 1 0 0", &["1 264 264 70000"]),
            ("entry 265 2 0 1 1 0 0", &["0 7"]),
        ],
    );
}

/// Half a cent above the bid: the same short fills at step 50 and finds nothing at 100.
#[test]
fn an_immediate_short_at_both_steps() {
    let on = ten_shares_each(&["bid 89950", "tape 90000"]);
    assert_day_after(
        HALF_CENT,
        &on,
        &[
            ("entry 257 2 0 5 1 0 0", &["0 7"]),
            (
                "entry 257 2 0 5 1 1 0",
                &["1 257 257 90000", "2 1 257 90000 5"],
            ),
        ],
    );
    let on = ten_shares_each(&["bid 90000", "tape 90000"]);
    for (step, accepted) in [(CENT, "1 257 257 90100"), (HALF_CENT, "1 257 257 90050")] {
        let mut input = on.clone();
        push_event(&mut input, "entry 257 2 0 5 1 1 0");
        let lines = play(step, &input);
        let last: Vec<&str> = lines.lines().skip(257).collect();
        assert_eq!(last, [accepted, "3 257 5 2"]);
    }
}

/// While the restriction is off a market short is taken as immediate or cancel, bid or not;
/// an opt-out that isn't restricted meets 7 as any other. The tape price turns it on.
#[test]
fn free_shorts() {
    assert_day_at_both_steps(
        &ten_shares_each(&["bid 91000"]),
        &[
            ("entry 257 2 0 5 1 0 0", &["1 257 257 1", "2 1 257 90000 5"]),
            ("entry 258 2 90000 5 1 0 3", &["0 7"]),
            ("entry 258 2 91100 5 1 0 0", &["0 7"]),
            (
                "entry 258 2 91100 5 1 1 3",
                &["1 258 258 91100", "3 258 5 2"],
            ),
            ("tape 90000", &["5"]),
            ("entry 259 2 0 5 1 0 0", &["0 7"]),
            ("bid 0", &[]),
            ("entry 259 2 0 2 1 0 0", &["1 259 259 1", "2 1 259 90000 2"]),
        ],
    );
}

/// In phase 2 as in phase 1; a second fall changes nothing about it.
#[test]
fn the_second_day() {
    assert_day_at_both_steps(
        &ten_shares_each(&["tape 90000", "end 100000", "bid 91000"]),
        &[
            ("entry 257 2 0 5 1 0 0", &["0 7"]),
            ("bid 0", &[]),
            ("entry 257 2 0 5 1 0 0", &["1 257 257 1", "2 1 257 90000 5"]),
            ("bid 91000", &[]),
            ("entry 258 2 0 5 1 0 0", &["0 7"]),
            ("tape 90000", &["5"]),
            ("entry 258 2 0 5 1 0 0", &["0 7"]),
            ("entry 258 3 0 5 1 0 0", &["1 258 258 1", "2 1 258 90000 5"]),
        ],
    );
}

/// Both kinds of entry. Own orders that would go, and so leave a place, don't help an order
/// that isn't immediate; for one that is, they are cancelled between its executions.
#[test]
fn own_orders_in_a_full_book() {
    let book = full_book(&[], |id| {
        let owner = 8 - id % 2;
        format!("owned {id} 0 90000 10 1 0 0 {owner}")
    });
    assert_day_at_both_steps(
        &book,
        &[
            ("owned 257 1 90000 10 1 0 0 7", &["0 7"]),
            (
                "owned 257 1 90000 15 1 1 0 7",
                &[
                    "1 257 257 90000",
                    "3 1 10 5",
                    "2 2 257 90000 10",
                    "3 3 10 5",
                    "2 4 257 90000 5",
                ],
            ),
            ("owned 258 0 90000 10 1 0 0 9", &["1 258 258 90000"]),
            ("entry 259 0 90000 10 1 0 0", &["1 259 259 90000"]),
            ("owned 260 0 90000 10 1 0 0 7", &["1 260 260 90000"]),
            ("owned 261 0 90000 10 1 0 0 7", &["0 7"]),
            (
                "owned 261 1 0 5 1 0 0 8",
                &["1 261 261 1", "3 4 5 5", "2 5 261 90000 5"],
            ),
            (
                "owned 262 0 90000 10 1 1 0 7",
                &["1 262 262 90000", "3 262 10 2"],
            ),
            ("owned 263 0 90000 10 1 0 0 7", &["1 263 263 90000"]),
            ("entry 264 0 90000 10 1 0 0", &["0 7"]),
        ],
    );
}

/// An immediate sale of the firm that all 256 orders are of cancels them all and then
/// itself.
#[test]
fn all_orders_of_one_firm() {
    let mut input = full_book(&[], |id| format!("owned {id} 0 90000 5 1 0 0 9"));
    push_event(&mut input, "owned 257 1 90000 5 1 1 0 9");
    push_event(&mut input, "entry 258 1 90000 5 1 1 0");
    let mut expected = vec!["1 257 257 90000".to_owned()];
    expected.extend((1..=256).map(|id| format!("3 {id} 5 5")));
    expected.extend(["3 257 5 2", "1 258 258 90000", "3 258 5 2"].map(str::to_owned));
    for step in [CENT, HALF_CENT] {
        let lines = play(step, &input);
        let last: Vec<&str> = lines.lines().skip(256).collect();
        assert_eq!(last, expected);
    }
}

/// A market order that takes all 256 orders, and has shares left.
#[test]
fn the_whole_book_is_taken() {
    let mut input = one_share_each();
    push_event(&mut input, "entry 257 1 0 300 1 0 0");
    push_event(&mut input, "entry 258 0 100 1 1 0 0");
    let mut expected = vec!["1 257 257 1".to_owned()];
    expected.extend((1..=256).map(|id| format!("2 {id} 257 100 1")));
    expected.extend(["3 257 44 2", "1 258 258 100"].map(str::to_owned));
    for step in [CENT, HALF_CENT] {
        let lines = play(step, &input);
        let last: Vec<&str> = lines.lines().skip(256).collect();
        assert_eq!(last, expected);
    }
}

/// "7 stays last" (F8.1), and an order that needs no place meets all that stand before it.
#[test]
fn the_other_refusals_stay() {
    assert_day_at_both_steps(
        &ten_shares_each(&[]),
        &[
            ("entry 257 0 90001 5 1 1 0", &["0 3"]),
            ("entry 257 0 90000 0 1 1 0", &["0 4"]),
            ("entry 257 1 0 1000001 1 0 0", &["0 4"]),
            ("entry 257 4 90000 5 1 1 0", &["0 18"]),
            ("entry 257 0 90000 5 2 1 0", &["0 5"]),
            ("entry 257 0 90000 5 1 2 0", &["0 5"]),
            ("entry 257 0 0 5 1 2 0", &["0 5"]),
            ("entry 257 2 90000 5 1 1 4", &["0 19"]),
            ("entry 257 0 90000 5 1 1 1", &["0 20"]),
            ("owned 257 0 90000 5 1 1 0 0", &["0 21"]),
            ("owned 257 0 90000 5 1 0 0 65536", &["0 21"]),
            ("entry 256 0 90000 5 1 1 0", &["0 6"]),
            ("entry 256 0 90000 5 1 0 0", &["0 6"]),
            ("owned 0 1 0 5 1 0 0 1", &["0 6"]),
            ("owned 257 0 90000 5 1 0 0 1", &["0 7"]),
            (
                "owned 257 0 90000 5 1 1 0 1",
                &["1 257 257 90000", "3 257 5 2"],
            ),
        ],
    );
}

/// 16, 1 and 2 come before all that, as ever; and an accepted one takes an id, a stamp and
/// one of the events.
#[test]
fn what_an_entry_without_a_place_leaves() {
    let full = venue_after(CENT, &one_share_each()).expect("a sound stream");
    let immediate = event_of("entry 257 0 100 5 1 1 0");
    let apply = |venue: &Venue, buffer: usize| {
        let mut after = venue.clone();
        let answer = after.apply(&immediate, &mut vec![0; buffer], RecordCheck::Done);
        (answer.map(|_| ()), after)
    };
    let expected = Venue {
        last_id: 257,
        last_stamp: 257,
        accepted: 257,
        ..full.clone()
    };
    assert_eq!(apply(&full, LEAST_BUFFER), (Ok(()), expected));
    let mut over = full.clone();
    let last = over.orders[255];
    (over.last_id, over.last_stamp, over.accepted) = (257, 257, 257);
    over.orders.push(Order {
        id: 257,
        stamp: 257,
        ..last
    });
    let spent = Venue {
        accepted: MOST_EVENTS,
        ..full.clone()
    };
    for (venue, buffer, refusal) in [
        (over, LEAST_BUFFER, Refusal::VenueRecord),
        (full, LEAST_BUFFER - 1, Refusal::ShortBuffer),
        (spent, LEAST_BUFFER, Refusal::Spent),
    ] {
        assert_eq!(apply(&venue, buffer), (Err(refusal), venue));
    }
}
