//! Days of firms that don't trade with themselves, worked out by hand from No. 7 of
//! document 02. An owned entry is id, mark, price, shares, show, life, slide, owner.

use crate::days::{after_close, assert_day, event_of, lines_after, push_event, Played, ON};
use crate::model::{copy_out, Event, Order, OrderRecord, RecordCheck, Venue, CENT, HALF_CENT};
use crate::program::{play, venue_after};

fn assert_day_at_both_steps(day: &[Played]) {
    assert_day(CENT, day);
    assert_day(HALF_CENT, day);
}

/// A day by cents that goes on from where the restriction is on and the bid is 91,000.
fn assert_restricted_day(day: &[Played]) {
    assert_day(CENT, &[&ON, day].concat());
}

/// The customer's own day: "the resting one is cancelled (cause 5) and matching goes
/// on".
#[test]
fn own_orders_are_cancelled_between_the_executions() {
    assert_day_at_both_steps(&[
        ("owned 1 0 90000 100 1 0 0 7", &["1 1 1 90000"]),
        ("owned 2 0 90100 50 1 0 0 8", &["1 2 2 90100"]),
        ("owned 3 0 90200 30 1 0 0 7", &["1 3 3 90200"]),
        (
            "owned 4 1 90000 100 1 0 0 7",
            &["1 4 4 90000", "3 3 30 5", "2 2 4 90100 50", "3 1 100 5"],
        ),
        ("cancel 4", &["3 4 50 1"]),
        ("end 100000", &["6 0"]),
    ]);
}

/// The customer's own bad owners: "an owner outside its range is 21, after the slide
/// codes".
#[test]
fn owners_outside_the_range() {
    assert_day_at_both_steps(&[
        ("owned 1 0 90000 5 1 0 0 0", &["0 21"]),
        ("owned 1 0 90000 5 1 0 0 65536", &["0 21"]),
        ("owned 1 0 90000 5 1 0 0 65537", &["0 21"]),
        ("owned 1 0 90000 5 1 0 0 4294967295", &["0 21"]),
        ("owned 1 0 90000 5 1 0 1 0", &["0 20"]),
        ("owned 1 0 90000 5 1 0 1 65536", &["0 20"]),
        ("owned 1 2 90000 5 1 0 4 0", &["0 19"]),
        ("owned 1 2 90000 5 1 2 0 0", &["0 5"]),
        ("owned 1 2 90000 5 2 0 0 0", &["0 5"]),
        ("owned 1 4 90000 5 1 0 0 0", &["0 18"]),
        ("owned 1 0 90000 0 1 0 0 0", &["0 4"]),
        ("owned 1 0 90001 5 1 0 0 0", &["0 3"]),
        ("owned 1 0 0 5 1 0 0 0", &["0 21"]),
        ("owned 0 0 90000 5 1 0 0 0", &["0 21"]),
        ("owned 0 0 90000 5 1 0 0 65536", &["0 21"]),
        ("owned 0 0 90000 5 1 0 0 1", &["0 6"]),
        ("entry 1 0 90000 5 1 1 0", &["1 1 1 90000", "3 1 5 2"]),
        ("owned 2 0 90000 5 1 1 0 1", &["1 2 2 90000", "3 2 5 2"]),
        ("owned 3 0 90000 5 1 1 0 65535", &["1 3 3 90000", "3 3 5 2"]),
    ]);
}

/// It stands before 7 too, also where the id is old.
#[test]
fn a_full_book_comes_after_the_owner() {
    let mut input = after_close(100_000);
    for id in 1..=256 {
        push_event(&mut input, &format!("owned {id} 0 90000 5 1 0 0 9"));
    }
    for event in [
        "owned 257 0 90000 5 1 0 0 0",
        "owned 256 0 90000 5 1 0 0 65536",
        "owned 256 0 90000 5 1 0 0 9",
        "owned 257 1 90000 5 1 0 0 9",
        "entry 257 1 90000 5 1 0 0",
    ] {
        push_event(&mut input, event);
    }
    for step in [CENT, HALF_CENT] {
        let lines = play(step, &input);
        let last: Vec<&str> = lines.lines().skip(256).collect();
        assert_eq!(last, ["0 21", "0 21", "0 6", "0 7", "0 7"]);
    }
}

/// The customer's own bid: "This holds in the pass as well."
#[test]
fn own_orders_are_cancelled_in_the_pass() {
    assert_restricted_day(&[
        ("owned 1 2 90000 100 1 0 0 7", &["1 1 1 91100"]),
        ("owned 2 0 90800 40 1 0 0 7", &["1 2 2 90800"]),
        ("owned 3 0 90900 40 1 0 0 8", &["1 3 3 90900"]),
        ("bid 90000", &["4 1 90100 4", "2 3 1 90900 40", "3 2 40 5"]),
        ("cancel 2", &["0 8"]),
        ("cancel 1", &["3 1 60 1"]),
    ]);
}

/// "own orders behind the one that fills the working order stay" (F7.1), also at its
/// price: behind it by time, or hidden.
#[test]
fn own_orders_behind_the_one_that_fills_stay() {
    assert_day_at_both_steps(&[
        ("owned 1 1 90200 10 1 0 0 7", &["1 1 1 90200"]),
        ("owned 2 1 90000 10 0 0 0 7", &["1 2 2 90000"]),
        ("owned 3 1 90000 10 1 0 0 8", &["1 3 3 90000"]),
        ("owned 4 1 90000 10 1 0 0 7", &["1 4 4 90000"]),
        (
            "owned 5 0 90200 10 1 0 0 7",
            &["1 5 5 90200", "2 5 3 90000 10"],
        ),
        (
            "owned 6 0 90100 10 1 0 0 8",
            &["1 6 6 90100", "2 6 4 90000 10"],
        ),
        ("owned 7 0 90100 10 1 0 0 7", &["1 7 7 90100", "3 2 10 5"]),
        (
            "owned 8 0 90200 10 1 0 0 8",
            &["1 8 8 90200", "2 8 1 90200 10"],
        ),
        ("cancel 7", &["3 7 10 1"]),
    ]);
}

/// Owner 0 is no firm: orders of kind 1 trade with each other and with any firm.
#[test]
fn orders_without_an_owner_trade_with_all() {
    assert_day_at_both_steps(&[
        ("entry 1 0 90000 5 1 0 0", &["1 1 1 90000"]),
        ("entry 2 1 90000 5 1 0 0", &["1 2 2 90000", "2 1 2 90000 5"]),
        ("entry 3 0 90000 5 1 0 0", &["1 3 3 90000"]),
        (
            "owned 4 1 90000 5 1 0 0 7",
            &["1 4 4 90000", "2 3 4 90000 5"],
        ),
        ("owned 5 0 90000 5 1 0 0 7", &["1 5 5 90000"]),
        ("entry 6 1 90000 5 1 0 0", &["1 6 6 90000", "2 5 6 90000 5"]),
        ("owned 7 0 90000 5 1 0 0 7", &["1 7 7 90000"]),
        (
            "owned 8 1 90000 5 1 0 0 65535",
            &["1 8 8 90000", "2 7 8 90000 5"],
        ),
        ("owned 9 0 90000 5 1 0 0 256", &["1 9 9 90000"]),
        (
            "owned 10 1 90000 5 1 0 0 512",
            &["1 10 10 90000", "2 9 10 90000 5"],
        ),
        ("owned 11 0 90000 5 1 0 0 65535", &["1 11 11 90000"]),
        (
            "owned 12 1 90000 5 1 0 0 65535",
            &["1 12 12 90000", "3 11 5 5"],
        ),
        ("end 100000", &["3 12 5 4", "6 0"]),
    ]);
}

/// "with the resting order's shares left" (F7.2): those of a partly filled order.
#[test]
fn a_partly_filled_order_is_cancelled_with_the_shares_left() {
    assert_day_at_both_steps(&[
        ("owned 1 0 90000 100 1 0 0 7", &["1 1 1 90000"]),
        (
            "owned 2 1 90000 30 1 0 0 8",
            &["1 2 2 90000", "2 1 2 90000 30"],
        ),
        ("owned 3 1 90000 1 1 0 0 7", &["1 3 3 90000", "3 1 70 5"]),
        ("owned 4 0 89900 5 1 0 0 7", &["1 4 4 89900"]),
        ("owned 5 0 90000 5 1 0 0 7", &["1 5 5 90000", "3 3 1 5"]),
        ("end 100000", &["3 4 5 4", "3 5 5 4", "6 0"]),
    ]);
}

/// "An immediate order that then finds nothing is still cancelled (cause 2) [...] the
/// cancels of its own orders stand" (F7.2).
#[test]
fn immediate_orders_that_find_own_orders() {
    assert_day_at_both_steps(&[
        ("owned 1 1 90000 10 1 0 0 7", &["1 1 1 90000"]),
        ("owned 2 1 90100 20 1 0 0 7", &["1 2 2 90100"]),
        (
            "owned 3 0 90100 5 1 1 0 7",
            &["1 3 3 90100", "3 1 10 5", "3 2 20 5", "3 3 5 2"],
        ),
        ("owned 4 1 90000 10 1 0 0 7", &["1 4 4 90000"]),
        ("owned 5 1 90100 4 1 0 0 8", &["1 5 5 90100"]),
        (
            "owned 6 0 90100 5 1 1 0 7",
            &["1 6 6 90100", "3 4 10 5", "2 6 5 90100 4", "3 6 1 2"],
        ),
        ("end 100000", &["6 0"]),
    ]);
}

/// "an adjusted opt-out too (cause 3)".
#[test]
fn opt_outs_that_find_own_orders() {
    assert_restricted_day(&[
        ("owned 1 0 91200 10 1 0 0 7", &["1 1 1 91200"]),
        ("owned 2 0 91100 10 1 0 0 7", &["1 2 2 91100"]),
        (
            "owned 3 2 91000 5 1 0 3 7",
            &["1 3 3 91100", "3 1 10 5", "3 2 10 5", "3 3 5 3"],
        ),
        ("owned 4 0 91200 10 1 0 0 7", &["1 4 4 91200"]),
        ("owned 5 0 91100 3 1 0 0 8", &["1 5 5 91100"]),
        (
            "owned 6 2 91000 5 1 0 3 7",
            &["1 6 6 91100", "3 4 10 5", "2 5 6 91100 3", "3 6 2 3"],
        ),
        ("owned 7 0 91200 10 1 0 0 7", &["1 7 7 91200"]),
        ("owned 8 2 91100 5 1 0 3 7", &["1 8 8 91100", "3 7 10 5"]),
        ("owned 9 2 91000 5 1 1 3 7", &["1 9 9 91100", "3 9 5 2"]),
    ]);
}

/// "Price 0 is a market order there too" (F7.4): a buy at 100,000,000, a sell at 1,
/// and a restricted short with a bid present, which follows the bid.
#[test]
fn market_orders_of_firms() {
    assert_restricted_day(&[
        ("owned 1 1 95000 10 1 0 0 7", &["1 1 1 95000"]),
        ("owned 2 1 96000 10 1 0 0 8", &["1 2 2 96000"]),
        (
            "owned 3 0 0 5 1 0 0 7",
            &["1 3 3 100000000", "3 1 10 5", "2 3 2 96000 5"],
        ),
        (
            "owned 4 0 0 5 1 0 0 8",
            &["1 4 4 100000000", "3 2 5 5", "3 4 5 2"],
        ),
        ("owned 5 0 90500 10 1 0 0 7", &["1 5 5 90500"]),
        ("owned 6 2 0 20 1 0 0 7", &["1 6 6 91100"]),
        ("owned 7 0 90300 5 1 0 0 8", &["1 7 7 90300"]),
        ("owned 8 0 90200 5 1 0 0 7", &["1 8 8 90200"]),
        (
            "bid 90100",
            &["4 6 90200 9", "3 5 10 5", "2 7 6 90300 5", "3 8 5 5"],
        ),
        ("bid 0", &[]),
        ("owned 9 1 0 5 1 0 0 8", &["1 9 10 1", "3 9 5 2"]),
        (
            "owned 10 0 0 5 1 0 0 8",
            &["1 10 11 100000000", "2 10 6 90200 5"],
        ),
        (
            "owned 11 0 0 5 1 0 0 7",
            &["1 11 12 100000000", "3 6 10 5", "3 11 5 2"],
        ),
    ]);
}

/// In the pass of a tape price, which turns the restriction on: hidden shorts are
/// pushed up over their own firms' buys and others'. Each is looked at "with the book as
/// the earlier ones left it" (C6).
#[test]
fn own_orders_are_cancelled_in_the_pass_of_a_tape_price() {
    let buy = |id, price, owner| Order {
        mark: 0,
        ..short(id, price, owner)
    };
    let orders = vec![
        short(1, 90_000, 7),
        buy(2, 92_000, 7),
        buy(3, 91_500, 8),
        short(4, 90_000, 8),
        buy(5, 91_100, 7),
        buy(6, 91_000, 8),
        short(7, 90_000, 0),
        buy(8, 91_300, 0),
    ];
    let mut venue = Venue {
        bid: 91_000,
        last_id: 8,
        last_stamp: 8,
        accepted: 9,
        orders,
        ..Venue::fresh(CENT, 100_000)
    };
    let lines = lines_after(&mut venue, &Event::Tape { price: 90_000 });
    let expected = [
        "5",
        "4 1 91100 9",
        "3 2 10 5",
        "2 3 1 91500 10",
        "4 4 91100 10",
        "2 8 4 91300 10",
        "4 7 91100 11",
        "2 5 7 91100 10",
    ];
    assert_eq!(lines, expected);
    let left: Vec<(u32, u32)> = venue
        .orders
        .iter()
        .map(|order| (order.id, order.owner))
        .collect();
    assert_eq!(left, [(6, 8)]);
}

/// A hidden short of 10 shares with limit 90,000 that isn't adjusted.
fn short(id: u32, price: u32, owner: u32) -> Order {
    Order {
        id,
        mark: 2,
        limit: 90_000,
        shares: 10,
        show: 0,
        life: 0,
        slide: 0,
        stamp: id,
        price,
        entry_bid: 91_000,
        adjusted: false,
        used: false,
        clear: false,
        market: false,
        owner,
    }
}

/// "while shares remain": where one share remains, the next own order goes.
#[test]
fn own_orders_go_while_shares_remain() {
    assert_day_at_both_steps(&[
        ("owned 1 0 90000 5 1 0 0 8", &["1 1 1 90000"]),
        ("owned 2 0 90000 5 1 0 0 7", &["1 2 2 90000"]),
        ("owned 3 0 90000 5 1 0 0 8", &["1 3 3 90000"]),
        (
            "owned 4 1 90000 5 1 0 0 7",
            &["1 4 4 90000", "2 1 4 90000 5"],
        ),
        (
            "owned 5 1 90000 1 1 0 0 7",
            &["1 5 5 90000", "3 2 5 5", "2 3 5 90000 1"],
        ),
        ("end 100000", &["3 3 4 4", "6 0"]),
    ]);
}

/// "The order record and copy out show the owner", through a partial fill and a
/// re-pricing.
#[test]
fn copy_out_shows_owners() {
    let mut input = after_close(100_000);
    for event in [
        "bid 91000",
        "tape 90000",
        "owned 1 2 90000 100 1 0 0 7",
        "entry 2 2 90000 100 1 0 0",
        "owned 3 0 90000 40 1 0 0 65535",
        "owned 4 0 91100 40 1 0 0 8",
        "bid 90500",
    ] {
        push_event(&mut input, event);
    }
    let venue = venue_after(CENT, &input).expect("a whole day");
    let noise = OrderRecord::from(&short(9, 9, 9));
    let mut run = [noise; 3];
    assert_eq!(copy_out(&venue, &mut run), Ok(3));
    let seen = run.map(|record| (record.id, record.price, record.shares, record.owner));
    let expected = [
        (1, 90_600, 60, 7),
        (2, 90_600, 100, 0),
        (3, 90_000, 40, 65_535),
    ];
    assert_eq!(seen, expected);
}

/// "The fill question has owner 0": it counts orders that an owned entry would cancel.
#[test]
fn the_fill_question_has_owner_0() {
    let mut input = after_close(100_000);
    push_event(&mut input, "owned 1 0 90000 100 1 0 0 7");
    let mut venue = venue_after(CENT, &input).expect("a whole day");
    let entry = |owner| event_of(&format!("owned 2 1 90000 100 1 1 0 {owner}"));
    let Event::Entry(owned) = entry(7) else {
        panic!("an entry");
    };
    let answer = venue.would_fill(&owned.question(), RecordCheck::Done);
    let answer = answer.map(|fill| (fill.in_full, fill.read));
    assert_eq!(answer, Ok((true, 1)));
    let others = lines_after(&mut venue.clone(), &entry(8));
    assert_eq!(others, ["1 2 2 90000", "2 1 2 90000 100"]);
    let own = lines_after(&mut venue, &entry(7));
    assert_eq!(own, ["1 2 2 90000", "3 1 100 5", "3 2 100 2"]);
}
