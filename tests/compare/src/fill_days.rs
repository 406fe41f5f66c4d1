//! Questions of No. 4 of document 02, with answers that were worked out by hand. A
//! question is mark, price, shares; an entry is id, mark, price, shares, show, life,
//! slide.

use crate::days::{after_close, push_event};
use crate::model::{Question, RecordCheck, Refusal, Venue, CENT, HALF_CENT, MOST_EVENTS};
use crate::program::venue_after;

/// An answer: a yes or a no with the count of orders read, or a refusal.
#[derive(Debug, PartialEq, Eq)]
enum Said {
    Yes(usize),
    No(usize),
    Refused(u32),
}

use Said::{No, Refused, Yes};

type Asked = ([u32; 3], Said);

/// The venue after these events and a close of 100,000.
fn venue_of(step: u32, events: &[&str]) -> Venue {
    let mut input = after_close(100_000);
    events
        .iter()
        .for_each(|event| push_event(&mut input, event));
    venue_after(step, &input).expect("a sound stream")
}

fn ask(venue: &Venue, [mark, price, shares]: [u32; 3]) -> Said {
    let asked = Question {
        mark,
        price,
        shares,
    };
    match venue.would_fill(&asked, RecordCheck::Done) {
        Ok(fill) if fill.in_full => Yes(fill.read),
        Ok(fill) => No(fill.read),
        Err(refusal) => Refused(refusal.number()),
    }
}

fn assert_answers(venue: &Venue, asked: &[Asked]) {
    for (question, answer) in asked {
        let step = venue.step;
        assert_eq!(ask(venue, *question), *answer, "{question:?} at {step}");
    }
}

/// Buys below, at and above the permitted price, and a sell: bid 91,000 with the
/// restriction on.
const FOUR: [&str; 6] = [
    "bid 91000",
    "tape 90000",
    "entry 1 0 90900 100 1 0 0",
    "entry 2 1 91500 50 1 0 0",
    "entry 3 0 91200 300 1 0 0",
    "entry 4 0 91100 200 1 0 0",
];

/// The same at both steps: no buy lies between 91,050 and 91,100.
const OF_FOUR: [Asked; 9] = [
    ([2, 90_000, 300], Yes(3)),
    ([2, 90_000, 400], Yes(4)),
    ([2, 90_000, 501], No(4)),
    ([2, 0, 500], Yes(4)),
    ([1, 90_000, 100], Yes(1)),
    ([0, 91_500, 50], Yes(2)),
    ([0, 0, 51], No(4)),
    ([9, 0, 0], Refused(4)),
    ([9, 0, 1], Refused(18)),
];

#[test]
fn four_orders() {
    for step in [CENT, HALF_CENT] {
        let venue = venue_of(step, &FOUR);
        assert_answers(&venue, &OF_FOUR);
        let broken = Venue { phase: 3, ..venue };
        for (question, _) in OF_FOUR {
            assert_eq!(ask(&broken, question), Refused(16));
        }
    }
}

/// 90,050 is a price at the half-cent step, so its shares are looked at there.
#[test]
fn a_half_cent_price() {
    assert_answers(&venue_of(CENT, &FOUR), &[([9, 90_050, 0], Refused(3))]);
    let asked = [
        ([9, 90_050, 0], Refused(4)),
        ([9, 90_050, 1], Refused(18)),
        ([1, 90_050, 600], Yes(4)),
        ([9, 90_051, 0], Refused(3)),
    ];
    assert_answers(&venue_of(HALF_CENT, &FOUR), &asked);
}

/// A buy at the permitted price of half a cent, and one at that of a cent: what a
/// restricted short reaches follows from the step.
#[test]
fn the_step_gives_the_working_price() {
    let events = [
        "bid 91000",
        "tape 90000",
        "entry 1 0 91050 100 1 0 0",
        "entry 2 0 91100 100 1 0 0",
    ];
    let at_50 = venue_of(HALF_CENT, &events);
    assert_answers(
        &at_50,
        &[([2, 91_000, 200], Yes(2)), ([2, 91_100, 200], No(2))],
    );
    let at_100 = venue_of(CENT, &events);
    assert_answers(
        &at_100,
        &[([2, 91_000, 100], Yes(1)), ([2, 91_000, 101], No(1))],
    );
}

/// "Restricted" is said of mark 2 in phases 1 and 2, and with no bid the permitted
/// price is 1.
#[test]
fn the_restriction_is_applied_to_shorts_alone() {
    let off = ["bid 91000", "entry 1 0 90900 100 1 0 0"];
    let free = [
        ([1, 90_900, 100], Yes(1)),
        ([2, 90_900, 100], Yes(1)),
        ([3, 90_900, 100], Yes(1)),
        ([2, 91_000, 100], No(1)),
        ([2, 0, 100], Yes(1)),
    ];
    let on = [&off[..], &["tape 90000"]].concat();
    let next_day = [&["tape 90000", "end 100000"], &off[..]].concat();
    let no_bid = [&on[..], &["bid 0"]].concat();
    let restricted = [
        ([1, 90_900, 100], Yes(1)),
        ([2, 90_900, 100], No(1)),
        ([3, 90_900, 100], Yes(1)),
        ([2, 0, 100], No(1)),
        ([3, 0, 100], Yes(1)),
    ];
    for step in [CENT, HALF_CENT] {
        assert_answers(&venue_of(step, &off), &free);
        assert_answers(&venue_of(step, &on), &restricted);
        assert_answers(&venue_of(step, &next_day), &restricted);
        assert_answers(&venue_of(step, &no_bid), &free);
    }
}

/// Hidden orders count, and so do shorts where they have slid to; reading is in id
/// order, whatever is best.
#[test]
fn orders_are_read_in_id_order() {
    let events = [
        "bid 91000",
        "tape 90000",
        "entry 5 3 91700 10 0 0 0",
        "entry 6 0 90800 10 0 0 0",
        "entry 7 2 90000 10 1 0 0",
        "entry 9 1 91600 10 0 0 0",
    ];
    for step in [CENT, HALF_CENT] {
        let asked = [
            ([0, 91_700, 1], Yes(1)),
            ([0, 91_700, 10], Yes(1)),
            ([0, 91_700, 11], Yes(3)),
            ([0, 91_700, 21], Yes(4)),
            ([0, 91_700, 30], Yes(4)),
            ([0, 91_700, 31], No(4)),
            ([0, 91_600, 20], Yes(4)),
            ([0, 91_000 + step, 10], Yes(3)),
            ([0, 91_000, 1], No(4)),
            ([1, 90_800, 10], Yes(2)),
            ([3, 0, 11], No(4)),
        ];
        assert_answers(&venue_of(step, &events), &asked);
    }
}

/// "a full book or spent events don't matter to it"; an empty book is a no with
/// nothing read.
#[test]
fn full_spent_and_empty() {
    for step in [CENT, HALF_CENT] {
        let empty = Venue {
            accepted: MOST_EVENTS,
            ..Venue::fresh(step, 100_000)
        };
        assert_answers(&empty, &[([0, 0, 1], No(0)), ([4, 0, 1], Refused(18))]);
        let entries: Vec<String> = (1..=256)
            .map(|id| format!("entry {id} 0 90000 1000000 1 0 0"))
            .collect();
        let events: Vec<&str> = entries.iter().map(String::as_str).collect();
        let full = venue_of(step, &events);
        let asked = [
            ([1, 90_000, 1_000_000], Yes(1)),
            ([1, 90_000, 1_000_001], Refused(4)),
            ([1, 90_100, 1], No(256)),
            ([0, 0, 1], No(256)),
        ];
        assert_answers(&full, &asked);
        let spent = Venue {
            accepted: MOST_EVENTS,
            ..full
        };
        assert_answers(&spent, &asked);
    }
}

/// "16, 3 (not for 0), 4, 18" at their borders.
#[test]
fn refusals_in_order() {
    for step in [CENT, HALF_CENT] {
        let venue = venue_of(step, &FOUR);
        let asked = [
            ([4, 90_001, 0], Refused(3)),
            ([0, 100_000_001, 1], Refused(3)),
            ([0, u32::MAX, 1], Refused(3)),
            ([4, 90_000, 0], Refused(4)),
            ([4, 0, u32::MAX], Refused(4)),
            ([0, 90_000, 1_000_001], Refused(4)),
            ([4, 90_000, 1], Refused(18)),
            ([256, 90_000, 1], Refused(18)),
            ([u32::MAX, 0, 1_000_000], Refused(18)),
        ];
        assert_answers(&venue, &asked);
        let broken = Venue { close: 0, ..venue };
        for (question, _) in asked {
            assert_eq!(
                ask(&broken, question),
                Refused(Refusal::VenueRecord.number())
            );
        }
    }
}
