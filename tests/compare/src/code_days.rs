//! Days of entries with bad codes, worked out by hand from No. 3 of document 02. An
//! entry is id, mark, price, shares, show, life, slide.

use crate::days::{after_close, assert_day, push_event, Played};
use crate::model::{CENT, HALF_CENT};
use crate::program::play;

fn assert_day_at_both_steps(day: &[Played]) {
    assert_day(CENT, day);
    assert_day(HALF_CENT, day);
}

/// "They are looked for in the order mark, show, life, slide code, slide on the
/// wrong mark. These carry 18, 19 and 20"; each entry has one bad code less.
#[test]
fn the_first_bad_code_is_answered() {
    assert_day_at_both_steps(&[
        ("entry 1 4 90000 5 2 2 9", &["0 18"]),
        ("entry 1 0 90000 5 2 2 9", &["0 5"]),
        ("entry 1 0 90000 5 1 2 9", &["0 5"]),
        ("entry 1 0 90000 5 1 1 9", &["0 19"]),
        ("entry 1 0 90000 5 1 1 1", &["0 20"]),
        ("entry 1 0 90000 5 1 1 0", &["1 1 1 90000", "3 1 5 2"]),
    ]);
}

/// Each code at its borders, and far above them, with the others in order.
#[test]
fn one_bad_code() {
    assert_day_at_both_steps(&[
        ("entry 1 4 90000 5 1 0 0", &["0 18"]),
        ("entry 1 256 90000 5 1 0 0", &["0 18"]),
        ("entry 1 4294967295 90000 5 1 0 0", &["0 18"]),
        ("entry 1 0 90000 5 2 0 0", &["0 5"]),
        ("entry 1 0 90000 5 4294967295 0 0", &["0 5"]),
        ("entry 1 0 90000 5 1 2 0", &["0 5"]),
        ("entry 1 0 90000 5 1 4294967295 0", &["0 5"]),
        ("entry 1 2 90000 5 1 0 4", &["0 19"]),
        ("entry 1 2 90000 5 1 0 256", &["0 19"]),
        ("entry 1 2 90000 5 1 0 4294967295", &["0 19"]),
        ("entry 1 3 90000 5 0 1 0", &["1 1 1 90000", "3 1 5 2"]),
    ]);
}

/// 19 for a slide above 3 whatever the mark, 20 for 1 to 3 on marks 0, 1 and 3
/// (F3.1); a short has any of the four.
#[test]
fn slides_and_marks() {
    assert_day_at_both_steps(&[
        ("entry 1 0 90000 5 1 1 4", &["0 19"]),
        ("entry 1 1 90000 5 1 1 4", &["0 19"]),
        ("entry 1 2 90000 5 1 1 4", &["0 19"]),
        ("entry 1 3 90000 5 1 1 4", &["0 19"]),
        ("entry 1 0 90000 5 1 1 3", &["0 20"]),
        ("entry 1 1 90000 5 1 1 1", &["0 20"]),
        ("entry 1 1 90000 5 1 1 2", &["0 20"]),
        ("entry 1 3 90000 5 1 1 1", &["0 20"]),
        ("entry 1 3 90000 5 1 1 3", &["0 20"]),
        ("entry 1 4 90000 5 1 1 3", &["0 18"]),
        ("entry 1 2 90000 5 1 1 1", &["1 1 1 90000", "3 1 5 2"]),
        ("entry 2 2 90000 5 1 1 2", &["1 2 2 90000", "3 2 5 2"]),
        ("entry 3 2 90000 5 1 1 3", &["1 3 3 90000", "3 3 5 2"]),
    ]);
}

/// "in the place where 5 stands": behind 3 and 4, and before 6.
#[test]
fn price_and_shares_come_before_the_codes_and_the_id_after() {
    assert_day_at_both_steps(&[
        ("entry 1 9 90001 5 1 0 0", &["0 3"]),
        ("entry 1 2 90001 0 1 0 4", &["0 3"]),
        ("entry 1 9 90000 0 1 0 0", &["0 4"]),
        ("entry 1 2 90000 1000001 1 0 4", &["0 4"]),
        ("entry 1 0 0 0 1 0 1", &["0 4"]),
        ("entry 0 9 90000 5 1 0 0", &["0 18"]),
        ("entry 0 9 0 5 1 0 0", &["0 18"]),
        ("entry 0 1 90000 5 2 0 0", &["0 5"]),
        ("entry 0 2 90000 5 1 1 4", &["0 19"]),
        ("entry 0 1 90000 5 1 1 3", &["0 20"]),
        ("entry 0 2 90000 5 1 1 3", &["0 6"]),
    ]);
}

/// And before 7, also where the id is old.
#[test]
fn a_full_book_comes_after_the_codes() {
    let mut input = after_close(100_000);
    for id in 1..=256 {
        push_event(&mut input, &format!("entry {id} 0 90000 5 1 0 0"));
    }
    for event in [
        "entry 257 4 90000 5 1 0 0",
        "entry 257 0 90000 5 2 0 0",
        "entry 257 0 90000 5 1 2 0",
        "entry 256 2 90000 5 1 0 4",
        "entry 257 3 90000 5 1 0 1",
        "entry 256 2 90000 5 1 0 1",
        "entry 257 2 90000 5 1 0 1",
    ] {
        push_event(&mut input, event);
    }
    for step in [CENT, HALF_CENT] {
        let lines = play(step, &input);
        let last: Vec<&str> = lines.lines().skip(256).collect();
        assert_eq!(last, ["0 18", "0 5", "0 5", "0 19", "0 20", "0 6", "0 7"]);
    }
}
