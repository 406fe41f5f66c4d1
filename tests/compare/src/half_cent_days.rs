//! Days of half-cent stocks, worked out by hand from No. 2 of document 02, beside
//! what the step of a cent does.

use crate::days::{assert_day, Played, ON};
use crate::model::{CENT, HALF_CENT};

/// A day that goes on from where the restriction is on and the bid is 91,000.
fn assert_restricted_day(step: u32, day: &[Played]) {
    assert_day(step, &[&ON, day].concat());
}

/// A short slides by half cents; prices and bids at the borders.
#[test]
fn a_half_cent_day() {
    assert_day(
        HALF_CENT,
        &[
            ("bid 91000", &[]),
            ("tape 90000", &["5"]),
            ("entry 1 2 90550 500 1 0 0", &["1 1 1 91050"]),
            ("bid 90750", &["4 1 90800 2"]),
            ("bid 90250", &["4 1 90550 3"]),
            ("entry 2 0 90555 100 1 0 0", &["0 3"]),
            ("bid 9999", &[]),
            ("bid 10000", &[]),
            ("bid 99999950", &[]),
            ("bid 100000000", &["0 3"]),
            ("tape 10050", &[]),
            ("tape 10025", &["0 3"]),
        ],
    );
}

/// The same events at the step of a cent: half-cent prices are refused, of every
/// kind, and the other prices slide by cents.
#[test]
fn a_half_cent_day_at_the_step_of_a_cent() {
    assert_restricted_day(
        CENT,
        &[
            ("entry 1 2 90550 500 1 0 0", &["0 3"]),
            ("entry 1 2 90500 500 1 0 0", &["1 1 1 91100"]),
            ("bid 90750", &["0 3"]),
            ("bid 90700", &["4 1 90800 2"]),
            ("bid 90250", &["0 3"]),
            ("bid 90200", &["4 1 90500 3"]),
            ("bid 99999950", &["0 3"]),
            ("bid 99999900", &[]),
            ("tape 10050", &["0 3"]),
            ("end 10050", &["0 3"]),
            ("end 10100", &["3 1 500 4", "6 2"]),
        ],
    );
}

/// "Everything resting on a permitted price follows": a push up, opt-out at and
/// below the permitted price, continuous and once, market shorts, and trades at
/// half-cent prices.
#[test]
fn hidden_shorts_stay_half_a_cent_above_the_bid() {
    assert_restricted_day(
        HALF_CENT,
        &[
            ("entry 1 2 90000 100 0 0 0", &["1 1 1 91050"]),
            ("bid 91050", &["4 1 91100 2"]),
            ("entry 2 2 0 100 0 0 1", &["1 2 3 91100"]),
            ("entry 3 2 91050 10 1 0 3", &["1 3 4 91100", "3 3 10 3"]),
            ("entry 4 2 91100 10 0 0 3", &["1 4 5 91100"]),
            ("bid 91100", &["4 1 91150 6", "4 2 91150 7", "3 4 10 3"]),
            ("bid 90950", &["4 1 91000 8", "4 2 91050 9"]),
            (
                "entry 5 0 91050 150 1 0 0",
                &["1 5 10 91050", "2 5 1 91000 100", "2 5 2 91050 50"],
            ),
            ("bid 0", &[]),
            ("cancel 2", &["3 2 50 1"]),
        ],
    );
}

/// "for prices from 10,000 up", "below, both stay as they were": through the
/// border both ways.
#[test]
fn below_the_border_the_step_is_one() {
    assert_restricted_day(
        HALF_CENT,
        &[
            ("entry 1 2 1 5 0 0 0", &["1 1 1 91050"]),
            ("bid 10000", &["4 1 10050 2"]),
            ("bid 10050", &["4 1 10100 3"]),
            ("bid 9999", &["4 1 10000 4"]),
            ("bid 9950", &["4 1 9951 5"]),
            ("bid 9951", &["4 1 9952 6"]),
            ("bid 10025", &["0 3"]),
            ("bid 10000", &["4 1 10050 7"]),
            ("bid 0", &["4 1 1 8"]),
        ],
    );
}

/// "The highest bid is 100,000,000 less the step." "A market buy works at
/// 100,000,000 at both steps" (F2.3).
#[test]
fn the_highest_prices_of_half_cent_stocks() {
    assert_restricted_day(
        HALF_CENT,
        &[
            ("bid 99999950", &[]),
            ("entry 1 2 0 5 0 0 0", &["1 1 1 100000000"]),
            ("entry 2 2 99999950 5 1 0 2", &["1 2 2 100000000"]),
            ("bid 99999951", &["0 3"]),
            ("bid 99999900", &["4 1 99999950 3"]),
            (
                "entry 3 0 0 6 1 0 0",
                &["1 3 4 100000000", "2 3 1 99999950 5", "2 3 2 100000000 1"],
            ),
            ("entry 4 1 99999950 2 1 0 0", &["1 4 5 99999950"]),
            ("entry 5 1 100000050 2 1 0 0", &["0 3"]),
            ("end 99999950", &["3 2 4 4", "3 4 2 4", "6 2"]),
        ],
    );
}

/// "10 × p ≤ 9 × close" at half-cent closes and tape prices: 9 × 100,050 is
/// 900,450, 9 × 10,050 is 90,450.
#[test]
fn half_cent_triggers() {
    assert_day(
        HALF_CENT,
        &[
            ("tape 90050", &[]),
            ("tape 89950", &["5"]),
            ("end 100050", &["6 2"]),
            ("end 100050", &["6 0"]),
            ("tape 90050", &[]),
            ("tape 90000", &["5"]),
            ("end 10050", &["6 2"]),
            ("end 10050", &["6 0"]),
            ("tape 9046", &[]),
            ("tape 9045", &["5"]),
        ],
    );
}

/// "There legal prices are its multiples": each kind of event refuses what lies
/// between two of them and above the highest.
#[test]
fn prices_between_half_cents() {
    assert_day(
        HALF_CENT,
        &[
            ("entry 1 0 10001 5 1 0 0", &["0 3"]),
            ("entry 1 0 10025 5 1 0 0", &["0 3"]),
            ("entry 1 0 10049 5 1 0 0", &["0 3"]),
            ("entry 1 0 10051 5 1 0 0", &["0 3"]),
            ("entry 1 0 10050 5 1 0 0", &["1 1 1 10050"]),
            ("entry 2 0 9999 5 1 0 0", &["1 2 2 9999"]),
            ("bid 10049", &["0 3"]),
            ("bid 10051", &["0 3"]),
            ("tape 10001", &["0 3"]),
            ("tape 100000050", &["0 3"]),
            ("end 10099", &["0 3"]),
            ("end 99999975", &["0 3"]),
            ("end 99999950", &["3 1 5 4", "3 2 5 4", "6 0"]),
        ],
    );
}
