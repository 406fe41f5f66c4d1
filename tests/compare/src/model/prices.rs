//! "Prices (242.612)", "Restriction (242.201(b))" and the watch.

use super::Refusal;

/// "A price is a 32-bit whole number of ten-thousandths of a dollar, legal
/// from 1 to 100,000,000".
pub const LOWEST: u32 = 1;
pub const HIGHEST: u32 = 100_000_000;
pub const DOLLAR: u32 = 10_000;

/// "Opening takes a step, 50 or 100, for prices from 10,000 up."
pub const HALF_CENT: u32 = 50;
pub const CENT: u32 = 100;

/// "Any other step is refused with 17".
pub fn is_step(step: u32) -> bool {
    step == HALF_CENT || step == CENT
}

/// "There legal prices are its multiples [...]; below, both stay as they were."
/// Said of a step only, as are the next two.
pub fn is_legal(step: u32, price: u32) -> bool {
    (LOWEST..=HIGHEST).contains(&price) && (price < DOLLAR || price.is_multiple_of(step))
}

/// "A bid is 0 (no bid) or a legal price", and "The highest bid is 100,000,000
/// less the step."
pub fn is_bid(step: u32, bid: u32) -> bool {
    bid == 0 || (is_legal(step, bid) && bid <= HIGHEST - step)
}

/// "Permitted price of bid b: 1 if b = 0; b + 1 if 1 ≤ b < 10,000", and from
/// there up "the permitted price is bid + step". Said of a bid only.
pub(super) fn permitted(step: u32, bid: u32) -> u32 {
    match bid {
        0 => 1,
        1..DOLLAR => bid + 1,
        _ => bid + step,
    }
}

/// The permitted price for hosts: 17 for what isn't a step, "before the close or
/// price is looked at", then 3 for what isn't a bid (B1).
pub fn permitted_price(step: u32, bid: u32) -> Result<u32, Refusal> {
    if !is_step(step) {
        Err(Refusal::Step)
    } else if !is_bid(step, bid) {
        Err(Refusal::Price)
    } else {
        Ok(permitted(step, bid))
    }
}

/// The trigger: "a tape price p with 10 × p ≤ 9 × close".
fn triggers(close: u32, price: u32) -> bool {
    10 * u64::from(price) <= 9 * u64::from(close)
}

/// "In phase 0 a tape price p with 10 × p ≤ 9 × close makes phase 1." No. 6: "In
/// phase 2 a tape price that meets the trigger gives phase 1 and report 5. In
/// phase 1 it still leaves the phase alone, without report 5." The close is that
/// of the last day end (F6.1).
pub fn phase_after_tape(phase: u32, close: u32, price: u32) -> u32 {
    match phase {
        0 | 2 if triggers(close, price) => 1,
        _ => phase,
    }
}

/// "A day end turns 1 into 2, and 2 or 0 into 0."
pub fn phase_after_day_end(phase: u32) -> u32 {
    if phase == 1 {
        2
    } else {
        0
    }
}

/// "the host's own watch record (close, phase)", laid out as include/venue.h
/// says.
#[derive(Clone, Copy, Debug, PartialEq, Eq)]
#[repr(C)]
pub struct Watch {
    pub close: u32,
    pub phase: u32,
}

/// "a tape price updates the host's own watch record (close, phase) by the
/// phase-0 rule, for any close; 3 if the price isn't legal." No. 6: "The watch
/// follows the same rule." A phase other than 0 and 2 is left alone (B4). 17 comes
/// before 3, and the close isn't judged at any step.
pub fn watch_tape(watch: &mut Watch, step: u32, price: u32) -> Result<(), Refusal> {
    if !is_step(step) {
        return Err(Refusal::Step);
    }
    if !is_legal(step, price) {
        return Err(Refusal::Price);
    }
    watch.phase = phase_after_tape(watch.phase, watch.close, price);
    Ok(())
}

#[cfg(test)]
mod tests {
    use super::*;

    /// Numbers that aren't steps: near to one, between the two, twice one.
    const BAD_STEPS: [u32; 10] = [0, 1, 49, 51, 75, 99, 101, 150, 200, u32::MAX];

    /// Eight of "Twelve sums"; the four byte counts are in `form`.
    #[test]
    fn sums() {
        assert_eq!(permitted_price(100, 9_998), Ok(9_999));
        assert_eq!(permitted_price(100, 9_999), Ok(10_000));
        assert_eq!(permitted_price(100, 10_000), Ok(10_100));
        assert_eq!(permitted_price(100, 99_999_900), Ok(100_000_000));
        assert_eq!(permitted_price(100, 100_000_000), Err(Refusal::Price));
        assert_eq!(phase_after_tape(0, 100_000, 90_000), 1);
        assert_eq!(phase_after_tape(0, 100_000, 90_100), 0);
        assert_eq!(phase_after_tape(0, 9_999, 8_999), 1);
        assert_eq!(phase_after_tape(0, 9_999, 9_000), 0);
    }

    /// "In phase 2 a tape price that meets the trigger gives phase 1", "In phase 1 it
    /// still leaves the phase alone"; a day end is as it was.
    #[test]
    fn phases() {
        let after = |price| [0, 1, 2].map(|phase| phase_after_tape(phase, 100_000, price));
        assert_eq!(after(90_100), [0, 1, 2]);
        assert_eq!(after(90_000), [1, 1, 1]);
        assert_eq!(after(89_900), [1, 1, 1]);
        assert_eq!([0, 1, 2].map(phase_after_day_end), [0, 2, 0]);
    }

    /// The same sums for half-cent stocks: "below, both stay as they were", and
    /// 90,050 is the lowest price that doesn't trigger at close 100,000.
    #[test]
    fn sums_at_the_half_cent_step() {
        assert_eq!(permitted_price(50, 0), Ok(1));
        assert_eq!(permitted_price(50, 1), Ok(2));
        assert_eq!(permitted_price(50, 9_998), Ok(9_999));
        assert_eq!(permitted_price(50, 9_999), Ok(10_000));
        assert_eq!(permitted_price(50, 10_000), Ok(10_050));
        assert_eq!(permitted_price(50, 10_050), Ok(10_100));
        assert_eq!(permitted_price(50, 99_999_900), Ok(99_999_950));
        assert_eq!(permitted_price(50, 99_999_950), Ok(100_000_000));
        assert_eq!(permitted_price(50, 100_000_000), Err(Refusal::Price));
        assert_eq!(permitted_price(100, 99_999_950), Err(Refusal::Price));
        assert_eq!(permitted_price(100, 10_050), Err(Refusal::Price));
        assert_eq!(phase_after_tape(0, 100_000, 90_050), 0);
        assert_eq!(phase_after_tape(0, 100_050, 90_000), 1);
        assert_eq!(phase_after_tape(0, 100_050, 90_050), 0);
    }

    /// A number, whether it is a legal price, and whether a bid.
    type Judged = (u32, bool, bool);

    fn assert_judged(step: u32, numbers: &[Judged]) {
        for &(number, legal, bid) in numbers {
            let judged = (is_legal(step, number), is_bid(step, number));
            assert_eq!(judged, (legal, bid), "{number} at step {step}");
        }
    }

    #[test]
    fn legal_prices_and_bids_at_both_steps() {
        for step in [50, 100] {
            assert_judged(
                step,
                &[
                    (0, false, true),
                    (1, true, true),
                    (49, true, true),
                    (51, true, true),
                    (9_951, true, true),
                    (9_999, true, true),
                    (10_000, true, true),
                    (10_001, false, false),
                    (10_025, false, false),
                    (10_049, false, false),
                    (10_051, false, false),
                    (10_099, false, false),
                    (10_100, true, true),
                    (99_999_900, true, true),
                    (99_999_949, false, false),
                    (99_999_999, false, false),
                    (100_000_000, true, false),
                    (100_000_050, false, false),
                    (100_000_100, false, false),
                    (u32::MAX, false, false),
                ],
            );
        }
        assert_judged(50, &[(10_050, true, true), (99_999_950, true, true)]);
        assert_judged(100, &[(10_050, false, false), (99_999_950, false, false)]);
    }

    /// "Any other step is refused with 17, before the close or price is looked
    /// at": beside a bid, beside what is a bid at no step, and with the highest.
    #[test]
    fn the_permitted_price_refuses_other_steps() {
        for step in BAD_STEPS {
            for bid in [0, 9_999, 10_000, 10_001, 10_050, 100_000_000, u32::MAX] {
                assert_eq!(permitted_price(step, bid), Err(Refusal::Step));
            }
        }
    }

    #[test]
    fn a_watch_refuses_other_steps_and_stays() {
        for step in BAD_STEPS {
            for price in [0, 1, 10_000, 10_001, 10_050, 100_000_001] {
                let mut watch = WATCH;
                let answer = watch_tape(&mut watch, step, price);
                assert_eq!((answer, watch), (Err(Refusal::Step), WATCH));
            }
        }
    }

    const WATCH: Watch = Watch {
        close: 100_000,
        phase: 0,
    };

    /// A step, a close, the highest price that triggers there and the next above;
    /// at 0 and 1 no price does, at 111,111,112 and up every one.
    const TRIGGERS: [(u32, u32, u32, u32); 11] = [
        (100, 100_000, 90_000, 90_100),
        (50, 100_000, 90_000, 90_050),
        (100, 100_100, 90_000, 90_100),
        (50, 100_050, 90_000, 90_050),
        (100, 9_999, 8_999, 9_000),
        (50, 11_111, 9_999, 10_000),
        (100, 11_112, 10_000, 10_100),
        (50, 10, 9, 10),
        (100, 9, 8, 9),
        (50, 2, 1, 2),
        (100, 111_111_111, 99_999_900, 100_000_000),
    ];

    /// "The watch follows the same rule.", in phases 0 and 2 alone (B4).
    fn watched(phase: u32, triggers: bool) -> u32 {
        match (phase, triggers) {
            (0, true) => 1,
            (2, true) => 1,
            (phase, _) => phase,
        }
    }

    fn assert_watched(step: u32, close: u32, price: u32, triggers: bool) {
        for phase in [0, 1, 2, 3, 9, u32::MAX] {
            let mut watch = Watch { close, phase };
            assert_eq!(watch_tape(&mut watch, step, price), Ok(()));
            let phase = watched(phase, triggers);
            assert_eq!(watch, Watch { close, phase }, "tape {price}");
        }
    }

    #[test]
    fn a_watch_follows_falls_in_phases_0_and_2() {
        for (step, close, highest, above) in TRIGGERS {
            assert_watched(step, close, highest, true);
            assert_watched(step, close, above, false);
            assert_watched(step, close, 1, true);
        }
        for step in [50, 100] {
            assert_watched(step, 100_000, 90_000 - step, true);
            for price in [1, 9_999, HIGHEST] {
                assert_watched(step, 0, price, false);
                assert_watched(step, 1, price, false);
                assert_watched(step, 111_111_112, price, true);
                assert_watched(step, u32::MAX, price, true);
            }
        }
    }

    #[test]
    fn a_watch_takes_half_cent_prices_at_the_half_cent_step_only() {
        let cases = [
            (50, 90_050, Ok(()), 0),
            (50, 89_950, Ok(()), 1),
            (50, 89_975, Err(Refusal::Price), 0),
            (100, 89_950, Err(Refusal::Price), 0),
            (100, 89_900, Ok(()), 1),
        ];
        for (step, price, answer, phase) in cases {
            let mut watch = WATCH;
            assert_eq!(watch_tape(&mut watch, step, price), answer);
            assert_eq!(watch, Watch { phase, ..WATCH });
        }
    }

    #[test]
    fn a_watch_takes_any_close_and_phase_and_only_legal_prices() {
        let cases = [
            ((100_000, 0), 90_000, Ok(()), 1),
            ((100_000, 0), 90_100, Ok(()), 0),
            ((u32::MAX, 0), HIGHEST, Ok(()), 1),
            ((0, 0), 1, Ok(()), 0),
            ((100_000, 1), 1, Ok(()), 1),
            ((100_000, 2), 1, Ok(()), 1),
            ((100_000, 2), 90_100, Ok(()), 2),
            ((100_000, 7), 1, Ok(()), 7),
            ((100_025, 0), 90_000, Ok(()), 1),
            ((100_000, 0), 0, Err(Refusal::Price), 0),
            ((100_000, 0), 10_001, Err(Refusal::Price), 0),
        ];
        for ((close, phase), price, answer, after) in cases {
            for step in [50, 100] {
                let mut watch = Watch { close, phase };
                assert_eq!(watch_tape(&mut watch, step, price), answer);
                let phase = after;
                assert_eq!(watch, Watch { close, phase });
            }
        }
    }
}
