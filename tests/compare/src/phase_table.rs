//! The phases of document 01 and No. 6 of document 02 as a table: what a tape price and
//! a day end make of each, where report 5 stands, and what becomes of a watch. No
//! formula here is the model's. Behind report 5, a second fall does what the same tape
//! price does in phase 1. A timed price "does all that a tape event does", behind its report
//! 7.

use crate::document_01::triggers;
use crate::model::{Event, RecordCheck, Refusal, Report, TimedPrice, Venue, Watch};
use crate::pauses::behind_pause;
use crate::sessions::{ensure, Fault};

/// How phases follow each other, in parts.
#[derive(Clone, Copy)]
struct Rule {
    /// The close that a tape price is held against: from the phase, the close of the
    /// last day end and that of the day before.
    close: fn(u32, u32, u32) -> u32,
    /// From the phase, the close and the price: the phase after it, and whether report
    /// 5 comes.
    tape: fn(u32, u32, u32) -> (u32, bool),
    /// Whether the reports are those of an event in a phase that has report 5.
    reports_on: fn(u32, &[Report]) -> bool,
    day_end: fn(u32) -> u32,
    /// The phase of a watch after a price.
    watch: fn(&Watch, u32) -> u32,
}

const RULE: Rule = Rule {
    close: |_, close, _| close,
    tape: after_tape,
    reports_on: |_, reports| is_on_first(reports),
    day_end: after_day_end,
    watch: |watch, price| after_tape(watch.phase, watch.close, price).0,
};

/// "In phase 0 a tape price p with 10 × p ≤ 9 × close makes phase 1." "In phase 2 a
/// tape price that meets the trigger gives phase 1 and report 5. In phase 1 it still
/// leaves the phase alone, without report 5."
fn after_tape(phase: u32, close: u32, price: u32) -> (u32, bool) {
    match (phase, triggers(close, price)) {
        (0, true) => (1, true),
        (2, true) => (1, true),
        (_, true) => (phase, false),
        (_, false) => (phase, false),
    }
}

/// "A day end turns 1 into 2, and 2 or 0 into 0."
fn after_day_end(phase: u32) -> u32 {
    [0, 2, 0][phase as usize]
}

/// The phase of a watch after a price that it takes: "The watch follows the same
/// rule."
pub fn watched(before: &Watch, price: u32) -> u32 {
    (RULE.watch)(before, price)
}

fn is_on(report: &Report) -> bool {
    matches!(report, Report::RestrictionOn)
}

fn count_on(reports: &[Report]) -> usize {
    reports.iter().filter(|report| is_on(report)).count()
}

/// "5 restriction on, before the pass"
fn is_on_first(reports: &[Report]) -> bool {
    reports.first().is_some_and(is_on) && count_on(reports) == 1
}

impl Rule {
    /// Whether an accepted event, the day before which had that close, keeps to the
    /// rule.
    fn holds(
        &self,
        close_before: u32,
        before: &Venue,
        event: &Event,
        reports: &[Report],
        after: &Venue,
    ) -> bool {
        let reports = behind_pause(event, reports);
        let was = before.phase;
        let close = (self.close)(was, before.close, close_before);
        let (phase, on) = match *event {
            Event::Tape { price } | Event::Timed(TimedPrice { price, .. }) => {
                (self.tape)(was, close, price)
            }
            Event::DayEnd { .. } => ((self.day_end)(was), false),
            _ => (was, false),
        };
        let is_reported = match on {
            true => (self.reports_on)(was, reports),
            false => count_on(reports) == 0,
        };
        let ended = Report::DayEnded { phase };
        let is_ended = match event {
            Event::DayEnd { .. } => reports.last() == Some(&ended),
            _ => true,
        };
        after.phase == phase && is_reported && is_ended
    }
}

/// Checks an event on a sound venue record with a report buffer of that length.
pub fn check(
    before: &Venue,
    event: &Event,
    buffer: usize,
    answer: Result<&[Report], Refusal>,
    after: &Venue,
) -> Result<(), Fault> {
    let Ok(reports) = answer else {
        return Ok(());
    };
    let holds = RULE.holds(before.close, before, event, reports, after);
    ensure(holds, "the table of phases")?;
    match *event {
        Event::Tape { price } | Event::Timed(TimedPrice { price, .. })
            if before.phase == 2 && triggers(before.close, price) =>
        {
            let others = reports.iter().filter(|report| !is_on(report)).copied();
            let others: Vec<Report> = others.collect();
            check_second_fall(before, event, buffer, &others, after)
        }
        _ => Ok(()),
    }
}

/// The reports but for report 5 and the venue are those of the same tape price on the
/// same venue in phase 1.
fn check_second_fall(
    before: &Venue,
    event: &Event,
    buffer: usize,
    others: &[Report],
    after: &Venue,
) -> Result<(), Fault> {
    let mut other = Venue {
        phase: 1,
        ..before.clone()
    };
    let mut bytes = vec![0; buffer];
    let answer = other.apply(event, &mut bytes, RecordCheck::Done);
    let reports = answer.and_then(|count| Report::read_all(&bytes[..count]));
    let same = reports.as_deref() == Ok(others);
    ensure(same, "the reports of a second fall")?;
    ensure(*after == other, "the venue of a second fall")
}

#[cfg(test)]
mod tests {
    use super::*;
    use crate::model::{watch_tape, Order};
    use crate::odd::any_watch;
    use crate::rng::Rng;
    use crate::shown::assert_told_apart;

    /// A wrong version of the rule, and what is wrong with it.
    type Wrong = (&'static str, Rule);

    type Tape = fn(u32, u32, u32) -> (u32, bool);

    /// Other phases after a tape price.
    fn other_phases() -> Vec<Wrong> {
        let wrong: [(&str, Tape); 6] = [
            ("phase 2 left alone", |phase, close, price| match phase {
                2 => (2, false),
                _ => after_tape(phase, close, price),
            }),
            ("phase 2 stays and reports 5", |phase, close, price| {
                let (after, on) = after_tape(phase, close, price);
                (if phase == 2 { 2 } else { after }, on)
            }),
            (
                "phase 2 off without a trigger",
                |phase, close, price| match (phase, triggers(close, price)) {
                    (2, false) => (0, false),
                    _ => after_tape(phase, close, price),
                },
            ),
            ("phase 2 without report 5", |phase, close, price| {
                let (after, on) = after_tape(phase, close, price);
                (after, on && phase != 2)
            }),
            ("report 5 in phase 1", |phase, close, price| {
                let (after, _) = after_tape(phase, close, price);
                (after, triggers(close, price))
            }),
            ("phase 1 carried", |phase, close, price| match phase {
                1 if triggers(close, price) => (2, false),
                _ => after_tape(phase, close, price),
            }),
        ];
        let version = |tape| Rule { tape, ..RULE };
        wrong.map(|(name, tape)| (name, version(tape))).to_vec()
    }

    /// By another trigger.
    fn by(phase: u32, is_fall: bool) -> (u32, bool) {
        match is_fall {
            true => (1, true),
            false => (phase, false),
        }
    }

    /// Other borders of the trigger, in phase 0 and in phase 2.
    fn other_triggers() -> Vec<Wrong> {
        let wrong: [(&str, Tape); 5] = [
            (
                "90% is no fall in phase 0",
                |phase, close, price| match phase {
                    0 => by(phase, 10 * price < 9 * close),
                    _ => after_tape(phase, close, price),
                },
            ),
            (
                "90% is no fall in phase 2",
                |phase, close, price| match phase {
                    2 => by(phase, 10 * price < 9 * close),
                    _ => after_tape(phase, close, price),
                },
            ),
            (
                "90% rounded up in phase 2",
                |phase, close, price| match phase {
                    2 => by(phase, price <= close - close / 10),
                    _ => after_tape(phase, close, price),
                },
            ),
            ("any price in phase 2", |phase, close, price| match phase {
                2 => by(phase, true),
                _ => after_tape(phase, close, price),
            }),
            ("any fall in phase 2", |phase, close, price| match phase {
                2 => by(phase, price < close),
                _ => after_tape(phase, close, price),
            }),
        ];
        let version = |tape| Rule { tape, ..RULE };
        wrong.map(|(name, tape)| (name, version(tape))).to_vec()
    }

    fn is_on_last(reports: &[Report]) -> bool {
        reports.last().is_some_and(is_on)
    }

    /// Report 5 in another place, and a fall without its pass.
    fn other_reports() -> Vec<Wrong> {
        type ReportsOn = fn(u32, &[Report]) -> bool;
        let wrong: [(&str, ReportsOn); 4] = [
            ("report 5 after the pass", |_, reports| is_on_last(reports)),
            (
                "report 5 after the pass in phase 2",
                |phase, reports| match phase {
                    2 => is_on_last(reports),
                    _ => is_on_first(reports),
                },
            ),
            ("no pass in a fall", |_, reports| reports == [FIVE]),
            ("no pass in a second fall", |phase, reports| match phase {
                2 => reports == [FIVE],
                _ => is_on_first(reports),
            }),
        ];
        let version = |reports_on| Rule { reports_on, ..RULE };
        wrong.map(|(name, on)| (name, version(on))).to_vec()
    }

    /// The close of the day before, and other phases after a day end.
    fn other_days() -> Vec<Wrong> {
        let close = |close| Rule { close, ..RULE };
        let day_end = |day_end| Rule { day_end, ..RULE };
        Vec::from([
            ("the close of the day before", close(|_, _, before| before)),
            (
                "the close of the day before in phase 2",
                close(|phase, present, before| match phase {
                    2 => before,
                    _ => present,
                }),
            ),
            ("2 stays 2", day_end(|phase| [0, 2, 2][phase as usize])),
            ("1 to 0", day_end(|_| 0)),
            ("1 stays 1", day_end(|phase| [0, 1, 0][phase as usize])),
            ("2 to 1", day_end(|phase| [0, 2, 1][phase as usize])),
        ])
    }

    /// A watch that falls in other phases.
    fn in_phases(watch: &Watch, price: u32, falls: bool) -> u32 {
        match falls && triggers(watch.close, price) {
            true => 1,
            false => watch.phase,
        }
    }

    type Watched = fn(&Watch, u32) -> u32;

    fn other_watches() -> Vec<Wrong> {
        let wrong: [(&str, Watched); 9] = [
            ("a watch in phase 2 left alone", |watch, price| {
                in_phases(watch, price, watch.phase == 0)
            }),
            ("a watch in phase 3 set to 1", |watch, price| {
                in_phases(watch, price, watch.phase <= 3)
            }),
            ("a watch in phase 9 set to 1", |watch, price| {
                in_phases(watch, price, watch.phase != 3)
            }),
            ("a watch in any phase set to 1", |watch, price| {
                in_phases(watch, price, true)
            }),
            ("a watch by a byte", |watch, price| {
                in_phases(watch, price, matches!(watch.phase as u8, 0 | 2))
            }),
            ("a watch by 16 bits", |watch, price| {
                in_phases(watch, price, matches!(watch.phase as u16, 0 | 2))
            }),
            ("a watch by 31 bits", |watch, price| {
                in_phases(watch, price, matches!(watch.phase << 1, 0 | 4))
            }),
            ("a watch of legal closes", |watch, price| {
                let legal = watch.close <= 100_000_000;
                in_phases(watch, price, legal && matches!(watch.phase, 0 | 2))
            }),
            ("a watch that overflows", |watch, price| {
                let falls = 10 * price <= watch.close.wrapping_mul(9);
                match (watch.phase, falls) {
                    (0 | 2, true) => 1,
                    (phase, _) => phase,
                }
            }),
        ];
        let version = |watch| Rule { watch, ..RULE };
        wrong.map(|(name, watch)| (name, version(watch))).to_vec()
    }

    const NAME: &str = "the rule";

    /// By events and by as many watches.
    #[test]
    fn wrong_versions_are_told_apart_and_the_rule_is_not() {
        let versions = [
            vec![(NAME, RULE)],
            other_phases(),
            other_triggers(),
            other_reports(),
            other_days(),
            other_watches(),
        ]
        .concat();
        let mut rng = Rng::new(0);
        assert_told_apart(NAME, &versions, |shown, untold| {
            if let Ok(reports) = shown.answer {
                let (before, after) = (shown.before, shown.after);
                untold.retain(|(_, wrong)| {
                    wrong.holds(shown.close_before, before, shown.event, reports, after)
                });
            }
            let (before, price) = any_watch(&mut rng);
            let mut watch = before;
            if watch_tape(&mut watch, shown.before.step, price).is_ok() {
                untold.retain(|(_, wrong)| (wrong.watch)(&before, price) == watch.phase);
            }
        });
    }

    const FIVE: Report = Report::RestrictionOn;

    fn checked(
        before: &Venue,
        event: Event,
        reports: &[Report],
        change: impl Fn(&mut Venue),
    ) -> Result<(), Fault> {
        let mut after = before.clone();
        after.accepted += 1;
        change(&mut after);
        check(before, &event, 16_384, Ok(reports), &after)
    }

    /// A venue without orders in a phase, and the event, its reports and the phase
    /// after it.
    fn turned(phase: u32, event: Event, reports: &[Report], after: u32) -> bool {
        let before = Venue {
            phase,
            ..Venue::fresh(100, 100_000)
        };
        checked(&before, event, reports, |venue| venue.phase = after).is_ok()
    }

    #[test]
    fn a_wrong_phase_or_a_wrong_report_5_is_seen() {
        let (fall, near) = (Event::Tape { price: 90_000 }, Event::Tape { price: 90_100 });
        for phase in [0, 2] {
            assert!(turned(phase, fall, &[FIVE], 1));
            assert!(!turned(phase, fall, &[], 1));
            assert!(!turned(phase, fall, &[], phase));
            assert!(!turned(phase, fall, &[FIVE], phase));
            assert!(!turned(phase, fall, &[FIVE, FIVE], 1));
        }
        assert!(turned(1, fall, &[], 1));
        assert!(!turned(1, fall, &[FIVE], 1));
        assert!(!turned(1, fall, &[], 2));
        for phase in [0, 1, 2] {
            assert!(turned(phase, near, &[], phase));
            assert!(!turned(phase, near, &[FIVE], phase));
            assert!(!turned(phase, near, &[FIVE], 1));
            assert!(!turned(phase, Event::Bid { price: 90_000 }, &[FIVE], phase));
        }
        let end = Event::DayEnd { price: 100_000 };
        for (phase, after) in [(0, 0), (1, 2), (2, 0)] {
            for other in [0, 1, 2] {
                let ended = [Report::DayEnded { phase: other }];
                assert_eq!(turned(phase, end, &ended, other), other == after);
            }
        }
    }

    /// A venue in phase 2 with a hidden short at the bid.
    fn with_short_at_bid() -> Venue {
        let short = Order {
            id: 1,
            mark: 2,
            limit: 90_000,
            shares: 5,
            show: 0,
            life: 0,
            slide: 0,
            stamp: 1,
            price: 91_000,
            entry_bid: 91_000,
            adjusted: false,
            used: false,
            clear: false,
            market: false,
            owner: 0,
        };
        Venue {
            phase: 2,
            bid: 91_000,
            last_id: 1,
            last_stamp: 1,
            accepted: 3,
            orders: vec![short],
            ..Venue::fresh(100, 100_000)
        }
    }

    #[test]
    fn a_second_fall_without_its_pass_or_with_report_5_behind_it_is_seen() {
        let before = with_short_at_bid();
        let fall = Event::Tape { price: 90_000 };
        let moved = Report::Repriced {
            id: 1,
            price: 91_100,
            stamp: 2,
        };
        let pass = |after: &mut Venue| {
            (after.phase, after.last_stamp) = (1, 2);
            let order = &mut after.orders[0];
            (order.price, order.stamp) = (91_100, 2);
            (order.adjusted, order.clear) = (true, true);
        };
        assert_eq!(checked(&before, fall, &[FIVE, moved], pass), Ok(()));
        assert!(checked(&before, fall, &[moved, FIVE], pass).is_err());
        assert!(checked(&before, fall, &[FIVE], pass).is_err());
        let no_pass = |after: &mut Venue| after.phase = 1;
        assert!(checked(&before, fall, &[FIVE], no_pass).is_err());
        assert!(checked(&before, fall, &[FIVE, moved], no_pass).is_err());
    }
}
