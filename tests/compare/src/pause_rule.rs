//! No. 10 of document 02 a second time, in parts: what becomes of the kept prices of any
//! sound venue record and which report 7 comes; that a timed price does, behind its report 7,
//! what the tape event does; and which kept prices break a record. No formula here is the
//! model's.

use crate::model::{Event, RecordCheck, Refusal, Report, TimedPrice, Venue};
use crate::pauses::{direction_over, is_within};
use crate::price_rules::is_legal;
use crate::sessions::{ensure, Fault};

/// The kept prices, and the last time of the day.
#[derive(Clone)]
struct State {
    kept: Vec<TimedPrice>,
    last: Option<u32>,
}

#[derive(Clone, Copy)]
struct Rule {
    /// Which of the kept prices stay at a time.
    staying: fn(&State, u32) -> Vec<TimedPrice>,
    /// 22.
    is_early: fn(&State, &TimedPrice) -> bool,
    /// 23, from how many are kept and how many of these stay.
    is_full: fn(usize, usize) -> bool,
    /// What is looked for first, and so on.
    order: [u32; 3],
    /// Reports 7, from the new price and the kept ones that stay.
    pauses: fn(&TimedPrice, &[TimedPrice]) -> Vec<Report>,
    /// All reports, from reports 7 and those of the tape event.
    reports: fn(&[Report], &[Report]) -> Vec<Report>,
    /// What becomes of the kept prices that stay, from the new one and whether it gives
    /// report 7.
    keep: fn(&mut Vec<TimedPrice>, TimedPrice, bool),
    /// What a refused timed price does, with its refusal.
    refused: fn(&mut State, &Rule, TimedPrice, u32),
    /// What an accepted tape price without a time does, and its reports 7.
    tape: fn(&mut State, u32) -> Vec<Report>,
    /// What a day end does, with its price, accepted or not.
    day_end: fn(&mut State, u32, bool),
}

const RULE: Rule = Rule {
    staying,
    is_early: |state, new| state.last.is_some_and(|last| last > new.time),
    is_full: |_, stay| stay > 511,
    order: [3, 22, 23],
    pauses: |new, earlier| pause(direction_over(new.price, earlier), new.price),
    reports: |pauses, tape| [pauses, tape].concat(),
    keep: |kept, new, _| kept.push(new),
    refused: |_, _, _, _| {},
    tape: |_, _| Vec::new(),
    day_end: |state, _, accepted| {
        if accepted {
            state.kept.clear();
            state.last = None;
        }
    },
};

/// "Prices whose time is at least the new time less 300 are kept"
fn staying(state: &State, time: u32) -> Vec<TimedPrice> {
    let kept = state.kept.iter().copied();
    kept.filter(|old| is_within(time, old.time)).collect()
}

fn pause(direction: Option<u32>, price: u32) -> Vec<Report> {
    let direction = direction.into_iter();
    direction
        .map(|direction| Report::Pause { direction, price })
        .collect()
}

fn is_pause(report: &Report) -> bool {
    matches!(report, Report::Pause { .. })
}

/// The reports that aren't report 7.
fn others(reports: &[Report]) -> Vec<Report> {
    let others = reports.iter().filter(|report| !is_pause(report));
    others.copied().collect()
}

impl State {
    fn of(venue: &Venue) -> Self {
        State {
            kept: venue.kept.clone(),
            last: venue.kept.last().map(|last| last.time),
        }
    }
}

impl Rule {
    /// "Checked after the price: time before the last one of the day is 22, and a 513th kept
    /// price is 23."
    fn refusal_of(&self, state: &State, new: &TimedPrice, step: u32) -> Option<u32> {
        let stay = (self.staying)(state, new.time).len();
        self.order.into_iter().find(|refusal| match refusal {
            3 => !is_legal(step, new.price),
            22 => (self.is_early)(state, new),
            _ => (self.is_full)(state.kept.len(), stay),
        })
    }

    /// Whether an event's answer keeps to the rule, as far as report 7 and 22 and 23 go;
    /// takes the event.
    fn holds(
        &self,
        state: &mut State,
        before: &Venue,
        event: &Event,
        answer: Result<&[Report], Refusal>,
    ) -> bool {
        let reports = answer.unwrap_or_default();
        let refusal = answer.err().map(Refusal::number);
        let as_untimed = !matches!(refusal, Some(22 | 23)) && !reports.iter().any(is_pause);
        match (*event, refusal) {
            (_, Some(16)) => true,
            (Event::Timed(new), Some(early @ 1..=2)) => {
                (self.refused)(state, self, new, early);
                true
            }
            (Event::Timed(new), _) => {
                let expected = self.refusal_of(state, &new, before.step);
                refusal == expected && self.take(state, new, reports, refusal)
            }
            (Event::Tape { price }, None) => {
                let pauses = (self.tape)(state, price);
                reports == [pauses, others(reports)].concat()
            }
            (Event::DayEnd { price }, _) => {
                (self.day_end)(state, price, refusal.is_none());
                as_untimed
            }
            _ => as_untimed,
        }
    }

    /// Takes a timed price and gives whether its reports 7 are those of the rule.
    fn take(
        &self,
        state: &mut State,
        new: TimedPrice,
        reports: &[Report],
        refusal: Option<u32>,
    ) -> bool {
        if let Some(refusal) = refusal {
            (self.refused)(state, self, new, refusal);
            return true;
        }
        let mut kept = (self.staying)(state, new.time);
        let pauses = (self.pauses)(&new, &kept);
        (self.keep)(&mut kept, new, !pauses.is_empty());
        (state.kept, state.last) = (kept, Some(new.time));
        reports == (self.reports)(&pauses, &others(reports))
    }
}

/// Checks an event on a sound venue record with a report buffer of that length.
pub fn check(
    before: &Venue,
    event: &Event,
    buffer: usize,
    answer: Result<&[Report], Refusal>,
    after: &Venue,
) -> Result<(), Fault> {
    let mut state = State::of(before);
    let holds = RULE.holds(&mut state, before, event, answer);
    ensure(holds, "the rule of timed prices")?;
    ensure(after.kept == state.kept, "the kept prices")?;
    match (event, answer) {
        (Event::Timed(new), Ok(reports)) => check_as_tape(before, new, buffer, reports, after),
        _ => Ok(()),
    }
}

/// "does all that a tape event does": the other reports and all else of the venue are those
/// of the tape event with the same price.
fn check_as_tape(
    before: &Venue,
    new: &TimedPrice,
    buffer: usize,
    reports: &[Report],
    after: &Venue,
) -> Result<(), Fault> {
    let mut other = before.clone();
    let mut bytes = vec![0; buffer];
    let tape = Event::Tape { price: new.price };
    let answer = other.apply(&tape, &mut bytes, RecordCheck::Done);
    let answer = answer.and_then(|count| Report::read_all(&bytes[..count]));
    let same = answer == Ok(others(reports));
    ensure(same, "the reports of the tape event")?;
    other.kept.clone_from(&after.kept);
    ensure(*after == other, "the venue after the tape event")
}

/// "Over 512 kept prices, an illegal one, times that fall or span more than 300 seconds
/// break the venue record."
fn may_be_kept(kept: &[TimedPrice], step: u32) -> bool {
    let behind = |at: usize| kept[at..].iter();
    let follows = |old: &TimedPrice, new: &TimedPrice| {
        (0..=300).contains(&(i64::from(new.time) - i64::from(old.time)))
    };
    let mut places = kept.iter().enumerate();
    kept.len() < 513
        && places
            .all(|(at, old)| is_legal(step, old.price) && behind(at).all(|new| follows(old, new)))
}

/// The same record without kept prices.
fn without_kept(venue: &Venue) -> Venue {
    let mut other = venue.clone();
    other.kept.clear();
    other
}

/// A record is sound where it is without kept prices, and these may be kept.
pub fn check_record(venue: &Venue) -> Result<(), Fault> {
    let sound = may_be_kept(&venue.kept, venue.step) && without_kept(venue).is_sound();
    ensure(venue.is_sound() == sound, "a record with kept prices")
}

#[cfg(test)]
mod tests {
    use super::*;
    use crate::model::{CENT, HALF_CENT, LEAST_BUFFER};
    use crate::pauses::{is_fall, is_rise};
    use crate::shown::{assert_told_apart, show_all};

    /// A wrong version of the rule, and what is wrong with it.
    type Wrong = (&'static str, Rule);

    const NAME: &str = "the rule";

    /// Those of the kept prices that stay by their own times and the new one.
    fn by_times(state: &State, new: u32, stays: fn(i64, i64) -> bool) -> Vec<TimedPrice> {
        let kept = state.kept.iter().copied();
        kept.filter(|old| stays(new.into(), old.time.into()))
            .collect()
    }

    type Staying = fn(&State, u32) -> Vec<TimedPrice>;

    /// Other times that a price is kept for.
    const WINDOWS: [(&str, Staying); 10] = [
        ("300 excluded", |state, time| {
            by_times(state, time, |new, old| old > new - 300)
        }),
        ("301 included", |state, time| {
            by_times(state, time, |new, old| old >= new - 301)
        }),
        ("299 excluded too", |state, time| {
            by_times(state, time, |new, old| old > new - 299)
        }),
        ("wraps below 300", |state, time| {
            let least = time.wrapping_sub(300);
            let kept = state.kept.iter().copied();
            kept.filter(|old| old.time >= least).collect()
        }),
        ("wraps at the highest times", |state, time| {
            let kept = state.kept.iter().copied();
            kept.filter(|old| old.time.wrapping_add(300) >= time)
                .collect()
        }),
        ("signed times", |state, time| {
            let kept = state.kept.iter().copied();
            let least = (time as i32).saturating_sub(300);
            kept.filter(|old| old.time as i32 >= least).collect()
        }),
        ("five whole minutes", |state, time| {
            by_times(state, time, |new, old| new / 60 - old / 60 <= 5)
        }),
        ("five minutes by the clock", |state, time| {
            by_times(state, time, |new, old| new / 300 == old / 300)
        }),
        ("never dropped", |state, _| state.kept.clone()),
        ("dropped by the time before", |state, time| {
            staying(state, state.last.unwrap_or(time))
        }),
    ];

    fn other_windows() -> Vec<Wrong> {
        let version = |staying| Rule { staying, ..RULE };
        let windows = WINDOWS.map(|(name, part)| (name, version(part)));
        windows.to_vec()
    }

    /// Other notions of 22.
    fn other_times() -> Vec<Wrong> {
        type Early = fn(&State, &TimedPrice) -> bool;
        let wrong: [(&str, Early); 5] = [
            ("22 for an equal time", |state, new| {
                state.last.is_some_and(|last| last >= new.time)
            }),
            ("no 22", |_, _| false),
            ("22 before the oldest kept", |state, new| {
                state.kept.first().is_some_and(|old| new.time < old.time)
            }),
            ("22 by signed times", |state, new| {
                state.last.is_some_and(|last| last as i32 > new.time as i32)
            }),
            ("22 by 16 bits", |state, new| {
                let times = state.last.map(|last| (last as u16, new.time as u16));
                times.is_some_and(|(last, new)| last > new)
            }),
        ];
        let version = |is_early| Rule { is_early, ..RULE };
        wrong.map(|(name, part)| (name, version(part))).to_vec()
    }

    /// Other notions of 23, and another order of the refusals.
    fn other_refusals() -> Vec<Wrong> {
        type Full = fn(usize, usize) -> bool;
        let wrong: [(&str, Full); 6] = [
            ("512th refused", |_, stay| stay > 510),
            ("513th let in", |_, stay| stay > 512),
            ("no 23", |_, _| false),
            ("23 counted before dropping", |kept, _| kept > 511),
            ("23 after dropping one", |kept, stay| {
                stay > 511 || kept > stay + 1
            }),
            ("23 at 256", |_, stay| stay > 255),
        ];
        let orders = [
            ("22 before 3", [22, 3, 23]),
            ("23 before 22", [3, 23, 22]),
            ("23 before 3", [23, 3, 22]),
            ("both before 3", [22, 23, 3]),
        ];
        let full = wrong.map(|(name, is_full)| (name, Rule { is_full, ..RULE }));
        let orders = orders.map(|(name, order)| (name, Rule { order, ..RULE }));
        [full.to_vec(), orders.to_vec()].concat()
    }

    /// What reports 7 a price gives over earlier ones.
    type Gives = fn(&TimedPrice, &[TimedPrice]) -> Vec<Report>;

    fn versions_of(wrong: &[(&'static str, Gives)]) -> Vec<Wrong> {
        let version = |pauses| Rule { pauses, ..RULE };
        let wrong = wrong.iter().copied();
        wrong.map(|(name, gives)| (name, version(gives))).collect()
    }

    /// The rule over some of the earlier prices.
    fn over(new: &TimedPrice, earlier: impl IntoIterator<Item = TimedPrice>) -> Vec<Report> {
        let earlier: Vec<TimedPrice> = earlier.into_iter().collect();
        (RULE.pauses)(new, &earlier)
    }

    /// Compared with some of the kept prices only.
    fn other_prices() -> Vec<Wrong> {
        versions_of(&[
            ("only the last", |new, kept| over(new, kept.last().copied())),
            ("only the first", |new, kept| {
                over(new, kept.first().copied())
            }),
            ("only the highest", |new, kept| {
                over(new, kept.iter().max_by_key(|old| old.price).copied())
            }),
            ("only the lowest", |new, kept| {
                over(new, kept.iter().min_by_key(|old| old.price).copied())
            }),
            ("only the first and the last", |new, kept| {
                let ends = kept.first().into_iter().chain(kept.last());
                over(new, ends.copied())
            }),
            ("earlier seconds only", |new, kept| {
                let earlier = kept.iter().copied();
                over(new, earlier.filter(|old| old.time < new.time))
            }),
            ("the same second only", |new, kept| {
                let earlier = kept.iter().copied();
                over(new, earlier.filter(|old| old.time == new.time))
            }),
        ])
    }

    /// Compared with all but some, or with what is none of them.
    fn most_prices() -> Vec<Wrong> {
        versions_of(&[
            ("all but the oldest", |new, kept| {
                over(new, kept.iter().copied().skip(1))
            }),
            ("all but the newest", |new, kept| {
                over(new, kept.iter().copied().rev().skip(1))
            }),
            ("the last 256", |new, kept| {
                over(new, kept.iter().copied().rev().take(256))
            }),
            ("the mean", |new, kept| {
                let sum: u64 = kept.iter().map(|old| u64::from(old.price)).sum();
                let mean = sum.checked_div(kept.len() as u64);
                let price = mean.map(|price| price as u32);
                over(new, price.map(|price| TimedPrice { price, ..*new }))
            }),
        ])
    }

    /// The direction by another fall and another rise.
    fn by(
        new: &TimedPrice,
        kept: &[TimedPrice],
        falls: fn(u32, u32) -> bool,
        rises: fn(u32, u32) -> bool,
    ) -> Vec<Report> {
        let has = |is: fn(u32, u32) -> bool| kept.iter().any(|old| is(new.price, old.price));
        let direction = match (has(falls), has(rises)) {
            (true, _) => Some(1),
            (_, true) => Some(2),
            _ => None,
        };
        pause(direction, new.price)
    }

    /// Other borders of a fall and of a rise.
    fn other_borders() -> Vec<Wrong> {
        versions_of(&[
            ("90% is no fall", |new, kept| {
                by(new, kept, |p, q| 10 * p < 9 * q, is_rise)
            }),
            ("110% is no rise", |new, kept| {
                by(new, kept, is_fall, |p, q| 10 * p > 11 * q)
            }),
            ("90% rounded up", |new, kept| {
                by(new, kept, |p, q| p <= q - q / 10, is_rise)
            }),
            ("110% rounded down", |new, kept| {
                by(new, kept, is_fall, |p, q| p >= q + q / 10)
            }),
            ("a fall by a tenth of the new price", |new, kept| {
                by(new, kept, |p, q| 10 * q >= 11 * p, is_rise)
            }),
            ("a rise by a tenth of the new price", |new, kept| {
                by(new, kept, is_fall, |p, q| 10 * q <= 9 * p)
            }),
            ("any lower price is a fall", |new, kept| {
                by(new, kept, |p, q| p < q, is_rise)
            }),
            ("any higher price is a rise", |new, kept| {
                by(new, kept, is_fall, |p, q| p > q)
            }),
            ("no falls", |new, kept| by(new, kept, |_, _| false, is_rise)),
            ("no rises", |new, kept| by(new, kept, is_fall, |_, _| false)),
        ])
    }

    /// The first of some kept prices from which the new one is a fall or a rise decides.
    fn by_first(new: &TimedPrice, mut kept: impl Iterator<Item = TimedPrice>) -> Vec<Report> {
        let direction = kept.find_map(|old| direction_over(new.price, &[old]));
        pause(direction, new.price)
    }

    /// Other choices between a fall and a rise, and other fields.
    fn other_directions() -> Vec<Wrong> {
        versions_of(&[
            ("a rise first", |new, kept| {
                let rises = kept.iter().any(|old| is_rise(new.price, old.price));
                let direction = rises.then_some(2);
                pause(direction.or(direction_over(new.price, kept)), new.price)
            }),
            ("both reports", |new, kept| {
                let falls = by(new, kept, is_fall, |_, _| false);
                [falls, by(new, kept, |_, _| false, is_rise)].concat()
            }),
            ("the oldest decides", |new, kept| {
                by_first(new, kept.iter().copied())
            }),
            ("the newest decides", |new, kept| {
                by_first(new, kept.iter().copied().rev())
            }),
            ("a report for each kept price", |new, kept| {
                let each = kept.iter().map(|old| (RULE.pauses)(new, &[*old]));
                each.flatten().collect()
            }),
            ("the kept price is given", |new, kept| {
                let found = kept.iter().find(|old| is_fall(new.price, old.price));
                match found {
                    Some(old) => pause(Some(1), old.price),
                    None => by(new, kept, is_fall, is_rise),
                }
            }),
            ("directions turned round", |new, kept| {
                let direction = direction_over(new.price, kept);
                pause(direction.map(|direction| 3 - direction), new.price)
            }),
            ("no report 7", |_, _| Vec::new()),
        ])
    }

    /// Report 7 in another place, and trading stopped.
    fn other_reports() -> Vec<Wrong> {
        type Reports = fn(&[Report], &[Report]) -> Vec<Report>;
        let wrong: [(&str, Reports); 5] = [
            ("report 7 after 5", |pauses, tape| match tape {
                [Report::RestrictionOn, behind @ ..] => {
                    [&[Report::RestrictionOn], pauses, behind].concat()
                }
                _ => [pauses, tape].concat(),
            }),
            ("report 7 last", |pauses, tape| [tape, pauses].concat()),
            ("no report 5 with it", |pauses, tape| match (pauses, tape) {
                ([_], [Report::RestrictionOn, behind @ ..]) => [pauses, behind].concat(),
                _ => [pauses, tape].concat(),
            }),
            ("nothing behind it", |pauses, tape| match pauses {
                [] => tape.to_vec(),
                _ => pauses.to_vec(),
            }),
            ("report 7 alone", |pauses, _| pauses.to_vec()),
        ];
        let version = |reports| Rule { reports, ..RULE };
        wrong.map(|(name, part)| (name, version(part))).to_vec()
    }

    /// Other things kept.
    fn other_kept() -> Vec<Wrong> {
        type Keep = fn(&mut Vec<TimedPrice>, TimedPrice, bool);
        let wrong: [(&str, Keep); 5] = [
            ("one price a second", |kept, new, _| {
                kept.retain(|old| old.time != new.time);
                kept.push(new);
            }),
            ("the first price of a second", |kept, new, _| {
                if kept.last().is_none_or(|last| last.time != new.time) {
                    kept.push(new);
                }
            }),
            ("a price with report 7 not kept", |kept, new, pauses| {
                kept.extend((!pauses).then_some(new));
            }),
            ("kept prices emptied by report 7", |kept, new, pauses| {
                if pauses {
                    kept.clear();
                }
                kept.push(new);
            }),
            ("equal prices kept once", |kept, new, _| {
                kept.retain(|old| old.price != new.price);
                kept.push(new);
            }),
        ];
        let version = |keep| Rule { keep, ..RULE };
        wrong.map(|(name, part)| (name, version(part))).to_vec()
    }

    /// Refused events that change something.
    fn other_refused() -> Vec<Wrong> {
        type Refused = fn(&mut State, &Rule, TimedPrice, u32);
        let wrong: [(&str, Refused); 5] = [
            ("dropped by a refused price", |state, rule, new, refusal| {
                if refusal == 3 {
                    state.kept = (rule.staying)(state, new.time);
                }
            }),
            (
                "a refused time is the last one",
                |state, _, new, refusal| {
                    if refusal == 3 {
                        state.last = state.last.max(Some(new.time));
                    }
                },
            ),
            ("an early time is the last one", |state, _, new, refusal| {
                if refusal == 22 {
                    state.last = Some(new.time);
                }
            }),
            ("an early price is kept", |state, _, new, refusal| {
                if refusal == 22 {
                    state.kept.push(new);
                }
            }),
            (
                "a 513th in place of the oldest",
                |state, _, new, refusal| {
                    if refusal == 23 {
                        state.kept.remove(0);
                        state.kept.push(new);
                    }
                },
            ),
        ];
        let version = |refused| Rule { refused, ..RULE };
        wrong.map(|(name, part)| (name, version(part))).to_vec()
    }

    /// Tape prices without a time that count.
    fn other_tapes() -> Vec<Wrong> {
        type Tape = fn(&mut State, u32) -> Vec<Report>;
        let wrong: [(&str, Tape); 3] = [
            ("kind 4 kept too", |state, price| {
                let time = state.last.unwrap_or(0);
                state.kept.push(TimedPrice { time, price });
                Vec::new()
            }),
            ("kind 4 looked at", |state, price| {
                pause(direction_over(price, &state.kept), price)
            }),
            ("kind 4 drops all", |state, _| {
                state.kept.clear();
                Vec::new()
            }),
        ];
        let version = |tape| Rule { tape, ..RULE };
        wrong.map(|(name, part)| (name, version(part))).to_vec()
    }

    /// Day ends that keep something.
    fn other_day_ends() -> Vec<Wrong> {
        type DayEnd = fn(&mut State, u32, bool);
        let wrong: [(&str, DayEnd); 6] = [
            ("kept over the day end", |_, _, _| {}),
            ("prices kept over the day end", |state, _, accepted| {
                if accepted {
                    state.last = None;
                }
            }),
            ("22 over the day end", |state, _, accepted| {
                if accepted {
                    state.kept.clear();
                }
            }),
            ("the close is kept", |state, price, accepted| {
                if accepted {
                    let time = state.last.take().unwrap_or(0);
                    state.kept = vec![TimedPrice { time, price }];
                }
            }),
            ("the last price is kept", |state, _, accepted| {
                if accepted {
                    let last = state.kept.pop();
                    state.kept = last.into_iter().collect();
                    state.last = None;
                }
            }),
            ("a refused day end empties", |state, _, _| {
                (RULE.day_end)(state, 0, true);
            }),
        ];
        let version = |day_end| Rule { day_end, ..RULE };
        wrong.map(|(name, part)| (name, version(part))).to_vec()
    }

    #[test]
    fn wrong_versions_are_told_apart_and_the_rule_is_not() {
        let versions = [
            vec![(NAME, RULE)],
            other_windows(),
            other_times(),
            other_refusals(),
            other_prices(),
            most_prices(),
            other_borders(),
            other_directions(),
            other_reports(),
            other_kept(),
            other_refused(),
            other_tapes(),
            other_day_ends(),
        ]
        .concat();
        let start = State::of(&Venue::fresh(CENT, 1));
        let versions: Vec<_> = versions
            .into_iter()
            .map(|(name, rule)| (name, (rule, start.clone())))
            .collect();
        assert_told_apart(NAME, &versions, |shown, untold| {
            untold.retain_mut(|(_, (rule, state))| {
                if shown.first {
                    *state = State::of(shown.before);
                }
                rule.holds(state, shown.before, shown.event, shown.answer)
            });
        });
    }

    /// "time before the last one of the day is 22, and a 513th kept price is 23": of timed
    /// prices alone. 3 is left to others.
    #[test]
    fn refusals_22_and_23_of_other_events_are_seen() {
        let venue = Venue::fresh(CENT, 100_000);
        let events = [
            Event::Cancel { id: 1 },
            Event::Bid { price: 0 },
            Event::Tape { price: 0 },
            Event::DayEnd { price: 0 },
        ];
        for event in events {
            let holds = [Refusal::Price, Refusal::Time, Refusal::KeptPrices].map(|refusal| {
                let checked = check(&venue, &event, LEAST_BUFFER, Err(refusal), &venue);
                checked.is_ok()
            });
            assert_eq!(holds, [true, false, false], "{event:?}");
        }
    }

    /// Whether kept prices may stand in a venue record of a step.
    type MayStand = fn(&[TimedPrice], u32) -> bool;

    /// The rule with other times alone.
    fn with_times(kept: &[TimedPrice], step: u32, times: fn(&[i64]) -> bool) -> bool {
        let found: Vec<i64> = kept.iter().map(|old| old.time.into()).collect();
        let low = |old: &TimedPrice| TimedPrice { time: 0, ..*old };
        let without: Vec<TimedPrice> = kept.iter().map(low).collect();
        times(&found) && may_be_kept(&without, step)
    }

    fn do_not_fall(times: &[i64]) -> bool {
        times.windows(2).all(|pair| pair[0] <= pair[1])
    }

    /// The last time less the first; 0 where there is none.
    fn span(times: &[i64]) -> i64 {
        times.last().unwrap_or(&0) - times.first().unwrap_or(&0)
    }

    const RECORDS: [(&str, MayStand); 13] = [
        (NAME, may_be_kept),
        ("513 too", |kept, step| {
            may_be_kept(&kept[..kept.len().min(512)], step) && kept.len() < 514
        }),
        ("not 512", |kept, step| {
            may_be_kept(kept, step) && kept.len() != 512
        }),
        ("any number", |kept, step| {
            may_be_kept(&kept[..kept.len().min(512)], step)
        }),
        ("legal at the step of a cent", |kept, _| {
            may_be_kept(kept, CENT)
        }),
        ("legal at the half-cent step", |kept, _| {
            may_be_kept(kept, HALF_CENT)
        }),
        ("any price", |kept, step| {
            let low = |old: &TimedPrice| TimedPrice { price: 1, ..*old };
            may_be_kept(&kept.iter().map(low).collect::<Vec<_>>(), step)
        }),
        ("the first and the last legal", |kept, step| {
            let mut other = kept.to_vec();
            if let [_, between @ .., _] = &mut other[..] {
                between.iter_mut().for_each(|old| old.price = 1);
            }
            may_be_kept(&other, step)
        }),
        ("times may fall", |kept, step| {
            with_times(kept, step, |times| (0..=300).contains(&span(times)))
        }),
        ("times rise", |kept, step| {
            with_times(kept, step, |times| {
                times.windows(2).all(|pair| pair[0] < pair[1]) && span(times) <= 300
            })
        }),
        ("span of 299", |kept, step| {
            with_times(kept, step, |times| do_not_fall(times) && span(times) < 300)
        }),
        ("span of 301", |kept, step| {
            with_times(kept, step, |times| do_not_fall(times) && span(times) < 302)
        }),
        ("any span", |kept, step| with_times(kept, step, do_not_fall)),
    ];

    /// Streams tell each wrong version within so many events, of both steps together.
    #[test]
    fn wrong_kept_prices_of_records_are_told_apart_and_the_rule_is_not() {
        for seed in [1, 2, 3] {
            let mut untold = RECORDS.to_vec();
            show_all(seed, 50_000, |shown| {
                let record = shown.before;
                if !shown.first || !without_kept(record).is_sound() {
                    return;
                }
                let is_sound = shown.answer != Err(Refusal::VenueRecord);
                untold.retain(|(_, may_stand)| may_stand(&record.kept, record.step) == is_sound);
            });
            let names: Vec<&str> = untold.into_iter().map(|(name, _)| name).collect();
            assert_eq!(names, [NAME], "seed {seed}");
        }
    }
}
