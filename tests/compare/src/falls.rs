//! What a run counts of tape prices and watches by the phase that they meet, so that
//! its end shows that document 02's No. 6 was reached.

use crate::by_owners::withdrawn;
use crate::document_01::triggers;
use crate::ladder::Ladder;
use crate::model::{Event, Order, Report, TimedPrice, Venue, Watch, CENT, OPT_OUT, SHORT};
use crate::pauses::behind_pause;
use crate::reached::{self, smaller, Line, Named};
use std::fmt;

/// Of tape prices by the phase before them.
type ByPhase = [u64; 3];

fn by_phase(counts: ByPhase) -> Vec<Named> {
    let phases = ["in phase 0", "in phase 1", "in phase 2"];
    counts.into_iter().zip(phases).collect()
}

/// What a venue may hold when it falls again.
type Holds = (&'static str, fn(&Venue) -> bool);

const HOLDS: [Holds; 8] = [
    ("no orders", |venue| venue.orders.is_empty()),
    ("no bid", |venue| venue.bid == 0),
    ("displayed shorts", |venue| {
        has(venue, |order| order.show == 1)
    }),
    ("hidden shorts", |venue| has(venue, |order| order.show == 0)),
    ("once", |venue| has(venue, |order| order.slide == 1)),
    ("no more", |venue| has(venue, |order| order.slide == 2)),
    ("opt-out", |venue| {
        has(venue, |order| order.slide == OPT_OUT)
    }),
    ("market shorts", |venue| has(venue, |order| order.market)),
];

/// Whether such a short rests.
fn has(venue: &Venue, is_such: fn(&Order) -> bool) -> bool {
    let mut orders = venue.orders.iter();
    orders.any(|order| order.mark == SHORT && is_such(order))
}

/// What the pass of a second fall did.
type Does = (&'static str, fn(&[Report]) -> bool);

const DOES: [Does; 6] = [
    ("nothing", |reports| reports.len() == 1),
    ("moved or cancelled orders", |reports| reports.len() > 1),
    ("moved", |reports| {
        let mut reports = reports.iter();
        reports.any(|report| matches!(report, Report::Repriced { .. }))
    }),
    ("executed", |reports| {
        let mut reports = reports.iter();
        reports.any(|report| matches!(report, Report::Executed { .. }))
    }),
    ("cancelled opt-outs", |reports| {
        let mut reports = reports.iter();
        reports.any(|report| matches!(report, Report::Cancelled { cause: 3, .. }))
    }),
    ("cancelled own orders", |reports| {
        let mut reports = reports.iter();
        reports.any(|report| withdrawn(report).is_some())
    }),
];

#[derive(Default)]
pub struct Falls {
    half_cent: AtStep,
    cent: AtStep,
    /// Of the session: whether the last accepted event was a day end, and how many
    /// days in a row fell.
    ended: bool,
    days: u32,
}

/// The counts at one step.
#[derive(Default)]
struct AtStep {
    /// Accepted tape prices that trigger, and those that don't.
    falls: ByPhase,
    others: ByPhase,
    /// At exactly 90% of the close; and by steps from the highest price that
    /// triggers: at it, above and below.
    exact: ByPhase,
    highest: ByPhase,
    above: ByPhase,
    below: ByPhase,
    /// Falls in phase 2 by what the venue held and by what the pass did.
    holds: [u64; HOLDS.len()],
    does: [u64; DOES.len()],
    /// Falls on a third day in a row or a later one.
    third: u64,
    /// Day ends by the phase before them, and those right behind another.
    ends: ByPhase,
    ends_in_a_row: u64,
    /// Watches that were taken, by phase, the last for any that is none, with a
    /// trigger and without.
    watch_falls: [u64; 4],
    watch_others: [u64; 4],
}

impl AtStep {
    fn tape(&mut self, before: &Venue, price: u32) {
        let phase = before.phase as usize;
        let falls = triggers(before.close, price);
        self.falls[phase] += u64::from(falls);
        self.others[phase] += u64::from(!falls);
        let [tenths, ninths] = [10 * u64::from(price), 9 * u64::from(before.close)];
        self.exact[phase] += u64::from(tenths == ninths);
        let ladder = Ladder { step: before.step };
        let highest = ladder.rung_of((ninths / 10) as u32);
        let rung = ladder.rung_of(price);
        self.highest[phase] += u64::from(rung == highest);
        self.above[phase] += u64::from(rung == highest + 1);
        self.below[phase] += u64::from(rung + 1 == highest);
    }

    fn fall_again(&mut self, before: &Venue, reports: &[Report]) {
        for (count, (_, holds)) in self.holds.iter_mut().zip(HOLDS) {
            *count += u64::from(holds(before));
        }
        for (count, (_, does)) in self.does.iter_mut().zip(DOES) {
            *count += u64::from(does(reports));
        }
    }

    fn watch(&mut self, before: &Watch, price: u32) {
        let counts = match triggers(before.close, price) {
            true => &mut self.watch_falls,
            false => &mut self.watch_others,
        };
        counts[before.phase.min(3) as usize] += 1;
    }

    fn lines(&self) -> Vec<Line<&'static str>> {
        let holds = self.holds.into_iter().zip(HOLDS.map(|(name, _)| name));
        let does = self.does.into_iter().zip(DOES.map(|(name, _)| name));
        let days = [
            (self.third, "falls on a third day"),
            (self.ends_in_a_row, "day ends right behind another"),
        ];
        Vec::from([
            ("tape prices that trigger", by_phase(self.falls)),
            ("tape prices that don't trigger", by_phase(self.others)),
            ("exactly 90% of the close", by_phase(self.exact)),
            ("highest that triggers", by_phase(self.highest)),
            ("a step above", by_phase(self.above)),
            ("a step below", by_phase(self.below)),
            ("triggered in phase 2 with", holds.collect()),
            ("the pass of these", does.collect()),
            ("days", days.to_vec()),
            ("day ends", by_phase(self.ends)),
            ("watches that trigger", by_watch(self.watch_falls)),
            ("watches that don't trigger", by_watch(self.watch_others)),
        ])
    }
}

fn by_watch(counts: [u64; 4]) -> Vec<Named> {
    let phases = ["in phase 0", "in phase 1", "in phase 2", "in another"];
    counts.into_iter().zip(phases).collect()
}

impl Falls {
    fn at_step(&mut self, step: u32) -> &mut AtStep {
        match step {
            CENT => &mut self.cent,
            _ => &mut self.half_cent,
        }
    }

    /// Takes the venue at the start of a session.
    pub fn start(&mut self, venue: &Venue) {
        self.ended = false;
        self.days = venue.phase.min(1);
    }

    /// Takes an accepted event, the venue before it and its reports.
    pub fn accept(&mut self, before: &Venue, event: &Event, reports: &[Report]) {
        match *event {
            Event::Tape { price } | Event::Timed(TimedPrice { price, .. }) => {
                self.tape(before, price, behind_pause(event, reports));
            }
            Event::DayEnd { .. } => {
                let in_a_row = u64::from(self.ended);
                let counts = self.at_step(before.step);
                counts.ends[before.phase as usize] += 1;
                counts.ends_in_a_row += in_a_row;
            }
            _ => {}
        }
        self.ended = matches!(event, Event::DayEnd { .. });
    }

    fn tape(&mut self, before: &Venue, price: u32, reports: &[Report]) {
        let falls = triggers(before.close, price);
        match before.phase {
            0 if falls => self.days = 1,
            2 if falls => self.days += 1,
            _ => {}
        }
        let third = before.phase == 2 && falls && self.days > 2;
        let counts = self.at_step(before.step);
        counts.tape(before, price);
        counts.third += u64::from(third);
        if before.phase == 2 && falls {
            counts.fall_again(before, reports);
        }
    }

    /// Takes a watch before a tape price that it took.
    pub fn watch(&mut self, step: u32, before: &Watch, price: u32) {
        self.at_step(step).watch(before, price);
    }

    /// Whether each count is above 0 at both steps.
    #[cfg(test)]
    pub fn are_complete(&self) -> bool {
        reached::never(&self.lines()).is_empty()
    }

    /// The smaller one of the counts at both steps.
    fn lines(&self) -> Vec<Line<&'static str>> {
        smaller(self.half_cent.lines(), self.cent.lines())
    }
}

impl fmt::Display for Falls {
    fn fmt(&self, f: &mut fmt::Formatter) -> fmt::Result {
        let title = "falls, by the phase before them, the smaller count of both steps";
        reached::write(f, title, &self.lines())
    }
}

#[cfg(test)]
mod tests {
    use super::*;
    use crate::model::watch_tape;
    use crate::odd::{any_step, any_watch};
    use crate::rng::Rng;
    use crate::shown::show_all;

    /// Streams reach each count at both steps.
    #[test]
    fn falls_are_complete() {
        let mut falls = Falls::default();
        let mut rng = Rng::new(0);
        show_all(1, 50_000, |shown| {
            if shown.first {
                falls.start(shown.before);
            }
            if let Ok(reports) = shown.answer {
                falls.accept(shown.before, shown.event, reports);
            }
            let step = any_step(&mut rng);
            let (mut watch, price) = any_watch(&mut rng);
            let before = watch;
            if watch_tape(&mut watch, step, price).is_ok() {
                falls.watch(step, &before, price);
            }
        });
        assert!(falls.are_complete(), "{falls}");
    }
}
