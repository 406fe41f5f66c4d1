//! "Five-minute pause watch", No. 10 of document 02, over a whole list from open, and read
//! from its events, their answers and their report bytes alone: "report 7 is exactly what a
//! plain look at all accepted timed prices of the day within those 300 seconds gives". Every
//! accepted timed price of the day stays here, none is dropped. No formula here is the
//! model's.

use crate::model::{Event, Refusal, Report, TimedPrice};
use crate::price_rules::is_legal;
use crate::sessions::{ensure, Fault};

/// The reports of an event but for report 7 at the front of those of a timed price, which
/// "does all that a tape event does".
pub fn behind_pause<'a>(event: &Event, reports: &'a [Report]) -> &'a [Report] {
    match (event, reports) {
        (Event::Timed(_), [Report::Pause { .. }, behind @ ..]) => behind,
        _ => reports,
    }
}

/// "Prices whose time is at least the new time less 300", which may be below 0 (F10.2).
pub fn is_within(new: u32, old: u32) -> bool {
    i64::from(old) >= i64::from(new) - 300
}

/// "10 × p ≤ 9 × q" says that the price is lower by a tenth of q or more.
pub fn is_fall(price: u32, old: u32) -> bool {
    10 * (i64::from(old) - i64::from(price)) >= i64::from(old)
}

/// "10 × p ≥ 11 × q" says that it is higher by as much.
pub fn is_rise(price: u32, old: u32) -> bool {
    10 * (i64::from(price) - i64::from(old)) >= i64::from(old)
}

/// The direction that a price gives over earlier ones: a fall is looked for over all of them
/// before a rise (F10.4).
pub fn direction_over(price: u32, earlier: &[TimedPrice]) -> Option<u32> {
    if earlier.iter().any(|old| is_fall(price, old.price)) {
        Some(1)
    } else if earlier.iter().any(|old| is_rise(price, old.price)) {
        Some(2)
    } else {
        None
    }
}

/// A list up to now: the step it was opened with, and the timed prices of the day that were
/// accepted.
#[derive(Clone)]
pub struct Pauses {
    step: u32,
    day: Vec<TimedPrice>,
}

impl Pauses {
    /// Of a stream, if it is from open.
    pub fn start(from_open: bool, step: u32) -> Option<Self> {
        let day = Vec::new();
        from_open.then_some(Pauses { step, day })
    }

    /// The accepted timed prices of the day within those 300 seconds.
    fn within(&self, time: u32) -> Vec<TimedPrice> {
        let day = self.day.iter().copied();
        day.filter(|old| is_within(time, old.time)).collect()
    }

    /// What a timed price is refused with: "Checked after the price: time before the last
    /// one of the day is 22, and a 513th kept price is 23."
    fn refusal_of(&self, new: &TimedPrice) -> Option<u32> {
        if !is_legal(self.step, new.price) {
            Some(3)
        } else if self.day.last().is_some_and(|last| last.time > new.time) {
            Some(22)
        } else if self.within(new.time).len() > 511 {
            Some(23)
        } else {
            None
        }
    }

    /// Takes an event and the bytes of its reports, or its refusal, which changes nothing.
    pub fn take(&mut self, event: &Event, answer: Result<&[u8], Refusal>) -> Result<(), Fault> {
        self.judge_refusal(event, answer.err())?;
        let Ok(bytes) = answer else {
            return Ok(());
        };
        let reports = Report::read_all(bytes);
        let reports = reports.map_err(|refusal| format!("report bytes: {refusal:?}"))?;
        self.judge_reports(event, &reports)?;
        match *event {
            Event::Timed(new) => self.day.push(new),
            Event::DayEnd { .. } => self.day.clear(),
            _ => {}
        }
        Ok(())
    }

    /// 16, 1 and 2 come before what is looked at here.
    fn judge_refusal(&self, event: &Event, found: Option<Refusal>) -> Result<(), Fault> {
        if let Some(Refusal::VenueRecord | Refusal::ShortBuffer | Refusal::Spent) = found {
            return Ok(());
        }
        let found = found.map(Refusal::number);
        match event {
            Event::Timed(new) => {
                let expected = self.refusal_of(new);
                let claim = format!("a timed price's refusal: {found:?} for {expected:?}");
                ensure(found == expected, &claim)
            }
            _ => ensure(
                !matches!(found, Some(22 | 23)),
                "22 and 23 are of timed prices",
            ),
        }
    }

    /// Report 7 comes where the plain look gives it and nowhere else, "at most one report 7,
    /// the first of its event" (F10.4).
    fn judge_reports(&self, event: &Event, reports: &[Report]) -> Result<(), Fault> {
        let expected = match *event {
            Event::Timed(TimedPrice { time, price }) => {
                let direction = direction_over(price, &self.within(time));
                direction.map(|direction| Report::Pause { direction, price })
            }
            _ => None,
        };
        let is_pause = |report: &&Report| matches!(report, Report::Pause { .. });
        let first = reports.first().filter(is_pause).copied();
        let claim = format!("report 7 by the plain look: {first:?} for {expected:?}");
        ensure(first == expected, &claim)?;
        let count = reports.iter().filter(is_pause).count();
        let most = usize::from(expected.is_some());
        ensure(count == most, "report 7 once and first of its event")
    }
}
