//! What a run counts of timed prices and of kept prices, so that its end shows that document
//! 02's No. 10 was reached.

use crate::ladder::Ladder;
use crate::model::{Event, Refusal, Report, TimedPrice, Venue, CENT, MOST_KEPT};
use crate::pauses::{direction_over, is_fall, is_rise, is_within};
use crate::price_rules::is_legal;
use crate::reached::{self, grouped, smaller, Line};
use std::fmt;

/// A timed price that was accepted or refused, and what the list has gone through.
struct Tried<'a> {
    before: &'a Venue,
    new: TimedPrice,
    answer: Result<&'a [Report], Refusal>,
    past: &'a Past,
}

/// Of a session.
#[derive(Default)]
struct Past {
    from_open: bool,
    /// What was kept when the last day ended.
    day_before: Vec<TimedPrice>,
    /// The latest time that was refused on this day.
    refused: Option<u32>,
    /// The last tape price without a time on this day.
    tape: Option<u32>,
}

impl Tried<'_> {
    fn reports(&self) -> &[Report] {
        self.answer.unwrap_or_default()
    }

    fn direction(&self) -> Option<u32> {
        match self.reports().first() {
            Some(Report::Pause { direction, .. }) => Some(*direction),
            _ => None,
        }
    }

    fn gives(&self, direction: u32) -> bool {
        self.direction() == Some(direction)
    }

    /// Accepted and without report 7, where such kept prices stay.
    fn gives_none(&self, is_such: impl Fn(&TimedPrice) -> bool) -> bool {
        self.answer.is_ok() && self.direction().is_none() && self.earlier().any(|it| is_such(&it))
    }

    /// The kept prices that stay.
    fn earlier(&self) -> impl Iterator<Item = TimedPrice> + '_ {
        let kept = self.before.kept.iter().copied();
        kept.filter(|old| is_within(self.new.time, old.time))
    }

    fn dropped(&self) -> usize {
        self.before.kept.len() - self.earlier().count()
    }

    /// Whether the kept prices that are such, and no others, give the report 7 that came.
    fn is_by(&self, is_such: impl Fn(&TimedPrice) -> bool) -> bool {
        let others: Vec<TimedPrice> = self.earlier().filter(|old| !is_such(old)).collect();
        self.direction().is_some() && direction_over(self.new.price, &others).is_none()
    }

    /// Whether other prices beside those that stay would give something else.
    fn would_differ(&self, others: &[TimedPrice]) -> bool {
        let all: Vec<TimedPrice> = self.earlier().chain(others.iter().copied()).collect();
        self.answer.is_ok() && direction_over(self.new.price, &all) != self.direction()
    }

    fn is_both(&self) -> bool {
        let mut earlier = self.earlier();
        self.gives(1) && earlier.any(|old| is_rise(self.new.price, old.price))
    }

    fn oldest_ago(&self) -> Option<u32> {
        let oldest = self.before.kept.first();
        oldest.map(|oldest| self.new.time.wrapping_sub(oldest.time))
    }

    fn last_ago(&self) -> Option<u32> {
        let last = self.before.kept.last();
        last.map(|last| self.new.time.wrapping_sub(last.time))
    }

    fn goes_on_by(&self, seconds: u32) -> bool {
        self.answer.is_ok() && self.last_ago() == Some(seconds)
    }

    fn is_accepted_in(&self, phase: u32) -> bool {
        self.answer.is_ok() && self.before.phase == phase
    }

    fn has_on(&self) -> bool {
        self.reports().contains(&Report::RestrictionOn)
    }

    fn is_refused(&self, refusal: Refusal) -> bool {
        self.answer == Err(refusal)
    }

    fn is_early(&self) -> bool {
        let last = self.before.kept.last();
        last.is_some_and(|last| last.time > self.new.time)
    }

    fn is_full(&self) -> bool {
        self.before.kept.len() == MOST_KEPT
    }

    fn is_with_no_room(&self) -> bool {
        self.is_full() && self.dropped() == 0
    }
}

/// The price that is such a step above or below.
fn step_from(venue: &Venue, price: u32, up: bool) -> u32 {
    let ladder = Ladder { step: venue.step };
    let rung = ladder.rung_of(price);
    ladder.price_of(if up { rung + 1 } else { rung.saturating_sub(1) })
}

/// A count of timed prices, and the line that it stands in.
type Kind = (&'static str, &'static str, fn(&Tried) -> bool);

const GIVES: &str = "accepted timed prices";
const BORDERS: &str = "at a border of a kept price";
const BY: &str = "report 7 by kept prices alone that are";
const NOT_BY: &str = "no other direction by";
const TIMES: &str = "accepted times";
const WINDOW: &str = "kept prices at a new one";
const PHASES: &str = "reports beside it";
const REFUSED: &str = "refused timed prices";

const OF_REPORTS: [Kind; 10] = [
    (GIVES, "without report 7", |it| it.gives_none(|_| true)),
    (GIVES, "with a fall", |it| it.gives(1)),
    (GIVES, "with a rise", |it| it.gives(2)),
    (GIVES, "with a fall where there is a rise", |it| {
        it.is_both()
    }),
    (GIVES, "from open with a fall", |it| {
        it.gives(1) && it.past.from_open
    }),
    (GIVES, "from open with a rise", |it| {
        it.gives(2) && it.past.from_open
    }),
    (BORDERS, "exactly 90%", |it| {
        it.is_by(|old| 10 * it.new.price == 9 * old.price)
    }),
    (BORDERS, "a step above 90%", |it| {
        let below = step_from(it.before, it.new.price, false);
        it.gives_none(|old| is_fall(below, old.price))
    }),
    (BORDERS, "exactly 110%", |it| {
        it.is_by(|old| 10 * it.new.price == 11 * old.price)
    }),
    (BORDERS, "a step below 110%", |it| {
        let above = step_from(it.before, it.new.price, true);
        it.gives_none(|old| is_rise(above, old.price))
    }),
];

const OF_KEPT: [Kind; 13] = [
    (BY, "of the same second", |it| {
        it.is_by(|old| old.time == it.new.time)
    }),
    (BY, "of 299 seconds ago", |it| {
        it.is_by(|old| it.new.time - old.time == 299)
    }),
    (BY, "of 300 seconds ago", |it| {
        it.is_by(|old| it.new.time - old.time == 300)
    }),
    (BY, "the newest", |it| {
        it.is_by(|old| it.before.kept.last() == Some(old))
    }),
    (BY, "the oldest", |it| {
        it.is_by(|old| it.before.kept.first() == Some(old))
    }),
    (BY, "beyond the last 256", |it| {
        let kept = &it.before.kept;
        let newest = &kept[kept.len().saturating_sub(256)..];
        it.is_by(|old| !newest.contains(old))
    }),
    (BY, "what a refused time would drop", |it| {
        let refused = it.past.refused;
        it.is_by(|old| refused.is_some_and(|time| !is_within(time, old.time)))
    }),
    (NOT_BY, "one of 301 seconds ago", |it| {
        let kept = it.before.kept.iter().copied();
        let over: Vec<TimedPrice> = kept
            .filter(|old| it.new.time.wrapping_sub(old.time) == 301)
            .collect();
        it.would_differ(&over)
    }),
    (NOT_BY, "those of the day before", |it| {
        it.would_differ(&it.past.day_before)
    }),
    (NOT_BY, "a tape price without a time", |it| {
        let tape = it.past.tape.map(|price| TimedPrice { price, ..it.new });
        it.would_differ(tape.as_slice())
    }),
    (NOT_BY, "the close", |it| {
        let price = it.before.close;
        it.would_differ(&[TimedPrice { price, ..it.new }])
    }),
    (PHASES, "5 with a fall in phase 0", |it| {
        it.is_accepted_in(0) && it.gives(1) && it.has_on()
    }),
    // In a made-up record: from open what it rises from would have brought 5.
    (PHASES, "5 with a rise", |it| it.gives(2) && it.has_on()),
];

const OF_TIMES: [Kind; 21] = [
    (PHASES, "5 with it in phase 2", |it| {
        it.is_accepted_in(2) && it.direction().is_some() && it.has_on()
    }),
    (PHASES, "5 without it", |it| {
        it.direction().is_none() && it.has_on()
    }),
    (PHASES, "none in phase 1", |it| {
        it.is_accepted_in(1) && it.reports().len() == 1 && it.direction().is_some()
    }),
    (PHASES, "5 and the pass", |it| {
        it.direction().is_some() && it.has_on() && it.reports().len() > 2
    }),
    (TIMES, "the first of a later day", |it| {
        it.answer.is_ok() && it.before.kept.is_empty() && !it.past.day_before.is_empty()
    }),
    (TIMES, "of these before the day before's last", |it| {
        let last = it.past.day_before.last();
        let earlier = last.is_some_and(|last| last.time > it.new.time);
        it.answer.is_ok() && it.before.kept.is_empty() && earlier
    }),
    (TIMES, "standing still", |it| it.goes_on_by(0)),
    (TIMES, "a second later", |it| it.goes_on_by(1)),
    (TIMES, "300 seconds later", |it| it.goes_on_by(300)),
    (TIMES, "301 seconds later", |it| it.goes_on_by(301)),
    (TIMES, "over a highest number of 31 bits", |it| {
        let half = 1 << 31;
        let last = it.before.kept.last();
        it.answer.is_ok() && it.new.time >= half && last.is_some_and(|last| last.time < half)
    }),
    (TIMES, "below 300 with kept prices", |it| {
        it.answer.is_ok() && it.new.time < 300 && it.earlier().next().is_some()
    }),
    (TIMES, "300", |it| it.answer.is_ok() && it.new.time == 300),
    (TIMES, "4,294,967,295", |it| {
        it.answer.is_ok() && it.new.time == u32::MAX
    }),
    (WINDOW, "none", |it| {
        it.answer.is_ok() && it.before.kept.is_empty()
    }),
    (WINDOW, "511, all stay", |it| {
        it.answer.is_ok() && it.earlier().count() == MOST_KEPT - 1 && it.dropped() == 0
    }),
    (WINDOW, "512, one dropped", |it| {
        it.answer.is_ok() && it.is_full() && it.dropped() == 1
    }),
    (WINDOW, "512, some dropped", |it| {
        it.is_full() && (2..MOST_KEPT).contains(&it.dropped())
    }),
    (WINDOW, "512, all dropped", |it| {
        it.is_full() && it.dropped() == MOST_KEPT
    }),
    (WINDOW, "512 from open, one dropped", |it| {
        it.past.from_open && it.answer.is_ok() && it.is_full() && it.dropped() == 1
    }),
    (WINDOW, "fewer, one dropped", |it| {
        it.answer.is_ok() && !it.is_full() && it.dropped() == 1
    }),
];

const OF_REFUSED: [Kind; 13] = [
    (REFUSED, "3 alone", |it| {
        it.is_refused(Refusal::Price) && !it.is_early() && !it.is_with_no_room()
    }),
    (REFUSED, "3 beside an earlier time", |it| {
        it.is_refused(Refusal::Price) && it.is_early()
    }),
    (REFUSED, "3 beside a 513th", |it| {
        it.is_refused(Refusal::Price) && it.is_with_no_room()
    }),
    (REFUSED, "3 at a time that would drop some", |it| {
        it.is_refused(Refusal::Price) && it.dropped() > 0
    }),
    (REFUSED, "22 alone", |it| {
        it.is_refused(Refusal::Time) && !it.is_full()
    }),
    (REFUSED, "22 by a second", |it| {
        it.is_refused(Refusal::Time) && it.last_ago() == Some(u32::MAX)
    }),
    (REFUSED, "22 beside a 513th", |it| {
        it.is_refused(Refusal::Time) && it.is_with_no_room()
    }),
    (REFUSED, "22 from open", |it| {
        it.is_refused(Refusal::Time) && it.past.from_open
    }),
    (REFUSED, "22 to signed numbers later", |it| {
        let last = it.before.kept.last().map_or(0, |last| last.time);
        it.is_refused(Refusal::Time) && it.new.time as i32 > last as i32
    }),
    (REFUSED, "23 alone", |it| it.is_refused(Refusal::KeptPrices)),
    (REFUSED, "23 of the same second", |it| {
        it.is_refused(Refusal::KeptPrices) && it.last_ago() == Some(0)
    }),
    (REFUSED, "23 with the oldest 300 seconds ago", |it| {
        it.is_refused(Refusal::KeptPrices) && it.oldest_ago() == Some(300)
    }),
    (REFUSED, "23 from open", |it| {
        it.is_refused(Refusal::KeptPrices) && it.past.from_open
    }),
];

/// All counts of timed prices.
fn kinds() -> impl Iterator<Item = Kind> {
    let kinds = OF_REPORTS.into_iter().chain(OF_KEPT);
    kinds.chain(OF_TIMES).chain(OF_REFUSED)
}

const KINDS: usize = OF_REPORTS.len() + OF_KEPT.len() + OF_TIMES.len() + OF_REFUSED.len();

/// A kind of made-up record, from the record and whether it is sound.
type Record = (&'static str, fn(&Venue, bool) -> bool);

const RECORDS: [Record; 12] = [
    ("sound with kept prices", |venue, sound| {
        sound && !venue.kept.is_empty()
    }),
    ("sound with 512", |venue, sound| {
        sound && venue.kept.len() == MOST_KEPT
    }),
    ("sound over 300 seconds", |venue, sound| {
        sound && span(venue) == 300
    }),
    ("sound in one second", |venue, sound| {
        sound && venue.kept.len() > 1 && span(venue) == 0
    }),
    ("sound with the highest time", |venue, sound| {
        sound && venue.kept.last().is_some_and(|last| last.time == u32::MAX)
    }),
    ("broken by 513 alone", |venue, sound| {
        !sound && venue.kept.len() == MOST_KEPT + 1 && has_times(venue) && is_legal_all(venue)
    }),
    ("by more alone", |venue, sound| {
        !sound && venue.kept.len() > MOST_KEPT + 1 && has_times(venue) && is_legal_all(venue)
    }),
    ("by a price alone", |venue, sound| {
        !sound && venue.kept.len() <= MOST_KEPT && has_times(venue) && !is_legal_all(venue)
    }),
    ("by one price of many", |venue, sound| {
        let illegal = venue
            .kept
            .iter()
            .filter(|old| !is_legal(venue.step, old.price));
        !sound && has_times(venue) && venue.kept.len() > 9 && illegal.count() == 1
    }),
    ("by times that fall alone", |venue, sound| {
        let span = span(venue);
        !sound && falls(venue) && (0..=300).contains(&span) && is_legal_all(venue)
    }),
    ("by 301 seconds alone", |venue, sound| {
        !sound && !falls(venue) && span(venue) == 301 && is_legal_all(venue)
    }),
    ("by more seconds alone", |venue, sound| {
        !sound && !falls(venue) && span(venue) > 301 && is_legal_all(venue)
    }),
];

/// The last time less the first; 0 where there is none.
fn span(venue: &Venue) -> i64 {
    match (venue.kept.first(), venue.kept.last()) {
        (Some(first), Some(last)) => i64::from(last.time) - i64::from(first.time),
        _ => 0,
    }
}

fn falls(venue: &Venue) -> bool {
    let mut pairs = venue.kept.windows(2);
    pairs.any(|pair| pair[0].time > pair[1].time)
}

fn has_times(venue: &Venue) -> bool {
    !falls(venue) && span(venue) <= 300
}

fn is_legal_all(venue: &Venue) -> bool {
    let mut kept = venue.kept.iter();
    kept.all(|old| is_legal(venue.step, old.price))
}

/// Whether a record is broken by nothing but its kept prices, if at all.
fn is_sound_without(venue: &Venue) -> bool {
    let mut other = venue.clone();
    other.kept.clear();
    other.is_sound()
}

#[derive(Default)]
pub struct Pausing {
    half_cent: AtStep,
    cent: AtStep,
    past: Past,
}

/// The counts at one step.
struct AtStep {
    kinds: [u64; KINDS],
    records: [u64; RECORDS.len()],
}

impl Default for AtStep {
    fn default() -> Self {
        AtStep {
            kinds: [0; KINDS],
            records: [0; RECORDS.len()],
        }
    }
}

impl AtStep {
    fn take(&mut self, tried: &Tried) {
        for (count, (_, _, is_kind)) in self.kinds.iter_mut().zip(kinds()) {
            *count += u64::from(is_kind(tried));
        }
    }

    fn record(&mut self, venue: &Venue) {
        let sound = venue.is_sound();
        for (count, (_, is_such)) in self.records.iter_mut().zip(RECORDS) {
            *count += u64::from(is_such(venue, sound));
        }
    }

    fn lines(&self) -> Vec<Line<&'static str>> {
        let kinds = self.kinds.into_iter().zip(kinds());
        let mut lines = grouped(kinds.map(|(count, (line, name, _))| (line, (count, name))));
        let records = self.records.into_iter().zip(RECORDS);
        let records = records.map(|(count, (name, _))| (count, name));
        lines.push(("made-up records", records.collect()));
        lines
    }
}

impl Pausing {
    fn at_step(&mut self, step: u32) -> &mut AtStep {
        match step {
            CENT => &mut self.cent,
            _ => &mut self.half_cent,
        }
    }

    /// Takes the venue at the start of a session.
    pub fn start(&mut self, venue: &Venue, from_open: bool) {
        self.past = Past {
            from_open,
            ..Past::default()
        };
        if !from_open && is_sound_without(venue) {
            self.at_step(venue.step).record(venue);
        }
    }

    /// Takes an event, the venue before it, and its reports or its refusal.
    pub fn take(&mut self, before: &Venue, event: &Event, answer: Result<&[Report], Refusal>) {
        match (*event, answer) {
            (_, Err(Refusal::VenueRecord)) => {}
            (Event::Timed(new), _) => {
                let counts = match before.step {
                    CENT => &mut self.cent,
                    _ => &mut self.half_cent,
                };
                counts.take(&Tried {
                    before,
                    new,
                    answer,
                    past: &self.past,
                });
                if answer.is_err() {
                    self.past.refused = self.past.refused.max(Some(new.time));
                }
            }
            (Event::Tape { price }, Ok(_)) => self.past.tape = Some(price),
            (Event::DayEnd { .. }, Ok(_)) => {
                self.past.day_before.clone_from(&before.kept);
                (self.past.refused, self.past.tape) = (None, None);
            }
            _ => {}
        }
    }

    /// Whether each count is above 0 at both steps.
    #[cfg(test)]
    pub fn are_complete(&self) -> bool {
        reached::never(&self.lines()).is_empty()
    }

    /// The smaller one of the counts at both steps.
    fn lines(&self) -> Vec<Line<&'static str>> {
        smaller(self.half_cent.lines(), self.cent.lines())
    }
}

impl fmt::Display for Pausing {
    fn fmt(&self, f: &mut fmt::Formatter) -> fmt::Result {
        let title = "timed prices, the smaller count of both steps";
        reached::write(f, title, &self.lines())
    }
}

#[cfg(test)]
mod tests {
    use super::*;
    use crate::shown::show_all;

    /// Streams reach each count at both steps.
    #[test]
    fn timed_prices_are_complete() {
        let mut pausing = Pausing::default();
        show_all(1, 200_000, |shown| {
            if shown.first {
                pausing.start(shown.before, shown.from_open);
            }
            pausing.take(shown.before, shown.event, shown.answer);
        });
        assert!(pausing.are_complete(), "{pausing}");
    }
}
