//! What a run counts of refused entries, so that its end shows that document 02's
//! No. 3 and the 21 of No. 7 were reached: the condition that was answered, and what else the entry
//! breaks. Where each pair was reached, any other order of the conditions would have
//! been seen, but for show and life, which share a refusal.

use crate::conditions::{broken, CONDITIONS};
use crate::model::{Entry, Event, Refusal, Venue, CENT};
use crate::reached::{self, smaller, Line, Named};
use std::fmt;

/// The places of the codes among the conditions: mark, show, life, slide; and behind
/// them of the owner.
const MARK: usize = 2;
const SLIDE: usize = 5;
const WRONG_MARK: usize = 6;
const OWNER: usize = 7;

#[derive(Default)]
pub struct RefusedEntries {
    half_cent: AtStep,
    cent: AtStep,
}

/// The counts at one step.
#[derive(Default)]
struct AtStep {
    /// By the condition that was answered and another behind it that is broken
    /// too, or itself where it is the only one.
    pairs: [[u64; CONDITIONS.len()]; CONDITIONS.len()],
    /// By the code that was answered: the lowest bad one, the highest number, and
    /// good codes in the low 16 bits of a number.
    codes: [[u64; 3]; 4],
    /// 20 by the marks other than 2 and by the slides 1 to 3.
    slides: [[u64; 3]; 3],
    /// 21 by the owner: 0, one too high, the highest number, and one that is a firm in
    /// its low 16 bits.
    owners: [u64; 4],
}

impl AtStep {
    fn take(&mut self, venue: &Venue, entry: &Entry, refusal: Refusal) {
        let mut places = broken(&CONDITIONS, entry, venue);
        let answers = |place: &usize| CONDITIONS[*place].refusal == refusal.number();
        let Some(first) = places.next().filter(answers) else {
            return;
        };
        let mut others = places.peekable();
        if others.peek().is_none() {
            self.pairs[first][first] += 1;
        }
        for other in others {
            self.pairs[first][other] += 1;
            if answers(&other) {
                // Show and life: what came between them would not be seen.
                break;
            }
        }
        match first {
            MARK..=SLIDE => self.take_code(first - MARK, entry),
            WRONG_MARK => self.take_slide(entry),
            OWNER => self.take_owner(entry.owner.unwrap_or(0)),
            _ => {}
        }
    }

    fn take_code(&mut self, place: usize, entry: &Entry) {
        let codes = [
            (entry.mark, 3),
            (entry.show, 1),
            (entry.life, 1),
            (entry.slide, 3),
        ];
        let (code, highest) = codes[place];
        let kinds = [
            code == highest + 1,
            code == u32::MAX,
            code & 0xFFFF <= highest,
        ];
        for (count, is_kind) in self.codes[place].iter_mut().zip(kinds) {
            *count += u64::from(is_kind);
        }
    }

    fn take_slide(&mut self, entry: &Entry) {
        let mark = match entry.mark {
            3 => 2,
            mark => mark as usize,
        };
        self.slides[mark][entry.slide as usize - 1] += 1;
    }

    fn take_owner(&mut self, owner: u32) {
        let kinds = [
            owner == 0,
            owner == 65_536,
            owner == u32::MAX,
            matches!(owner % 65_536, 1..=3),
        ];
        for (count, is_kind) in self.owners.iter_mut().zip(kinds) {
            *count += u64::from(is_kind);
        }
    }

    fn lines(&self) -> Vec<Line<String>> {
        let mut lines = Vec::new();
        for (place, condition) in CONDITIONS.iter().enumerate() {
            let mut counts = vec![(self.pairs[place][place], "alone")];
            let behind = CONDITIONS.iter().enumerate().skip(place + 1);
            counts.extend(behind.map(|(other, beside)| (self.pairs[place][other], beside.name)));
            lines.push((format!("{} {}", condition.refusal, condition.name), counts));
        }
        for (condition, counts) in CONDITIONS[MARK..].iter().zip(self.codes) {
            let kinds = ["lowest", "highest", "with good low bits"];
            lines.push((format!("bad {}", condition.name), named(counts, kinds)));
        }
        for (mark, counts) in ["0", "1", "3"].iter().zip(self.slides) {
            let slides = ["once", "no more", "opt-out"];
            lines.push((format!("20 on mark {mark}"), named(counts, slides)));
        }
        let kinds = ["0", "65,536", "highest", "with good low bits"];
        lines.push(("bad owner".to_owned(), named(self.owners, kinds)));
        lines
    }
}

fn named<const N: usize>(counts: [u64; N], names: [&'static str; N]) -> Vec<Named> {
    counts.into_iter().zip(names).collect()
}

impl RefusedEntries {
    /// Takes a refused event; what comes before the conditions of an entry isn't
    /// counted.
    pub fn refuse(&mut self, venue: &Venue, event: &Event, refusal: Refusal) {
        let Event::Entry(entry) = event else {
            return;
        };
        let at_step = match venue.step {
            CENT => &mut self.cent,
            _ => &mut self.half_cent,
        };
        at_step.take(venue, entry, refusal);
    }

    /// Whether each count is above 0 at both steps.
    #[cfg(test)]
    pub fn are_complete(&self) -> bool {
        reached::never(&self.lines()).is_empty()
    }

    /// The smaller one of the counts at both steps.
    fn lines(&self) -> Vec<Line<String>> {
        smaller(self.half_cent.lines(), self.cent.lines())
    }
}

impl fmt::Display for RefusedEntries {
    fn fmt(&self, f: &mut fmt::Formatter) -> fmt::Result {
        let title = "refused entries, by what else they break, the smaller count of both steps";
        reached::write(f, title, &self.lines())
    }
}
