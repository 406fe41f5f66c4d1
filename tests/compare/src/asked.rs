//! What a run counts of questions, so that its end shows that document 02's No. 4
//! was reached.

use crate::fronts::{limit, shares_in_reach, working_price};
use crate::model::{Fill, Question, Refusal, Venue, CENT, MOST_EVENTS, PLACES};
use crate::reached::{self, smaller, Line, Named};
#[cfg(feature = "engine")]
use std::cmp::Ordering;
use std::fmt;

/// What a question or the venue that answers it may be; each is counted by yes and
/// no.
type Kind = (&'static str, fn(&Question, &Venue) -> bool);

const KINDS: [Kind; 9] = [
    ("a full book", |_, venue| venue.orders.len() == PLACES),
    ("spent events", |_, venue| venue.accepted == MOST_EVENTS),
    ("market price", |asked, _| asked.price == 0),
    ("mark 0", |asked, _| asked.mark == 0),
    ("mark 1", |asked, _| asked.mark == 1),
    ("mark 2", |asked, _| asked.mark == 2),
    ("mark 3", |asked, _| asked.mark == 3),
    ("short that works above its limit", |asked, venue| {
        working_price(asked, venue) > limit(asked)
    }),
    ("market short that works above 1", |asked, venue| {
        asked.price == 0 && working_price(asked, venue) > limit(asked)
    }),
];

/// A refusal of a question, and what else the question may be.
type Refused = (&'static str, Refusal, fn(&Question) -> bool);

const REFUSED: [Refused; 10] = [
    ("16", Refusal::VenueRecord, |_| true),
    ("3", Refusal::Price, |_| true),
    ("3 with bad shares", Refusal::Price, has_bad_shares),
    ("3 with a bad mark", Refusal::Price, has_bad_mark),
    ("3 for 4,294,967,295", Refusal::Price, |asked| {
        asked.price == u32::MAX
    }),
    ("4", Refusal::Shares, |_| true),
    ("4 with a bad mark", Refusal::Shares, has_bad_mark),
    ("4 for 4,294,967,295", Refusal::Shares, |asked| {
        asked.shares == u32::MAX
    }),
    ("18", Refusal::Mark, |_| true),
    ("18 for 4,294,967,295", Refusal::Mark, |asked| {
        asked.mark == u32::MAX
    }),
];

fn has_bad_shares(asked: &Question) -> bool {
    !(1..=1_000_000).contains(&asked.shares)
}

fn has_bad_mark(asked: &Question) -> bool {
    asked.mark > 3
}

/// The book before an entry: whether the entry's owner has orders there, so that a yes may
/// miss, and whether 256 orders rest.
#[derive(Clone, Copy)]
pub struct BookBefore {
    pub owner_rests: bool,
    pub full_book: bool,
}

/// A yes or no, held against an accepted entry: whether it was filled.
#[derive(Clone, Copy)]
pub struct Held {
    pub book: BookBefore,
    pub yes: bool,
    pub filled: bool,
}

#[derive(Default)]
pub struct Asked {
    half_cent: AtStep,
    cent: AtStep,
    /// Runs with fewer words than a venue, with as many and with more; of the engine
    /// alone.
    runs: Option<[u64; 3]>,
}

/// The counts at one step.
#[derive(Default)]
struct AtStep {
    questions: u64,
    refused: [u64; REFUSED.len()],
    /// By no and yes.
    answers: [u64; 2],
    kinds: [[u64; 2]; KINDS.len()],
    held: [u64; 2],
    /// Entries whose owner has orders in the book: no, yes and filled, yes and not
    /// filled.
    own: [u64; 3],
    /// Entries that were let into a full book.
    full_book: [u64; 2],
    /// Yes by the first of several orders, after some, by all orders of the book.
    read: [u64; 3],
    /// Yes with no share to spare; no with one share missing, and on an empty book.
    just_enough: u64,
    one_short: u64,
    empty: u64,
}

impl AtStep {
    fn ask(&mut self, asked: &Question, venue: &Venue, answer: Result<Fill, Refusal>) {
        self.questions += 1;
        match answer {
            Ok(fill) => self.answer(asked, venue, fill),
            Err(refusal) => {
                for (count, (_, other, is_kind)) in self.refused.iter_mut().zip(REFUSED) {
                    *count += u64::from(refusal == other && is_kind(asked));
                }
            }
        }
    }

    fn answer(&mut self, asked: &Question, venue: &Venue, fill: Fill) {
        let yes = usize::from(fill.in_full);
        self.answers[yes] += 1;
        for (counts, (_, is_kind)) in self.kinds.iter_mut().zip(KINDS) {
            counts[yes] += u64::from(is_kind(asked, venue));
        }
        let resting = venue.orders.len();
        let found = shares_in_reach(asked, venue, resting);
        let shares = u64::from(asked.shares);
        if fill.in_full {
            self.just_enough += u64::from(found == shares);
            self.read[reading(fill.read, resting)] += 1;
        } else {
            self.one_short += u64::from(found + 1 == shares);
            self.empty += u64::from(resting == 0);
        }
    }

    fn lines(&self) -> Vec<Line<&'static str>> {
        let names = REFUSED.iter().map(|(name, ..)| *name);
        let [first, several, all] = self.read;
        let yes = [
            (first, "by the first order"),
            (several, "after several"),
            (all, "by all orders"),
            (self.just_enough, "just enough"),
        ];
        let no = [
            (self.empty, "on an empty book"),
            (self.one_short, "one share short"),
        ];
        let mut lines = Vec::from([
            ("asked", by_answer(self.answers)),
            ("refused", self.refused.into_iter().zip(names).collect()),
            ("yes", yes.to_vec()),
            ("no", no.to_vec()),
        ]);
        let kinds = KINDS.iter().zip(self.kinds);
        lines.extend(kinds.map(|((name, _), counts)| (*name, by_answer(counts))));
        lines.push(("held against an accepted entry", by_answer(self.held)));
        let [no, filled, missed] = self.own;
        let own = [
            (no, "no"),
            (filled, "yes and filled"),
            (missed, "yes and not filled"),
        ];
        lines.push(("an entry of a firm with orders", own.to_vec()));
        lines.push(("an entry in a full book", by_answer(self.full_book)));
        lines
    }
}

/// Which kind of reading ends with a yes: by the first of several orders, after
/// some, or by all.
fn reading(read: usize, resting: usize) -> usize {
    match read {
        _ if read == resting => 2,
        1 => 0,
        _ => 1,
    }
}

fn by_answer([no, yes]: [u64; 2]) -> Vec<Named> {
    Vec::from([(yes, "yes"), (no, "no")])
}

impl Asked {
    fn at_step(&mut self, venue: &Venue) -> &mut AtStep {
        match venue.step {
            CENT => &mut self.cent,
            _ => &mut self.half_cent,
        }
    }

    pub fn ask(&mut self, asked: &Question, venue: &Venue, answer: Result<Fill, Refusal>) {
        self.at_step(venue).ask(asked, venue, answer);
    }

    /// Takes the yes or no that was held against an accepted entry.
    pub fn hold(&mut self, venue: &Venue, held: Held) {
        let counts = self.at_step(venue);
        if held.book.full_book {
            counts.full_book[usize::from(held.yes)] += 1;
        }
        match (held.book.owner_rests, held.yes, held.filled) {
            (false, yes, _) => counts.held[usize::from(yes)] += 1,
            (true, false, _) => counts.own[0] += 1,
            (true, true, true) => counts.own[1] += 1,
            (true, true, false) => counts.own[2] += 1,
        }
    }

    /// Takes the length of a run, held against that of a venue.
    #[cfg(feature = "engine")]
    pub fn lend(&mut self, length: Ordering) {
        let place = match length {
            Ordering::Less => 0,
            Ordering::Equal => 1,
            Ordering::Greater => 2,
        };
        self.runs.get_or_insert_default()[place] += 1;
    }

    fn lines(&self) -> Vec<Line<&'static str>> {
        let mut lines = smaller(self.half_cent.lines(), self.cent.lines());
        if let Some([short, exact, longer]) = self.runs {
            let runs = [
                (short, "too short"),
                (exact, "just long enough"),
                (longer, "longer"),
            ];
            lines.push(("runs at both steps", runs.to_vec()));
        }
        lines
    }
}

impl fmt::Display for Asked {
    fn fmt(&self, f: &mut fmt::Formatter) -> fmt::Result {
        let (half_cent, cent) = (self.half_cent.questions, self.cent.questions);
        let title = format!(
            "questions, {half_cent} at 50 and {cent} at 100, the smaller count of both steps"
        );
        reached::write(f, &title, &self.lines())
    }
}
