//! The two sides of a comparison: the model's venue and the engine's words.

use crate::compare::same;
use crate::counts::Counts;
use crate::engine;
use crate::model::{Refusal, Venue, CENT};
use crate::odd::{any_price, any_step};
use crate::rng::Rng;
use crate::sessions::Fault;
use crate::streams::Session;

/// Room for words behind the venue.
const WORDS: usize = engine::VENUE_WORDS + 64;

/// Lengths of runs for open: too short, just long enough, longer.
const ODD_LENGTHS: [usize; 9] = [
    0,
    1,
    15,
    16,
    100,
    engine::VENUE_WORDS - 1,
    engine::VENUE_WORDS,
    engine::VENUE_WORDS + 1,
    WORDS,
];

/// Lengths of runs that are too short for a venue.
const SHORT_LENGTHS: [usize; 6] = [0, 1, 15, 16, 100, engine::VENUE_WORDS - 1];

/// Opens with any step and close, before the one that a session begins with.
const ODD_OPENS: usize = 6;

#[derive(Clone)]
pub struct Sides {
    pub venue: Venue,
    words: Vec<u32>,
    before: Vec<u32>,
    noise: Vec<u32>,
    lent_words: usize,
    /// The words are no venue record, which the model's venue can't say: a
    /// wrong flag or count, or too few words lent.
    is_no_record: bool,
}

impl Sides {
    pub fn new() -> Self {
        let mut rng = Rng::new(0);
        let noise: Vec<u32> = (0..WORDS).map(|_| rng.word()).collect();
        Sides {
            venue: Venue::fresh(CENT, 1),
            words: noise.clone(),
            before: noise.clone(),
            noise,
            lent_words: WORDS,
            is_no_record: false,
        }
    }

    /// Brings both sides to a session's start.
    pub fn start(
        &mut self,
        rng: &mut Rng,
        session: &Session,
        counts: &mut Counts,
    ) -> Result<(), Fault> {
        self.venue = session.start.clone();
        self.words.copy_from_slice(&self.noise);
        self.is_no_record = false;
        self.lent_words = rng.pick(&[engine::VENUE_WORDS, WORDS]);
        if session.kind.is_from_open() {
            for _ in 0..ODD_OPENS {
                let lent_words = rng.pick(&ODD_LENGTHS);
                self.compare_open(lent_words, any_step(rng), any_price(rng), counts)?;
            }
            let (step, close) = (self.venue.step, self.venue.close);
            self.compare_open(self.lent_words, step, close, counts)?;
            self.compare_venue()
        } else {
            // Places that it doesn't use and the spare words hold noise.
            engine::store(&self.venue, &mut self.words);
            self.spoil(rng);
            Ok(())
        }
    }

    /// What each side is lent for a call: the venue, or 16 where the words are
    /// no venue record in a way that it can't say; and the words.
    pub fn lend(&mut self) -> (Result<&mut Venue, Refusal>, &mut [u32]) {
        self.before.copy_from_slice(&self.words);
        let venue = if self.is_no_record {
            Err(Refusal::VenueRecord)
        } else {
            Ok(&mut self.venue)
        };
        (venue, &mut self.words[..self.lent_words])
    }

    /// Too few words for a venue, for a call on the engine's side alone.
    pub fn lend_short(&mut self, rng: &mut Rng) -> &mut [u32] {
        self.before.copy_from_slice(&self.words);
        &mut self.words[..rng.pick(&SHORT_LENGTHS)]
    }

    /// An open of so many words: the same answer and every word, those behind
    /// the venue and those of a refused open as they were.
    fn compare_open(
        &mut self,
        lent_words: usize,
        step: u32,
        close: u32,
        counts: &mut Counts,
    ) -> Result<(), Fault> {
        self.before.copy_from_slice(&self.words);
        let answer = engine::open(&mut self.words[..lent_words], step, close);
        let model = if lent_words < engine::VENUE_WORDS {
            Err(Refusal::VenueRecord)
        } else {
            Venue::open(step, close)
        };
        let expected = model.as_ref().map(|_| 0).map_err(|&refusal| refusal);
        counts.open(step, close, expected);
        let expected = engine::answer_of(expected);
        same(
            "open: step, close, words, answer",
            (step, close, lent_words, answer),
            (step, close, lent_words, expected),
        )?;
        if let Ok(venue) = &model {
            self.before[..engine::VENUE_WORDS].copy_from_slice(&engine::fresh_words(venue));
        }
        self.compare_kept("a word after open")
    }

    /// The words are those from before the call.
    pub fn compare_kept(&self, what: &str) -> Result<(), Fault> {
        if self.words == self.before {
            return Ok(());
        }
        let differing = (0..WORDS).find(|&at| self.words[at] != self.before[at]);
        same(what, differing, None)
    }

    /// The words are those of the model's venue, the spare ones are those from before the
    /// call, and those behind it as ever.
    pub fn compare_venue(&self) -> Result<(), Fault> {
        if let Some((at, found, expected)) = engine::first_difference(&self.venue, &self.words) {
            return same(&format!("word {at} of the venue"), found, expected);
        }
        let (spare, before) = (&self.words[engine::SPARE], &self.before[engine::SPARE]);
        same("spare words", spare, before)?;
        let behind = &self.words[engine::VENUE_WORDS..];
        let noise = &self.noise[engine::VENUE_WORDS..];
        same("words behind the venue", behind, noise)
    }

    /// The words in which prices are kept, used or not, are those from before the call.
    pub fn compare_kept_prices(&self) -> Result<(), Fault> {
        let mut places = engine::KEPT_PRICES;
        let differing = places.find(|&at| self.words[at] != self.before[at]);
        same("a word of the kept prices", differing, None)
    }

    /// The engine's words here mean the same venue as those after the whole
    /// play. The model's venues are left out: each was compared in its calls.
    pub fn compare_end(&self, way: &str, whole: &Sides) -> Result<(), Fault> {
        let (found, expected) = (engine::used(&self.words), engine::used(&whole.words));
        if found == expected {
            return Ok(());
        }
        // Where the counts are the same, so are the lengths.
        let mut pairs = found.iter().zip(&expected).enumerate();
        let differing = pairs.find(|(_, (found, expected))| found != expected);
        let (at, (found, expected)) = differing.expect("a word that differs");
        Err(format!(
            "word {at} of those in use: {way} {found}, whole {expected}"
        ))
    }

    /// Makes the words now and then something that is no venue record.
    fn spoil(&mut self, rng: &mut Rng) {
        let len = self.venue.orders.len();
        match rng.up_to(41) {
            0..3 if len > 0 => {
                let flag = engine::flag_at(rng.place(len), rng.place(engine::FLAGS));
                self.words[flag] = rng.pick(&[2, 3, 256, u32::MAX]);
            }
            3 => self.words[engine::COUNT_AT] = rng.pick(&[257, 1 << 16, 1 << 31, u32::MAX]),
            4 => self.lent_words = rng.pick(&SHORT_LENGTHS),
            5 => {
                let others = [0, engine::LAYOUT - 1, engine::LAYOUT + 1, u32::MAX];
                self.words[engine::LAYOUT_AT] = rng.pick(&others);
            }
            6..8 => {
                let counts = [513, 1_024, 1 << 16, 1 << 31, u32::MAX];
                self.words[engine::KEPT_COUNT_AT] = rng.pick(&counts);
            }
            _ => return,
        }
        self.is_no_record = true;
    }
}
