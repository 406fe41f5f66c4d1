//! Questions of No. 4 of document 02 to both sides, which change no word.

use crate::asked::BookBefore;
use crate::compare::same;
use crate::counts::Counts;
use crate::engine;
use crate::fronts;
use crate::model::{Entry, Question, RecordCheck, Refusal, Report};
use crate::questions::any_questions;
use crate::rng::Rng;
use crate::sessions::Fault;
use crate::sides::Sides;

/// The most questions at a look, of most venues.
const QUESTIONS: u32 = 3;

/// The same answer of both sides, number for number. Gives the engine's.
pub fn ask(sides: &mut Sides, asked: &Question, counts: &mut Counts) -> Result<u32, Fault> {
    let (venue, words) = sides.lend();
    counts.asked.lend(words.len().cmp(&engine::VENUE_WORDS));
    let found = engine::would_fill(words, asked);
    let answer = venue.and_then(|venue| venue.would_fill(asked, RecordCheck::Done));
    counts.asked.ask(asked, &sides.venue, answer);
    let expected = engine::fill_answer_of(answer);
    same("would fill", (asked, found), (asked, expected))?;
    sides.compare_kept("a word after a question")?;
    Ok(found)
}

/// Random questions, and one more to too few words.
pub fn ask_any(sides: &mut Sides, rng: &mut Rng, counts: &mut Counts) -> Result<(), Fault> {
    for asked in any_questions(rng, &sides.venue, QUESTIONS) {
        ask(sides, &asked, counts)?;
        let words = sides.lend_short(rng);
        counts.asked.lend(words.len().cmp(&engine::VENUE_WORDS));
        let found = engine::would_fill(words, &asked);
        let expected = engine::fill_answer_of(Err(Refusal::VenueRecord));
        same("would fill, a short run", (asked, found), (asked, expected))?;
        sides.compare_kept("a word after a question to a short run")?;
    }
    Ok(())
}

/// An entry that was asked for and not yet sent: the engine's answer, and the book that it
/// meets.
pub struct Pending {
    entry: Entry,
    book: BookBefore,
    answer: u32,
}

/// Asks for an entry.
pub fn ask_for(sides: &mut Sides, entry: Entry, counts: &mut Counts) -> Result<Pending, Fault> {
    let book = fronts::book_before(&entry, &sides.venue);
    let answer = ask(sides, &entry.question(), counts)?;
    Ok(Pending {
        entry,
        book,
        answer,
    })
}

/// Holds the engine's answer to an entry's question against what the entry got from
/// the engine: its reports in their bytes, or its refusal.
pub fn hold(
    sides: &Sides,
    pending: &Pending,
    entered: Result<&[u8], Refusal>,
    counts: &mut Counts,
) -> Result<(), Fault> {
    let reports = entered.map(Report::read_all);
    let reports = match &reports {
        Ok(Ok(reports)) => Ok(&reports[..]),
        Ok(Err(refusal)) => return Err(format!("reports: {refusal:?}")),
        Err(refusal) => Err(*refusal),
    };
    let answer = engine::read_fill_answer(pending.answer);
    if let Some(held) = fronts::hold(&pending.entry, pending.book, answer, reports)? {
        counts.asked.hold(&sides.venue, held);
    }
    Ok(())
}
