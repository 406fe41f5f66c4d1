//! A call of apply on both sides, with the same lent buffers.

use crate::compare::same;
use crate::counts::Lent;
use crate::engine;
use crate::model::{permitted_price, read_record, Event, RecordCheck, Refusal};
use crate::output::Output;
use crate::sessions::Fault;
use crate::sides::Sides;
use crate::streams::Call;

/// What a call got.
pub struct Applied {
    /// The model's answer, with which the engine's was compared in the call.
    pub answer: Result<usize, Refusal>,
    /// The byte count of the record by the engine, 0 where it can't be read.
    pub length: usize,
    /// The engine's own bytes in the form of a play: the reports of an accepted
    /// event, 0 and the refusal's number of a refused one.
    pub bytes: Vec<u8>,
}

impl Applied {
    /// The bytes of the call's record; where it can't be read, the first byte,
    /// behind which the next call goes on.
    pub fn taken(&self) -> usize {
        self.length.max(1)
    }

    /// Adds the event; a record that can't be read is none.
    pub fn add_to(&self, output: &mut Output) {
        if self.length > 0 {
            output.add_event(&self.bytes);
        }
    }
}

/// A buffer for each side.
pub struct Applier {
    lent: [Lent; 2],
}

impl Applier {
    pub fn new() -> Self {
        Applier {
            lent: [Lent::new(), Lent::new()],
        }
    }

    /// A call on both sides: the same answer, reports and venue.
    pub fn call(&mut self, sides: &mut Sides, call: &Call) -> Result<Applied, Fault> {
        let length = compare_record(sides.venue.step, call.record)?;
        let read = read_record(call.record, 0);
        let [engine_lent, model_lent] = &mut self.lent;
        let (venue, words) = sides.lend();
        let number = engine::apply(words, call.record, engine_lent.lend(call.buffer));
        let answer = read.and_then(|(event, _)| {
            let buffer = model_lent.lend(call.buffer);
            venue?.apply(&event, buffer, RecordCheck::Done)
        });
        same("answer", number, engine::answer_of(answer))?;
        let (refusal, count) = (number / 65_536, number % 65_536);
        let bytes = if refusal == 0 {
            if !matches!(read, Ok((Event::Timed(_) | Event::DayEnd { .. }, _))) {
                sides.compare_kept_prices()?;
            }
            self.compare_accepted(sides, count as usize)?
        } else {
            self.compare_refused(sides)?;
            vec![0, refusal as u8]
        };
        Ok(Applied {
            answer,
            length,
            bytes,
        })
    }

    /// Venue, words behind it and the whole report buffer stay.
    fn compare_refused(&self, sides: &Sides) -> Result<(), Fault> {
        sides.compare_kept("a word after a refusal")?;
        let kept = self.lent[0].keeps_from(0);
        same("report buffer after a refusal kept", kept, true)
    }

    /// Gives the engine's reports, and puts the noise back.
    fn compare_accepted(&mut self, sides: &Sides, count: usize) -> Result<Vec<u8>, Fault> {
        let [engine_lent, model_lent] = &mut self.lent;
        let reports = engine_lent.front(count).to_vec();
        same("reports", &reports[..], model_lent.front(count))?;
        let kept = engine_lent.keeps_from(count);
        same("bytes behind the reports kept", kept, true)?;
        engine_lent.restore(count);
        model_lent.restore(count);
        sides.compare_venue()?;
        Ok(reports)
    }
}

/// The record check, and the permitted price of a bid at a step. Gives the
/// engine's byte count of the record.
fn compare_record(step: u32, bytes: &[u8]) -> Result<usize, Fault> {
    let read = read_record(bytes, 0);
    let length = engine::record_check(bytes);
    same(
        "record check",
        length,
        read.map_or(0, |(_, end)| end as u64),
    )?;
    if let Ok((Event::Bid { price }, _)) = read {
        let expected = permitted_price(step, price).unwrap_or(0);
        let found = engine::permitted_price(step, price);
        same("permitted price", found, expected)?;
    }
    Ok(length as usize)
}
