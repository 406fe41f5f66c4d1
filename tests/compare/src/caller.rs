//! A call of play on both sides, with the same lent runs.

use crate::compare::same;
use crate::counts::Counts;
use crate::engine;
use crate::model::{Progress, RecordCheck, Refusal, Stop, LEAST_BUFFER};
use crate::output::Output;
use crate::rng::Rng;
use crate::sessions::Fault;
use crate::sides::Sides;
use std::fmt::Debug;

/// The most bytes and ends that are lent.
const MOST_BYTES: usize = 1 << 20;
const MOST_ENDS: usize = 1 << 12;

/// So many bytes and ends behind the lent ones are compared too.
const BEHIND: usize = 16;

/// What stands in the progress before a call.
const NOISE: Progress = Progress {
    events: 0x0123_4567_89AB_CDEF,
    at: 0x1357_9BDF_0246_8ACE,
    bytes: 0xFEDC_BA98_7654_3210,
};

/// Why a play stopped.
pub type Answer = Result<Stop, Refusal>;

/// How many bytes and ends are lent for a call.
#[derive(Clone, Copy, Debug)]
pub struct Room {
    pub bytes: usize,
    pub ends: usize,
}

/// A run whose front is lent, the same noise on both sides before each call.
struct Run<T> {
    noise: Vec<T>,
    engine: Vec<T>,
    model: Vec<T>,
}

impl<T: Copy + Debug + PartialEq> Run<T> {
    fn new(noise: Vec<T>) -> Self {
        Run {
            engine: noise.clone(),
            model: noise.clone(),
            noise,
        }
    }

    /// So many places that are lent, and some behind them.
    fn compare(&self, what: &str, lent: usize) -> Result<(), Fault> {
        let compared = ..lent + BEHIND;
        let (engine, model) = (&self.engine[compared], &self.model[compared]);
        if engine == model {
            return Ok(());
        }
        let mut pairs = engine.iter().zip(model).enumerate();
        let differing = pairs.find(|(_, (engine, model))| engine != model);
        let (at, (engine, model)) = differing.expect("a place where the runs differ");
        same(&format!("{what} {at}"), engine, model)
    }

    /// Puts the noise back over the front.
    fn restore(&mut self, count: usize) {
        for side in [&mut self.engine, &mut self.model] {
            side[..count].copy_from_slice(&self.noise[..count]);
        }
    }
}

/// The two sides, and the runs that they are lent.
pub struct Caller {
    pub sides: Sides,
    bytes: Run<u8>,
    ends: Run<u64>,
}

impl Caller {
    pub fn new() -> Self {
        let mut rng = Rng::new(0);
        let bytes = (0..MOST_BYTES + BEHIND).map(|_| rng.word() as u8);
        let bytes = Run::new(bytes.collect());
        let ends = (0..MOST_ENDS + BEHIND).map(|_| rng.next());
        Caller {
            sides: Sides::new(),
            bytes,
            ends: Run::new(ends.collect()),
        }
    }

    /// A call on both sides: the same answer, progress, bytes, ends and venue.
    /// Adds the engine's bytes of the events to the output, and gives the answer
    /// and the offset that it reached.
    pub fn call(
        &mut self,
        records: &[u8],
        from: u64,
        room: Room,
        output: &mut Output,
        counts: &mut Counts,
    ) -> Result<(Answer, u64), Fault> {
        let accepted = self.sides.venue.accepted;
        let compared = self.compare(records, from, room).and_then(|played| {
            self.compare_words(accepted)?;
            Ok(played)
        });
        let (answer, progress) = compared.map_err(|fault| {
            let len = records.len();
            format!("play of {len} bytes from {from} with {room:?}: {fault}")
        })?;
        counts.play(answer, progress.events);
        self.take(&progress, output);
        Ok((answer, progress.at))
    }

    /// The answer and what was lent, the words left out. Gives the model's
    /// answer, with which the engine's was compared, and the engine's progress,
    /// where the answer is 16 that of no event.
    fn compare(
        &mut self,
        records: &[u8],
        from: u64,
        room: Room,
    ) -> Result<(Answer, Progress), Fault> {
        let (venue, words) = self.sides.lend();
        let (mut engine, mut model) = (NOISE, NOISE);
        let bytes = &mut self.bytes.engine[..room.bytes];
        let ends = &mut self.ends.engine[..room.ends];
        let answer = engine::play(words, records, from, bytes, ends, &mut engine);
        let expected = venue.and_then(|venue| {
            let bytes = &mut self.bytes.model[..room.bytes];
            let ends = &mut self.ends.model[..room.ends];
            venue.play(records, from, bytes, ends, &mut model, RecordCheck::Done)
        });
        let number = engine::answer_of(expected.map(|stop| stop as usize));
        same("answer", answer, number)?;
        same("progress", engine, model)?;
        self.bytes.compare("byte", room.bytes)?;
        self.ends.compare("end", room.ends)?;
        if expected == Err(Refusal::VenueRecord) {
            engine = Progress {
                at: from,
                ..Progress::default()
            };
        }
        Ok((expected, engine))
    }

    /// Every word stays where no event was accepted since there were so many by
    /// the model's count, and else the words are those of the model's venue.
    fn compare_words(&self, accepted: u32) -> Result<(), Fault> {
        if self.sides.venue.accepted == accepted {
            self.sides.compare_kept("a word, no event accepted")
        } else {
            self.sides.compare_venue()
        }
    }

    /// Adds what the engine wrote to the output, and puts the noise back.
    fn take(&mut self, progress: &Progress, output: &mut Output) {
        let (bytes, ends) = (progress.bytes as usize, progress.events as usize);
        output.add(&self.bytes.engine[..bytes], &self.ends.engine[..ends]);
        self.bytes.restore(bytes);
        self.ends.restore(ends);
    }

    /// Room for all records from an offset on, up to one that can't be read,
    /// and for so many bytes and ends more.
    pub fn room_needed(&mut self, records: &[u8], from: u64, spare: usize) -> Room {
        let mut progress = Progress::default();
        let bytes = &mut self.bytes.model[..MOST_BYTES];
        let ends = &mut self.ends.model[..MOST_ENDS];
        let mut venue = self.sides.venue.clone();
        let check = RecordCheck::Done;
        let answer = venue.play(records, from, bytes, ends, &mut progress, check);
        let (bytes, ends) = (progress.bytes as usize, progress.events as usize);
        self.bytes.restore(bytes);
        self.ends.restore(ends);
        // A record is read only where there is a place for its end.
        let ends = ends + usize::from(answer.is_err());
        Room {
            bytes: (bytes + LEAST_BUFFER + spare).min(MOST_BYTES),
            ends: (ends + spare).min(MOST_ENDS),
        }
    }
}
