//! A session's records once more, in one run of bytes that both sides play from
//! the session's start: whole, in pieces, mixed with single events, and from odd
//! offsets. What the engine gave in the session, in pieces and in the mix is
//! compared with what it gave in the whole.

use crate::applier::{Applied, Applier};
use crate::caller::{Caller, Room};
use crate::counts::Counts;
use crate::model::{Refusal, Stop, LEAST_BUFFER};
use crate::output::Output;
use crate::rng::Rng;
use crate::sessions::Fault;
use crate::sides::Sides;
use crate::streams::{Call, MOST_BUFFER};

/// Of so many sessions, on average, one is gone through by a mix too.
const SESSIONS_A_MIX: u32 = 4;

pub struct Replay {
    start: Sides,
    records: Vec<u8>,
    /// The events of the session as the engine applied them one by one; none
    /// after a call that got what no event of a play gets.
    applied: Option<Output>,
    caller: Caller,
    applier: Applier,
}

impl Replay {
    pub fn new() -> Self {
        Replay {
            start: Sides::new(),
            records: Vec::new(),
            applied: None,
            caller: Caller::new(),
            applier: Applier::new(),
        }
    }

    /// Begins a session at these sides.
    pub fn start(&mut self, sides: &Sides) {
        self.start = sides.clone();
        self.records.clear();
        self.applied = Some(Output::default());
    }

    /// Takes the record at the front of a call's bytes, and what it got.
    pub fn gather(&mut self, bytes: &[u8], applied: &Applied) {
        self.records.extend_from_slice(&bytes[..applied.taken()]);
        match (applied.answer, &mut self.applied) {
            (Err(Refusal::ShortBuffer | Refusal::VenueRecord), _) => self.applied = None,
            (_, Some(output)) => applied.add_to(output),
            (_, None) => {}
        }
    }

    /// Plays the gathered records in all ways. The sides are those after the
    /// session's last event.
    pub fn run(&mut self, sides: &Sides, rng: &mut Rng, counts: &mut Counts) -> Result<(), Fault> {
        self.restart();
        let output = self.play_whole(rng, counts)?;
        let whole = (&output, &self.caller.sides.clone());
        counts.both_ways(self.applied.as_ref().map(Output::len));
        if let Some(applied) = &self.applied {
            compare("one by one", (applied, sides), whole)?;
        }
        self.restart();
        let pieces = self.play_pieces(rng, counts)?;
        compare("in pieces", (&pieces, &self.caller.sides), whole)?;
        if rng.one_in(SESSIONS_A_MIX) {
            self.restart();
            let mixed = self.mix(rng, counts)?;
            compare("mixed", (&mixed, &self.caller.sides), whole)?;
        }
        self.play_from_odd_offsets(rng, counts)
    }

    fn restart(&mut self) {
        self.caller.sides = self.start.clone();
    }

    /// Plays all records in one call with room enough, and in one more behind
    /// each byte at which no record can be read.
    fn play_whole(&mut self, rng: &mut Rng, counts: &mut Counts) -> Result<Output, Fault> {
        counts.day();
        let mut output = Output::default();
        let mut at = 0;
        loop {
            let spare = rng.pick(&[0, 1, 5]);
            let room = self.caller.room_needed(&self.records, at, spare);
            let (answer, reached) =
                self.caller
                    .call(&self.records, at, room, &mut output, counts)?;
            at = match answer {
                Ok(Stop::RecordsEnd) | Err(Refusal::VenueRecord) => return Ok(output),
                Ok(Stop::NoPlace | Stop::NoRoom) => reached,
                Err(_) => reached + 1,
            };
        }
    }

    /// Plays the records as they come in, with little room.
    fn play_pieces(&mut self, rng: &mut Rng, counts: &mut Counts) -> Result<Output, Fault> {
        let mut output = Output::default();
        let (mut at, mut came) = (0, 0);
        while at < self.records.len() {
            counts.piece();
            let front = rng.pick(&[0, at / 2, at]);
            let records = &self.records[front..came];
            let from = (at - front) as u64;
            let (answer, reached) =
                self.caller
                    .call(records, from, Room::little(rng), &mut output, counts)?;
            at = front + reached as usize;
            match answer {
                Err(Refusal::VenueRecord) => return Ok(output),
                Ok(Stop::RecordsEnd) => came += self.more(rng, came),
                Err(Refusal::MissingByte) if came < self.records.len() => {
                    came += self.more(rng, came);
                }
                Ok(Stop::NoPlace | Stop::NoRoom) => {}
                Err(_) => at += 1,
            }
        }
        Ok(output)
    }

    /// How many bytes come in, behind so many.
    fn more(&self, rng: &mut Rng, came: usize) -> usize {
        let few = rng.between(1, 12) as usize;
        let some = rng.between(1, 200) as usize;
        let all = self.records.len() - came;
        rng.pick(&[1, few, some, some, some, all]).min(all)
    }

    /// Goes through the records by turns: one is applied, or some are played.
    fn mix(&mut self, rng: &mut Rng, counts: &mut Counts) -> Result<Output, Fault> {
        counts.mix();
        let turns_a_play = rng.pick(&[2, 5, 20]);
        let mut output = Output::default();
        let mut next = Some(0);
        while let Some(at) = next.filter(|&at| at < self.records.len()) {
            next = if rng.one_in(turns_a_play) {
                self.play_some(at, rng, &mut output, counts)?
            } else {
                self.apply_one(at, rng, &mut output, counts)?
            };
        }
        Ok(output)
    }

    /// Applies the record at an offset, at times with too short a buffer. Gives
    /// the offset to go on from; none where the words are no venue record.
    fn apply_one(
        &mut self,
        at: usize,
        rng: &mut Rng,
        output: &mut Output,
        counts: &mut Counts,
    ) -> Result<Option<usize>, Fault> {
        counts.mixed_apply();
        let enough = rng.between(LEAST_BUFFER as u32, MOST_BUFFER as u32) as usize;
        let call = Call {
            record: &self.records[at..],
            buffer: rng.pick(&[LEAST_BUFFER - 1, LEAST_BUFFER, enough, enough]),
        };
        let applied = self.applier.call(&mut self.caller.sides, &call);
        let applied = applied.map_err(|fault| format!("apply at {at}: {fault}"))?;
        Ok(match applied.answer {
            Err(Refusal::VenueRecord) => None,
            Err(Refusal::ShortBuffer) => Some(at),
            _ => {
                applied.add_to(output);
                Some(at + applied.taken())
            }
        })
    }

    /// Plays some records from an offset on, as many as the room is for. Gives
    /// the offset to go on from; none where the words are no venue record.
    fn play_some(
        &mut self,
        at: usize,
        rng: &mut Rng,
        output: &mut Output,
        counts: &mut Counts,
    ) -> Result<Option<usize>, Fault> {
        let room = Room::little(rng);
        let (answer, reached) = self
            .caller
            .call(&self.records, at as u64, room, output, counts)?;
        let reached = reached as usize;
        Ok(match answer {
            Err(Refusal::VenueRecord) => None,
            Ok(_) => Some(reached),
            Err(_) => Some(reached + 1),
        })
    }

    /// Plays from anywhere in the records, in the middle of one too, and from
    /// their end and past it.
    fn play_from_odd_offsets(&mut self, rng: &mut Rng, counts: &mut Counts) -> Result<(), Fault> {
        let end = self.records.len() as u64;
        let inside = u64::from(rng.up_to(end as u32));
        let far = [1 << 32, 1 << 63].map(|far| far + inside);
        let past = rng.pick(&[end, end + 1, far[0], far[1], u64::MAX]);
        for from in [inside, past] {
            self.restart();
            let room = Room::little(rng);
            let mut output = Output::default();
            // Whatever the answer, it is the same on both sides.
            let _ = self
                .caller
                .call(&self.records, from, room, &mut output, counts)?;
        }
        Ok(())
    }
}

impl Room {
    /// Around what an event may need, at times less; few ends, at times none.
    fn little(rng: &mut Rng) -> Self {
        let least = LEAST_BUFFER as u32;
        let short = rng.up_to(least - 1);
        let tight = least + rng.up_to(40);
        let wide = least + rng.up_to(4_096);
        let bytes = rng.pick(&[short, least - 1, least, tight, wide, wide, wide, wide]);
        let few = rng.up_to(4);
        let some = rng.up_to(60);
        Room {
            bytes: bytes as usize,
            ends: rng.pick(&[0, 1, few, some, some, some]) as usize,
        }
    }
}

/// The engine's events on one way and its words at the end are those of the
/// whole play.
fn compare(way: &str, found: (&Output, &Sides), whole: (&Output, &Sides)) -> Result<(), Fault> {
    found.0.compare(way, whole.0)?;
    found.1.compare_end(way, whole.1)
}
