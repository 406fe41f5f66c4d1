//! Copy out, depth, watch and the permitted price of both sides, on the same lent
//! records.

use crate::compare::same;
use crate::counts::Counts;
use crate::engine;
use crate::model::{
    copy_out, depth, permitted_price, watch_tape, OrderRecord, Refusal, Side, Venue, BUY, PLACES,
    SHORT,
};
use crate::odd::{any_price, any_step, any_watch, odd_number, odd_owner};
use crate::rng::Rng;
use crate::sessions::Fault;
use std::ops::Range;

/// The longest run that is lent, longer than depth takes.
const LONGEST_RUN: usize = 300;

/// Runs are lent from anywhere among so many records, so that a write before or
/// behind them shows.
const RECORDS: usize = 2 * LONGEST_RUN;

/// Depths, watches and permitted prices at each look, and records that are drawn
/// anew.
const DEPTHS: usize = 3;
const WATCHES: usize = 3;
const PERMITTED: usize = 3;
const REDRAWN: usize = 12;

/// The records that runs are lent from, the same nonsense on both sides before
/// each look.
pub struct Observer {
    noise: Vec<OrderRecord>,
    engine: Vec<OrderRecord>,
    model: Vec<OrderRecord>,
}

impl Observer {
    pub fn new() -> Self {
        let mut rng = Rng::new(0);
        let noise: Vec<OrderRecord> = (0..RECORDS).map(|_| any_record(&mut rng)).collect();
        Observer {
            engine: noise.clone(),
            model: noise.clone(),
            noise,
        }
    }

    /// Compares a copy of the book in a run for about so many orders, and some
    /// depths, watches and permitted prices. The book is a refusal where the words are no venue
    /// record in a way that the model's venue can't say.
    pub fn look(
        &mut self,
        rng: &mut Rng,
        book: Result<&Venue, Refusal>,
        resting: usize,
        words: &mut [u32],
        counts: &mut Counts,
    ) -> Result<(), Fault> {
        let length = run_length(rng, resting);
        let run = place_run(rng, length);
        let answer = engine::copy_out(words, &mut self.engine[run.clone()]);
        let expected = book.and_then(|venue| copy_out(venue, &mut self.model[run.clone()]));
        counts.copy(expected);
        same("copy out", answer, engine::answer_of(expected))?;
        self.compare_records("after copy out")?;
        self.compare_depth(rng, run.clone(), counts)?;
        for _ in 1..DEPTHS {
            let any = rng.up_to(LONGEST_RUN as u32) as usize;
            let length = rng.pick(&[any, any, any, any, any, any, PLACES, PLACES + 1]);
            let run = place_run(rng, length);
            self.compare_depth(rng, run, counts)?;
        }
        self.compare_records("after depth")?;
        self.restore(rng, run);
        (0..WATCHES).try_for_each(|_| compare_watch(rng, counts))?;
        (0..PERMITTED).try_for_each(|_| compare_permitted(rng, counts))
    }

    /// Puts the noise back over a run, and other noise in some places.
    fn restore(&mut self, rng: &mut Rng, run: Range<usize>) {
        let redrawn = [(); REDRAWN].map(|()| rng.place(RECORDS));
        for at in redrawn {
            self.noise[at] = any_record(rng);
        }
        for at in run.chain(redrawn) {
            self.engine[at] = self.noise[at];
            self.model[at] = self.noise[at];
        }
    }

    /// The depth of a run at one of its prices or some other.
    fn compare_depth(
        &mut self,
        rng: &mut Rng,
        run: Range<usize>,
        counts: &mut Counts,
    ) -> Result<(), Fault> {
        let records = &self.model[run.clone()];
        let price = if records.is_empty() || rng.one_in(8) {
            odd_number(rng)
        } else {
            rng.pick(records).price
        };
        let number = rng.pick(&[0, 0, 0, 1, 1, 1, 2, 3, 256, u32::MAX]);
        let side = if number == 0 { Side::Buy } else { Side::Sell };
        let expected = depth(records, price, side);
        counts.depth(expected);
        let answer = engine::depth(&mut self.engine[run.clone()], price, number);
        let expected = expected.unwrap_or(u64::MAX);
        same(
            "depth: price, side, records, shares",
            (price, number, run.len(), answer),
            (price, number, run.len(), expected),
        )
    }

    /// All records, those before and behind a lent run among them.
    fn compare_records(&self, when: &str) -> Result<(), Fault> {
        if self.engine == self.model {
            return Ok(());
        }
        let differs = |&at: &usize| self.engine[at] != self.model[at];
        let at = (0..RECORDS).find(differs).unwrap_or_default();
        let what = format!("record {at} {when}");
        same(&what, self.engine[at], self.model[at])
    }
}

fn compare_watch(rng: &mut Rng, counts: &mut Counts) -> Result<(), Fault> {
    let step = any_step(rng);
    let (before, price) = any_watch(rng);
    let (mut engine, mut model) = (before, before);
    let answer = engine::watch(&mut engine, step, price);
    let expected = watch_tape(&mut model, step, price);
    counts.watch(step, &before, price, expected);
    counts.host_watch(expected, model != before);
    let expected = engine::answer_of(expected.map(|()| 0));
    same(
        "watch: before, step, price, answer, after",
        (before, step, price, answer, engine),
        (before, step, price, expected, model),
    )
}

fn compare_permitted(rng: &mut Rng, counts: &mut Counts) -> Result<(), Fault> {
    let (step, bid) = (any_step(rng), any_price(rng));
    let answer = engine::permitted_price(step, bid);
    let expected = permitted_price(step, bid);
    counts.permitted(step, bid, expected);
    same(
        "permitted price: step, bid, price",
        (step, bid, answer),
        (step, bid, expected.unwrap_or(0)),
    )
}

/// The length of a run to copy a book to: exactly long enough, longer, one too
/// short, empty, or any.
fn run_length(rng: &mut Rng, resting: usize) -> usize {
    let any = rng.up_to(LONGEST_RUN as u32) as usize;
    let longer = rng.between(resting as u32, LONGEST_RUN as u32) as usize;
    let short = resting.saturating_sub(1);
    rng.pick(&[resting, resting, resting + 1, longer, longer, short, 0, any])
}

fn place_run(rng: &mut Rng, length: usize) -> Range<usize> {
    let at = rng.place(RECORDS - length + 1);
    at..at + length
}

/// A record of nonsense: mostly displayed, at one of few prices; flags are any
/// words.
fn any_record(rng: &mut Rng) -> OrderRecord {
    let (odd, any) = (odd_number(rng), rng.word());
    OrderRecord {
        id: any,
        mark: rng.pick(&[BUY, BUY, 1, SHORT, 3, 4, odd]),
        limit: odd_number(rng),
        shares: rng.pick(&[0, 1, any, u32::MAX, u32::MAX]),
        show: rng.pick(&[0, 1, 1, 1, 1, 2, odd]),
        life: odd_number(rng),
        slide: odd_number(rng),
        stamp: rng.word(),
        price: rng.pick(&[0, 1, 90_000, 90_000, 90_001, u32::MAX, odd]),
        entry_bid: odd_number(rng),
        adjusted: rng.word(),
        used: rng.word(),
        clear: rng.word(),
        market: rng.word(),
        owner: odd_owner(rng),
    }
}
