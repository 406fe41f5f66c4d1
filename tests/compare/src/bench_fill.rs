//! The part of `bench` that times questions of No. 4 of document 02.

use crate::bench::{BOOKS, SEED};
#[cfg(feature = "engine")]
use crate::engine;
use crate::model::{Question, RecordCheck, Venue, BUY, CENT, MOST_SHARES};
use crate::streams::trace;
use std::hint::black_box;
use std::time::{Duration, Instant};

/// Questions that are timed together, and how often. The best time counts, so that
/// the machine's other work doesn't.
const QUESTIONS: u32 = 2_000;
const ROUNDS: usize = 60;

/// One side, which asks a question over and over and gives the sum of the orders
/// read.
type Asker<'a> = Box<dyn FnMut(&Question) -> usize + 'a>;

fn over_and_over<'a>(mut ask: impl FnMut(&Question) -> usize + 'a) -> Asker<'a> {
    Box::new(move |asked| (0..QUESTIONS).map(|_| ask(black_box(asked))).sum())
}

fn model(venue: &Venue, check: RecordCheck) -> Asker<'_> {
    over_and_over(move |asked| {
        let answer = black_box(venue).would_fill(asked, check);
        answer.map_or(0, |fill| fill.read)
    })
}

#[cfg(feature = "engine")]
fn engine(venue: &Venue) -> Asker<'_> {
    let mut words = vec![0; engine::VENUE_WORDS];
    engine::store(venue, &mut words);
    over_and_over(move |asked| {
        let answer = engine::would_fill(black_box(&mut words), asked);
        engine::count_read(answer)
    })
}

fn askers(venue: &Venue) -> Vec<(&'static str, Asker<'_>)> {
    Vec::from([
        ("model", model(venue, RecordCheck::Skipped)),
        ("model with check", model(venue, RecordCheck::Done)),
        #[cfg(feature = "engine")]
        ("engine", engine(venue)),
    ])
}

/// Asks for one share of the first order at its price.
fn of_the_first_order(venue: &Venue) -> Question {
    let first = venue.orders[0];
    Question {
        mark: if first.mark == BUY { 1 } else { BUY },
        price: first.price,
        shares: 1,
    }
}

/// Asks for more than all sells have; each of them is reached.
const OF_ALL_ORDERS: Question = Question {
    mark: BUY,
    price: 0,
    shares: MOST_SHARES,
};

/// Times questions on every book, at the step of a cent. Gives whether every side
/// read as many orders as there are to read.
pub fn run() -> bool {
    BOOKS.map(bench_book).into_iter().all(|well| well)
}

/// Times both questions on a book of so many orders.
fn bench_book(resting: usize) -> bool {
    let venue = trace(CENT, SEED, resting, 1).start;
    let first = of_the_first_order(&venue);
    println!("questions, {resting} orders resting:");
    let yes = bench_question("yes by the first order", &venue, &first, 1);
    let no = bench_question("no, all orders read", &venue, &OF_ALL_ORDERS, resting);
    yes && no
}

fn bench_question(what: &str, venue: &Venue, asked: &Question, read: usize) -> bool {
    let mut sides = askers(venue);
    let mut best = vec![Duration::MAX; sides.len()];
    let mut well = true;
    for _ in 0..ROUNDS {
        for ((_, asker), best) in sides.iter_mut().zip(&mut best) {
            let start = Instant::now();
            let sum = asker(asked);
            *best = start.elapsed().min(*best);
            well &= sum == read * QUESTIONS as usize;
        }
    }
    print_times(what, &sides, &best);
    well
}

/// Each side's time, and how many times that of each side before it.
fn print_times(what: &str, sides: &[(&str, Asker)], best: &[Duration]) {
    let nanoseconds = |at: usize| best[at].as_secs_f64() * 1e9 / f64::from(QUESTIONS);
    for (at, (name, _)) in sides.iter().enumerate() {
        let time = nanoseconds(at);
        print!("  {what:<25}{name:<18}{time:>8.1} ns");
        for (other, (name, _)) in sides[..at].iter().enumerate() {
            print!("   {:.1} times {name}", time / nanoseconds(other));
        }
        println!();
    }
}
