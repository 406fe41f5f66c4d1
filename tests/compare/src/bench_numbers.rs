//! The part of `numbers` that times reading and writing.

use crate::model::LONGEST_NUMBER;
use crate::number_sides::{Library, Model, Side};
use crate::numbers::{of_any_length, MOST_NUMBERS};
use crate::rng::Rng;
use std::hint::black_box;
use std::time::{Duration, Instant};

const SEED: u64 = 205;

/// Numbers that are timed together, and how often. The best time counts, so that
/// the machine's other work doesn't.
const NUMBERS: usize = 4_000;
const ROUNDS: usize = 300;

/// Numbers, and their bytes one after another.
struct Lent {
    numbers: Vec<u64>,
    bytes: Vec<u8>,
}

impl Lent {
    fn new(numbers: Vec<u64>) -> Self {
        let mut bytes = vec![0; numbers.len() * LONGEST_NUMBER];
        let end = Model.write(&mut bytes, 0, &numbers).expect("there is room");
        bytes.truncate(end);
        Lent { numbers, bytes }
    }

    fn read(&self, side: &dyn Side) -> u64 {
        let mut sum: u64 = 0;
        let mut at = 0;
        while at < self.bytes.len() {
            let (number, end) = side.read(black_box(&self.bytes), at).expect("a number");
            sum = sum.wrapping_add(number);
            at = end;
        }
        sum
    }

    /// Writes so many at once, each time at the front of a buffer with room for them.
    fn write(&self, side: &dyn Side, at_once: usize) -> u64 {
        let mut buffer = [0; MOST_NUMBERS * LONGEST_NUMBER];
        let mut bytes = 0;
        for numbers in self.numbers.chunks(at_once) {
            let end = side.write(black_box(&mut buffer), 0, numbers);
            bytes += end.expect("there is room");
        }
        bytes as u64
    }
}

/// Prints each side's nanoseconds a number, in turns, the best of all rounds. Gives
/// whether each gave what the model gives.
fn time(what: &str, sides: &[(&str, &dyn Side)], work: impl Fn(&dyn Side) -> u64) -> bool {
    let mut best = vec![Duration::MAX; sides.len()];
    let expected = work(&Model);
    let mut well = true;
    for _ in 0..ROUNDS {
        for ((_, side), best) in sides.iter().zip(&mut best) {
            let start = Instant::now();
            let given = work(*side);
            *best = start.elapsed().min(*best);
            well &= given == expected;
        }
    }
    print!("  {what:<22}");
    for ((name, _), best) in sides.iter().zip(best) {
        let time = best.as_secs_f64() * 1e9 / NUMBERS as f64;
        print!("  {name} {time:.2}");
    }
    println!();
    well
}

/// The greatest number of this bit length, over and over.
fn of_length(bits: u32) -> Vec<u64> {
    vec![u64::MAX >> (64 - bits); NUMBERS]
}

/// Times the model and the libraries. Gives whether each gave what the model gives.
pub fn run(names: &[&str], libraries: &[Library]) -> bool {
    let mut sides: Vec<(&str, &dyn Side)> = vec![("model", &Model)];
    for (name, library) in names.iter().zip(libraries) {
        sides.push((name, library));
    }
    let mut rng = Rng::new(SEED);
    let any = (0..NUMBERS).map(|_| of_any_length(&mut rng)).collect();
    let lent = [
        ("1 byte", of_length(7)),
        ("3 bytes", of_length(21)),
        ("5 bytes", of_length(32)),
        ("10 bytes", of_length(64)),
        ("any length", any),
    ];
    let mut well = true;
    for (what, numbers) in lent {
        let lent = Lent::new(numbers);
        println!("nanoseconds a number, {what}:");
        well &= time("read", &sides, |side| lent.read(side));
        well &= time("write", &sides, |side| lent.write(side, 1));
        let at_once = format!("write, {MOST_NUMBERS} at once");
        well &= time(&at_once, &sides, |side| lent.write(side, MOST_NUMBERS));
    }
    well
}
