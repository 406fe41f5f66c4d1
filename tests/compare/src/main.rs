//! A second implementation of the venue of document 01 and of No. 1 to No. 10 of
//! document 02, and its comparison with the proved engine. See README.md.

mod account;
#[cfg(feature = "engine")]
mod applier;
mod asked;
#[cfg(feature = "engine")]
mod asker;
mod bench;
mod bench_fill;
mod bench_numbers;
mod by_cents;
mod by_limits;
mod by_owners;
#[cfg(feature = "engine")]
mod caller;
mod check;
#[cfg(test)]
mod code_days;
#[cfg(feature = "engine")]
mod compare;
mod conditions;
mod counts;
#[cfg(test)]
mod days;
mod document_01;
#[cfg(feature = "engine")]
mod engine;
#[cfg(test)]
mod falling_days;
mod falls;
#[cfg(test)]
mod fill_days;
mod fill_vectors;
#[cfg(test)]
mod firm_days;
mod firms;
mod fronts;
mod full_book_counts;
mod full_book_events;
mod full_books;
#[cfg(test)]
mod full_days;
#[cfg(test)]
mod half_cent_days;
mod half_cents;
mod ladder;
mod made_up;
#[cfg(test)]
mod market_days;
mod market_orders;
mod matching;
mod meetings;
mod model;
mod number_sides;
mod numbers;
#[cfg(feature = "engine")]
mod observe;
mod odd;
#[cfg(any(test, feature = "engine"))]
mod output;
mod pause_counts;
#[cfg(test)]
mod pause_days;
mod pause_rule;
mod pauses;
mod phase_table;
mod price_rules;
mod program;
mod questions;
mod reached;
mod refused_entries;
#[cfg(feature = "engine")]
mod replay;
mod rng;
mod sessions;
#[cfg(test)]
mod shown;
#[cfg(feature = "engine")]
mod sides;
#[cfg(test)]
mod slid_days;
mod slid_events;
mod slid_price_counts;
mod slid_prices;
#[cfg(test)]
mod slides_gone_wrong;
mod streams;
mod timed_events;
mod withdrawals;

use model::{CENT, HALF_CENT};
use std::io::{self, Read, Write};
use std::path::Path;
use std::process::ExitCode;

const USAGE: &str = "usage: compare play [--step STEP] [FILE] | vectors [--step STEP] DIR |
       fill [--step STEP] DIR | check SEED EVENTS | bench | numbers LIBRARY..; with the
       feature `engine` also: compare SEED EVENTS
       STEP is 50 or 100, without it 100";

fn main() -> ExitCode {
    let arguments: Vec<String> = std::env::args().skip(1).collect();
    let words: Vec<&str> = arguments.iter().map(String::as_str).collect();
    match run(&words) {
        Ok(true) => ExitCode::SUCCESS,
        Ok(false) => ExitCode::FAILURE,
        Err(error) => {
            eprintln!("compare: {error}");
            ExitCode::FAILURE
        }
    }
}

/// Runs a subcommand and gives whether all was well.
fn run(words: &[&str]) -> io::Result<bool> {
    match *words {
        ["play", ref rest @ ..] => play(rest),
        ["vectors", ref rest @ ..] => in_directory(rest, program::run_vectors),
        ["fill", ref rest @ ..] => in_directory(rest, fill_vectors::run),
        ["check", seed, events] => Ok(check::run(number(seed)?, number(events)?)),
        ["bench"] => Ok(bench::run()),
        ["numbers", _, ..] => numbers::run(&words[1..]),
        #[cfg(feature = "engine")]
        ["compare", seed, events] => Ok(compare::run(number(seed)?, number(events)?)),
        _ => Err(io::Error::other(USAGE)),
    }
}

/// The step that the words begin with, without one that of program `venue`; and
/// the words behind it.
fn take_step<'a, 'b>(words: &'a [&'b str]) -> (u32, &'a [&'b str]) {
    match words {
        ["--step", "50", rest @ ..] => (HALF_CENT, rest),
        ["--step", "100", rest @ ..] => (CENT, rest),
        _ => (CENT, words),
    }
}

fn number(word: &str) -> io::Result<u64> {
    word.parse()
        .map_err(|_| io::Error::other(format!("{word} isn't a number; {USAGE}")))
}

/// Runs what takes a step and a directory.
fn in_directory(
    words: &[&str],
    run: impl FnOnce(u32, &Path) -> io::Result<bool>,
) -> io::Result<bool> {
    match take_step(words) {
        (step, [directory]) => run(step, Path::new(directory)),
        _ => Err(io::Error::other(USAGE)),
    }
}

fn play(words: &[&str]) -> io::Result<bool> {
    match take_step(words) {
        (step, []) => play_input(step, io::stdin()),
        (step, [path]) => play_input(step, std::fs::File::open(path)?),
        _ => Err(io::Error::other(USAGE)),
    }
}

fn play_input(step: u32, input: impl Read) -> io::Result<bool> {
    let mut bytes = Vec::new();
    input
        .take(program::MOST_INPUT as u64)
        .read_to_end(&mut bytes)?;
    io::stdout().write_all(program::play(step, &bytes).as_bytes())?;
    Ok(true)
}
