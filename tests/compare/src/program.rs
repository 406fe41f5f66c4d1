//! Program `venue` of document 01 and `venue-half` of document 02, and the
//! vectors made by other hands.

use crate::model::{read_number, read_record, RecordCheck, Refusal, Report, Venue, LEAST_BUFFER};
use std::fs;
use std::io;
use std::path::{Path, PathBuf};

/// "reads standard input (the first 65,536 bytes)"; the rest doesn't exist
/// (A7).
pub const MOST_INPUT: usize = 65_536;

/// The lines that the program of that step prints for an input: "`venue` opens
/// at 100; a program `venue-half` opens at 50", with the same input form (F2.3).
pub fn play(step: u32, input: &[u8]) -> String {
    let input = &input[..input.len().min(MOST_INPUT)];
    let mut lines = String::new();
    if let Err(refusal) = play_into(step, input, &mut lines) {
        put_line(&mut lines, &[0, refusal.number()]);
    }
    lines
}

/// The venue after the whole input; the refusal where one ends the program.
pub fn venue_after(step: u32, input: &[u8]) -> Result<Venue, Refusal> {
    play_into(step, input, &mut String::new())
}

/// Plays to the end of the input, where it gives the venue, or to the refusal that
/// ends the program.
fn play_into(step: u32, input: &[u8], lines: &mut String) -> Result<Venue, Refusal> {
    let (close, mut at) = read_close(input)?;
    let mut venue = Venue::open(step, close)?;
    let mut buffer = vec![0; LEAST_BUFFER];
    while at < input.len() {
        let (event, end) = read_record(input, at)?;
        match venue.apply(&event, &mut buffer, RecordCheck::Done) {
            Ok(count) => {
                for report in Report::read_all(&buffer[..count])? {
                    put_line(lines, report.numbers().as_slice());
                }
            }
            Err(refusal) => put_line(lines, &[0, refusal.number()]),
        }
        at = end;
    }
    Ok(venue)
}

/// "a close as one seven-bit number (9, 10 or 12 as in a record, then 3)"; the
/// 3 is open's.
pub fn read_close(input: &[u8]) -> Result<(u32, usize), Refusal> {
    let (number, end) = read_number(input, 0)?;
    let close = u32::try_from(number).map_err(|_| Refusal::LargeField)?;
    Ok((close, end))
}

fn put_line(lines: &mut String, numbers: &[u32]) {
    let words: Vec<String> = numbers.iter().map(u32::to_string).collect();
    lines.push_str(&words.join(" "));
    lines.push('\n');
}

/// Plays every .bin of a directory at a step and compares with the .txt beside
/// it. Gives whether all are equal.
pub fn run_vectors(step: u32, directory: &Path) -> io::Result<bool> {
    let inputs = inputs_of(directory)?;
    let mut differing = 0;
    for path in &inputs {
        differing += u32::from(!vector_agrees(step, path)?);
    }
    println!("vectors {} differing {differing}", inputs.len());
    Ok(differing == 0 && !inputs.is_empty())
}

/// Every .bin of a directory, by name.
pub fn inputs_of(directory: &Path) -> io::Result<Vec<PathBuf>> {
    let mut inputs = Vec::new();
    for entry in fs::read_dir(directory)? {
        let path = entry?.path();
        if path.extension().is_some_and(|extension| extension == "bin") {
            inputs.push(path);
        }
    }
    inputs.sort();
    Ok(inputs)
}

fn vector_agrees(step: u32, path: &PathBuf) -> io::Result<bool> {
    let played = play(step, &fs::read(path)?);
    let expected = fs::read_to_string(path.with_extension("txt"))?;
    if played == expected {
        return Ok(true);
    }
    let same = |(a, b): &(&str, &str)| a == b;
    let line = played
        .lines()
        .zip(expected.lines())
        .take_while(same)
        .count();
    println!("{}: line {} differs", path.display(), line + 1);
    println!("  played   {:?}", played.lines().nth(line));
    println!("  expected {:?}", expected.lines().nth(line));
    Ok(false)
}

#[cfg(test)]
mod tests {
    use super::*;
    use crate::model::{Entry, Event};
    use crate::streams::push_record;

    /// At both steps; the byte counts and the refusals of numbers know no step.
    #[test]
    fn refusals_of_the_close_and_of_a_record() {
        for step in [50, 100] {
            assert_eq!(play(step, &[]), "0 9\n");
            assert_eq!(play(step, &[0]), "0 3\n");
            assert_eq!(play(step, &[0x80, 0]), "0 10\n");
            assert_eq!(play(step, &[0x80, 0x80, 0x80, 0x80, 0x10]), "0 12\n");
            assert_eq!(play(step, &[1]), "");
            assert_eq!(play(step, &[1, 3, 0xDC, 0xC7, 5, 9]), "0 11\n");
        }
    }

    /// 10,050 is legal at the half-cent step only, 10,025 at neither.
    #[test]
    fn a_half_cent_close() {
        assert_eq!(play(50, &[0xC2, 0x4E]), "");
        assert_eq!(play(100, &[0xC2, 0x4E]), "0 3\n");
        assert_eq!(play(50, &[0xA9, 0x4E]), "0 3\n");
        assert_eq!(play(100, &[0xA9, 0x4E]), "0 3\n");
    }

    /// The day of "Twelve sums, and one day".
    #[test]
    fn one_day() {
        let entry = |id, mark, price, shares| {
            Event::Entry(Entry {
                id,
                mark,
                price,
                shares,
                show: 1,
                life: 0,
                slide: 0,
                owner: None,
            })
        };
        let events = [
            Event::Bid { price: 91_000 },
            Event::Tape { price: 90_000 },
            entry(1, 2, 90_500, 500),
            entry(2, 0, 91_100, 200),
            Event::Bid { price: 90_700 },
            Event::Bid { price: 90_200 },
            Event::Cancel { id: 1 },
            Event::DayEnd { price: 90_000 },
        ];
        let mut input = vec![0xA0, 0x8D, 0x06];
        for event in &events {
            push_record(&mut input, event);
        }
        let lines = "5\n1 1 1 91100\n1 2 2 91100\n2 2 1 91100 200\n\
                     4 1 90800 3\n4 1 90500 4\n3 1 300 1\n6 2\n";
        assert_eq!(play(100, &input), lines);
    }
}
