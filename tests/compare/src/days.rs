//! Days in words, with the lines that the program prints for each event.

use crate::model::{
    read_record, write_number, Event, RecordCheck, Report, Venue, LEAST_BUFFER, LONGEST_NUMBER,
};
use crate::program::play;

/// An event, its kind as a word, and its lines.
pub type Played = (&'static str, &'static [&'static str]);

/// An input that begins with this close.
pub fn after_close(close: u64) -> Vec<u8> {
    let mut input = Vec::new();
    push_number(&mut input, close);
    input
}

pub fn push_event(input: &mut Vec<u8>, event: &str) {
    for word in event.split(' ') {
        let number = match word {
            "entry" => 1,
            "owned" => 6,
            "cancel" => 2,
            "bid" => 3,
            "tape" => 4,
            "end" => 5,
            "timed" => 7,
            number => number.parse().expect("a number"),
        };
        push_number(input, number);
    }
}

fn push_number(input: &mut Vec<u8>, number: u64) {
    let mut bytes = [0; LONGEST_NUMBER];
    let end = write_number(&mut bytes, 0, number);
    input.extend_from_slice(&bytes[..end]);
}

/// The event that words say.
pub fn event_of(words: &str) -> Event {
    let mut bytes = Vec::new();
    push_event(&mut bytes, words);
    read_record(&bytes, 0).expect("an event").0
}

/// The bytes of the reports that lines say: these are words of numbers as well.
pub fn report_bytes(lines: &[&str]) -> Vec<u8> {
    let mut bytes = Vec::new();
    lines.iter().for_each(|line| push_event(&mut bytes, line));
    bytes
}

/// Whether an event with these lines is refused.
pub fn is_refused(lines: &[&str]) -> bool {
    lines.first().is_some_and(|line| line.starts_with("0 "))
}

/// Plays the day at a step up to each of its events, after a close of 100,000.
pub fn assert_day(step: u32, day: &[Played]) {
    let mut input = after_close(100_000);
    let mut expected = String::new();
    for (event, lines) in day {
        push_event(&mut input, event);
        for line in *lines {
            expected.push_str(line);
            expected.push('\n');
        }
        assert_eq!(play(step, &input), expected, "{event} at step {step}");
    }
}

/// The lines of an event that a venue takes.
pub fn lines_after(venue: &mut Venue, event: &Event) -> Vec<String> {
    let mut buffer = vec![0; LEAST_BUFFER];
    let answer = venue.apply(event, &mut buffer, RecordCheck::Done);
    let count = answer.expect("the venue takes the event");
    let reports = Report::read_all(&buffer[..count]).expect("reports");
    let line = |report: &Report| {
        let numbers = report.numbers();
        let words: Vec<String> = numbers.as_slice().iter().map(u32::to_string).collect();
        words.join(" ")
    };
    reports.iter().map(line).collect()
}

/// The restriction is on, and the bid is 91,000.
pub const ON: [Played; 2] = [("bid 91000", &[]), ("tape 90000", &["5"])];
