//! `fill`: the questions of No. 4 of document 02 made by other hands, asked of the
//! venue after a stream. With the feature, the engine is asked as well.

#[cfg(feature = "engine")]
use crate::engine;
#[cfg(feature = "engine")]
use crate::model::LEAST_BUFFER;
use crate::model::{Fill, Question, RecordCheck, Refusal};
use crate::program::{inputs_of, venue_after};
#[cfg(feature = "engine")]
use crate::program::{read_close, MOST_INPUT};
use std::fs;
use std::io;
use std::path::Path;

/// Plays every .bin of a directory at a step, asks each line of the .ask beside it
/// and compares with the .txt. Gives whether all answers are equal.
pub fn run(step: u32, directory: &Path) -> io::Result<bool> {
    let inputs = inputs_of(directory)?;
    let (mut asked, mut differing) = (0, 0);
    for path in &inputs {
        let questions = read_lines(&path.with_extension("ask"))?;
        let expected = read_lines(&path.with_extension("txt"))?;
        let found = answer_all(step, &fs::read(path)?, &questions)
            .map_err(|error| io::Error::other(format!("{}: {error}", path.display())))?;
        asked += questions.len();
        differing += compare(path, &questions, &found, &expected);
    }
    println!(
        "vectors {} questions {asked} differing {differing}",
        inputs.len()
    );
    Ok(differing == 0 && asked > 0)
}

/// The lines of a file, of which there is at least one.
fn read_lines(path: &Path) -> io::Result<Vec<String>> {
    let named =
        |what: &dyn std::fmt::Display| io::Error::other(format!("{}: {what}", path.display()));
    let text = fs::read_to_string(path).map_err(|error| named(&error))?;
    let lines: Vec<String> = text.lines().map(str::to_owned).collect();
    if lines.is_empty() {
        return Err(named(&"no lines"));
    }
    Ok(lines)
}

/// Prints each answer that isn't the expected one, also where one side has more.
/// Gives how many.
fn compare(path: &Path, questions: &[String], found: &[String], expected: &[String]) -> usize {
    let most = questions.len().max(expected.len());
    let differs = |at: &usize| found.get(*at) != expected.get(*at);
    let differing: Vec<usize> = (0..most).filter(differs).collect();
    for &at in &differing {
        println!(
            "{}: line {}: asked {:?} answered {:?} expected {:?}",
            path.display(),
            at + 1,
            questions.get(at),
            found.get(at),
            expected.get(at)
        );
    }
    differing.len()
}

/// "questions `mark limit shares`"
fn read_question(line: &str) -> io::Result<Question> {
    let numbers: Result<Vec<u32>, _> = line.split(' ').map(str::parse).collect();
    match numbers.as_deref() {
        Ok(&[mark, price, shares]) => Ok(Question {
            mark,
            price,
            shares,
        }),
        _ => Err(io::Error::other(format!("{line:?} isn't a question"))),
    }
}

/// "answers `1 n` (yes), `2 n` (no), n orders read", and "`0 n` is refusal n".
fn line_of(answer: Result<Fill, Refusal>) -> String {
    match answer {
        Ok(Fill {
            in_full: true,
            read,
        }) => format!("1 {read}"),
        Ok(Fill { read, .. }) => format!("2 {read}"),
        Err(refusal) => format!("0 {}", refusal.number()),
    }
}

/// The answers of the venue after a stream, with the feature of both sides.
fn answer_all(step: u32, input: &[u8], questions: &[String]) -> io::Result<Vec<String>> {
    let venue = venue_after(step, input).map_err(ends_with)?;
    #[cfg(feature = "engine")]
    let mut words = words_after(step, input)?;
    let mut lines = Vec::new();
    for line in questions {
        let question = read_question(line)?;
        let answer = venue.would_fill(&question, RecordCheck::Done);
        #[cfg(feature = "engine")]
        compare_engine(&mut words, &question, answer)?;
        lines.push(line_of(answer));
    }
    Ok(lines)
}

fn ends_with(refusal: Refusal) -> io::Error {
    io::Error::other(format!("the stream ends with {refusal:?}"))
}

/// The engine's words after a stream, opened and played by its own calls.
#[cfg(feature = "engine")]
fn words_after(step: u32, input: &[u8]) -> io::Result<Vec<u32>> {
    let input = &input[..input.len().min(MOST_INPUT)];
    let (close, mut at) = read_close(input).map_err(ends_with)?;
    let mut words = vec![0; engine::VENUE_WORDS];
    let mut reports = vec![0; LEAST_BUFFER];
    if engine::open(&mut words, step, close) != 0 {
        return Err(io::Error::other("the engine doesn't open"));
    }
    while at < input.len() {
        let length = engine::record_check(&input[at..]) as usize;
        if length == 0 {
            return Err(io::Error::other("a record that the engine can't read"));
        }
        // A refused event belongs to the stream too.
        engine::apply(&mut words, &input[at..], &mut reports);
        at += length;
    }
    Ok(words)
}

/// The engine's answer is the model's, number for number, and no word changes.
#[cfg(feature = "engine")]
fn compare_engine(
    words: &mut Vec<u32>,
    asked: &Question,
    answer: Result<Fill, Refusal>,
) -> io::Result<()> {
    let before = words.clone();
    let found = engine::would_fill(words, asked);
    let expected = engine::fill_answer_of(answer);
    if found != expected || *words != before {
        let kept = *words == before;
        return Err(io::Error::other(format!(
            "{asked:?}: engine {found}, model {expected}, words kept {kept}"
        )));
    }
    Ok(())
}

#[cfg(test)]
mod tests {
    use super::*;

    fn lines(text: &str) -> Vec<String> {
        text.lines().map(str::to_owned).collect()
    }

    /// Close 100,000; bid 91,000; a buy of 200 shares at 91,100.
    const STREAM: &[u8] = &[
        0xA0, 0x8D, 6, 3, 0xF8, 0xC6, 5, 1, 2, 0, 0xDC, 0xC7, 5, 0xC8, 1, 1, 0, 0,
    ];

    #[test]
    fn questions_after_a_stream() {
        let asked = lines("1 91100 200\n1 91100 201\n0 0 1\n1 91150 0\n4 0 1");
        let at_100 = lines("1 1\n2 1\n2 1\n0 3\n0 18");
        let at_50 = lines("1 1\n2 1\n2 1\n0 4\n0 18");
        let answers = |step| answer_all(step, STREAM, &asked).expect("answers");
        assert_eq!((answers(100), answers(50)), (at_100, at_50));
        for bad in ["", "1 2", "1 2 3 4", "1 2 x", "1  2", "1 2 4294967296"] {
            assert!(answer_all(100, STREAM, &[bad.to_owned()]).is_err());
        }
        assert!(answer_all(100, &STREAM[..STREAM.len() - 1], &asked).is_err());
    }

    #[test]
    fn answers_that_differ_are_counted() {
        let (path, asked) = (Path::new("NAME.bin"), lines("0 0 1\n0 0 2"));
        let found = lines("2 0\n2 0");
        assert_eq!(compare(path, &asked, &found, &lines("2 0\n2 0")), 0);
        assert_eq!(compare(path, &asked, &found, &lines("2 0\n1 0")), 1);
        assert_eq!(compare(path, &asked, &found, &lines("2 0")), 1);
        assert_eq!(compare(path, &asked, &found, &lines("2 0\n2 0\n2 0")), 1);
    }
}
