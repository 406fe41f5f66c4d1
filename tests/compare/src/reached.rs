//! Counts in lines, and the names of what a run never reached.

use std::fmt::{Display, Formatter, Result};

/// A count and its name.
pub type Named = (u64, &'static str);

/// The counts of one line, and its name.
pub type Line<N> = (N, Vec<Named>);

/// Counts in lines, each count beside the name of its line; those of one line stand together.
pub fn grouped<N: PartialEq>(counts: impl Iterator<Item = (N, Named)>) -> Vec<Line<N>> {
    let mut lines: Vec<Line<N>> = Vec::new();
    for (line, named) in counts {
        match lines.last_mut() {
            Some((last, counts)) if *last == line => counts.push(named),
            _ => lines.push((line, vec![named])),
        }
    }
    lines
}

/// The names of all that is 0.
pub fn never<N: Display>(lines: &[Line<N>]) -> Vec<String> {
    let mut names = Vec::new();
    for (line, counts) in lines {
        let zeros = counts.iter().filter(|(count, _)| *count == 0);
        names.extend(zeros.map(|(_, name)| format!("{line}: {name}")));
    }
    names
}

/// The smaller one of two counts, in lines with the same names.
pub fn smaller<N>(mut lines: Vec<Line<N>>, others: Vec<Line<N>>) -> Vec<Line<N>> {
    for ((_, counts), (_, others)) in lines.iter_mut().zip(others) {
        for ((count, _), (other, _)) in counts.iter_mut().zip(others) {
            *count = other.min(*count);
        }
    }
    lines
}

/// A title, the lines, and at the end the names of all that is 0.
pub fn write<N: Display>(f: &mut Formatter, title: &str, lines: &[Line<N>]) -> Result {
    write!(f, "{title}:")?;
    for (line, counts) in lines {
        let words: Vec<String> = counts
            .iter()
            .map(|(count, name)| format!("{count} {name}"))
            .collect();
        write!(f, "\n  {line}: {}", words.join(", "))?;
    }
    match never(lines) {
        names if names.is_empty() => write!(f, "\n  all of these were reached"),
        names => write!(f, "\n  NEVER REACHED: {}", names.join("; ")),
    }
}
