//! `numbers`: reading and writing of numbers by the crate `numbers`, held against
//! the model.

use crate::bench_numbers;
use crate::model::{write_number, Refusal, LONGEST_NUMBER};
use crate::number_sides::{Answer, Library, Model, Side, REFUSALS};
use crate::rng::Rng;
use std::fmt::{self, Debug, Display, Formatter};
use std::io;

const SEED: u64 = 5;
const NONSENSE: usize = 1_000_000;

/// The most numbers that are written at once: those of an entry.
pub const MOST_NUMBERS: usize = 8;

/// What stands in a buffer before it is written to.
const UNTOUCHED: u8 = 0xA5;

/// Numbers around each border: of each bit length the least and the greatest one.
fn borders() -> impl Iterator<Item = u64> {
    let powers = (0..64).map(|bit| 1u64 << bit);
    let both = powers.flat_map(|power| [power - 1, power]);
    both.chain([u64::MAX])
}

/// A number of any bit length, each as often as the others.
pub fn of_any_length(rng: &mut Rng) -> u64 {
    match rng.up_to(64) {
        0 => 0,
        bits => (rng.next() | 1 << 63) >> (64 - bits),
    }
}

/// "13 if it doesn't fit the lent buffer from there", by the bytes that the model
/// writes and not by its formula, which is the code's too.
fn write_by_bytes(bytes: &mut [u8], at: usize, numbers: &[u64]) -> Answer<usize> {
    let mut written = [0; MOST_NUMBERS * LONGEST_NUMBER];
    let write = |end, &number| write_number(&mut written, end, number);
    let count = numbers.iter().fold(0, write);
    let rest = bytes.get_mut(at..);
    let place = rest.and_then(|rest| rest.get_mut(..count));
    place
        .ok_or(Refusal::NoRoom)?
        .copy_from_slice(&written[..count]);
    Ok(at + count)
}

/// A side that is asked the same as the model, and what came of it.
struct Compared<'a> {
    side: &'a dyn Side,
    reads: usize,
    writes: usize,
    /// How often each refusal came.
    refused: [usize; REFUSALS.len()],
    differences: usize,
}

impl<'a> Compared<'a> {
    fn new(side: &'a dyn Side) -> Self {
        Compared {
            side,
            reads: 0,
            writes: 0,
            refused: [0; REFUSALS.len()],
            differences: 0,
        }
    }

    /// Counts the model's refusal and a difference, and prints the first difference.
    fn note<T: PartialEq + Debug>(
        &mut self,
        asked: impl Debug,
        ours: Answer<T>,
        models: Answer<T>,
    ) {
        for (refusal, count) in REFUSALS.iter().zip(&mut self.refused) {
            *count += usize::from(models.as_ref().err() == Some(refusal));
        }
        if ours == models {
            return;
        }
        if self.differences == 0 {
            println!("{asked:?}: {ours:?}, model {models:?}");
        }
        self.differences += 1;
    }

    fn read(&mut self, bytes: &[u8], at: usize) {
        self.reads += 1;
        let (ours, models) = (self.side.read(bytes, at), Model.read(bytes, at));
        self.note(("read", bytes, at), ours, models);
    }

    /// Both write to a buffer of this length, whose other bytes must stay, and read
    /// what stands there then.
    fn write(&mut self, len: usize, at: usize, numbers: &[u64]) {
        self.writes += 1;
        let (mut here, mut there) = (vec![UNTOUCHED; len], vec![UNTOUCHED; len]);
        let ours = self.side.write(&mut here, at, numbers);
        let models = write_by_bytes(&mut there, at, numbers);
        self.note(("write", len, at, numbers), ours, models);
        self.note(("bytes written", len, at, numbers), Ok(&here), Ok(&there));
        self.read(&here, at);
    }

    /// Each number of `borders` to buffers of every length up to one that is longer
    /// than any number, at every offset, also past the end.
    fn write_borders(&mut self) {
        for number in borders() {
            for len in 0..LONGEST_NUMBER + 3 {
                for at in (0..len + 2).chain([usize::MAX]) {
                    self.write(len, at, &[number]);
                }
            }
        }
    }

    /// Lists of numbers to buffers of any length, and bytes that may be no number.
    fn try_nonsense(&mut self, times: usize) {
        let mut rng = Rng::new(SEED);
        for _ in 0..times {
            let count = rng.up_to(MOST_NUMBERS as u32);
            let numbers: Vec<u64> = (0..count).map(|_| of_any_length(&mut rng)).collect();
            self.write(rng.up_to(80) as usize, rng.up_to(8) as usize, &numbers);
            let bytes: Vec<u8> = (0..rng.up_to(12)).map(|_| any_byte(&mut rng)).collect();
            self.read(&bytes, rng.up_to(3) as usize);
        }
    }

    fn compare(&mut self, nonsense: usize) {
        self.write_borders();
        self.try_nonsense(nonsense);
    }

    /// Whether nothing differed and every refusal came.
    fn is_well(&self) -> bool {
        self.differences == 0 && self.refused.iter().all(|&count| count > 0)
    }
}

/// A byte that mostly has a group behind it.
fn any_byte(rng: &mut Rng) -> u8 {
    let byte = rng.word() as u8;
    match rng.up_to(7) {
        0 => byte & 1,
        1 => byte,
        _ => byte | 128,
    }
}

impl Display for Compared<'_> {
    fn fmt(&self, f: &mut Formatter) -> fmt::Result {
        write!(f, "{} reads and {} writes", self.reads, self.writes)?;
        for (refusal, count) in REFUSALS.iter().zip(self.refused) {
            match count {
                0 => write!(f, ", {} NEVER CAME", refusal.number())?,
                _ => write!(f, ", {count} times {}", refusal.number())?,
            }
        }
        write!(f, ", {} differences", self.differences)
    }
}

/// Compares the library at each path with the model, and times all of them if all
/// was well. Gives whether it was.
pub fn run(paths: &[&str]) -> io::Result<bool> {
    let opened = paths.iter().map(|path| Library::open(path));
    let libraries = opened.collect::<io::Result<Vec<_>>>()?;
    let mut well = true;
    for (path, library) in paths.iter().zip(&libraries) {
        let mut compared = Compared::new(library);
        compared.compare(NONSENSE);
        println!("{path}: {compared}");
        well &= compared.is_well();
    }
    Ok(well && bench_numbers::run(paths, &libraries))
}

#[cfg(test)]
mod tests {
    use super::*;
    use crate::number_sides::NumberRead;

    struct Made {
        read: fn(&[u8], usize) -> NumberRead,
        write: fn(&mut [u8], usize, &[u64]) -> Answer<usize>,
    }

    const RIGHT: Made = Made {
        read: |bytes, at| Model.read(bytes, at),
        write: |bytes, at, numbers| Model.write(bytes, at, numbers),
    };

    impl Side for Made {
        fn read(&self, bytes: &[u8], at: usize) -> NumberRead {
            (self.read)(bytes, at)
        }

        fn write(&self, bytes: &mut [u8], at: usize, numbers: &[u64]) -> Answer<usize> {
            (self.write)(bytes, at, numbers)
        }
    }

    /// Asks for (n + 7) / 7 bytes of room.
    fn room_by_a_wrong_formula(bytes: &mut [u8], at: usize, numbers: &[u64]) -> Answer<usize> {
        let bits = |number: &u64| 64 - number.leading_zeros() as usize;
        let room: usize = numbers.iter().map(|number| (bits(number) + 7) / 7).sum();
        if at.saturating_add(room) > bytes.len() {
            return Err(Refusal::NoRoom);
        }
        Model.write(bytes, at, numbers)
    }

    fn end_too_far(bytes: &mut [u8], at: usize, numbers: &[u64]) -> Answer<usize> {
        Model.write(bytes, at, numbers).map(|end| end + 1)
    }

    fn refused_and_written(bytes: &mut [u8], at: usize, numbers: &[u64]) -> Answer<usize> {
        let answer = Model.write(bytes, at, numbers);
        if let (Err(_), Some(first)) = (answer, bytes.first_mut()) {
            *first = 0;
        }
        answer
    }

    fn byte_behind_changed(bytes: &mut [u8], at: usize, numbers: &[u64]) -> Answer<usize> {
        let end = Model.write(bytes, at, numbers)?;
        if let Some(behind) = bytes.get_mut(end) {
            *behind = 0;
        }
        Ok(end)
    }

    fn missing_is_bad(bytes: &[u8], at: usize) -> NumberRead {
        Model.read(bytes, at).map_err(|_| Refusal::BadNumber)
    }

    fn compared(side: &Made) -> Compared<'_> {
        let mut compared = Compared::new(side);
        compared.compare(1_000);
        compared
    }

    #[test]
    fn wrong_sides_are_told() {
        assert_eq!(compared(&RIGHT).differences, 0);
        let writes = [
            room_by_a_wrong_formula,
            end_too_far,
            refused_and_written,
            byte_behind_changed,
        ];
        for write in writes {
            let side = Made { write, ..RIGHT };
            assert!(compared(&side).differences > 0);
        }
        let side = Made {
            read: missing_is_bad,
            ..RIGHT
        };
        assert!(compared(&side).differences > 0);
    }

    #[test]
    fn a_refusal_that_never_came_is_told() {
        assert!(compared(&RIGHT).is_well());
        let mut borders = Compared::new(&RIGHT);
        borders.write_borders();
        assert!(!borders.is_well());
    }
}
