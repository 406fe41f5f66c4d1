//! "The seven-bit form": numbers, event records and reports.

use super::fill::Question;
use super::pauses::TimedPrice;
use super::Refusal;

/// The longest number, 2^64 - 1, has ten groups of seven bits.
pub const LONGEST_NUMBER: usize = 10;

/// "the bit length of a number is 64 less its leading zeros"
fn bit_length(number: u64) -> usize {
    64 - number.leading_zeros() as usize
}

/// No. 5: "Bit length n, taken as 1 for 0, needs (n + 6) / 7 bytes, rounded
/// down."
#[allow(clippy::manual_div_ceil)] // the paper's formula
pub fn byte_count(number: u64) -> usize {
    let n = match bit_length(number) {
        0 => 1,
        n => n,
    };
    (n + 6) / 7
}

/// Reads the number at an offset and gives it with its end. "9 when a byte is
/// missing (also at or past the end)"; "Bad: a tenth byte above 1; a last group
/// 0 after another." The tenth byte is judged as soon as it is there (A3).
pub fn read_number(bytes: &[u8], at: usize) -> Result<(u64, usize), Refusal> {
    let mut number = 0;
    let mut group = 0;
    for &byte in bytes.get(at..).unwrap_or_default() {
        if group == LONGEST_NUMBER - 1 && byte > 1 {
            return Err(Refusal::BadNumber);
        }
        number |= u64::from(byte & 127) << (7 * group);
        group += 1;
        if byte < 128 {
            return match (byte, group) {
                (0, 2..) => Err(Refusal::BadNumber),
                _ => Ok((number, at + group)),
            };
        }
    }
    Err(Refusal::MissingByte)
}

/// Writes a number at an offset, where it has to fit, and gives its end.
#[inline]
pub fn write_number(bytes: &mut [u8], at: usize, mut number: u64) -> usize {
    let mut end = at;
    while number > 127 {
        bytes[end] = number as u8 | 128;
        number >>= 7;
        end += 1;
    }
    bytes[end] = number as u8;
    end + 1
}

/// A number of a record other than its kind: "12 a field above 4,294,967,295",
/// judged once the number is complete (A2).
fn read_field(bytes: &[u8], at: usize) -> Result<(u32, usize), Refusal> {
    let (number, end) = read_number(bytes, at)?;
    let field = u32::try_from(number).map_err(|_| Refusal::LargeField)?;
    Ok((field, end))
}

/// Reads so many fields, one after the other, "Judged left to right" (A4).
fn read_fields<const N: usize>(bytes: &[u8], mut at: usize) -> Result<([u32; N], usize), Refusal> {
    let mut fields = [0; N];
    for field in &mut fields {
        (*field, at) = read_field(bytes, at)?;
    }
    Ok((fields, at))
}

/// "Entry: id; mark; price, which is its limit; shares; show; life; slide". "A
/// price of 0 in an entry means market." The owner stands in kind 6 alone, "after
/// the slide"; any number there, as the reader asks only for 32 bits (F7.4).
#[derive(Clone, Copy, Debug, PartialEq, Eq)]
pub struct Entry {
    pub id: u32,
    pub mark: u32,
    pub price: u32,
    pub shares: u32,
    pub show: u32,
    pub life: u32,
    pub slide: u32,
    pub owner: Option<u32>,
}

impl Entry {
    fn of([id, mark, price, shares, show, life, slide]: [u32; 7]) -> Self {
        Entry {
            id,
            mark,
            price,
            shares,
            show,
            life,
            slide,
            owner: None,
        }
    }

    fn with_owner(fields: [u32; 8]) -> Self {
        let [id, mark, price, shares, show, life, slide, owner] = fields;
        Entry {
            owner: Some(owner),
            ..Entry::of([id, mark, price, shares, show, life, slide])
        }
    }

    /// Kind 1, or kind 6 where it has an owner.
    fn numbers(&self) -> Numbers {
        let Entry {
            id,
            mark,
            price,
            shares,
            show,
            life,
            slide,
            owner,
        } = *self;
        match owner {
            None => Numbers::new([1, id, mark, price, shares, show, life, slide]),
            Some(owner) => Numbers::new([6, id, mark, price, shares, show, life, slide, owner]),
        }
    }

    pub fn is_market(&self) -> bool {
        self.question().is_market()
    }

    /// What No. 4 asks before this entry is sent.
    pub fn question(&self) -> Question {
        Question {
            mark: self.mark,
            price: self.price,
            shares: self.shares,
        }
    }
}

/// "kind 1 entry (fields as listed), 2 cancel (id), 3 bid, 4 tape, 5 day end
/// (price)", "Event kind 6 is an entry with an owner", and kind 7 "carries a time in whole
/// seconds and a tape price".
#[derive(Clone, Copy, Debug, PartialEq, Eq)]
pub enum Event {
    Entry(Entry),
    Cancel { id: u32 },
    Bid { price: u32 },
    Tape { price: u32 },
    DayEnd { price: u32 },
    Timed(TimedPrice),
}

/// The numbers of a record or a report: kind first, then the fields.
#[derive(Clone, Copy)]
pub struct Numbers {
    list: [u32; 9],
    len: usize,
}

impl Numbers {
    #[inline]
    fn new<const N: usize>(numbers: [u32; N]) -> Self {
        let mut list = [0; 9];
        list[..N].copy_from_slice(&numbers);
        Numbers { list, len: N }
    }

    pub fn as_slice(&self) -> &[u32] {
        &self.list[..self.len]
    }

    fn byte_count(&self) -> usize {
        let counts = self.as_slice().iter().map(|&n| byte_count(n.into()));
        counts.sum()
    }

    #[inline]
    fn write(&self, bytes: &mut [u8], at: usize) -> usize {
        let numbers = self.as_slice().iter();
        numbers.fold(at, |end, &n| write_number(bytes, end, n.into()))
    }
}

impl Event {
    pub fn numbers(&self) -> Numbers {
        match *self {
            Event::Entry(entry) => entry.numbers(),
            Event::Cancel { id } => Numbers::new([2, id]),
            Event::Bid { price } => Numbers::new([3, price]),
            Event::Tape { price } => Numbers::new([4, price]),
            Event::DayEnd { price } => Numbers::new([5, price]),
            Event::Timed(TimedPrice { time, price }) => Numbers::new([7, time, price]),
        }
    }
}

/// Reads the record at an offset and gives its event and its end (A11). The
/// kind isn't a field, so one of 2^32 or more is 11 (A1).
pub fn read_record(bytes: &[u8], at: usize) -> Result<(Event, usize), Refusal> {
    let (kind, at) = read_number(bytes, at)?;
    if kind == 1 {
        let (fields, end) = read_fields(bytes, at)?;
        return Ok((Event::Entry(Entry::of(fields)), end));
    }
    if kind == 6 {
        let (fields, end) = read_fields(bytes, at)?;
        return Ok((Event::Entry(Entry::with_owner(fields)), end));
    }
    if kind == 7 {
        let ([time, price], end) = read_fields(bytes, at)?;
        return Ok((Event::Timed(TimedPrice { time, price }), end));
    }
    let of_field = match kind {
        2 => |id| Event::Cancel { id },
        3 => |price| Event::Bid { price },
        4 => |price| Event::Tape { price },
        5 => |price| Event::DayEnd { price },
        _ => return Err(Refusal::Kind),
    };
    let (field, end) = read_field(bytes, at)?;
    Ok((of_field(field), end))
}

/// Writes a record at an offset and gives its end. "13 if it doesn't fit the
/// lent buffer from there; bytes before and behind it keep their content."
pub fn write_record(bytes: &mut [u8], at: usize, event: &Event) -> Result<usize, Refusal> {
    let numbers = event.numbers();
    let room = bytes.len().saturating_sub(at);
    if numbers.byte_count() > room {
        return Err(Refusal::NoRoom);
    }
    Ok(numbers.write(bytes, at))
}

/// "Reports, in the order of happening"
#[derive(Clone, Copy, Debug, PartialEq, Eq)]
pub enum Report {
    Accepted {
        id: u32,
        stamp: u32,
        price: u32,
    },
    Executed {
        buyer: u32,
        seller: u32,
        price: u32,
        shares: u32,
    },
    Cancelled {
        id: u32,
        shares: u32,
        cause: u32,
    },
    Repriced {
        id: u32,
        price: u32,
        stamp: u32,
    },
    RestrictionOn,
    DayEnded {
        phase: u32,
    },
    Pause {
        direction: u32,
        price: u32,
    },
}

impl Report {
    #[inline]
    pub fn numbers(&self) -> Numbers {
        match *self {
            Report::Accepted { id, stamp, price } => Numbers::new([1, id, stamp, price]),
            Report::Executed {
                buyer,
                seller,
                price,
                shares,
            } => Numbers::new([2, buyer, seller, price, shares]),
            Report::Cancelled { id, shares, cause } => Numbers::new([3, id, shares, cause]),
            Report::Repriced { id, price, stamp } => Numbers::new([4, id, price, stamp]),
            Report::RestrictionOn => Numbers::new([5]),
            Report::DayEnded { phase } => Numbers::new([6, phase]),
            Report::Pause { direction, price } => Numbers::new([7, direction, price]),
        }
    }

    /// Reads the report at an offset and gives it with its end.
    pub fn read(bytes: &[u8], at: usize) -> Result<(Report, usize), Refusal> {
        let (kind, at) = read_number(bytes, at)?;
        match kind {
            1 => read_fields(bytes, at).map(|([id, stamp, price], end)| {
                let report = Report::Accepted { id, stamp, price };
                (report, end)
            }),
            2 => read_fields(bytes, at).map(|([buyer, seller, price, shares], end)| {
                let report = Report::Executed {
                    buyer,
                    seller,
                    price,
                    shares,
                };
                (report, end)
            }),
            3 => read_fields(bytes, at).map(|([id, shares, cause], end)| {
                let report = Report::Cancelled { id, shares, cause };
                (report, end)
            }),
            4 => read_fields(bytes, at).map(|([id, price, stamp], end)| {
                let report = Report::Repriced { id, price, stamp };
                (report, end)
            }),
            5 => Ok((Report::RestrictionOn, at)),
            6 => read_fields(bytes, at).map(|([phase], end)| (Report::DayEnded { phase }, end)),
            7 => read_fields(bytes, at).map(|([direction, price], end)| {
                let report = Report::Pause { direction, price };
                (report, end)
            }),
            _ => Err(Refusal::Kind),
        }
    }

    /// Reads reports to the end of the bytes.
    pub fn read_all(bytes: &[u8]) -> Result<Vec<Report>, Refusal> {
        let mut reports = Vec::new();
        let mut at = 0;
        while at < bytes.len() {
            let (report, end) = Report::read(bytes, at)?;
            reports.push(report);
            at = end;
        }
        Ok(reports)
    }
}

/// "They are written at the front of the lent report buffer in the seven-bit
/// form, kind first; bytes behind them keep their content."
pub struct ReportWriter<'a> {
    buffer: &'a mut [u8],
    end: usize,
}

impl<'a> ReportWriter<'a> {
    pub fn new(buffer: &'a mut [u8]) -> Self {
        ReportWriter { buffer, end: 0 }
    }

    #[inline]
    pub fn put(&mut self, report: Report) {
        self.end = report.numbers().write(self.buffer, self.end);
    }

    /// "The result has their byte count."
    pub fn byte_count(&self) -> usize {
        self.end
    }
}

#[cfg(test)]
mod tests {
    use super::*;
    use Refusal::*;

    #[test]
    fn byte_counts_are_the_papers() {
        assert_eq!([0, 127, 128, 16_384].map(byte_count), [1, 1, 2, 3]);
        assert_eq!(byte_count(u64::MAX), LONGEST_NUMBER);
    }

    /// The least and the greatest number of a bit length; 0 is the only number of
    /// length 0.
    fn least_and_greatest(n: usize) -> [u64; 2] {
        match n {
            0 => [0, 0],
            _ => [1 << (n - 1), u64::MAX >> (64 - n)],
        }
    }

    fn numbers_of_all_lengths() -> impl Iterator<Item = u64> {
        (0..=64).flat_map(least_and_greatest)
    }

    #[test]
    fn each_bit_length_begins_where_the_one_before_ends() {
        for n in 0..=64 {
            assert_eq!(least_and_greatest(n).map(bit_length), [n; 2]);
        }
        for n in 1..=64 {
            let [_, end] = least_and_greatest(n - 1);
            assert_eq!(least_and_greatest(n)[0] - 1, end);
        }
        assert_eq!(least_and_greatest(64)[1], u64::MAX);
    }

    /// How many groups of seven bits a number has, by division.
    fn groups(mut number: u64) -> usize {
        let mut count = 1;
        while number >= 128 {
            number /= 128;
            count += 1;
        }
        count
    }

    #[test]
    fn byte_counts_are_the_groups_of_seven_bits() {
        for number in numbers_of_all_lengths() {
            assert_eq!(byte_count(number), groups(number), "{number}");
        }
    }

    /// Writes a number at offset 1 between bytes 170 and gives the bytes and its
    /// end.
    fn written(number: u64) -> ([u8; LONGEST_NUMBER + 2], usize) {
        let mut bytes = [170; LONGEST_NUMBER + 2];
        let end = write_number(&mut bytes, 1, number);
        (bytes, end)
    }

    #[test]
    fn byte_counts_are_the_bytes_written() {
        for number in numbers_of_all_lengths() {
            let (_, end) = written(number);
            assert_eq!(byte_count(number), end - 1, "{number}");
        }
    }

    #[test]
    fn numbers_of_all_lengths_read_back() {
        for number in numbers_of_all_lengths() {
            let (bytes, end) = written(number);
            assert_eq!(read_number(&bytes, 1), Ok((number, end)));
            assert_eq!(bytes[0], 170);
            assert!(bytes[end..].iter().all(|&byte| byte == 170), "{number}");
        }
    }

    #[test]
    fn numbers_are_judged_as_in_section_a() {
        let long = |tenth: &[u8]| [&[0xFF; 9], tenth].concat();
        assert_eq!(read_number(&long(&[1]), 0), Ok((u64::MAX, 10)));
        assert_eq!(read_number(&long(&[2]), 0), Err(BadNumber));
        assert_eq!(read_number(&long(&[0x80]), 0), Err(BadNumber));
        assert_eq!(read_number(&long(&[0]), 0), Err(BadNumber));
        assert_eq!(read_number(&long(&[]), 0), Err(MissingByte));
        assert_eq!(read_number(&[0x83, 0], 0), Err(BadNumber));
        assert_eq!(read_number(&[], usize::MAX), Err(MissingByte));
    }

    #[test]
    fn records_are_judged_left_to_right() {
        let cases: [(&[u8], Refusal); 19] = [
            (&[0x80, 0x80, 0x80, 0x80, 0x10], Kind),
            (&[3, 0xFF, 0xFF, 0xFF, 0xFF, 0xFF], MissingByte),
            (&[0], Kind),
            (&[1, 0x80, 0x80, 0x80, 0x80, 0x10, 0x80, 0], LargeField),
            (&[1, 1, 0x80, 0, 0x80, 0x80, 0x80, 0x80, 0x10], BadNumber),
            (&[1, 1, 1], MissingByte),
            (&[6], MissingByte),
            (&[6, 1, 0, 9, 5, 1, 0, 0], MissingByte),
            (&[6, 1, 0, 9, 5, 1, 0, 0, 0x80, 0], BadNumber),
            (
                &[6, 1, 0, 9, 5, 1, 0, 0, 0x80, 0x80, 0x80, 0x80, 0x10],
                LargeField,
            ),
            (&[7], MissingByte),
            (&[7, 1], MissingByte),
            (&[7, 0x80, 0, 9], BadNumber),
            (&[7, 1, 0x80, 0], BadNumber),
            (&[7, 0x80, 0x80, 0x80, 0x80, 0x10, 0x80, 0], LargeField),
            (&[7, 1, 0x80, 0x80, 0x80, 0x80, 0x10], LargeField),
            (&[8, 1, 0, 9, 5, 1, 0, 0, 1], Kind),
            (&[0x87, 0], BadNumber),
            (&[0x86, 0], BadNumber),
        ];
        for (bytes, refusal) in cases {
            assert_eq!(read_record(bytes, 0), Err(refusal));
        }
        let bid = [3, 0xDC, 0xC7, 5];
        assert_eq!(read_record(&bid, 0), Ok((Event::Bid { price: 91_100 }, 4)));
    }

    /// "The reader asks only for 32 bits (12), the venue for the range (21)" (F7.4).
    #[test]
    fn an_entry_with_an_owner_has_it_after_the_slide() {
        let bytes = [6, 1, 2, 9, 5, 1, 0, 3, 7, 1];
        let of = |owner| owned([1, 2, 9, 5, 1, 0, 3, owner]);
        assert_eq!(read_record(&bytes, 0), Ok((of(7), 9)));
        let Event::Entry(read) = of(7) else {
            panic!("an entry");
        };
        assert_eq!((read.slide, read.owner), (3, Some(7)));
        for owner in [0, 65_535, 65_536, u32::MAX] {
            let mut bytes = [7; 20];
            let end = write_record(&mut bytes, 1, &of(owner)).expect("room");
            assert_eq!(bytes[..9], [7, 6, 1, 2, 9, 5, 1, 0, 3]);
            assert_eq!(read_record(&bytes, 1), Ok((of(owner), end)));
        }
        let plain = entry([1, 2, 9, 5, 1, 0, 3]);
        assert_eq!(read_record(&[1, 1, 2, 9, 5, 1, 0, 3, 7], 0), Ok((plain, 8)));
        assert_ne!(plain, of(0));
    }

    #[test]
    fn a_record_that_does_not_fit_leaves_the_buffer_alone() {
        let bid = Event::Bid { price: 91_100 };
        let mut bytes = [7; 6];
        assert_eq!(write_record(&mut bytes, 3, &bid), Err(NoRoom));
        assert_eq!(write_record(&mut bytes, usize::MAX, &bid), Err(NoRoom));
        assert_eq!(bytes, [7; 6]);
        assert_eq!(write_record(&mut bytes, 1, &bid), Ok(5));
        assert_eq!(bytes, [7, 3, 0xDC, 0xC7, 5, 7]);
    }

    /// A record of so many bytes is written where it just fits; one byte less
    /// room is 13, and the buffer keeps its content.
    fn just_fits(event: Event, count: usize) {
        let mut short = vec![7; 1 + count];
        assert_eq!(write_record(&mut short, 2, &event), Err(NoRoom));
        assert!(short.iter().all(|&byte| byte == 7));
        let mut bytes = vec![7; 2 + count];
        assert_eq!(write_record(&mut bytes, 2, &event), Ok(2 + count));
        assert_eq!(bytes[..2], [7; 2]);
        assert_eq!(read_record(&bytes, 2), Ok((event, 2 + count)));
    }

    fn entry(fields: [u32; 7]) -> Event {
        Event::Entry(Entry::of(fields))
    }

    fn owned(fields: [u32; 8]) -> Event {
        Event::Entry(Entry::with_owner(fields))
    }

    fn timed(time: u32, price: u32) -> Event {
        Event::Timed(TimedPrice { time, price })
    }

    /// "Fields of kind 7: time, price. Of report 7: direction, price. Time is any 32-bit
    /// number." (F10.1)
    #[test]
    fn a_timed_price_has_its_time_first() {
        assert_eq!(read_record(&[7, 5, 9, 1], 0), Ok((timed(5, 9), 3)));
        for time in [0, 300, u32::MAX] {
            let mut bytes = [8; 12];
            let end = write_record(&mut bytes, 1, &timed(time, 0)).expect("room");
            assert_eq!((bytes[0], bytes[1], bytes[end - 1]), (8, 7, 0));
            assert!(bytes[end..].iter().all(|&byte| byte == 8));
            assert_eq!(read_record(&bytes, 1), Ok((timed(time, 0), end)));
        }
        let (direction, price) = (1, 90_000);
        let pause = Report::Pause { direction, price };
        assert_eq!(Report::read(&[7, 1, 0x90, 0xBF, 5, 5], 0), Ok((pause, 5)));
        assert_eq!(pause.numbers().as_slice(), [7, 1, 90_000]);
        assert_eq!(Report::read(&[7, 1], 0), Err(MissingByte));
        assert_eq!(Report::read(&[8, 1, 1], 0), Err(Kind));
    }

    /// The least and the greatest fields of 1 to 5 bytes. The writer doesn't judge
    /// fields (A9).
    #[test]
    fn records_are_written_where_they_just_fit() {
        let fields = [
            [0, 127],
            [128, 16_383],
            [16_384, 2_097_151],
            [2_097_152, 268_435_455],
            [268_435_456, 4_294_967_295],
        ];
        for (count, fields) in (1..).zip(fields) {
            for field in fields {
                just_fits(Event::Cancel { id: field }, 1 + count);
                just_fits(Event::DayEnd { price: field }, 1 + count);
                just_fits(timed(field, field), 1 + 2 * count);
                just_fits(entry([field; 7]), 1 + 7 * count);
                just_fits(owned([field; 8]), 1 + 8 * count);
            }
        }
        let [one, two, three, four, five] = fields.map(|[least, _]| least);
        let all = entry([five, one, four, three, two, one, two]);
        just_fits(all, 1 + 5 + 1 + 4 + 3 + 2 + 1 + 2);
        just_fits(timed(five, two), 1 + 5 + 2);
        let all = owned([five, one, four, three, two, one, two, three]);
        just_fits(all, 1 + 5 + 1 + 4 + 3 + 2 + 1 + 2 + 3);
    }
}
