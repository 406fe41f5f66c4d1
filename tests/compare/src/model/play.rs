//! Playing a run of event records in one call, as include/venue.h says of
//! `venue_play`.

use super::form::{read_record, Event};
use super::venue::{RecordCheck, Venue, LEAST_BUFFER};
use super::Refusal;

/// How far a play came, laid out as include/venue.h says.
#[derive(Clone, Copy, Debug, Default, PartialEq, Eq)]
#[repr(C)]
pub struct Progress {
    pub events: u64,
    pub at: u64,
    pub bytes: u64,
}

/// Why a play stopped, other than at a record that can't be read.
#[derive(Clone, Copy, Debug, PartialEq, Eq)]
pub enum Stop {
    /// The offset is at or past the end of the records.
    RecordsEnd = 0,
    /// No place for an end is left.
    NoPlace = 1,
    /// Fewer bytes are left in the report buffer than an event may need.
    NoRoom = 2,
}

impl Venue {
    /// Plays the records from an offset on. Answers why it stopped, or with the
    /// refusal of the record that stopped it; or with 16, which changes
    /// nothing, the progress included. The record check is done once at most.
    pub fn play(
        &mut self,
        records: &[u8],
        from: u64,
        reports: &mut [u8],
        ends: &mut [u64],
        progress: &mut Progress,
        check: RecordCheck,
    ) -> Result<Stop, Refusal> {
        if check == RecordCheck::Done && !self.is_sound() {
            return Err(Refusal::VenueRecord);
        }
        let (answer, reached) = self.play_on(records, from, reports, ends);
        *progress = reached;
        answer
    }

    /// The same on a venue record that is known to be sound.
    #[inline]
    fn play_on(
        &mut self,
        records: &[u8],
        from: u64,
        reports: &mut [u8],
        ends: &mut [u64],
    ) -> (Result<Stop, Refusal>, Progress) {
        let (mut events, mut at, mut bytes) = (0, from, 0);
        let answer = loop {
            if at >= records.len() as u64 {
                break Ok(Stop::RecordsEnd);
            }
            let Some(end) = ends.get_mut(events) else {
                break Ok(Stop::NoPlace);
            };
            let room = &mut reports[bytes..];
            if room.len() < LEAST_BUFFER {
                break Ok(Stop::NoRoom);
            }
            let (event, next) = match read_record(records, at as usize) {
                Ok(read) => read,
                Err(refusal) => break Err(refusal),
            };
            bytes += self.play_event(&event, room);
            *end = bytes as u64;
            at = next as u64;
            events += 1;
        };
        let (events, bytes) = (events as u64, bytes as u64);
        (answer, Progress { events, at, bytes })
    }

    /// Writes an event's reports, or 0 and its refusal, a byte each, and gives
    /// how many bytes that are.
    #[inline]
    fn play_event(&mut self, event: &Event, room: &mut [u8]) -> usize {
        match self.apply(event, room, RecordCheck::Skipped) {
            Ok(count) => count,
            Err(refusal) => {
                room[..2].copy_from_slice(&[0, refusal as u8]);
                2
            }
        }
    }
}

#[cfg(test)]
mod tests {
    use super::*;

    /// The day of "Twelve sums, and one day", with the cancel asked for twice.
    const DAY: [&[u8]; 9] = [
        &[3, 0xF8, 0xC6, 5],
        &[4, 0x90, 0xBF, 5],
        &[1, 1, 2, 0x84, 0xC3, 5, 0xF4, 3, 1, 0, 0],
        &[1, 2, 0, 0xDC, 0xC7, 5, 0xC8, 1, 1, 0, 0],
        &[3, 0xCC, 0xC4, 5],
        &[3, 0xD8, 0xC0, 5],
        &[2, 1],
        &[2, 1],
        &[5, 0x90, 0xBF, 5],
    ];

    /// What is written for each of its events.
    const ANSWERS: [&[u8]; 9] = [
        &[],
        &[5],
        &[1, 1, 1, 0xDC, 0xC7, 5],
        &[1, 2, 2, 0xDC, 0xC7, 5, 2, 2, 1, 0xDC, 0xC7, 5, 0xC8, 1],
        &[4, 1, 0xB0, 0xC5, 5, 3],
        &[4, 1, 0x84, 0xC3, 5, 4],
        &[3, 1, 0xAC, 2, 1],
        &[0, 8],
        &[6, 2],
    ];
    const ENDS: [u64; 9] = [0, 1, 7, 21, 27, 33, 38, 40, 42];

    const NOISE: Progress = Progress {
        events: 7,
        at: 8,
        bytes: 9,
    };

    /// A venue, and what is lent to play on it, full of noise.
    struct Lent {
        venue: Venue,
        reports: Vec<u8>,
        ends: Vec<u64>,
        progress: Progress,
    }

    impl Lent {
        fn new(reports: usize, ends: usize) -> Self {
            Lent {
                venue: Venue::fresh(100, 100_000),
                reports: vec![0xA5; reports],
                ends: vec![99; ends],
                progress: NOISE,
            }
        }

        fn play(&mut self, records: &[u8], from: u64) -> Result<Stop, Refusal> {
            self.venue.play(
                records,
                from,
                &mut self.reports,
                &mut self.ends,
                &mut self.progress,
                RecordCheck::Done,
            )
        }

        /// The first so many events of the day were played, from the stream's
        /// front, and nothing else was written.
        fn assert_played(&self, events: usize) {
            let bytes = ANSWERS[..events].concat();
            let (front, behind) = self.reports.split_at(bytes.len());
            assert_eq!(front, bytes);
            assert!(behind.iter().all(|&byte| byte == 0xA5));
            let (front, behind) = self.ends.split_at(events);
            assert_eq!(front, &ENDS[..events]);
            assert!(behind.iter().all(|&end| end == 99));
            let progress = Progress {
                events: events as u64,
                at: DAY[..events].concat().len() as u64,
                bytes: bytes.len() as u64,
            };
            assert_eq!(self.progress, progress);
            let refused = ANSWERS[..events].contains(&&[0, 8][..]);
            let accepted = events - usize::from(refused);
            assert_eq!(self.venue.accepted as usize, accepted);
        }
    }

    #[test]
    fn one_day_in_one_call() {
        let mut lent = Lent::new(42 + LEAST_BUFFER, 12);
        assert_eq!(lent.play(&DAY.concat(), 0), Ok(Stop::RecordsEnd));
        lent.assert_played(9);
    }

    /// Entries with a bad mark, show, slide code, a slide on a buy and owner 0: 18, 5,
    /// 19, 20 and 21, each in one byte behind the 0.
    #[test]
    fn refused_codes_in_one_call() {
        let records: [&[u8]; 5] = [
            &[1, 1, 4, 9, 5, 1, 0, 0],
            &[1, 1, 0, 9, 5, 2, 0, 0],
            &[1, 1, 2, 9, 5, 1, 0, 4],
            &[1, 1, 0, 9, 5, 1, 0, 1],
            &[6, 1, 0, 9, 5, 1, 0, 0, 0],
        ];
        let mut lent = Lent::new(8 + LEAST_BUFFER, 5);
        assert_eq!(lent.play(&records.concat(), 0), Ok(Stop::RecordsEnd));
        assert_eq!(lent.reports[..10], [0, 18, 0, 5, 0, 19, 0, 20, 0, 21]);
        assert_eq!(lent.ends, [2, 4, 6, 8, 10]);
        assert_eq!(lent.venue, Venue::fresh(100, 100_000));
    }

    /// 512 timed prices of second 1, of which the first turns the restriction on; then one
    /// more, one of second 0, and one that is no price: 23, 22 and 3.
    #[test]
    fn refused_timed_prices_in_one_call() {
        let mut records = [7, 1, 9].repeat(513);
        records.extend([7, 0, 9, 7, 0, 0]);
        let mut lent = Lent::new(7 + LEAST_BUFFER, 515);
        assert_eq!(lent.play(&records, 0), Ok(Stop::RecordsEnd));
        assert_eq!(lent.reports[..7], [5, 0, 23, 0, 22, 0, 3]);
        assert_eq!(lent.ends[..512], [1; 512]);
        assert_eq!(lent.ends[512..], [3, 5, 7]);
        assert_eq!((lent.venue.accepted, lent.venue.kept.len()), (512, 512));
    }

    #[test]
    fn stops_where_no_place_for_an_end_is_left() {
        for ends in 0..9 {
            let mut lent = Lent::new(42 + LEAST_BUFFER, ends);
            assert_eq!(lent.play(&DAY.concat(), 0), Ok(Stop::NoPlace));
            lent.assert_played(ends);
        }
        let mut lent = Lent::new(42 + LEAST_BUFFER, 9);
        assert_eq!(lent.play(&DAY.concat(), 0), Ok(Stop::RecordsEnd));
        lent.assert_played(9);
    }

    /// The first event has no reports, the second one byte; the last needs room
    /// behind 40 bytes.
    #[test]
    fn stops_where_fewer_bytes_than_an_event_may_need_are_left() {
        let cases = [(0, 2), (1, 3), (6, 3), (7, 4), (38, 8), (39, 8)];
        for (spare, events) in cases {
            let mut lent = Lent::new(LEAST_BUFFER + spare, 12);
            assert_eq!(lent.play(&DAY.concat(), 0), Ok(Stop::NoRoom));
            lent.assert_played(events);
        }
        let mut lent = Lent::new(LEAST_BUFFER + 40, 12);
        assert_eq!(lent.play(&DAY.concat(), 0), Ok(Stop::RecordsEnd));
        lent.assert_played(9);
        let mut lent = Lent::new(LEAST_BUFFER - 1, 12);
        assert_eq!(lent.play(&DAY.concat(), 0), Ok(Stop::NoRoom));
        lent.assert_played(0);
    }

    #[test]
    fn stops_at_a_record_that_cannot_be_read() {
        let cases: [(&[u8], Refusal); 5] = [
            (&[3, 0xF8, 0xC6], Refusal::MissingByte),
            (&[7, 1], Refusal::MissingByte),
            (&[3, 0x80, 0], Refusal::BadNumber),
            (&[8, 1], Refusal::Kind),
            (&[2, 0x80, 0x80, 0x80, 0x80, 0x10], Refusal::LargeField),
        ];
        for (record, refusal) in cases {
            let records = [&DAY[..5].concat(), record].concat();
            let mut lent = Lent::new(LEAST_BUFFER + 42, 12);
            assert_eq!(lent.play(&records, 0), Err(refusal));
            lent.assert_played(5);
        }
    }

    /// The end of the records comes before the places, the places before the
    /// room, and the room before the record.
    #[test]
    fn stops_are_looked_for_in_order() {
        let cases = [
            (0, 0, 0, Ok(Stop::RecordsEnd)),
            (1, 0, 0, Ok(Stop::NoPlace)),
            (1, 1, LEAST_BUFFER - 1, Ok(Stop::NoRoom)),
            (1, 1, LEAST_BUFFER, Err(Refusal::Kind)),
        ];
        for (records, ends, reports, answer) in cases {
            let mut lent = Lent::new(reports, ends);
            assert_eq!(lent.play(&[0; 1][..records], 0), answer);
            lent.assert_played(0);
        }
    }

    #[test]
    fn an_offset_at_or_past_the_end_plays_nothing() {
        let records = DAY.concat();
        let end = records.len() as u64;
        for at in [end, end + 1, 1 << 32, u64::MAX] {
            let mut lent = Lent::new(42 + LEAST_BUFFER, 12);
            assert_eq!(lent.play(&records, at), Ok(Stop::RecordsEnd));
            let progress = Progress {
                at,
                ..Progress::default()
            };
            assert_eq!(lent.progress, progress);
            assert_eq!(lent.venue, Venue::fresh(100, 100_000));
            assert!(lent.reports.iter().all(|&byte| byte == 0xA5));
            assert_eq!(lent.ends, [99; 12]);
        }
    }

    /// Ends and bytes are counted in this call, the offset in the records.
    #[test]
    fn a_day_is_played_on_from_where_it_stopped() {
        let mut lent = Lent::new(42 + LEAST_BUFFER, 2);
        assert_eq!(lent.play(&DAY.concat(), 0), Ok(Stop::NoPlace));
        let at = lent.progress.at;
        assert_eq!((at, lent.reports[0]), (8, 5));
        assert_eq!(lent.play(&DAY.concat(), at), Ok(Stop::NoPlace));
        assert_eq!(lent.reports[..20], ANSWERS[2..4].concat());
        assert_eq!(lent.ends, [6, 20]);
        let progress = Progress {
            events: 2,
            at: 30,
            bytes: 20,
        };
        assert_eq!(lent.progress, progress);
    }

    #[test]
    fn a_broken_venue_record_changes_nothing() {
        for records in [&DAY.concat()[..], &[], &[0]] {
            let mut lent = Lent::new(42 + LEAST_BUFFER, 12);
            lent.venue.phase = 3;
            let before = lent.venue.clone();
            assert_eq!(lent.play(records, 0), Err(Refusal::VenueRecord));
            assert_eq!((lent.progress, &lent.venue), (NOISE, &before));
            assert!(lent.reports.iter().all(|&byte| byte == 0xA5));
            assert_eq!(lent.ends, [99; 12]);
        }
    }
}
