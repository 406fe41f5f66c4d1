//! The bytes of events, as the engine wrote them on one way through some
//! records, and their comparison with those of another way.

use crate::sessions::Fault;

/// The bytes of all events, over some calls, and where those of each end.
#[derive(Default)]
pub struct Output {
    bytes: Vec<u8>,
    ends: Vec<u64>,
}

impl Output {
    /// Takes what a call wrote: the bytes of its events, and their ends.
    pub fn add(&mut self, bytes: &[u8], ends: &[u64]) {
        let before = self.bytes.len() as u64;
        self.ends.extend(ends.iter().map(|end| before + end));
        self.bytes.extend_from_slice(bytes);
    }

    /// Takes the bytes of one event.
    pub fn add_event(&mut self, bytes: &[u8]) {
        self.add(bytes, &[bytes.len() as u64]);
    }

    /// How many events these are.
    pub fn len(&self) -> usize {
        self.ends.len()
    }

    /// The bytes of each event.
    fn events(&self) -> impl Iterator<Item = &[u8]> {
        let starts = [0].into_iter().chain(self.ends.iter().copied());
        let ends = self.ends.iter();
        starts
            .zip(ends)
            .map(|(at, &end)| &self.bytes[at as usize..end as usize])
    }

    /// As many events as the whole play gave, with the same bytes.
    pub fn compare(&self, way: &str, whole: &Output) -> Result<(), Fault> {
        let (found, expected) = (self.len(), whole.len());
        if found != expected {
            return Err(format!("events: {way} {found}, whole {expected}"));
        }
        let mut pairs = self.events().zip(whole.events()).enumerate();
        match pairs.find(|(_, (found, expected))| found != expected) {
            None => Ok(()),
            Some((number, (found, expected))) => Err(format!(
                "bytes of event {number}: {way} {found:?}, whole {expected:?}"
            )),
        }
    }
}

#[cfg(test)]
mod tests {
    use super::*;

    /// What one call writes for three events, the second of which has no bytes.
    fn whole() -> Output {
        let mut output = Output::default();
        output.add(&[5, 0, 8], &[1, 1, 3]);
        output
    }

    fn one_by_one(events: &[&[u8]]) -> Output {
        let mut output = Output::default();
        events.iter().for_each(|event| output.add_event(event));
        output
    }

    #[test]
    fn the_same_events_in_several_calls() {
        let events = one_by_one(&[&[5], &[], &[0, 8]]);
        assert_eq!(events.compare("one by one", &whole()), Ok(()));
        let mut pieces = Output::default();
        pieces.add(&[5], &[1, 1]);
        pieces.add(&[], &[]);
        pieces.add(&[0, 8], &[2]);
        assert_eq!(pieces.compare("in pieces", &whole()), Ok(()));
    }

    #[test]
    fn a_byte_an_end_or_an_event_that_differs_is_seen() {
        let others: [&[&[u8]]; 6] = [
            &[&[5], &[], &[0, 7]],
            &[&[5], &[], &[0]],
            &[&[5], &[0], &[8]],
            &[&[], &[5], &[0, 8]],
            &[&[5], &[0, 8]],
            &[&[5], &[], &[0, 8], &[]],
        ];
        for other in others {
            let compared = one_by_one(other).compare("one by one", &whole());
            assert!(compared.is_err(), "{other:?}");
        }
    }
}
