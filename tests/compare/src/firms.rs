//! "Firms that don't trade with themselves", over a whole stream, and read from its
//! events, their answers and their report bytes alone: a column of owners by id, from the
//! entries that were accepted.

use crate::model::{Event, Report, Venue};
use crate::sessions::{ensure, Fault};
use std::collections::HashMap;

/// The cause of an own order's cancel.
pub const CAUSE: u32 = 5;

pub struct Firms {
    owners: HashMap<u32, u32>,
}

impl Firms {
    /// Of a stream that begins with this venue, which from open has no orders.
    pub fn start(venue: &Venue) -> Self {
        let owners = venue.orders.iter().map(|order| (order.id, order.owner));
        Firms {
            owners: owners.collect(),
        }
    }

    /// Takes an accepted event and the bytes of its reports; a refused one changes
    /// nothing.
    pub fn take(&mut self, event: &Event, bytes: &[u8]) -> Result<(), Fault> {
        if let Event::Entry(entry) = event {
            self.owners.insert(entry.id, entry.owner.unwrap_or(0));
        }
        let mut working = None;
        let mut at = 0;
        while at < bytes.len() {
            let (report, end) = Report::read(bytes, at).map_err(|_| "report bytes")?;
            self.judge(&report, &mut working)?;
            at = end;
        }
        Ok(())
    }

    fn owner_of(&self, id: u32) -> Result<u32, Fault> {
        let owner = self.owners.get(&id).copied();
        owner.ok_or_else(|| format!("no accepted entry has id {id}"))
    }

    /// No execution is between two orders of one owner above 0, and a cancel with
    /// cause 5 is of another order of the working one's owner.
    fn judge(&self, report: &Report, working: &mut Option<u32>) -> Result<(), Fault> {
        match *report {
            Report::Accepted { id, .. } | Report::Repriced { id, .. } => *working = Some(id),
            Report::Executed { buyer, seller, .. } => {
                let owner = self.owner_of(buyer)?;
                let other = self.owner_of(seller)?;
                let sound = owner == 0 || owner != other;
                ensure(sound, "no firm trades with itself")?;
            }
            Report::Cancelled { id, cause, .. } if cause == CAUSE => {
                let by = working.ok_or("cause 5 without a working order")?;
                let owner = self.owner_of(id)?;
                let own = owner > 0 && owner == self.owner_of(by)? && by != id;
                ensure(own, "cause 5 is of an own order")?;
            }
            _ => {}
        }
        Ok(())
    }
}

#[cfg(test)]
mod tests {
    use super::*;
    use crate::days::event_of;
    use crate::model::CENT;

    /// Takes events, each with its report bytes.
    fn taken(day: &[(&str, &[u8])]) -> Result<(), Fault> {
        let mut firms = Firms::start(&Venue::fresh(CENT, 100_000));
        for (event, bytes) in day {
            firms.take(&event_of(event), bytes)?;
        }
        Ok(())
    }

    /// The first two orders, and a third that meets them, with its report bytes.
    fn met(first: &str, second: &str, third: &str, bytes: &[u8]) -> Result<(), Fault> {
        taken(&[
            (first, &[1, 1, 1, 9]),
            (second, &[1, 2, 2, 9]),
            (third, bytes),
        ])
    }

    const OF_7: &str = "owned 1 0 9 5 1 0 0 7";
    const OF_8: &str = "owned 2 0 9 5 1 0 0 8";
    const SALE_OF_7: &str = "owned 3 1 9 5 1 0 0 7";
    const SALE: &str = "entry 3 1 9 5 1 0 0";

    #[test]
    fn a_firm_that_trades_with_itself_is_seen() {
        let [with_1, with_2] = [1, 2].map(|buyer| [1, 3, 3, 9, 2, buyer, 3, 9, 5]);
        assert!(met(OF_7, OF_8, SALE_OF_7, &with_1).is_err());
        assert_eq!(met(OF_7, OF_8, SALE_OF_7, &with_2), Ok(()));
        assert_eq!(met(OF_7, OF_8, SALE, &with_1), Ok(()));
        let plain = ["entry 1 0 9 5 1 0 0", "entry 2 0 9 5 1 0 0"];
        assert_eq!(met(plain[0], plain[1], SALE, &with_1), Ok(()));
        let behind = [1, 3, 3, 9, 3, 1, 5, 5, 2, 2, 3, 9, 2, 2, 1, 3, 9, 3];
        assert!(met(OF_7, OF_8, SALE_OF_7, &behind).is_err());
        assert_eq!(met(OF_7, OF_8, SALE_OF_7, &behind[..13]), Ok(()));
    }

    #[test]
    fn a_wrong_cancel_with_cause_5_is_seen() {
        let of = |id| [1, 3, 3, 9, 3, id, 5, 5];
        assert_eq!(met(OF_7, OF_8, SALE_OF_7, &of(1)), Ok(()));
        assert!(met(OF_7, OF_8, SALE_OF_7, &of(2)).is_err());
        assert!(met(OF_7, OF_8, SALE_OF_7, &of(3)).is_err());
        assert!(met(OF_7, OF_8, SALE_OF_7, &of(4)).is_err());
        assert!(met(OF_7, OF_8, SALE, &of(1)).is_err());
        assert!(met(OF_7, OF_8, "bid 9", &[3, 1, 5, 5]).is_err());
        assert_eq!(met(OF_7, OF_8, "cancel 1", &[3, 1, 5, 1]), Ok(()));
    }

    /// In the pass the re-priced order is the working one.
    #[test]
    fn a_firm_that_trades_with_itself_in_the_pass_is_seen() {
        let day = |bytes| met(OF_7, "owned 2 2 9 5 1 0 0 7", "bid 8", bytes);
        assert!(day(&[4, 2, 9, 3, 2, 1, 2, 9, 5]).is_err());
        assert_eq!(day(&[4, 2, 9, 3, 3, 1, 5, 5]), Ok(()));
    }
}
