//! A plain implementation of document 01 and, of document 02, of No. 1 to No. 10,
//! written from the papers and the readings alone. Comments in quotation marks are
//! sentences of the papers, letters with numbers (A1, F1.3) are readings.

mod book;
mod fill;
mod form;
mod pauses;
mod play;
mod prices;
#[cfg(test)]
mod steps;
mod venue;

pub use book::{copy_out, depth, Order, OrderRecord, Side, BUY, OPT_OUT, PLACES, SHORT};
pub use fill::{Fill, Question};
pub use form::{
    byte_count, read_number, read_record, write_number, write_record, Entry, Event, Report,
    ReportWriter, LONGEST_NUMBER,
};
pub use pauses::{TimedPrice, MOST_KEPT};
pub use play::Progress;
#[cfg(feature = "engine")]
pub use play::Stop;
#[cfg(feature = "engine")]
pub use prices::is_step;
pub use prices::{
    is_legal, permitted_price, phase_after_day_end, phase_after_tape, watch_tape, Watch, CENT,
    DOLLAR, HALF_CENT, HIGHEST, LOWEST,
};
pub use venue::{RecordCheck, Venue, LEAST_BUFFER, MOST_EVENTS, MOST_SHARES};

/// The paper's refusals under their numbers.
#[derive(Clone, Copy, Debug, PartialEq, Eq)]
#[repr(u8)]
pub enum Refusal {
    ShortBuffer = 1,
    Spent = 2,
    Price = 3,
    Shares = 4,
    ShowOrLife = 5,
    Id = 6,
    Full = 7,
    NotResting = 8,
    MissingByte = 9,
    BadNumber = 10,
    Kind = 11,
    LargeField = 12,
    NoRoom = 13,
    ShortRun = 14,
    LongRun = 15,
    VenueRecord = 16,
    Step = 17,
    Mark = 18,
    SlideCode = 19,
    SlideOnMark = 20,
    Owner = 21,
    Time = 22,
    KeptPrices = 23,
}

impl Refusal {
    pub fn number(self) -> u32 {
        self as u32
    }
}
