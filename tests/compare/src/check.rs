//! `check`: the model alone against the paper's claims, after every event.

use crate::account::{Account, Resting};
use crate::by_cents;
use crate::by_limits;
use crate::by_owners;
use crate::conditions;
use crate::counts::{Counts, Lent};
use crate::document_01;
use crate::firms::Firms;
use crate::fronts;
use crate::full_books;
use crate::matching;
use crate::model::{
    copy_out, depth, is_legal, permitted_price, read_record, watch_tape, write_record, Event, Fill,
    Order, OrderRecord, Question, RecordCheck, Refusal, Report, ReportWriter, Side, TimedPrice,
    Venue, Watch, BUY, CENT, LEAST_BUFFER, OPT_OUT, PLACES, SHORT,
};
use crate::pause_rule;
use crate::pauses::{behind_pause, Pauses};
use crate::phase_table::{self, watched};
use crate::price_rules;
use crate::questions::any_questions;
use crate::rng::Rng;
use crate::sessions::{self, ensure, Examiner, Fault};
use crate::slid_prices::SlidPrices;
use crate::streams::{Call, Session};

/// The most questions before an event of most venues.
const QUESTIONS: u32 = 1;

/// Plays sessions until so many events are over. Gives whether all claims held.
pub fn run(seed: u64, events: u64) -> bool {
    sessions::run(seed, events, &mut Checked::new())
}

/// A venue under check, with the account of its events, the law of slid prices and the
/// pauses if it comes from open, and with the owners of its orders as its events gave them.
struct Checked {
    venue: Venue,
    before: Venue,
    account: Option<Account>,
    firms: Firms,
    slid_prices: Option<SlidPrices>,
    pauses: Option<Pauses>,
    lent: Lent,
    rng: Rng,
}

impl Examiner for Checked {
    fn start(&mut self, seed: u64, session: &Session, _: &mut Counts) -> Result<(), Fault> {
        self.rng = Rng::new(!seed);
        let from_open = session.kind.is_from_open();
        self.venue = session.start.clone();
        self.account = from_open.then(|| Account::new(self.venue.close));
        self.firms = Firms::start(&self.venue);
        self.slid_prices = SlidPrices::start(from_open);
        self.pauses = Pauses::start(from_open, self.venue.step);
        price_rules::check_record(&self.venue)?;
        by_owners::check_record(&self.venue)?;
        pause_rule::check_record(&self.venue)?;
        let opened = Venue::open(self.venue.step, self.venue.close);
        ensure(!from_open || opened.as_ref() == Ok(&self.venue), "open")
    }

    fn venue(&self) -> &Venue {
        &self.venue
    }

    fn event(&mut self, call: &Call, counts: &mut Counts) -> Result<(), Fault> {
        let (event, end) = match read_record(call.record, 0) {
            Ok(read) => read,
            Err(refusal) => {
                counts.refuse_record(refusal);
                return Ok(());
            }
        };
        check_round_trip(&event, &call.record[..end], counts.events as usize % 5)?;
        price_rules::check(&mut self.rng, counts)?;
        self.before.clone_from(&self.venue);
        self.ask_any(counts)?;
        let buffer = self.lent.lend(call.buffer);
        match self.venue.apply(&event, buffer, RecordCheck::Done) {
            Err(refusal) => {
                counts.refuse(&self.venue, &event, refusal);
                self.hold(&event, Err(refusal), counts)?;
                self.check_refused(&event, refusal)?;
                if refusal != Refusal::VenueRecord {
                    self.check_otherwise(&event, call.buffer, Err(refusal), counts)?;
                }
                ensure(self.lent.keeps_from(0), "a refused event wrote reports")
            }
            Ok(count) => {
                let reports = read_reports(self.lent.front(count))?;
                counts.accept(&self.before, &event, count, &reports);
                self.hold(&event, Ok(&reports), counts)?;
                ensure(self.lent.keeps_from(count), "bytes behind the reports")?;
                self.read_list(&event, count)?;
                self.lent.restore(count);
                ensure(count <= LEAST_BUFFER, "16,384 bytes")?;
                self.check_accepted(&event, &reports)?;
                self.check_otherwise(&event, call.buffer, Ok(&reports), counts)?;
                if counts.events.is_multiple_of(32) {
                    check_copy_out(&self.venue, counts.events as usize % 3)?;
                }
                Ok(())
            }
        }
    }

    fn end(&mut self, _: &mut Counts) -> Result<(), Fault> {
        Ok(())
    }

    fn recover(&mut self) {
        self.lent = Lent::new();
    }
}

impl Checked {
    fn new() -> Self {
        let venue = Venue::fresh(CENT, 1);
        Checked {
            before: venue.clone(),
            firms: Firms::start(&venue),
            venue,
            account: None,
            slid_prices: None,
            pauses: None,
            lent: Lent::new(),
            rng: Rng::new(0),
        }
    }

    /// What is read from events, answers and report bytes alone.
    fn read_list(&mut self, event: &Event, count: usize) -> Result<(), Fault> {
        let bytes = self.lent.front(count);
        self.firms.take(event, bytes)?;
        if let Some(slid_prices) = &mut self.slid_prices {
            slid_prices.take(event, bytes)?;
        }
        match &mut self.pauses {
            Some(pauses) => pauses.take(event, Ok(bytes)),
            None => Ok(()),
        }
    }

    /// A question to the venue before an event, checked by all fronts.
    fn ask(&self, asked: &Question, counts: &mut Counts) -> Result<Result<Fill, Refusal>, Fault> {
        let answer = self.before.would_fill(asked, RecordCheck::Done);
        counts.asked.ask(asked, &self.before, answer);
        fronts::check(asked, &self.before, answer)?;
        Ok(answer)
    }

    fn ask_any(&mut self, counts: &mut Counts) -> Result<(), Fault> {
        for asked in any_questions(&mut self.rng, &self.before, QUESTIONS) {
            // Whatever the answer, it was checked.
            let _ = self.ask(&asked, counts)?;
        }
        Ok(())
    }

    /// What an entry got, and the answer to its own question before it.
    fn hold(
        &self,
        event: &Event,
        entered: Result<&[Report], Refusal>,
        counts: &mut Counts,
    ) -> Result<(), Fault> {
        let Event::Entry(entry) = event else {
            return Ok(());
        };
        let answer = self.ask(&entry.question(), counts)?;
        let answer = answer.map(|fill| fill.in_full).map_err(Refusal::number);
        let book = fronts::book_before(entry, &self.before);
        if let Some(held) = fronts::hold(entry, book, answer, entered)? {
            counts.asked.hold(&self.before, held);
        }
        Ok(())
    }

    /// An event on a sound record does what document 01 says without market orders
    /// and with its own step, by the same prices or by doubled ones; keeps to the
    /// table of phases and to the rule of timed prices; does what it does without owners; and
    /// in a full book does what it does where there is room.
    fn check_otherwise(
        &self,
        event: &Event,
        buffer: usize,
        answer: Result<&[Report], Refusal>,
        counts: &mut Counts,
    ) -> Result<(), Fault> {
        let (before, after) = (&self.before, &self.venue);
        conditions::check(before, event, answer)?;
        let with_room = full_books::check(before, event, buffer, answer, after)?;
        counts.full_books.check(with_room);
        by_limits::check(before, event, buffer, answer, after)?;
        phase_table::check(before, event, buffer, answer, after)?;
        pause_rule::check(before, event, buffer, answer, after)?;
        let as_before = matching::check(before, event, answer, after)?;
        let without_owners = by_owners::check(before, event, buffer, answer, after)?;
        counts.withdrawals.check(as_before, without_owners);
        let by_document_01 = before.step == CENT;
        if by_document_01 {
            document_01::check(before, event, answer, after)?;
        }
        let by_cents = by_cents::check(before, event, buffer, answer, after)?;
        counts.half_cents.check(by_document_01, by_cents);
        Ok(())
    }

    fn check_refused(&mut self, event: &Event, refusal: Refusal) -> Result<(), Fault> {
        if let Some(pauses) = &mut self.pauses {
            pauses.take(event, Err(refusal))?;
        }
        ensure(self.venue == self.before, "a refused event changes nothing")?;
        let is_record = refusal == Refusal::VenueRecord;
        ensure(
            is_record != self.venue.is_sound(),
            "16 exactly for broken venue records",
        )?;
        ensure(
            !(is_record && self.account.is_some()),
            "no venue reached from open gets 16",
        )?;
        let copied = copy_out(&self.venue, &mut []);
        ensure(
            is_record == (copied == Err(Refusal::VenueRecord)),
            "16 of copy out",
        )?;
        match *event {
            Event::Tape { price } | Event::Timed(TimedPrice { price, .. })
                if refusal == Refusal::Price =>
            {
                check_watch(&self.before, price)
            }
            Event::Bid { price } if refusal == Refusal::Price => ensure(
                permitted_price(self.venue.step, price) == Err(Refusal::Price),
                "the permitted price refuses what isn't a bid",
            ),
            _ => Ok(()),
        }
    }

    fn check_accepted(&mut self, event: &Event, reports: &[Report]) -> Result<(), Fault> {
        let (venue, before) = (&self.venue, &self.before);
        ensure(venue.is_sound(), "an accepted event leaves a sound record")?;
        ensure(venue.accepted == before.accepted + 1, "accepted events")?;
        check_stamps(before, venue, event, reports)?;
        match *event {
            Event::Tape { price } | Event::Timed(TimedPrice { price, .. }) => {
                check_watch(before, price)?;
            }
            Event::Bid { price } => check_permitted(before.step, price)?,
            _ => {}
        }
        let Some(account) = &mut self.account else {
            return Ok(());
        };
        check_reached(before, venue, event, reports)?;
        let law = account.take(event, reports);
        law.and_then(|()| account.judge(venue.orders.iter().map(resting)))
            .map_err(|breach| format!("demand 3: {breach:?} by {event:?}"))
    }
}

/// What section G of the readings says of venues reached from open: shorts at
/// or above their limits, only shorts adjusted and no opt-out among them; and a
/// repeated bid or an idle tape price moves no order. Nor does a second fall (No.
/// 6), as the restriction was on before it. A market short is restricted, came in
/// with a bid present and is adjusted (F1.2), so it is above its limit.
fn check_reached(
    before: &Venue,
    after: &Venue,
    event: &Event,
    reports: &[Report],
) -> Result<(), Fault> {
    for order in &after.orders {
        let short = order.mark == SHORT;
        ensure(!short || order.price >= order.limit, "price below limit")?;
        let slides = short && order.slide != OPT_OUT;
        ensure(slides || !order.adjusted, "adjusted orders")?;
        let follows = after.phase != 0 && order.entry_bid != 0 && order.adjusted;
        let above = order.price > order.limit;
        ensure(!order.market || (follows && above), "market shorts")?;
    }
    let reports = behind_pause(event, reports);
    let is_tape = matches!(event, Event::Tape { .. } | Event::Timed(_));
    let idle = match *event {
        Event::Bid { price } => price == before.bid,
        _ => is_tape && after.phase == before.phase,
    };
    ensure(!idle || reports.is_empty(), "an idle event moves no order")?;
    let falls_again = before.phase == 2 && is_tape && !idle;
    let is_alone = reports == [Report::RestrictionOn];
    ensure(!falls_again || is_alone, "a second fall moves no order")
}

/// What the law may see of a resting order.
fn resting(order: &Order) -> Resting {
    Resting {
        id: order.id,
        price: order.price,
        shares: order.shares,
    }
}

/// Reports read from their bytes, which must be those of the reports.
fn read_reports(bytes: &[u8]) -> Result<Vec<Report>, Fault> {
    let reports = Report::read_all(bytes).map_err(|refusal| format!("reports: {refusal:?}"))?;
    let mut again = vec![0; bytes.len()];
    let mut writer = ReportWriter::new(&mut again);
    reports.iter().for_each(|&report| writer.put(report));
    ensure(again == bytes, "report bytes")?;
    Ok(reports)
}

/// A record that was read is written as the same bytes, and nothing else is
/// written; one byte less and it doesn't fit.
fn check_round_trip(event: &Event, record: &[u8], at: usize) -> Result<(), Fault> {
    let mut bytes = [0xA5; 48];
    let end = at + record.len();
    let short = write_record(&mut bytes[..end - 1], at, event);
    ensure(short == Err(Refusal::NoRoom), "13")?;
    ensure(bytes == [0xA5; 48], "a refused write changes nothing")?;
    ensure(
        write_record(&mut bytes, at, event) == Ok(end),
        "write's end",
    )?;
    ensure(bytes[at..end] == *record, "a record's bytes")?;
    let around = [&bytes[..at], &bytes[end..]].concat();
    let kept = around.iter().all(|&byte| byte == 0xA5);
    ensure(kept, "bytes around a written record")?;
    let read = read_record(&bytes, at);
    ensure(read == Ok((*event, end)), "reading what was written")
}

/// Each accepted entry and each re-pricing takes the next stamp, nothing else
/// does (C11), and at most 256 are taken.
fn check_stamps(
    before: &Venue,
    after: &Venue,
    event: &Event,
    reports: &[Report],
) -> Result<(), Fault> {
    let mut last = before.last_stamp;
    for report in reports {
        if let Report::Accepted { stamp, .. } | Report::Repriced { stamp, .. } = *report {
            last += 1;
            ensure(stamp == last, "the next stamp")?;
        }
    }
    ensure(after.last_stamp == last, "the last stamp")?;
    let most = match event {
        Event::Entry(_) => 1,
        Event::Bid { .. } | Event::Tape { .. } | Event::Timed(_) => PLACES as u32,
        Event::Cancel { .. } | Event::DayEnd { .. } => 0,
    };
    ensure(last - before.last_stamp <= most, "stamps of one event")
}

/// A host's watch follows the venue's phase through a tape price. No. 6: "The watch
/// follows the same rule."
fn check_watch(before: &Venue, price: u32) -> Result<(), Fault> {
    let start = Watch {
        close: before.close,
        phase: before.phase,
    };
    let mut watch = start;
    let answer = watch_tape(&mut watch, before.step, price);
    let phase = match answer {
        Ok(()) => watched(&start, price),
        Err(_) => before.phase,
    };
    ensure(
        answer.is_ok() == is_legal(before.step, price),
        "the watch's refusal",
    )?;
    ensure(watch.phase == phase, "the watch's phase")
}

/// The permitted price is the lowest legal price above the bid.
fn check_permitted(step: u32, bid: u32) -> Result<(), Fault> {
    let above = (bid + 1..).find(|&price| is_legal(step, price));
    ensure(
        permitted_price(step, bid).ok() == above,
        "the permitted price",
    )
}

/// Copy out fills the front of a run that is one record short, exact or one
/// longer; depth over it finds each displayed share once.
fn check_copy_out(venue: &Venue, spare: usize) -> Result<(), Fault> {
    let noise = OrderRecord {
        id: 7,
        mark: 9,
        limit: 7,
        shares: 7,
        show: 1,
        life: 7,
        slide: 7,
        stamp: 7,
        price: 7,
        entry_bid: 7,
        adjusted: 7,
        used: 7,
        clear: 7,
        market: 7,
        owner: 7,
    };
    let len = venue.orders.len();
    let mut run = vec![noise; (len + spare).saturating_sub(1)];
    let answer = copy_out(venue, &mut run);
    if run.len() < len {
        ensure(answer == Err(Refusal::ShortRun), "14")?;
        return ensure(run.iter().all(|record| *record == noise), "a short run");
    }
    ensure(answer == Ok(len), "how many were filled")?;
    let copy = venue.orders.iter().map(OrderRecord::from);
    ensure(run[..len].iter().copied().eq(copy), "the book copy")?;
    ensure(run[len..].iter().all(|record| *record == noise), "the rest")?;
    check_depth(&run)
}

fn check_depth(run: &[OrderRecord]) -> Result<(), Fault> {
    let mut prices: Vec<u32> = run.iter().map(|record| record.price).collect();
    prices.sort_unstable();
    prices.dedup();
    for side in [Side::Buy, Side::Sell] {
        let on_side = |record: &&OrderRecord| (record.mark == BUY) == (side == Side::Buy);
        let sound = run.iter().filter(|record| record.mark <= 3);
        let shown = sound.filter(on_side).filter(|record| record.show == 1);
        let total: u64 = shown.map(|record| u64::from(record.shares)).sum();
        let depths: Result<Vec<u64>, Refusal> = prices
            .iter()
            .map(|&price| depth(run, price, side))
            .collect();
        let expected = if run.len() > PLACES {
            Err(Refusal::LongRun)
        } else {
            Ok(total)
        };
        let found = depths.map(|depths| depths.iter().sum());
        ensure(found == expected || prices.is_empty(), "depth")?;
    }
    Ok(())
}
