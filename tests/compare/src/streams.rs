//! Generated streams: sound trading around the bid, nonsense, damaged bytes,
//! and events on made-up venue records, at both steps. Each follows from its
//! seed.

use crate::full_book_events::near_full;
use crate::ladder::Ladder;
use crate::made_up::{made_up, put_on_one_side, sink_shorts, spoil_record};
use crate::meetings::meet_own;
use crate::model::{
    read_record, write_number, write_record, Entry, Event, RecordCheck, TimedPrice, Venue, CENT,
    DOLLAR, HALF_CENT, LEAST_BUFFER, LONGEST_NUMBER, LOWEST, MOST_EVENTS, MOST_KEPT, MOST_SHARES,
    PLACES, SHORT,
};
use crate::odd::{near_miss, odd_code, odd_number, odd_owner};
use crate::rng::Rng;
use crate::slid_events::slide_again;
use crate::timed_events::{fill_watch, timed, MINUTES, SECONDS, STILL};

/// At which step and where a session trades, how far from there, and how often
/// in a hundred events something other than an entry comes; how many of a hundred
/// entries are market orders, and how many of twenty bids are none or the lowest;
/// whose the orders are; how many of a hundred events are timed prices, how many of a hundred
/// of these are around a tenth from another, and how their times go on. In a slump days are
/// short and most tape prices are around the trigger.
pub struct Market {
    pub ladder: Ladder,
    pub centre: u32,
    pub reach: u32,
    pub marks: &'static [u32],
    cancels: u32,
    bids: u32,
    tapes: u32,
    quiet_days: u32,
    market_orders: u32,
    no_bids: u32,
    lowest_bids: u32,
    slump: bool,
    firms: &'static [u32],
    timed: u32,
    pub swings: u32,
    pub seconds: &'static [u32],
}

/// How often each mark comes: mixed, mostly shorts, hardly any short.
const MIXED: &[u32] = &[0, 0, 0, 0, 0, 1, 2, 2, 2, 2, 3];
const SHORTS: &[u32] = &[0, 2, 2, 2, 2, 2, 2, 2];
const OTHERS: &[u32] = &[0, 0, 0, 1, 1, 2, 3];

/// How often each owner comes, 0 for an entry of kind 1: nobody's, some of few firms and
/// some nobody's, mostly of one firm, and owners of which a byte takes one for another or
/// for none.
const NO_FIRMS: &[u32] = &[];
const FEW_FIRMS: &[u32] = &[0, 0, 1, 1, 2, 2, 3, 65_535];
const ONE_FIRM: &[u32] = &[1, 1, 1, 1, 2, 0];
const BY_BYTES: &[u32] = &[1, 257, 256, 512, 255, 65_535, 0];

impl Market {
    fn random(rng: &mut Rng) -> Self {
        let step = rng.pick(&[HALF_CENT, CENT]);
        let ladder = Ladder { step };
        let (dollars, top) = (ladder.rung_of(91_000), ladder.top());
        let anywhere = rng.between(1, top);
        let centres = [910, dollars, DOLLAR, DOLLAR + 1, 12, top - 4, anywhere];
        let slump = rng.one_in(4);
        Market {
            ladder,
            centre: rng.pick(&centres),
            reach: rng.pick(&[2, 2, 5, 5, 5, 20, 300]),
            cancels: rng.pick(&[1, 8, 20]),
            bids: rng.pick(&[4, 15, 30]),
            tapes: rng.pick(if slump { &[10, 25] } else { &[2, 6] }),
            quiet_days: rng.pick(if slump {
                &[12, 30, 60]
            } else {
                &[60, 400, 2_000]
            }),
            marks: rng.pick(&[MIXED, MIXED, MIXED, SHORTS, OTHERS]),
            market_orders: rng.pick(&[0, 4, 20, 50]),
            no_bids: rng.pick(&[1, 1, 6]),
            lowest_bids: rng.pick(&[0, 0, 1]),
            slump,
            firms: rng.pick(&[
                NO_FIRMS, FEW_FIRMS, FEW_FIRMS, FEW_FIRMS, ONE_FIRM, BY_BYTES,
            ]),
            timed: rng.pick(&[0, 4, 8, 25]),
            swings: rng.pick(&[5, 25, 60]),
            seconds: rng.pick(&[STILL, SECONDS, MINUTES]),
        }
    }

    /// The market of the benchmark.
    fn steady(ladder: Ladder) -> Self {
        Market {
            ladder,
            centre: ladder.rung_of(91_000),
            reach: 12,
            cancels: 0,
            bids: 10,
            tapes: 3,
            quiet_days: u32::MAX,
            marks: MIXED,
            market_orders: 0,
            no_bids: 1,
            lowest_bids: 0,
            slump: false,
            firms: NO_FIRMS,
            timed: 0,
            swings: 0,
            seconds: STILL,
        }
    }

    /// A fresh venue.
    fn open(&self, rng: &mut Rng) -> Venue {
        Venue::fresh(self.ladder.step, self.close(rng))
    }

    pub fn close(&self, rng: &mut Rng) -> u32 {
        self.ladder.near(rng, self.centre, 2 * self.reach)
    }

    /// An event that makes sense for the venue as it stands. Without timed prices nothing is
    /// drawn for them, so that the benchmark's streams stay as they were.
    fn event(&self, rng: &mut Rng, venue: &Venue) -> Event {
        if self.ends_day(rng, venue) {
            let price = self.next_close(rng, venue);
            return Event::DayEnd { price };
        }
        if self.timed > 0 && rng.up_to(99) < self.timed {
            return timed(rng, self, venue);
        }
        let drawn = rng.up_to(99);
        if drawn < self.cancels && !venue.orders.is_empty() {
            let id = venue.orders[rng.place(venue.orders.len())].id;
            Event::Cancel { id }
        } else if drawn < self.cancels + self.bids {
            let price = self.bid(rng, venue.bid);
            Event::Bid { price }
        } else if drawn < self.cancels + self.bids + self.tapes {
            let price = self.tape(rng, venue);
            Event::Tape { price }
        } else {
            Event::Entry(self.entry(rng, venue))
        }
    }

    /// The bid walks, at times back to the centre and at times away.
    pub fn bid(&self, rng: &mut Rng, present: u32) -> u32 {
        let drawn = rng.up_to(19);
        let away = self.no_bids + self.lowest_bids;
        if drawn < self.no_bids {
            0
        } else if drawn < away {
            LOWEST
        } else if drawn < away + 5 {
            self.ladder.bid_near(rng, self.centre, self.reach)
        } else if present == 0 {
            self.ladder.bid_near(rng, self.centre, 2)
        } else {
            let rung = self.ladder.rung_of(present);
            self.ladder.bid_near(rng, rung, 3)
        }
    }

    /// In a slump some days end on their morning, right behind the day before.
    fn ends_day(&self, rng: &mut Rng, venue: &Venue) -> bool {
        let morning = venue.bid == 0 && venue.orders.is_empty();
        match self.slump && morning {
            true => rng.one_in(5),
            false => rng.one_in(self.quiet_days),
        }
    }

    /// Around the centre; in a slump as often around the trigger of the day, so that
    /// closes fall with the tape.
    fn next_close(&self, rng: &mut Rng, venue: &Venue) -> u32 {
        if self.slump && rng.one_in(2) {
            self.ladder.near_trigger(rng, venue.close)
        } else {
            self.close(rng)
        }
    }

    /// A tape price around the trigger, in a slump most of them, or around the
    /// centre.
    fn tape(&self, rng: &mut Rng, venue: &Venue) -> u32 {
        if rng.one_in(3) != self.slump {
            self.ladder.near_trigger(rng, venue.close)
        } else {
            self.ladder.near(rng, self.centre, self.reach)
        }
    }

    pub fn entry(&self, rng: &mut Rng, venue: &Venue) -> Entry {
        let around = match venue.bid {
            0 => self.centre,
            bid => self.ladder.rung_of(bid),
        };
        let mark = rng.pick(self.marks);
        let few = rng.between(1, 9);
        let many = rng.between(1, 2_000);
        let gap = rng.pick(&[1, 1, 1, 1, 2, 70_000]);
        Entry {
            id: venue.last_id.saturating_add(gap),
            mark,
            price: self.price(rng, around),
            shares: rng.pick(&[few, few, many, MOST_SHARES]),
            show: rng.pick(&[0, 1, 1]),
            life: rng.pick(&[0, 0, 0, 0, 0, 1]),
            slide: match mark {
                SHORT => rng.pick(&[0, 0, 1, 1, 2, 3]),
                _ => 0,
            },
            owner: match self.owner(rng) {
                0 => None,
                owner => Some(owner),
            },
        }
    }

    fn has_firms(&self) -> bool {
        !self.firms.is_empty()
    }

    /// Whose an order is, 0 for nobody's. Without firms nothing is drawn, so that the
    /// benchmark's streams stay as they were.
    pub fn owner(&self, rng: &mut Rng) -> u32 {
        match self.firms {
            [] => 0,
            firms => rng.pick(firms),
        }
    }

    /// The price of an entry: where there are market orders, at times 0, and at
    /// times 1, which is the limit of a market short.
    fn price(&self, rng: &mut Rng, around: u32) -> u32 {
        let price = self.ladder.near(rng, around, self.reach);
        if self.market_orders == 0 {
            return price;
        }
        match rng.up_to(99) {
            drawn if drawn < self.market_orders => 0,
            95.. => LOWEST,
            _ => price,
        }
    }
}

/// A sound event with one field changed to something odd, its price to a number
/// next to it, some of its codes to odd ones, or all fields odd.
fn nonsense(rng: &mut Rng, sound: Event, venue: &Venue) -> Event {
    let odd = odd_number(rng);
    match (sound, rng.up_to(9)) {
        (_, 0) => Event::Cancel { id: odd },
        (_, 1) => {
            let timed = odd_timed(rng, venue, odd);
            rng.pick(&[
                Event::Bid { price: odd },
                Event::Tape { price: odd },
                Event::DayEnd { price: odd },
                timed,
            ])
        }
        (Event::Entry(_), 2) => Event::Entry(Entry {
            id: odd_number(rng),
            mark: odd_number(rng),
            price: odd_number(rng),
            shares: odd_number(rng),
            show: odd_number(rng),
            life: odd_number(rng),
            slide: odd,
            owner: any_owner(rng),
        }),
        (sound, 6..8) => miss(rng, sound),
        (Event::Entry(entry), 8..) => Event::Entry(spoil_codes(rng, entry, odd, venue)),
        (Event::Entry(entry), _) => Event::Entry(spoil_entry(rng, entry, odd, venue)),
        (sound, _) => sound,
    }
}

/// A timed price with an odd price, and with a time that stands still or that is odd, at
/// which it may drop what is kept or come too early.
fn odd_timed(rng: &mut Rng, venue: &Venue, price: u32) -> Event {
    let last = venue.kept.last().map_or(0, |last| last.time);
    let (early, late) = (last.saturating_sub(1), last.saturating_add(301));
    let any = rng.word();
    let time = rng.pick(&[last, early, late, late, any]);
    Event::Timed(TimedPrice { time, price })
}

/// An event with its price moved a little; a cancel has none.
fn miss(rng: &mut Rng, event: Event) -> Event {
    match event {
        Event::Entry(entry) => {
            let price = near_miss(rng, entry.price);
            Event::Entry(Entry { price, ..entry })
        }
        Event::Cancel { .. } => event,
        Event::Bid { price } => Event::Bid {
            price: near_miss(rng, price),
        },
        Event::Tape { price } => Event::Tape {
            price: near_miss(rng, price),
        },
        Event::DayEnd { price } => Event::DayEnd {
            price: near_miss(rng, price),
        },
        Event::Timed(TimedPrice { time, price }) => Event::Timed(TimedPrice {
            time,
            price: near_miss(rng, price),
        }),
    }
}

/// None, or one at or over a border.
fn any_owner(rng: &mut Rng) -> Option<u32> {
    let odd = odd_owner(rng);
    rng.pick(&[None, Some(odd)])
}

fn spoil_entry(rng: &mut Rng, mut entry: Entry, odd: u32, venue: &Venue) -> Entry {
    let repeated = rng.up_to(venue.last_id);
    match rng.up_to(9) {
        0 => entry.id = rng.pick(&[0, venue.last_id, odd]),
        1 => entry.id = repeated,
        2 => entry.mark = odd,
        3 => entry.price = odd,
        4 => entry.shares = odd,
        5 => entry.show = odd,
        6 => entry.life = odd,
        7 => entry.slide = odd,
        8 => entry.owner = Some(odd_owner(rng)),
        _ => {
            entry.mark ^= 1;
            entry.slide = rng.up_to(4);
        }
    }
    entry
}

/// Changes some of the codes and the owner, so that several may be bad at once, and
/// at times what is looked at before them or after.
fn spoil_codes(rng: &mut Rng, mut entry: Entry, odd: u32, venue: &Venue) -> Entry {
    let Entry {
        mark,
        show,
        life,
        slide,
        ..
    } = &mut entry;
    for code in [mark, show, life, slide] {
        if rng.one_in(3) {
            *code = odd_code(rng);
        }
    }
    if rng.one_in(3) {
        entry.owner = Some(odd_owner(rng));
    }
    match rng.up_to(7) {
        0 => entry.price = odd,
        1 => entry.shares = odd,
        2 => entry.id = rng.up_to(venue.last_id),
        _ => {}
    }
    entry
}

/// Damages bytes in one place: cut, changed, lost, put in, made overlong.
fn damage(rng: &mut Rng, bytes: &mut Vec<u8>) {
    if bytes.is_empty() {
        return;
    }
    let at = rng.place(bytes.len());
    match rng.up_to(15) {
        0 => bytes.truncate(at),
        1..4 => bytes[at] ^= 1 << rng.up_to(7),
        4..7 => {
            let any = rng.word() as u8;
            bytes[at] = rng.pick(&[any, any, 7, 8]);
        }
        7..9 => drop(bytes.remove(at)),
        9..11 => bytes.insert(at, rng.word() as u8),
        11..14 => {
            let end = at + bytes[at..].iter().take_while(|&&byte| byte > 127).count();
            if let Some(last) = bytes.get_mut(end) {
                *last |= 128;
                bytes.insert(end + 1, 0);
            }
        }
        _ => {
            let number = large_number(rng);
            bytes.splice(at..at, number);
        }
    }
}

/// Ends the bytes with a record that breaks off inside a large number.
fn break_off(rng: &mut Rng, bytes: &mut Vec<u8>) {
    let mut number = large_number(rng);
    number.truncate(rng.place(number.len()));
    bytes.push(rng.between(1, 8) as u8);
    bytes.append(&mut number);
}

/// A number of many bytes, sound or not.
fn large_number(rng: &mut Rng) -> Vec<u8> {
    if rng.one_in(2) {
        let mut bytes = vec![0xFF; LONGEST_NUMBER - 1];
        bytes.push(rng.pick(&[0, 1, 1, 2, 0x80, 0xFF]));
        return bytes;
    }
    let sizes = [1 << 32, (1 << 32) - 1, (1 << 32) + 1, 1 << 35, u64::MAX];
    let mut bytes = vec![0; LONGEST_NUMBER];
    let end = write_number(&mut bytes, 0, rng.pick(&sizes));
    bytes.truncate(end);
    bytes
}

#[derive(Clone, Copy, Debug, PartialEq, Eq)]
pub enum Kind {
    /// Events that make sense.
    Sound,
    /// Such events, half of them changed into odd ones.
    Nonsense,
    /// The bytes of such events, damaged.
    Damaged,
    /// Events on a sound venue record that open need not reach.
    MadeUp,
    /// Events on such a record with one thing changed, mostly for the worse.
    Spoilt,
}

impl Kind {
    pub const COUNT: usize = 5;

    fn random(rng: &mut Rng) -> Self {
        match rng.up_to(99) {
            0..10 => Kind::Sound,
            10..18 => Kind::Nonsense,
            18..27 => Kind::Damaged,
            27..64 => Kind::MadeUp,
            _ => Kind::Spoilt,
        }
    }

    pub fn is_from_open(self) -> bool {
        !matches!(self, Kind::MadeUp | Kind::Spoilt)
    }
}

/// One event to apply: the bytes to read a record from (a damaged stream gives
/// all its rest) and the length of the report buffer to lend.
pub struct Call<'a> {
    pub record: &'a [u8],
    pub buffer: usize,
}

/// A run of events on one venue.
pub struct Session {
    pub kind: Kind,
    pub start: Venue,
    rng: Rng,
    market: Market,
    /// Whether the book is filled up and kept so.
    keeps_full: bool,
    /// For how many events the kept prices are.
    fills_watch: u32,
    left: u32,
    bytes: Vec<u8>,
    at: usize,
}

/// Of so many events where there are firms, on average, one is made so that an order meets
/// its own firm's.
const EVENTS_A_MEETING: u32 = 12;

/// Of so many events from open where a short slides, on average, one is made so that it
/// slides again.
const EVENTS_A_SLIDE: u32 = 5;

/// A session from open with more events than this may fill its book up.
const LONG: u32 = 2 * PLACES as u32;

/// And one may fill its kept prices up for so many events, and then go on.
const LONG_WATCH: u32 = MOST_KEPT as u32 + 160;

/// The longest buffer that a call lends, longer than any event may need.
pub const MOST_BUFFER: usize = LEAST_BUFFER + 4_096;

impl Session {
    pub fn new(seed: u64) -> Self {
        let mut rng = Rng::new(seed);
        let market = Market::random(&mut rng);
        let kind = Kind::random(&mut rng);
        let long = rng.pick(&[50, 400, 1_000]);
        let (start, left, bytes) = match kind {
            Kind::Sound => (market.open(&mut rng), long, Vec::new()),
            Kind::Nonsense => (market.open(&mut rng), long / 2, Vec::new()),
            Kind::Damaged => {
                let venue = market.open(&mut rng);
                let bytes = damaged_stream(&mut rng, &market, venue.clone());
                (venue, u32::MAX, bytes)
            }
            Kind::MadeUp => {
                let (venue, most) = made_up_start(&mut rng, &market);
                (venue, rng.between(1, most), Vec::new())
            }
            Kind::Spoilt => {
                let mut venue = made_up(&mut rng, &market);
                spoil_record(&mut rng, &mut venue);
                (venue, rng.between(1, 4), Vec::new())
            }
        };
        let keeps_full = keeps_full(&mut rng, kind, &market, left, &start);
        let free = left > LONG && market.quiet_days > 60 && !keeps_full;
        let fills_watch = fills_watch(&mut rng, kind, free, &start);
        Session {
            kind,
            start,
            rng,
            market,
            keeps_full,
            fills_watch,
            left,
            bytes,
            at: 0,
        }
    }

    /// The next call for the venue as it stands.
    pub fn next(&mut self, venue: &Venue) -> Option<Call<'_>> {
        if self.left == 0 || (self.kind == Kind::Damaged && self.at >= self.bytes.len()) {
            return None;
        }
        self.left -= 1;
        let buffer = buffer_len(&mut self.rng);
        if self.kind == Kind::Damaged {
            let at = self.at;
            self.at = read_record(&self.bytes, at).map_or(at + 1, |(_, end)| end);
            let record = &self.bytes[at..];
            return Some(Call { record, buffer });
        }
        let event = self.event(venue);
        self.bytes.clear();
        push_record(&mut self.bytes, &event);
        Some(Call {
            record: &self.bytes,
            buffer,
        })
    }

    /// Where the kept prices are filled up, mostly one that does so, and no other that is timed.
    fn event(&mut self, venue: &Venue) -> Event {
        let event = self.any_event(venue);
        if self.fills_watch == 0 {
            return event;
        }
        self.fills_watch -= 1;
        match event {
            Event::Timed(_) => fill_watch(&mut self.rng, &self.market, venue),
            _ if self.rng.one_in(8) => event,
            _ => fill_watch(&mut self.rng, &self.market, venue),
        }
    }

    fn any_event(&mut self, venue: &Venue) -> Event {
        // A full book is one for few events, and codes are looked at before it.
        let full = venue.orders.len() == PLACES && self.kind != Kind::Sound;
        if full && self.rng.one_in(4) {
            let entry = self.market.entry(&mut self.rng, venue);
            let odd = odd_number(&mut self.rng);
            return Event::Entry(spoil_codes(&mut self.rng, entry, odd, venue));
        }
        // In phase 2 the pass of a bid leaves that of a fall nothing to do.
        let untouched = venue.accepted == self.start.accepted;
        let seldom = if self.keeps_full { 4 } else { 2 };
        if venue.phase == 2 && untouched && self.rng.one_in(seldom) {
            return near_fall(&mut self.rng, &self.market, venue);
        }
        // Later, times may have dropped what a made-up record keeps.
        let keeps = untouched && !venue.kept.is_empty();
        if keeps && self.rng.one_in(4) {
            return timed(&mut self.rng, &self.market, venue);
        }
        if self.keeps_full {
            if let Some(event) = near_full(&mut self.rng, &self.market, venue) {
                return self.spoil_seldom(event, venue);
            }
        }
        if let Some(event) = self.seldom(venue) {
            return event;
        }
        let sound = self.market.event(&mut self.rng, venue);
        let nonsense_one_in = match self.kind {
            Kind::Nonsense => 2,
            Kind::MadeUp | Kind::Spoilt => 6,
            Kind::Sound | Kind::Damaged => return sound,
        };
        if self.rng.one_in(nonsense_one_in) {
            nonsense(&mut self.rng, sound, venue)
        } else {
            sound
        }
    }

    /// At times an event that chance alone brings about too seldom.
    fn seldom(&mut self, venue: &Venue) -> Option<Event> {
        let (rng, market) = (&mut self.rng, &self.market);
        if market.has_firms() && rng.one_in(EVENTS_A_MEETING) {
            if let Some(event) = meet_own(rng, market, venue) {
                return Some(event);
            }
        }
        let slides = self.kind.is_from_open() && rng.one_in(EVENTS_A_SLIDE);
        slides.then(|| slide_again(rng, market, venue)).flatten()
    }

    /// Of entries for a full book, some with one field that isn't sound.
    fn spoil_seldom(&mut self, event: Event, venue: &Venue) -> Event {
        match event {
            Event::Entry(entry) if self.kind != Kind::Sound && self.rng.one_in(8) => {
                let odd = odd_number(&mut self.rng);
                Event::Entry(spoil_entry(&mut self.rng, entry, odd, venue))
            }
            _ => event,
        }
    }
}

/// A record that open need not reach, and the most events to play on it: more where its
/// book is full or nearly so, and has often no bid.
fn made_up_start(rng: &mut Rng, market: &Market) -> (Venue, u32) {
    let mut venue = made_up(rng, market);
    if rng.one_in(6) {
        sink_shorts(rng, &mut venue, market);
    }
    if rng.one_in(8) {
        put_on_one_side(rng, &mut venue);
    }
    if !is_near_full(&venue) {
        return (venue, 60);
    }
    if rng.one_in(4) {
        venue.bid = 0;
    }
    let most = if has_numbers_left(&venue) { 240 } else { 60 };
    (venue, most)
}

/// Whether a session of so many events fills its book up and keeps it so.
fn keeps_full(rng: &mut Rng, kind: Kind, market: &Market, events: u32, start: &Venue) -> bool {
    match kind {
        Kind::Sound | Kind::Nonsense if market.slump => false,
        Kind::Sound | Kind::Nonsense => events > LONG && rng.one_in(2),
        Kind::Damaged => false,
        Kind::MadeUp | Kind::Spoilt => is_near_full(start),
    }
}

/// For how many of its events a session fills its kept prices up: long ones from open that
/// are free to, and made-up records that have nearly as many as there may be.
fn fills_watch(rng: &mut Rng, kind: Kind, free: bool, start: &Venue) -> u32 {
    let near_full = start.kept.len() + 1 >= MOST_KEPT;
    match kind {
        Kind::Sound if free => LONG_WATCH,
        Kind::MadeUp | Kind::Spoilt if near_full && is_near_full(start) => rng.up_to(20),
        Kind::MadeUp | Kind::Spoilt if near_full => rng.between(5, 60),
        _ => 0,
    }
}

/// A tape price around the trigger, with a time or without.
fn near_fall(rng: &mut Rng, market: &Market, venue: &Venue) -> Event {
    let price = market.ladder.near_trigger(rng, venue.close);
    match timed(rng, market, venue) {
        Event::Timed(TimedPrice { time, .. }) if market.timed > 0 && rng.one_in(2) => {
            Event::Timed(TimedPrice { time, price })
        }
        _ => Event::Tape { price },
    }
}

/// Whether at most one place is left.
fn is_near_full(venue: &Venue) -> bool {
    venue.orders.len() + 1 >= PLACES
}

/// Whether many more events are neither spent nor without an id.
fn has_numbers_left(venue: &Venue) -> bool {
    venue.accepted < MOST_EVENTS - 300 && venue.last_id < u32::MAX - 20_000_000
}

/// Mostly enough, at times exactly so, at times short.
fn buffer_len(rng: &mut Rng) -> usize {
    match rng.up_to(99) {
        0 => rng.pick(&[0, 1, LEAST_BUFFER / 2, LEAST_BUFFER - 1]),
        1..50 => LEAST_BUFFER,
        _ => rng.between(LEAST_BUFFER as u32, MOST_BUFFER as u32) as usize,
    }
}

/// The longest record, of an entry, has a kind and eight fields of at most five
/// bytes.
const LONGEST_RECORD: usize = 41;

pub fn push_record(bytes: &mut Vec<u8>, event: &Event) {
    let at = bytes.len();
    bytes.resize(at + LONGEST_RECORD, 0);
    let end = write_record(bytes, at, event).expect("room for the longest record");
    bytes.truncate(end);
}

/// The records of some sound events, then damaged in some places.
fn damaged_stream(rng: &mut Rng, market: &Market, mut venue: Venue) -> Vec<u8> {
    let mut bytes = Vec::new();
    let mut buffer = vec![0; LEAST_BUFFER];
    for _ in 0..rng.between(5, 250) {
        let event = market.event(rng, &venue);
        push_record(&mut bytes, &event);
        // A refused event belongs to the stream too.
        let _ = venue.apply(&event, &mut buffer, RecordCheck::Skipped);
    }
    for _ in 0..rng.between(1, 24) {
        damage(rng, &mut bytes);
    }
    if rng.one_in(2) {
        break_off(rng, &mut bytes);
    }
    bytes
}

/// The records of a benchmark, and the venue to play them from.
pub struct Trace {
    pub start: Venue,
    pub mean_resting: f64,
    bytes: Vec<u8>,
    ends: Vec<usize>,
}

impl Trace {
    pub fn records(&self) -> impl Iterator<Item = &[u8]> {
        let starts = [0].into_iter().chain(self.ends.iter().copied());
        let ends = self.ends.iter();
        starts.zip(ends).map(|(at, &end)| &self.bytes[at..end])
    }

    /// The records in one run of bytes.
    pub fn bytes(&self) -> &[u8] {
        &self.bytes
    }
}

/// A sound stream at a step that keeps about so many orders resting, with the
/// restriction on, and holds so many events. It has no market orders and no owners, so
/// that its figures can be held against those from before there were any.
pub fn trace(step: u32, seed: u64, resting: usize, events: usize) -> Trace {
    let mut rng = Rng::new(seed);
    let market = Market::steady(Ladder { step });
    let mut venue = Venue::fresh(step, 100_000);
    let mut buffer = vec![0; LEAST_BUFFER];
    let mut play = |venue: &mut Venue, event: &Event| {
        let answer = venue.apply(event, &mut buffer, RecordCheck::Skipped);
        answer.is_ok()
    };
    let opening = [Event::Bid { price: 91_000 }, Event::Tape { price: 90_000 }];
    for event in &opening {
        play(&mut venue, event);
    }
    while venue.orders.len() < resting {
        let entry = quiet_entry(&mut rng, &market, &venue);
        play(&mut venue, &Event::Entry(entry));
    }
    let start = venue.clone();
    let (mut bytes, mut ends) = (Vec::new(), Vec::new());
    let mut sum_resting = 0;
    while ends.len() < events {
        let event = trace_event(&mut rng, &market, &venue, resting);
        if play(&mut venue, &event) {
            push_record(&mut bytes, &event);
            ends.push(bytes.len());
            sum_resting += venue.orders.len();
        }
    }
    Trace {
        start,
        mean_resting: sum_resting as f64 / events as f64,
        bytes,
        ends,
    }
}

/// The same stream, with as many kept prices as there may be from its start on, which no
/// event of it touches.
pub fn trace_with_kept(step: u32, seed: u64, resting: usize, events: usize) -> Trace {
    let mut trace = trace(step, seed, resting, events);
    let mut rng = Rng::new(seed);
    let market = Market::steady(Ladder { step });
    let kept = (0..MOST_KEPT).map(|number| steady_price(&mut rng, &market, number));
    trace.start.kept = kept.collect();
    trace
}

/// Timed prices on the same book, so fast that about as many are kept as there may be, and as
/// many dropped as come. None is a tenth from another, so all that are kept are looked at.
pub fn timed_trace(step: u32, seed: u64, resting: usize, events: usize) -> Trace {
    let mut rng = Rng::new(seed);
    let market = Market::steady(Ladder { step });
    let Trace { start, .. } = trace_with_kept(step, seed, resting, 1);
    let (mut bytes, mut ends) = (Vec::new(), Vec::new());
    for number in 0..events {
        let new = steady_price(&mut rng, &market, MOST_KEPT + number);
        push_record(&mut bytes, &Event::Timed(new));
        ends.push(bytes.len());
    }
    Trace {
        mean_resting: start.orders.len() as f64,
        start,
        bytes,
        ends,
    }
}

/// A price around the centre, 512 in 301 seconds.
fn steady_price(rng: &mut Rng, market: &Market, number: usize) -> TimedPrice {
    TimedPrice {
        time: (number * 301 / MOST_KEPT) as u32,
        price: market.ladder.near(rng, market.centre, market.reach),
    }
}

/// Tops the book up or thins it, and in between anything.
fn trace_event(rng: &mut Rng, market: &Market, venue: &Venue, resting: usize) -> Event {
    let len = venue.orders.len();
    if rng.one_in(2) {
        return market.event(rng, venue);
    }
    if len < resting {
        Event::Entry(quiet_entry(rng, market, venue))
    } else {
        let id = venue.orders[rng.place(len)].id;
        Event::Cancel { id }
    }
}

/// An entry of few shares that rests: a buy below the centre, a sell above.
fn quiet_entry(rng: &mut Rng, market: &Market, venue: &Venue) -> Entry {
    let entry = market.entry(rng, venue);
    let away = rng.between(1, 3 * market.reach);
    let rung = match entry.mark {
        0 => market.centre - away,
        _ => market.centre + away,
    };
    Entry {
        id: venue.last_id + 1,
        price: market.ladder.price_of(rung),
        shares: rng.between(1, 9) * 100,
        life: 0,
        ..entry
    }
}
