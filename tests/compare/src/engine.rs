//! The proved engine behind its C functions, and the layout of its words.

use crate::model::{
    Fill, Order, OrderRecord, Progress, Question, Refusal, TimedPrice, Venue, Watch, CENT,
    HALF_CENT, MOST_KEPT, PLACES,
};
use std::ops::Range;

/// A number that include/venue.h defines, as build.rs passes it on.
const fn number(digits: &str) -> usize {
    let mut value = 0;
    let mut at = 0;
    while at < digits.len() {
        value = 10 * value + (digits.as_bytes()[at] - b'0') as usize;
        at += 1;
    }
    value
}

/// The words of a venue; a run may be longer.
pub const VENUE_WORDS: usize = number(env!("VENUE_WORDS"));
/// The number of the layout, the last word of the header.
pub const LAYOUT: u32 = number(env!("VENUE_LAYOUT")) as u32;

// The header's steps are the paper's.
const _: () = assert!(number(env!("VENUE_CENT")) == CENT as usize);
const _: () = assert!(number(env!("VENUE_HALF_CENT")) == HALF_CENT as usize);

const HEADER_WORDS: usize = 16;
const ORDER_WORDS: usize = 15;
/// A kept price is its time and its price; they stand behind the book, oldest first.
const TIMED_WORDS: usize = 2;
const KEPT_AT: usize = HEADER_WORDS + PLACES * ORDER_WORDS;
const _: () = assert!(VENUE_WORDS == KEPT_AT + MOST_KEPT * TIMED_WORDS);
/// The words of the kept prices; those beyond their count may hold anything.
pub const KEPT_PRICES: Range<usize> = KEPT_AT..VENUE_WORDS;

/// The places of the count of orders, of that of kept prices and of the layout's number, and
/// the spare words, which may hold anything and stay.
pub const COUNT_AT: usize = 0;
pub const KEPT_COUNT_AT: usize = 8;
pub const SPARE: Range<usize> = 9..15;
pub const LAYOUT_AT: usize = HEADER_WORDS - 1;
/// The flags of an order, and their place: adjusted, used, clear, market.
pub const FLAGS: usize = 4;
const FLAGS_AT: usize = 10;

// The calls of include/venue.h; a slice is a pointer and a length.
extern "C" {
    fn venue_open(words: *mut u32, words_len: usize, step: u32, close: u32) -> u32;
    fn venue_apply(
        words: *mut u32,
        words_len: usize,
        record: *const u8,
        record_len: usize,
        reports: *mut u8,
        reports_len: usize,
    ) -> u32;
    fn venue_play(
        words: *mut u32,
        words_len: usize,
        records: *const u8,
        records_len: usize,
        from: u64,
        reports: *mut u8,
        reports_len: usize,
        ends: *mut u64,
        ends_len: usize,
        progress: *mut Progress,
    ) -> u32;
    fn venue_record_check(bytes: *const u8, len: usize) -> u64;
    fn venue_permitted_price(step: u32, bid: u32) -> u32;
    fn venue_copy_out(
        words: *const u32,
        words_len: usize,
        run: *mut OrderRecord,
        run_len: usize,
    ) -> u32;
    fn venue_would_fill(
        words: *const u32,
        words_len: usize,
        mark: u32,
        price: u32,
        shares: u32,
    ) -> u32;
    fn venue_depth(run: *const OrderRecord, run_len: usize, price: u32, side: u32) -> u64;
    fn venue_watch(watch: *mut Watch, step: u32, price: u32) -> u32;
}

/// The header's `struct venue_order` has a word a field.
const _: () = assert!(size_of::<OrderRecord>() == 4 * ORDER_WORDS && size_of::<Watch>() == 8);
/// Its `struct venue_progress` has three numbers of 64 bits.
const _: () = assert!(size_of::<Progress>() == 24);

/// Makes the words a fresh venue. Answers as `apply`, with no reports.
pub fn open(words: &mut [u32], step: u32, close: u32) -> u32 {
    // SAFETY: pointer and length are those of a slice lent for the call.
    unsafe { venue_open(words.as_mut_ptr(), words.len(), step, close) }
}

/// Reads a record at the front of the bytes and applies it. Answers refusal ×
/// 65,536 + byte count of the reports.
pub fn apply(words: &mut [u32], record: &[u8], reports: &mut [u8]) -> u32 {
    // SAFETY: pointers and lengths are those of slices lent for the call.
    unsafe {
        venue_apply(
            words.as_mut_ptr(),
            words.len(),
            record.as_ptr(),
            record.len(),
            reports.as_mut_ptr(),
            reports.len(),
        )
    }
}

/// Plays the records from an offset on, and notes where the bytes of each event
/// end. Answers why it stopped: 0 to 2, or refusal × 65,536.
pub fn play(
    words: &mut [u32],
    records: &[u8],
    from: u64,
    reports: &mut [u8],
    ends: &mut [u64],
    progress: &mut Progress,
) -> u32 {
    // SAFETY: pointers and lengths are those of slices and of a record lent for
    // the call.
    unsafe {
        venue_play(
            words.as_mut_ptr(),
            words.len(),
            records.as_ptr(),
            records.len(),
            from,
            reports.as_mut_ptr(),
            reports.len(),
            ends.as_mut_ptr(),
            ends.len(),
            progress,
        )
    }
}

/// The byte count of the record at the front, 0 if it can't be read.
pub fn record_check(bytes: &[u8]) -> u64 {
    // SAFETY: pointer and length are those of a slice lent for the call.
    unsafe { venue_record_check(bytes.as_ptr(), bytes.len()) }
}

/// The permitted price of a bid at a step, 0 if it isn't one.
pub fn permitted_price(step: u32, bid: u32) -> u32 {
    // SAFETY: the function takes any numbers.
    unsafe { venue_permitted_price(step, bid) }
}

/// Copies the orders to the front of the run. Answers refusal × 65,536 + how
/// many. The words are lent for writing too, so that a write would be seen.
pub fn copy_out(words: &mut [u32], run: &mut [OrderRecord]) -> u32 {
    // SAFETY: pointers and lengths are those of slices lent for the call.
    unsafe { venue_copy_out(words.as_mut_ptr(), words.len(), run.as_mut_ptr(), run.len()) }
}

/// Whether an entry would fill. Answers refusal × 65,536, or the count of orders
/// read, plus 32,768 for a yes. The words are lent for writing too, so that a write
/// would be seen.
pub fn would_fill(words: &mut [u32], asked: &Question) -> u32 {
    let Question {
        mark,
        price,
        shares,
    } = *asked;
    // SAFETY: pointer and length are those of a slice lent for the call.
    unsafe { venue_would_fill(words.as_mut_ptr(), words.len(), mark, price, shares) }
}

/// The displayed shares at a price, of buys where the side is 0 and else of
/// sells; 2^64 - 1 if refused. The run is lent for writing too, so that a write
/// would be seen.
pub fn depth(run: &mut [OrderRecord], price: u32, side: u32) -> u64 {
    // SAFETY: pointer and length are those of a slice lent for the call.
    unsafe { venue_depth(run.as_mut_ptr(), run.len(), price, side) }
}

/// A tape price for a host's watch. Answers as `apply`, with no reports.
pub fn watch(watch: &mut Watch, step: u32, price: u32) -> u32 {
    // SAFETY: the pointer is that of a record lent for the call.
    unsafe { venue_watch(watch, step, price) }
}

/// The engine's answer that says the same as the model's.
pub fn answer_of(answer: Result<usize, Refusal>) -> u32 {
    match answer {
        Ok(count) => count as u32,
        Err(refusal) => refusal.number() * 65_536,
    }
}

/// What is added to the count of orders read for a yes.
const YES: u32 = number(env!("VENUE_YES")) as u32;

/// The engine's answer to a question that says the same as the model's.
pub fn fill_answer_of(answer: Result<Fill, Refusal>) -> u32 {
    let read = answer_of(answer.map(|fill| fill.read));
    match answer {
        Ok(fill) if fill.in_full => read + YES,
        _ => read,
    }
}

/// The yes or no of the engine's answer to a question, or the refusal's number.
pub fn read_fill_answer(answer: u32) -> Result<bool, u32> {
    match answer / 65_536 {
        0 => Ok(answer >= YES),
        refusal => Err(refusal),
    }
}

/// The orders read of such an answer.
pub fn count_read(answer: u32) -> usize {
    (answer % YES) as usize
}

/// The words of the header that mean something, the spare ones left out: the count of
/// orders first, that of kept prices, and the number of the layout last.
fn header_of(venue: &Venue) -> [(usize, u32); 10] {
    [
        (COUNT_AT, venue.orders.len() as u32),
        (1, venue.close),
        (2, venue.phase),
        (3, venue.bid),
        (4, venue.last_id),
        (5, venue.last_stamp),
        (6, venue.accepted),
        (7, venue.step),
        (KEPT_COUNT_AT, venue.kept.len() as u32),
        (LAYOUT_AT, LAYOUT),
    ]
}

/// The words of a fresh venue: its header, and 0 in every other word.
pub fn fresh_words(venue: &Venue) -> Vec<u32> {
    let mut words = vec![0; VENUE_WORDS];
    store(venue, &mut words);
    words
}

/// The layout of an order: a word a field, flags before the owner.
fn words_of(order: &Order) -> [u32; ORDER_WORDS] {
    [
        order.id,
        order.mark,
        order.limit,
        order.shares,
        order.show,
        order.life,
        order.slide,
        order.stamp,
        order.price,
        order.entry_bid,
        order.adjusted.into(),
        order.used.into(),
        order.clear.into(),
        order.market.into(),
        order.owner,
    ]
}

/// The words that mean a venue, each with its place; of orders and kept prices as many as
/// there is room for.
fn meaning(venue: &Venue) -> impl Iterator<Item = (usize, u32)> + '_ {
    let orders = venue.orders.iter().flat_map(words_of);
    let orders = (HEADER_WORDS..KEPT_AT).zip(orders);
    let pair = |timed: &TimedPrice| [timed.time, timed.price];
    let kept = KEPT_PRICES.zip(venue.kept.iter().flat_map(pair));
    header_of(venue).into_iter().chain(orders).chain(kept)
}

/// Writes a venue as words; all others keep their content.
pub fn store(venue: &Venue, words: &mut [u32]) {
    for (at, word) in meaning(venue) {
        words[at] = word;
    }
}

/// The first word that isn't the venue's, those that it doesn't use left out: where it lies,
/// what it is and what it should be.
pub fn first_difference(venue: &Venue, words: &[u32]) -> Option<(usize, u32, u32)> {
    let found = |(at, expected)| (at, words[at], expected);
    meaning(venue)
        .map(found)
        .find(|(_, found, expected)| found != expected)
}

/// The words that mean a venue: the header, and the orders and kept prices that it uses.
pub fn used(words: &[u32]) -> Vec<u32> {
    let orders = ORDER_WORDS * (words[COUNT_AT] as usize).min(PLACES);
    let kept = TIMED_WORDS * (words[KEPT_COUNT_AT] as usize).min(MOST_KEPT);
    let (book, prices) = (&words[..HEADER_WORDS + orders], &words[KEPT_AT..]);
    [book, &prices[..kept]].concat()
}

/// The place of a flag word of an order, by the order's and the flag's number.
pub fn flag_at(order: usize, flag: usize) -> usize {
    HEADER_WORDS + order * ORDER_WORDS + FLAGS_AT + flag
}
