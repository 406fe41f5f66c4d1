//! Timed prices around the borders of No. 10 of document 02, and runs of them that fill the
//! kept prices.

use crate::ladder::Ladder;
use crate::model::{Event, TimedPrice, Venue, CENT, HIGHEST, LOWEST, MOST_KEPT};
use crate::odd::{half_cent_price, odd_price};
use crate::rng::Rng;
use crate::streams::Market;

/// How time goes on between timed prices: it mostly stands still, by seconds, or by minutes.
pub const STILL: &[u32] = &[0, 0, 0, 0, 0, 1];
pub const SECONDS: &[u32] = &[0, 1, 1, 1, 2, 7];
pub const MINUTES: &[u32] = &[0, 1, 60, 149, 150, 151, 299, 300, 301];

/// From a kept price to a time around its end: the last two at which it is within, and the
/// first at which it isn't.
const AROUND_END: &[u32] = &[299, 300, 300, 301, 301];

/// A timed price for the venue as it stands: at times one that aims at a kept price, at the
/// end of its time and around a tenth from it; and at times a bad price at a time that would
/// drop some.
pub fn timed(rng: &mut Rng, market: &Market, venue: &Venue) -> Event {
    let kept = &venue.kept;
    if kept.is_empty() {
        let (time, price) = (first_time(rng), price(rng, market, venue));
        return Event::Timed(TimedPrice { time, price });
    }
    let old = any_kept(rng, kept);
    let end = old.time.saturating_add(rng.pick(AROUND_END));
    let next = next_time(rng, market, kept);
    let aimed = around_tenth(rng, market.ladder, old.price);
    let near = price(rng, market, venue);
    let odd = odd_price(rng);
    let swings = rng.up_to(99) < market.swings;
    let (time, price) = match rng.up_to(19) {
        0 | 1 => (end, rng.pick(&[0, odd])),
        2..8 if swings => (end, aimed),
        _ if swings => (next, aimed),
        _ => (next, near),
    };
    Event::Timed(TimedPrice { time, price })
}

/// The oldest kept price, the newest, the lowest, the highest or any.
fn any_kept(rng: &mut Rng, kept: &[TimedPrice]) -> TimedPrice {
    let any = rng.place(kept.len());
    let price = |at: &usize| kept[*at].price;
    let lowest = (0..kept.len()).min_by_key(price).unwrap_or(any);
    let highest = (0..kept.len()).max_by_key(price).unwrap_or(any);
    kept[rng.pick(&[0, 0, any, kept.len() - 1, lowest, highest])]
}

/// The first time of a day: from 0 or around 300, around the highest number of 31 bits and of
/// 32, or any.
fn first_time(rng: &mut Rng) -> u32 {
    let (few, any) = (rng.up_to(400), rng.word());
    let low = rng.pick(&[0, 0, 1, 299, 300, 301, few]);
    let (middle, high) = ((1 << 31) - few, u32::MAX - few);
    rng.pick(&[low, low, low, middle, high, high, u32::MAX, any])
}

/// A later time, by the market's seconds, around the end of the oldest kept price or of the
/// newest, which then drop one or all, a jump; and at times an earlier one.
fn next_time(rng: &mut Rng, market: &Market, kept: &[TimedPrice]) -> u32 {
    let (first, last) = (kept[0].time, kept[kept.len() - 1].time);
    match rng.up_to(39) {
        0 | 8 => last.saturating_sub(rng.pick(&[1, 1, 2, 300, 301])),
        1 => rng.pick(&[0, first, first.saturating_sub(1)]),
        2..5 => first.saturating_add(rng.pick(AROUND_END)),
        5 => last.saturating_add(rng.pick(AROUND_END)),
        6 => last.saturating_add(rng.up_to(1_000)),
        7 => jump(rng, last),
        _ => last.saturating_add(rng.pick(market.seconds)),
    }
}

/// A time far ahead: any, at the highest numbers, or one that is earlier to 16 bits.
fn jump(rng: &mut Rng, last: u32) -> u32 {
    let (any, high) = (rng.word(), u32::MAX - rng.up_to(400));
    match rng.up_to(7) {
        0 => any,
        1 => high,
        _ => last.saturating_add(65_535),
    }
}

/// Around the centre, or around the trigger, so that report 5 comes too.
fn price(rng: &mut Rng, market: &Market, venue: &Venue) -> u32 {
    match rng.up_to(9) {
        0 => market.ladder.near_trigger(rng, venue.close),
        _ => near_centre(rng, market),
    }
}

/// A price around the centre, often one of which nine and eleven tenths are legal.
fn near_centre(rng: &mut Rng, market: &Market) -> u32 {
    let price = market.ladder.near(rng, market.centre, market.reach);
    let rung = market.ladder.rung_of(price);
    match rng.one_in(3) {
        true => market.ladder.price_of((rung - rung % 10).max(10)),
        false => price,
    }
}

/// A legal price at most a step from the highest that is a fall from this one, or from the
/// lowest that is a rise.
fn around_tenth(rng: &mut Rng, ladder: Ladder, old: u32) -> u32 {
    let tenths = u64::from(old) * rng.pick(&[9, 11]);
    let border = tenths.div_ceil(10).min(u64::from(u32::MAX));
    ladder.near(rng, ladder.rung_of(border as u32), 1)
}

/// A legal price at most a step from the lowest from which this one is a fall, or from the
/// highest from which it is a rise.
fn tenth_from(rng: &mut Rng, ladder: Ladder, price: u32) -> u32 {
    let border = u64::from(price) * 10 / rng.pick(&[9, 11]);
    ladder.near(rng, ladder.rung_of(border as u32), 1)
}

/// Of so many prices among many that are alike, on average, one is a tenth away.
const PRICES_AN_OUTLIER: u32 = 40;

/// Around the centre, seldom a tenth away from there.
fn alike(rng: &mut Rng, market: &Market) -> u32 {
    let price = near_centre(rng, market);
    match rng.one_in(PRICES_AN_OUTLIER) {
        true => tenth_from(rng, market.ladder, price),
        false => price,
    }
}

/// A timed price that leads to as many kept prices as there may be, and there goes on.
pub fn fill_watch(rng: &mut Rng, market: &Market, venue: &Venue) -> Event {
    let kept = &venue.kept;
    let (Some(first), Some(last)) = (kept.first(), kept.last()) else {
        return timed(rng, market, venue);
    };
    if kept.len() == MOST_KEPT {
        return with_full_watch(rng, market, kept);
    }
    let later = rng.one_in(4) && last.time - first.time < 300;
    Event::Timed(TimedPrice {
        time: last.time.saturating_add(later.into()),
        price: alike(rng, market),
    })
}

/// With as many kept prices as there may be: one too many, a time that drops exactly one or
/// all, or none by a second, an earlier time, and a bad price at a time that would drop some.
fn with_full_watch(rng: &mut Rng, market: &Market, kept: &[TimedPrice]) -> Event {
    let (first, last) = (kept[0].time, kept[MOST_KEPT - 1].time);
    let end = rng.pick(&[300, 301, 301]);
    let seldom = rng.one_in(8);
    let old = any_kept(rng, kept);
    let aimed = around_tenth(rng, market.ladder, old.price);
    let price = alike(rng, market);
    let price = rng.pick(&[price, price, aimed]);
    let (time, price) = match rng.up_to(7) {
        0 => (last, price),
        1 => (last.saturating_sub(1), price),
        2..6 => (first.saturating_add(end), price),
        6 if seldom => (last.saturating_add(end), price),
        _ => (first.saturating_add(end), odd_price(rng)),
    };
    Event::Timed(TimedPrice { time, price })
}

/// Kept prices of a sound record: any number of them, often as many as there may be, in one
/// second or in up to 300, from any time on; all tenths apart, few so, or one of the oldest;
/// or all such that the trigger is a tenth above them.
pub fn made_up_kept(rng: &mut Rng, market: &Market, close: u32) -> Vec<TimedPrice> {
    let mut kept = Vec::new();
    let prices = rng.up_to(3);
    let ladder = market.ladder;
    let below = ladder.rung_of(close / 11 * 9);
    for time in made_up_times(rng) {
        let price = match prices {
            0 => {
                let close = market.close(rng);
                around_tenth(rng, ladder, close)
            }
            1 => alike(rng, market),
            3 => ladder.near(rng, below, 1),
            _ => near_centre(rng, market),
        };
        kept.push(TimedPrice { time, price });
    }
    let outlier = rng.pick(&[0, 1, 3, 10, 30]);
    if prices == 2 && outlier < kept.len() {
        kept[outlier].price = tenth_from(rng, ladder, kept[outlier].price);
    }
    kept
}

/// Times that don't fall, over just as many seconds as were drawn.
fn made_up_times(rng: &mut Rng) -> Vec<u32> {
    let most = MOST_KEPT as u32;
    let (few, some) = (rng.up_to(6), rng.up_to(most));
    let count = rng.pick(&[0, few, few, few, some, some, most - 1, most, most]);
    let within = rng.up_to(300);
    let span = rng.pick(&[0, 1, 300, 300, 300, within]);
    let first = first_time(rng).min(u32::MAX - span);
    let mut times: Vec<u32> = (0..count).map(|_| first + rng.up_to(span)).collect();
    times.sort_unstable();
    if let [least, .., most] = &mut times[..] {
        (*least, *most) = (first, first + span);
    }
    times
}

/// Changes the kept prices of a record so that one condition may be broken: one or more too
/// many, a bad price, a time that falls, a span of 301 seconds or more.
pub fn spoil_kept(rng: &mut Rng, kept: &mut Vec<TimedPrice>) {
    if kept.is_empty() {
        let (time, price) = (first_time(rng), LOWEST);
        kept.resize(2, TimedPrice { time, price });
    }
    let len = kept.len();
    let at = rng.place(len);
    match rng.up_to(10) {
        0 | 1 => {
            let more = rng.pick(&[0, 1, 1, 1, 2, 512]);
            let last = kept[len - 1];
            kept.resize((MOST_KEPT + more).max(len), last);
        }
        2 => kept[at].price = half_cent_price(rng),
        3 => kept[at].price = rng.pick(&[0, HIGHEST + CENT, u32::MAX]),
        4 => kept[at].price = odd_price(rng),
        5 => kept[at].time = kept[at.saturating_sub(1)].time.saturating_sub(1),
        6 => kept[at].time = kept[at].time.saturating_add(rng.pick(&[1, 1, 301])),
        7 => kept[0].time = kept[len - 1].time.saturating_sub(rng.pick(SPANS)),
        _ => kept[len - 1].time = kept[0].time.saturating_add(rng.pick(SPANS)),
    }
}

/// Around the longest that kept prices may span, and far longer.
const SPANS: &[u32] = &[300, 301, 301, 301, 302, 1 << 31];
