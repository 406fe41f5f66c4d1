//! Numbers at, next to and over the borders of the papers.

use crate::ladder::Ladder;
use crate::model::{Watch, CENT, DOLLAR, HALF_CENT, HIGHEST, MOST_EVENTS, MOST_SHARES};
use crate::rng::Rng;

/// A number at or over some border, or any.
pub fn odd_number(rng: &mut Rng) -> u32 {
    let any = rng.word();
    let price = odd_price(rng);
    let borders = [
        0,
        1,
        2,
        3,
        4,
        5,
        HALF_CENT,
        CENT,
        255,
        256,
        257,
        MOST_SHARES,
        MOST_SHARES + 1,
        MOST_EVENTS,
        MOST_EVENTS + 1,
        u32::MAX - 1,
        u32::MAX,
        any,
        any % DOLLAR,
        any % HIGHEST,
        price,
        price,
        price,
        price,
        price,
        price,
        price,
        price,
    ];
    rng.pick(&borders)
}

/// A code at or over a border; or one that a narrower number would take for such a
/// code, or a signed one for a number below 0.
pub fn odd_code(rng: &mut Rng) -> u32 {
    let low = rng.up_to(4);
    let any = rng.word();
    rng.pick(&[
        low,
        low,
        low,
        low,
        low,
        256 + low,
        65_536 + low,
        (1 << 31) + low,
        u32::MAX,
        any,
    ])
}

/// An owner at or over a border: none, the highest, one too high; or one that a narrower
/// number would take for a firm, or a signed one for a number below 0.
pub fn odd_owner(rng: &mut Rng) -> u32 {
    let low = rng.between(1, 3);
    let any = rng.word();
    rng.pick(&[
        0,
        0,
        1,
        65_534,
        65_535,
        65_536,
        65_536,
        65_536 + low,
        (1 << 31) + low,
        u32::MAX,
        u32::MAX,
        any,
    ])
}

/// A price at a border of one of the steps, or any multiple of the smaller; and
/// as often a number next to it, which may be legal or not.
pub fn odd_price(rng: &mut Rng) -> u32 {
    let border = rng.pick(&[
        DOLLAR,
        DOLLAR + HALF_CENT,
        DOLLAR + CENT,
        HIGHEST - CENT,
        HIGHEST - HALF_CENT,
        HIGHEST,
    ]);
    let multiple = HALF_CENT * rng.up_to(HIGHEST / HALF_CENT);
    let price = rng.pick(&[border, border, multiple]);
    if rng.one_in(2) {
        near_miss(rng, price)
    } else {
        price
    }
}

/// A number next to a price: off by 1, by half a step, by a step, or by 1 more or
/// less.
pub fn near_miss(rng: &mut Rng, price: u32) -> u32 {
    let off = rng.pick(&[1, 1, 25, 49, 50, 50, 50, 51, 75, 99, 100]);
    if rng.one_in(2) {
        price.saturating_add(off)
    } else {
        price.saturating_sub(off)
    }
}

/// A half-cent price: a multiple of 50 and not of 100, from 10,050 up.
pub fn half_cent_price(rng: &mut Rng) -> u32 {
    let cents = rng.up_to((HIGHEST - DOLLAR) / CENT - 1);
    DOLLAR + CENT * cents + HALF_CENT
}

/// A number that isn't a step: next to one, between the two, twice one, or any.
pub fn odd_step(rng: &mut Rng) -> u32 {
    let any = rng.word().max(CENT + 1);
    rng.pick(&[0, 1, 2, 49, 51, 75, 99, 101, 150, 200, any, u32::MAX])
}

/// A step, and at times another number.
pub fn any_step(rng: &mut Rng) -> u32 {
    let odd = odd_step(rng);
    rng.pick(&[HALF_CENT, HALF_CENT, CENT, CENT, odd])
}

/// A legal price of one of the steps, a bid around the highest, a number around a
/// border, or any.
pub fn any_price(rng: &mut Rng) -> u32 {
    let ladder = any_ladder(rng);
    let anywhere = rng.up_to(ladder.top());
    let near = ladder.near(rng, anywhere, 3);
    let high = ladder.bid_near(rng, ladder.top(), 3);
    let (odd, number) = (odd_price(rng), odd_number(rng));
    rng.pick(&[near, high, odd, odd, number])
}

/// Closes of a watch at a border: the lowest, where no price triggers or few do, those
/// where all but the highest do and where all do, and the highest numbers.
const WATCH_CLOSES: [u32; 10] = [
    0,
    1,
    2,
    9,
    10,
    11,
    111_111_111,
    111_111_112,
    u32::MAX - 1,
    u32::MAX,
];

/// A watch record and a tape price: any, the price around the trigger of the
/// close, or the close around the one that the price triggers. Its phase is often
/// one that falls, and at times none or one only to a narrower number.
pub fn any_watch(rng: &mut Rng) -> (Watch, u32) {
    let ladder = any_ladder(rng);
    let (odd, code) = (odd_number(rng), odd_code(rng));
    let (close, price) = match rng.up_to(4) {
        0 => (rng.word(), odd),
        1 => (odd, any_price(rng)),
        2 => (odd, ladder.near_trigger(rng, odd)),
        3 => {
            let close = rng.pick(&WATCH_CLOSES);
            (close, ladder.near_trigger(rng, close))
        }
        _ => {
            let price = ladder.near_trigger(rng, odd);
            let close = u64::from(price) * 10 / 9;
            (close as u32 + rng.up_to(2) - 1, price)
        }
    };
    let phase = rng.pick(&[0, 0, 1, 2, 2, 3, odd, code]);
    (Watch { close, phase }, price)
}

fn any_ladder(rng: &mut Rng) -> Ladder {
    Ladder {
        step: rng.pick(&[HALF_CENT, CENT]),
    }
}
