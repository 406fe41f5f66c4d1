//! "Five-minute pause watch", No. 10 of document 02: the kept prices, what a new one
//! drops, and the direction that it gives.

use super::prices::{is_legal, CENT, HALF_CENT};

/// "at most 512 with the new one"
pub const MOST_KEPT: usize = 512;
/// "Prices whose time is at least the new time less 300 are kept"
pub const SECONDS: u32 = 300;

/// Directions of report 7: 1 for a fall, 2 for a rise.
const FALL: u32 = 1;
const RISE: u32 = 2;

/// A tape price and its time in whole seconds, which may be any number (F10.1).
#[derive(Clone, Copy, Debug, PartialEq, Eq)]
pub struct TimedPrice {
    pub time: u32,
    pub price: u32,
}

/// How many of the kept prices, the oldest, a new time drops. Below 300 nothing wraps, and
/// 300 itself is within (F10.2).
pub(super) fn dropped_at(kept: &[TimedPrice], time: u32) -> usize {
    let least = time.saturating_sub(SECONDS);
    kept.iter().take_while(|old| old.time < least).count()
}

/// "If some earlier kept price q has 10 × p ≤ 9 × q, report 7 gives 1 and p; else if some q
/// has 10 × p ≥ 11 × q, 2 and p." Said of legal prices, whose products take 31 bits.
pub(super) fn direction_of(earlier: &[TimedPrice], price: u32) -> Option<u32> {
    let (mut falls, mut rises) = (false, false);
    for old in earlier {
        falls |= 10 * price <= 9 * old.price;
        rises |= 10 * price >= 11 * old.price;
    }
    match (falls, rises) {
        (true, _) => Some(FALL),
        (_, true) => Some(RISE),
        _ => None,
    }
}

/// "Over 512 kept prices, an illegal one, times that fall or span more than 300 seconds
/// break the venue record." Equal times are fine (F10.5).
pub(super) fn are_sound(kept: &[TimedPrice], step: u32) -> bool {
    kept.len() <= MOST_KEPT && times_are_sound(kept) && are_legal(kept, step)
}

fn times_are_sound(kept: &[TimedPrice]) -> bool {
    let (Some(first), Some(last)) = (kept.first(), kept.last()) else {
        return true;
    };
    let pairs = kept.iter().zip(&kept[1..]);
    let rise = all(pairs, |(old, new)| old.time <= new.time);
    rise && last.time - first.time <= SECONDS
}

/// Said of a step. It is a constant in each walk, as a price is then judged without a
/// division.
fn are_legal(kept: &[TimedPrice], step: u32) -> bool {
    match step {
        HALF_CENT => all(kept, |it| is_legal(HALF_CENT, it.price)),
        _ => all(kept, |it| is_legal(CENT, it.price)),
    }
}

/// Whether all are such. Most walks go to the end, so this one has no branch.
#[inline]
fn all<T>(items: impl IntoIterator<Item = T>, is_such: impl Fn(T) -> bool) -> bool {
    let items = items.into_iter();
    items.fold(true, |sound, item| sound & is_such(item))
}
