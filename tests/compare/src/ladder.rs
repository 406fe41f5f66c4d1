//! The legal prices at a step, as rungs counted from 1 up; rung 0 is no bid.

use crate::model::{DOLLAR, HIGHEST};
use crate::rng::Rng;

#[derive(Clone, Copy, Debug)]
pub struct Ladder {
    /// 50 or 100.
    pub step: u32,
}

impl Ladder {
    /// The rung of the highest price.
    pub fn top(self) -> u32 {
        self.rung_of(HIGHEST)
    }

    pub fn price_of(self, rung: u32) -> u32 {
        if rung < DOLLAR {
            rung
        } else {
            DOLLAR + (rung - DOLLAR) * self.step
        }
    }

    /// The rung of the highest legal price that isn't above this one.
    pub fn rung_of(self, price: u32) -> u32 {
        if price < DOLLAR {
            price
        } else {
            DOLLAR + (price - DOLLAR) / self.step
        }
    }

    /// A legal price at most so many rungs away.
    pub fn near(self, rng: &mut Rng, rung: u32, reach: u32) -> u32 {
        let least = rung.saturating_sub(reach);
        let drawn = rng.between(least, rung + reach);
        self.price_of(drawn.clamp(1, self.top()))
    }

    /// A legal price around the highest that triggers the restriction.
    pub fn near_trigger(self, rng: &mut Rng, close: u32) -> u32 {
        let trigger = u64::from(close) * 9 / 10;
        self.near(rng, self.rung_of(trigger as u32), 1)
    }

    /// A bid at most so many rungs away; the highest is one below the top.
    pub fn bid_near(self, rng: &mut Rng, rung: u32, reach: u32) -> u32 {
        let highest = self.price_of(self.top() - 1);
        self.near(rng, rung, reach).min(highest)
    }
}
