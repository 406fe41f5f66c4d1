//! "Would it fill?", No. 4 of document 02: "Given a mark, limit and shares, tell
//! whether an entry would fill in full now, with the restriction applied".

use super::book::{Order, BUY};
use super::prices::{HIGHEST, LOWEST};
use super::venue::{RecordCheck, Venue};
use super::Refusal;

/// An entry's mark, price and shares. Its other fields don't matter (F4.1).
#[derive(Clone, Copy, Debug, PartialEq, Eq)]
pub struct Question {
    pub mark: u32,
    pub price: u32,
    pub shares: u32,
}

/// The yes or no, and "the count of orders read".
#[derive(Clone, Copy, Debug, PartialEq, Eq)]
pub struct Fill {
    pub in_full: bool,
    pub read: usize,
}

impl Question {
    /// "A price of 0 in an entry means market."
    pub fn is_market(&self) -> bool {
        self.price == 0
    }

    /// "price, which is its limit". Of a market order: "A buy works at 100,000,000
    /// and any sell at 1", and a market short "counts as limit 1".
    pub fn limit(&self) -> u32 {
        match self.mark {
            BUY if self.is_market() => HIGHEST,
            _ if self.is_market() => LOWEST,
            _ => self.price,
        }
    }
}

impl Venue {
    /// "The venue check, price, shares and mark are refused as in an entry", and
    /// "a full book or spent events don't matter to it": 16, 3, 4, 18 (F4.3).
    pub fn would_fill(&self, asked: &Question, check: RecordCheck) -> Result<Fill, Refusal> {
        self.refuse_record(check)?;
        self.refuse_asked(asked)?;
        let price = self.working_price(asked.mark, asked.limit());
        Ok(if asked.mark == BUY {
            self.read(asked.shares, |order| order.is_sell_up_to(price))
        } else {
            self.read(asked.shares, |order| order.is_buy_from(price))
        })
    }

    /// "Orders are read in id order and reading ends as soon as enough shares are
    /// found." Each order that is read counts, reached or not (F4.2).
    #[inline]
    fn read(&self, shares: u32, is_reached: impl Fn(&Order) -> bool) -> Fill {
        let mut missing = shares;
        for (before, order) in self.orders.iter().enumerate() {
            if !is_reached(order) {
                continue;
            }
            if order.shares >= missing {
                return Fill {
                    in_full: true,
                    read: before + 1,
                };
            }
            missing -= order.shares;
        }
        Fill {
            in_full: false,
            read: self.orders.len(),
        }
    }
}
