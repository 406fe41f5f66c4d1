//! No. 4 of document 02 a second time, with every front of the book tried; and what
//! an entry says of the answer that was given before it. No formula here but the
//! record check is the model's.

use crate::asked::{BookBefore, Held};
use crate::conditions::{refusal_of, Condition, CONDITIONS};
use crate::full_books::is_full;
use crate::model::{Entry, Fill, Order, Question, Refusal, Report, Venue};
use crate::price_rules::permitted;
use crate::sessions::{ensure, Fault};

/// "price, shares and mark are refused as in an entry": the first of its conditions.
const ASKED: usize = 3;

/// How a question is answered, in parts.
#[derive(Clone)]
struct Rule {
    /// What is refused, behind 16.
    conditions: Vec<Condition>,
    working_price: fn(&Question, &Venue) -> u32,
    /// Whether the shares of an order are found at a working price.
    counts: fn(&Order, &Question, u32) -> bool,
    /// Whether the shares found are enough for those asked.
    suffices: fn(u64, u64) -> bool,
    /// The count of orders read, from the front that decides, the book and the
    /// question.
    read: fn(&[Order], &[Order], &Question) -> usize,
}

fn rule() -> Rule {
    Rule {
        conditions: CONDITIONS[..ASKED].to_vec(),
        working_price,
        counts: is_in_reach,
        suffices: |found, asked| found >= asked,
        read: |front, _, _| front.len(),
    }
}

/// "works at its limit; a restricted one at the larger of limit and permitted
/// price"; a market buy at 100,000,000, "any sell at 1". Said of a sound venue.
pub fn working_price(asked: &Question, venue: &Venue) -> u32 {
    let limit = limit(asked);
    match (asked.mark, venue.phase) {
        (2, 1 | 2) => limit.max(permitted(venue.step, venue.bid)),
        _ => limit,
    }
}

pub fn limit(asked: &Question) -> u32 {
    match (asked.price, asked.mark) {
        (0, 0) => 100_000_000,
        (0, _) => 1,
        (price, _) => price,
    }
}

/// "opposite order that the working price reaches (equal counts)", displayed or
/// not.
fn is_in_reach(order: &Order, asked: &Question, price: u32) -> bool {
    match (asked.mark, order.mark) {
        (0, 1..=3) => order.price <= price,
        (1..=3, 0) => order.price >= price,
        _ => false,
    }
}

impl Rule {
    /// The shares found in a front of the book.
    fn shares_in(&self, front: &[Order], asked: &Question, price: u32) -> u64 {
        let counted = front
            .iter()
            .filter(|order| (self.counts)(order, asked, price));
        counted.map(|order| u64::from(order.shares)).sum()
    }

    /// The answer, or the refusal's number. "equal to the shortest front of the
    /// book that suffices, or the whole book"
    fn answer(&self, asked: &Question, venue: &Venue) -> Result<Fill, u32> {
        if !venue.is_sound() {
            return Err(16);
        }
        if let Some(refusal) = refusal_of(&self.conditions, &entry_of(asked), venue) {
            return Err(refusal);
        }
        let price = (self.working_price)(asked, venue);
        let book = &venue.orders[..];
        let suffices = |front: &usize| {
            let found = self.shares_in(&book[..*front], asked, price);
            (self.suffices)(found, asked.shares.into())
        };
        let shortest = (0..=book.len()).find(suffices);
        let front = &book[..shortest.unwrap_or(book.len())];
        Ok(Fill {
            in_full: shortest.is_some(),
            read: (self.read)(front, book, asked),
        })
    }
}

/// An entry with the fields of a question; the conditions look at no others.
fn entry_of(asked: &Question) -> Entry {
    Entry {
        id: u32::MAX,
        mark: asked.mark,
        price: asked.price,
        shares: asked.shares,
        show: 1,
        life: 0,
        slide: 0,
        owner: None,
    }
}

/// The shares that a front of a sound venue's book has in reach of a question.
pub fn shares_in_reach(asked: &Question, venue: &Venue, front: usize) -> u64 {
    let price = working_price(asked, venue);
    rule().shares_in(&venue.orders[..front], asked, price)
}

/// Checks the answer to a question. "The yes or no equals the one from the whole
/// book."
pub fn check(asked: &Question, venue: &Venue, answer: Result<Fill, Refusal>) -> Result<(), Fault> {
    let (found, expected) = (answer.map_err(Refusal::number), rule().answer(asked, venue));
    if found != expected {
        return Err(format!(
            "{asked:?}: answered {found:?}, by all fronts {expected:?}"
        ));
    }
    if let Ok(fill) = answer {
        let shares = shares_in_reach(asked, venue, venue.orders.len());
        let whole = shares >= asked.shares.into();
        ensure(fill.in_full == whole, "the answer by the whole book")?;
    }
    Ok(())
}

/// What the book before an entry is to it. "The fill question has owner 0", so it counts
/// own orders that the entry would cancel.
pub fn book_before(entry: &Entry, venue: &Venue) -> BookBefore {
    let mut owners = venue.orders.iter().map(|order| order.owner);
    let is_own = |own| owners.any(|owner| owner == own);
    BookBefore {
        owner_rests: entry.owner.is_some_and(is_own),
        full_book: is_full(venue),
    }
}

/// Holds the yes or no, or the refusal's number, that was given just before an
/// entry against what the entry got: "whether an entry would fill in full now". Of one
/// whose owner has orders in the book, a no alone says something. And "a full book [...]
/// don't matter to it": 7 comes after a yes or a no, but not to an immediate or cancel
/// order. Gives what was held against an accepted one.
pub fn hold(
    entry: &Entry,
    book: BookBefore,
    answer: Result<bool, u32>,
    entered: Result<&[Report], Refusal>,
) -> Result<Option<Held>, Fault> {
    let filled = entered.map(|reports| executed(entry.id, reports) == entry.shares);
    let holds = match entered {
        Ok(_) => {
            let may_miss = book.owner_rests && answer == Ok(true);
            answer == filled.map_err(Refusal::number) || may_miss
        }
        Err(Refusal::ShortBuffer | Refusal::Spent) => answer != Err(16),
        Err(
            refusal @ (Refusal::VenueRecord | Refusal::Price | Refusal::Shares | Refusal::Mark),
        ) => answer == Err(refusal.number()),
        Err(Refusal::Full) => answer.is_ok() && book.full_book && entry.life == 0,
        Err(_) => answer.is_ok(),
    };
    ensure(
        holds,
        &format!("an answer against its entry: {answer:?} {entry:?} {entered:?}"),
    )?;
    Ok(match (answer, filled) {
        (Ok(yes), Ok(filled)) => Some(Held { book, yes, filled }),
        _ => None,
    })
}

/// The shares of an order that reports execute.
fn executed(of: u32, reports: &[Report]) -> u32 {
    let shares = reports.iter().map(|report| match *report {
        Report::Executed {
            buyer,
            seller,
            shares,
            ..
        } if buyer == of || seller == of => shares,
        _ => 0,
    });
    shares.sum()
}

#[cfg(test)]
mod tests {
    use super::*;
    use crate::conditions::condition;
    use crate::model::RecordCheck;
    use crate::questions::any_questions;
    use crate::rng::Rng;
    use crate::shown::assert_told_apart;

    /// A wrong version of the rule, and what is wrong with it.
    type Wrong = (&'static str, Rule);

    /// The conditions of an entry at these places, in this order.
    fn conditions(places: &[usize]) -> Rule {
        Rule {
            conditions: places.iter().map(|&place| CONDITIONS[place]).collect(),
            ..rule()
        }
    }

    /// A condition more before the others.
    fn also(condition: Condition) -> Rule {
        let mut wrong = rule();
        wrong.conditions.insert(0, condition);
        wrong
    }

    fn other_refusals() -> Vec<Wrong> {
        Vec::from([
            ("18 before 4", conditions(&[0, 2, 1])),
            ("4 before 3", conditions(&[1, 0, 2])),
            ("18 before 3", conditions(&[2, 0, 1])),
            ("no 3", conditions(&[1, 2])),
            ("no 4", conditions(&[0, 2])),
            ("7 as in an entry", conditions(&[0, 1, 2, 9])),
            (
                "7 for a full book",
                also(condition(7, "full book", |_, venue| is_full(venue))),
            ),
            (
                "3 for a market price",
                also(condition(3, "market", |entry, _| entry.price == 0)),
            ),
            (
                "2 for spent events",
                also(condition(2, "spent", |_, venue| {
                    venue.accepted == 16_777_215
                })),
            ),
        ])
    }

    type Price = fn(&Question, &Venue) -> u32;

    /// Works at another price where the restriction is on, and at its limit where it
    /// is off.
    fn where_restricted(mark: u32, asked: &Question, venue: &Venue, price: u32) -> u32 {
        match venue.phase {
            1 | 2 if asked.mark == mark => limit(asked).max(price),
            _ => limit(asked),
        }
    }

    fn other_prices() -> Vec<Wrong> {
        let wrong: [(&str, Price); 7] = [
            ("the limit", |asked, _| limit(asked)),
            ("the bid", |asked, venue| {
                where_restricted(2, asked, venue, venue.bid)
            }),
            ("short exempts restricted", |asked, venue| {
                where_restricted(3, asked, venue, permitted(venue.step, venue.bid))
            }),
            ("free in phase 2", |asked, venue| match venue.phase {
                2 => limit(asked),
                _ => working_price(asked, venue),
            }),
            ("restricted in phase 0", |asked, venue| match asked.mark {
                2 => limit(asked).max(permitted(venue.step, venue.bid)),
                _ => limit(asked),
            }),
            ("a market short at 1", |asked, venue| match asked.price {
                0 => limit(asked),
                _ => working_price(asked, venue),
            }),
            ("a market buy at 0", |asked, venue| match asked.mark {
                0 => asked.price,
                _ => working_price(asked, venue),
            }),
        ];
        let version = |working_price| Rule {
            working_price,
            ..rule()
        };
        wrong.map(|(name, price)| (name, version(price))).to_vec()
    }

    type Counts = fn(&Order, &Question, u32) -> bool;

    fn other_shares() -> Vec<Wrong> {
        let wrong: [(&str, Counts); 5] = [
            ("hidden orders passed over", |order, asked, price| {
                order.show == 1 && is_in_reach(order, asked, price)
            }),
            ("own side counted", |order, asked, price| match asked.mark {
                0 => order.price <= price,
                _ => order.price >= price,
            }),
            ("equal prices out of reach", |order, asked, price| {
                order.price != price && is_in_reach(order, asked, price)
            }),
            ("everything in reach", |order, asked, _| {
                (order.mark == 0) != (asked.mark == 0)
            }),
            ("limits in place of prices", |order, asked, price| {
                let price_is_limit = Order {
                    price: order.limit,
                    ..*order
                };
                is_in_reach(&price_is_limit, asked, price)
            }),
        ];
        let version = |counts| Rule { counts, ..rule() };
        wrong.map(|(name, counts)| (name, version(counts))).to_vec()
    }

    type Suffices = fn(u64, u64) -> bool;

    fn other_sums() -> Vec<Wrong> {
        let wrong: [(&str, Suffices); 2] = [
            ("more than asked", |found, asked| found > asked),
            ("one share less is enough", |found, asked| {
                found + 1 >= asked
            }),
        ];
        let version = |suffices| Rule { suffices, ..rule() };
        wrong.map(|(name, sum)| (name, version(sum))).to_vec()
    }

    const RULE: &str = "the rule";

    type Read = fn(&[Order], &[Order], &Question) -> usize;

    fn other_counts() -> Vec<Wrong> {
        let wrong: [(&str, Read); 5] = [
            ("one order too many", |front, book, _| {
                book.len().min(front.len() + 1)
            }),
            ("one order too few", |front, _, _| {
                front.len().saturating_sub(1)
            }),
            ("opposite orders only", |front, _, asked| {
                let opposite = |order: &&Order| (order.mark == 0) != (asked.mark == 0);
                front.iter().filter(opposite).count()
            }),
            ("the whole book", |_, book, _| book.len()),
            ("a byte", |front, _, _| usize::from(front.len() as u8)),
        ];
        let version = |read| Rule { read, ..rule() };
        wrong.map(|(name, read)| (name, version(read))).to_vec()
    }

    #[test]
    fn wrong_versions_are_told_apart_and_the_rule_is_not() {
        let versions = [
            vec![(RULE, rule())],
            other_refusals(),
            other_prices(),
            other_shares(),
            other_sums(),
            other_counts(),
        ]
        .concat();
        let mut rng = Rng::new(0);
        assert_told_apart(RULE, &versions, |shown, untold| {
            let venue = shown.before;
            for asked in any_questions(&mut rng, venue, 1) {
                let right = venue.would_fill(&asked, RecordCheck::Done);
                let right = right.map_err(Refusal::number);
                untold.retain(|(_, wrong)| wrong.answer(&asked, venue) == right);
            }
        });
    }

    /// A buy of 5 shares at 90,000 on an empty book.
    const BUY: Question = Question {
        mark: 0,
        price: 90_000,
        shares: 5,
    };

    #[test]
    fn a_wrong_answer_is_seen() {
        let venue = Venue::fresh(100, 100_000);
        let fill = |in_full, read| Ok(Fill { in_full, read });
        assert_eq!(check(&BUY, &venue, fill(false, 0)), Ok(()));
        assert!(check(&BUY, &venue, fill(true, 0)).is_err());
        assert!(check(&BUY, &venue, fill(false, 1)).is_err());
        assert!(check(&BUY, &venue, Err(Refusal::Price)).is_err());
    }

    /// A full book of others' orders.
    const FULL: BookBefore = BookBefore {
        owner_rests: false,
        full_book: true,
    };

    #[test]
    fn an_answer_that_its_entry_breaks_is_seen() {
        let entry = entry_of(&BUY);
        let execution = |shares| Report::Executed {
            buyer: entry.id,
            seller: 1,
            price: 90_000,
            shares,
        };
        let hold = |answer, entered| hold(&entry, FULL, answer, entered).map(|_| ());
        let (all, some) = ([execution(2), execution(3)], [execution(4)]);
        for (yes, reports) in [(true, &all[..]), (false, &some), (false, &[])] {
            assert_eq!(hold(Ok(yes), Ok(reports)), Ok(()));
            assert!(hold(Ok(!yes), Ok(reports)).is_err());
            assert!(hold(Err(3), Ok(reports)).is_err());
        }
        assert_eq!(hold(Err(3), Err(Refusal::Price)), Ok(()));
        assert!(hold(Err(4), Err(Refusal::Price)).is_err());
        assert!(hold(Ok(true), Err(Refusal::Mark)).is_err());
        assert_eq!(hold(Ok(true), Err(Refusal::Full)), Ok(()));
        assert!(hold(Err(7), Err(Refusal::Full)).is_err());
        assert_eq!(hold(Ok(false), Err(Refusal::Spent)), Ok(()));
        assert!(hold(Err(16), Err(Refusal::Spent)).is_err());
    }

    /// An order that isn't immediate meets 7 after a yes too; with room nobody does, and
    /// an immediate one nowhere.
    #[test]
    fn a_7_after_an_answer() {
        let room = BookBefore {
            full_book: false,
            ..FULL
        };
        for yes in [true, false] {
            let held = |life, book| {
                let entry = Entry {
                    life,
                    ..entry_of(&BUY)
                };
                hold(&entry, book, Ok(yes), Err(Refusal::Full)).is_ok()
            };
            assert!(held(0, FULL) && !held(1, FULL) && !held(0, room));
        }
    }

    /// A yes may miss where own orders are in reach; a no may not.
    #[test]
    fn an_entry_whose_owner_has_orders() {
        let entry = Entry {
            owner: Some(7),
            ..entry_of(&BUY)
        };
        let all = [Report::Executed {
            buyer: entry.id,
            seller: 1,
            price: 90_000,
            shares: 5,
        }];
        for own in [true, false] {
            let book = BookBefore {
                owner_rests: own,
                ..FULL
            };
            let hold = |answer, entered| hold(&entry, book, answer, entered).map(|_| ());
            assert_eq!(hold(Ok(true), Ok(&all)), Ok(()));
            assert_eq!(hold(Ok(false), Ok(&[])), Ok(()));
            assert!(hold(Ok(false), Ok(&all)).is_err());
            assert!(hold(Err(3), Ok(&all)).is_err());
            assert_eq!(hold(Ok(true), Ok(&[])).is_ok(), own);
            let refused = hold(Ok(true), Err(Refusal::Owner));
            assert_eq!(refused, Ok(()));
        }
    }
}
