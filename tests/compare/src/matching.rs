//! Matching of document 01 and No. 7 of document 02 a second time, as a walk along an
//! event's reports: what the working order of each report 1 and 4 meets, and the book
//! that is left. Matching without owners stands apart in it, as it was before No. 7. No
//! formula here is the model's.

use crate::model::{Entry, Event, Order, Refusal, Report, Venue};
use crate::sessions::{ensure, Fault};
use std::cmp::Reverse;

/// The orders that rest, in any order.
type Book = Vec<Order>;

/// Lets a working order meet a book, in the pass or not, and gives the reports.
type Matching = fn(&mut Book, &mut Order, bool) -> Vec<Report>;

/// "the best opposite order that the working price reaches (equal counts)", "Best is
/// by price, then displayed before not, then lower stamp"; of those that pass.
fn best(book: &Book, working: &Order, passes: impl Fn(&Order) -> bool) -> Option<usize> {
    let places = book.iter().enumerate().filter(|(_, order)| passes(order));
    if working.mark == 0 {
        let sells = places.filter(|(_, order)| order.mark != 0 && order.price <= working.price);
        let best = sells.min_by_key(|(_, order)| (order.price, order.show != 1, order.stamp));
        best.map(|(at, _)| at)
    } else {
        let buys = places.filter(|(_, order)| order.mark == 0 && order.price >= working.price);
        let key = |order: &Order| (Reverse(order.price), order.show != 1, order.stamp);
        let best = buys.min_by_key(|(_, order)| key(order));
        best.map(|(at, _)| at)
    }
}

/// "trade [...] for the smaller amount, at the resting order's price"
fn execute(book: &mut Book, at: usize, working: &mut Order) -> Report {
    let resting = &mut book[at];
    let shares = resting.shares.min(working.shares);
    resting.shares -= shares;
    working.shares -= shares;
    let (buyer, seller) = match working.mark {
        0 => (working.id, resting.id),
        _ => (resting.id, working.id),
    };
    let price = resting.price;
    if resting.shares == 0 {
        book.remove(at);
    }
    Report::Executed {
        buyer,
        seller,
        price,
        shares,
    }
}

/// Takes an order out of the book; the report has its shares left.
fn withdraw(book: &mut Book, at: usize, cause: u32) -> Report {
    let Order { id, shares, .. } = book.remove(at);
    Report::Cancelled { id, shares, cause }
}

/// Does one thing after another while shares remain; a step gives its report, or none
/// where it finds nothing.
fn while_shares_remain(
    book: &mut Book,
    working: &mut Order,
    step: impl Fn(&mut Book, &mut Order) -> Option<Report>,
) -> Vec<Report> {
    let mut made = Vec::new();
    while working.shares > 0 {
        match step(book, working) {
            Some(report) => made.push(report),
            None => break,
        }
    }
    made
}

/// Matching before No. 7, which only trades.
fn only_trades(book: &mut Book, working: &mut Order, _: bool) -> Vec<Report> {
    while_shares_remain(book, working, |book, working| {
        let at = best(book, working, |_| true)?;
        Some(execute(book, at, working))
    })
}

/// "a resting order of the same owner above 0"
fn is_own(working: &Order, resting: &Order) -> bool {
    working.owner > 0 && working.owner == resting.owner
}

/// "Where a working order would trade with a resting order of the same owner above 0,
/// the resting one is cancelled (cause 5) and matching goes on." "This holds in the pass
/// as well."
fn matching(book: &mut Book, working: &mut Order, _: bool) -> Vec<Report> {
    while_shares_remain(book, working, |book, working| {
        let at = best(book, working, |_| true)?;
        Some(match is_own(working, &book[at]) {
            true => withdraw(book, at, 5),
            false => execute(book, at, working),
        })
    })
}

/// The order of an entry at the stamp and the price that it was accepted with.
fn order_of(entry: &Entry, stamp: u32, price: u32) -> Order {
    Order {
        id: entry.id,
        mark: entry.mark,
        limit: entry.price,
        shares: entry.shares,
        show: entry.show,
        life: entry.life,
        slide: entry.slide,
        stamp,
        price,
        entry_bid: 0,
        adjusted: false,
        used: false,
        clear: false,
        market: false,
        owner: entry.owner.unwrap_or(0),
    }
}

fn place_of(book: &Book, of: u32) -> Option<usize> {
    book.iter().position(|order| order.id == of)
}

/// The book after an accepted event, along its reports; none where they aren't those of
/// the matching.
fn walk(matching: Matching, before: &Venue, event: &Event, reports: &[Report]) -> Option<Book> {
    let mut book = before.orders.clone();
    let mut rest = reports;
    while let [report, behind @ ..] = rest {
        rest = behind;
        let (mut working, in_pass) = match (*report, event) {
            (Report::Accepted { stamp, price, .. }, Event::Entry(entry)) => {
                (order_of(entry, stamp, price), false)
            }
            (Report::Repriced { id, price, stamp }, _) => {
                let at = place_of(&book, id)?;
                let order = book.remove(at);
                let moved = Order {
                    price,
                    stamp,
                    ..order
                };
                (moved, true)
            }
            (Report::Cancelled { id, shares, cause }, _) => {
                let at = place_of(&book, id)?;
                if cause == 5 || book.remove(at).shares != shares {
                    // A report 3 with cause 5 belongs to a matching.
                    return None;
                }
                continue;
            }
            (Report::RestrictionOn | Report::DayEnded { .. } | Report::Pause { .. }, _) => continue,
            _ => return None,
        };
        let made = matching(&mut book, &mut working, in_pass);
        rest = rest.strip_prefix(&made[..])?;
        if working.shares > 0 {
            book.push(working);
        }
    }
    Some(book)
}

/// What of a resting order matching gives or keeps.
fn seen(order: &Order) -> [u32; 8] {
    [
        order.id,
        order.mark,
        order.shares,
        order.show,
        order.slide,
        order.stamp,
        order.price,
        order.owner,
    ]
}

/// Whether an accepted event's reports and the book after it are those of a matching.
fn holds(
    matching: Matching,
    before: &Venue,
    event: &Event,
    reports: &[Report],
    after: &Venue,
) -> bool {
    let Some(mut book) = walk(matching, before, event, reports) else {
        return false;
    };
    book.sort_unstable_by_key(|order| order.id);
    book.iter().map(seen).eq(after.orders.iter().map(seen))
}

/// Whether neither the venue nor the entry has an owner.
pub fn is_without_owners(venue: &Venue, event: &Event) -> bool {
    let kind_1 = !matches!(event, Event::Entry(Entry { owner: Some(_), .. }));
    kind_1 && venue.orders.iter().all(|order| order.owner == 0)
}

/// Checks an event on a sound venue record. Where nobody has an owner it is what it was
/// before No. 7; gives whether that was so.
pub fn check(
    before: &Venue,
    event: &Event,
    answer: Result<&[Report], Refusal>,
    after: &Venue,
) -> Result<bool, Fault> {
    let as_before = is_without_owners(before, event);
    let Ok(reports) = answer else {
        return Ok(as_before);
    };
    let by_paper = holds(matching, before, event, reports, after);
    ensure(by_paper, "matching with owners")?;
    let by_trades = as_before && holds(only_trades, before, event, reports, after);
    ensure(by_trades == as_before, "matching before owners")?;
    Ok(as_before)
}

#[cfg(test)]
mod tests {
    use super::*;
    use crate::shown::{assert_told_apart, show_all};

    /// A wrong version of matching, and what is wrong with it.
    type Wrong = (&'static str, Matching);

    /// Matching with another notion of an own order and another answer to one.
    fn by(
        book: &mut Book,
        working: &mut Order,
        is_own: impl Fn(&Order, &Order) -> bool,
        meet: impl Fn(&mut Book, usize, &mut Order) -> Report,
    ) -> Vec<Report> {
        while_shares_remain(book, working, |book, working| {
            let at = best(book, working, |_| true)?;
            Some(match is_own(working, &book[at]) {
                true => meet(book, at, working),
                false => execute(book, at, working),
            })
        })
    }

    fn cancel(book: &mut Book, at: usize, _: &mut Order) -> Report {
        withdraw(book, at, 5)
    }

    /// Other notions of an own order.
    const OTHER_FIRMS: [Wrong; 8] = [
        ("owner 0 is a firm", |book, working, _| {
            by(book, working, |own, other| own.owner == other.owner, cancel)
        }),
        ("owners by a byte", |book, working, _| {
            let is_own =
                |own: &Order, other: &Order| own.owner > 0 && own.owner as u8 == other.owner as u8;
            by(book, working, is_own, cancel)
        }),
        ("a byte that is 0 is nobody's", |book, working, _| {
            let is_own = |own: &Order, other: &Order| own.owner as u8 > 0 && is_own(own, other);
            by(book, working, is_own, cancel)
        }),
        ("firms don't trade with firms", |book, working, _| {
            by(
                book,
                working,
                |own, other| own.owner.min(other.owner) > 0,
                cancel,
            )
        }),
        ("65,535 is nobody's", |book, working, _| {
            let is_own = |own: &Order, other: &Order| own.owner < 65_535 && is_own(own, other);
            by(book, working, is_own, cancel)
        }),
        ("hidden own orders trade", |book, working, _| {
            let is_own = |own: &Order, other: &Order| other.show == 1 && is_own(own, other);
            by(book, working, is_own, cancel)
        }),
        (
            "own orders at the working price trade",
            |book, working, _| {
                let is_own =
                    |own: &Order, other: &Order| other.price != own.price && is_own(own, other);
                by(book, working, is_own, cancel)
            },
        ),
        ("own orders of no fewer shares trade", |book, working, _| {
            let is_own =
                |own: &Order, other: &Order| other.shares < own.shares && is_own(own, other);
            by(book, working, is_own, cancel)
        }),
    ];

    /// Cancels the working order; the resting one stays.
    fn cancel_working(_: &mut Book, _: usize, working: &mut Order) -> Report {
        let shares = std::mem::take(&mut working.shares);
        Report::Cancelled {
            id: working.id,
            shares,
            cause: 5,
        }
    }

    /// Cancels as many shares of both.
    fn cancel_both(book: &mut Book, at: usize, working: &mut Order) -> Report {
        let (id, shares) = (book[at].id, book[at].shares.min(working.shares));
        let _ = execute(book, at, working);
        Report::Cancelled {
            id,
            shares,
            cause: 5,
        }
    }

    /// Cancels with other shares in the report.
    fn report_shares(
        book: &mut Book,
        working: &mut Order,
        of: impl Fn(&Order, &Order) -> u32,
    ) -> Vec<Report> {
        by(book, working, is_own, |book, at, working| {
            let resting = book.remove(at);
            Report::Cancelled {
                id: resting.id,
                shares: of(working, &resting),
                cause: 5,
            }
        })
    }

    /// The same steps, some of whose reports aren't given.
    fn without_reports(made: Vec<Report>, is_kept: impl Fn(&Report) -> bool) -> Vec<Report> {
        made.into_iter().filter(is_kept).collect()
    }

    fn is_cancel(report: &Report) -> bool {
        matches!(report, Report::Cancelled { .. })
    }

    /// The cancels stand behind the executions, or before them.
    fn cancels_apart(mut made: Vec<Report>, behind: bool) -> Vec<Report> {
        made.sort_by_key(|report| is_cancel(report) == behind);
        made
    }

    /// Other answers to an own order.
    const OTHER_ANSWERS: [Wrong; 12] = [
        ("only trades", only_trades),
        ("cause 4", |book, working, _| {
            by(book, working, is_own, |book, at, _| withdraw(book, at, 4))
        }),
        ("cause 1", |book, working, _| {
            by(book, working, is_own, |book, at, _| withdraw(book, at, 1))
        }),
        ("the working order cancelled", |book, working, _| {
            by(book, working, is_own, cancel_working)
        }),
        (
            "the smaller amount of both cancelled",
            |book, working, _| by(book, working, is_own, cancel_both),
        ),
        ("no report", |book, working, pass| {
            without_reports(matching(book, working, pass), |report| !is_cancel(report))
        }),
        ("a report of 0 shares", |book, working, _| {
            report_shares(book, working, |_, _| 0)
        }),
        (
            "a report of the working order's shares",
            |book, working, _| report_shares(book, working, |working, _| working.shares),
        ),
        ("a report of the smaller amount", |book, working, _| {
            report_shares(book, working, |working, resting| {
                working.shares.min(resting.shares)
            })
        }),
        ("cancels behind the executions", |book, working, pass| {
            cancels_apart(matching(book, working, pass), true)
        }),
        ("cancels before the executions", |book, working, pass| {
            cancels_apart(matching(book, working, pass), false)
        }),
        ("the working order's owner lost", |book, working, pass| {
            let made = matching(book, working, pass);
            working.owner = 0;
            made
        }),
    ];

    /// Cancels all own orders within reach, best first.
    fn withdraw_all(book: &mut Book, working: &Order) -> Vec<Report> {
        let mut made = Vec::new();
        while let Some(at) = best(book, working, |order| is_own(working, order)) {
            made.push(withdraw(book, at, 5));
        }
        made
    }

    /// Matching up to an own order, what happens there once, and trades behind it.
    fn at_first_own(
        book: &mut Book,
        working: &mut Order,
        once: impl Fn(&mut Book, usize, &Order) -> Vec<Report>,
        goes_on: bool,
    ) -> Vec<Report> {
        let mut made = while_shares_remain(book, working, |book, working| {
            let at = best(book, working, |_| true)?;
            (!is_own(working, &book[at])).then(|| execute(book, at, working))
        });
        if working.shares > 0 {
            if let Some(at) = best(book, working, |_| true) {
                made.extend(once(book, at, working));
                if goes_on {
                    made.extend(only_trades(book, working, false));
                }
            }
        }
        made
    }

    /// Other moments at which own orders go.
    const OTHER_MOMENTS: [Wrong; 11] = [
        (
            "own orders in reach withdrawn first",
            |book, working, pass| {
                let mut made = withdraw_all(book, working);
                made.extend(only_trades(book, working, pass));
                made
            },
        ),
        ("all withdrawn at the first met", |book, working, _| {
            let once = |book: &mut Book, _, working: &Order| withdraw_all(book, working);
            at_first_own(book, working, once, true)
        }),
        ("one withdrawn, others trade", |book, working, _| {
            let once = |book: &mut Book, at, _: &Order| vec![withdraw(book, at, 5)];
            at_first_own(book, working, once, true)
        }),
        ("matching ends with a withdrawal", |book, working, _| {
            let once = |book: &mut Book, at, _: &Order| vec![withdraw(book, at, 5)];
            at_first_own(book, working, once, false)
        }),
        ("matching ends at an own order", |book, working, _| {
            at_first_own(book, working, |_, _, _| Vec::new(), false)
        }),
        ("own orders skipped", |book, working, _| {
            while_shares_remain(book, working, |book, working| {
                let at = best(book, working, |order| !is_own(working, order))?;
                Some(execute(book, at, working))
            })
        }),
        (
            "own orders skipped, then withdrawn",
            |book, working, pass| {
                let mut made = OTHER_MOMENTS[5].1(book, working, pass);
                if working.shares > 0 {
                    made.extend(withdraw_all(book, working));
                }
                made
            },
        ),
        ("withdrawn behind a fill too", |book, working, pass| {
            let mut made = matching(book, working, pass);
            while let Some(at) = best(book, working, |_| true) {
                if !is_own(working, &book[at]) {
                    break;
                }
                made.push(withdraw(book, at, 5));
            }
            made
        }),
        (
            "no withdrawing in the pass",
            |book, working, pass| match pass {
                true => only_trades(book, working, pass),
                false => matching(book, working, pass),
            },
        ),
        (
            "own orders skipped in the pass",
            |book, working, pass| match pass {
                true => OTHER_MOMENTS[5].1(book, working, pass),
                false => matching(book, working, pass),
            },
        ),
        (
            "withdrawing in the pass alone",
            |book, working, pass| match pass {
                true => matching(book, working, pass),
                false => only_trades(book, working, pass),
            },
        ),
    ];

    const NAME: &str = "matching";

    #[test]
    fn wrong_versions_are_told_apart_and_the_rule_is_not() {
        let right: Wrong = (NAME, matching);
        let versions = [&[right][..], &OTHER_FIRMS, &OTHER_ANSWERS, &OTHER_MOMENTS].concat();
        assert_told_apart(NAME, &versions, |shown, untold| {
            if let Ok(reports) = shown.answer {
                untold.retain(|(_, wrong)| {
                    holds(*wrong, shown.before, shown.event, reports, shown.after)
                });
            }
        });
    }

    /// Without owners the versions that differ about firms alone are all alike, and so is
    /// matching from before No. 7.
    #[test]
    fn without_owners_nothing_but_owner_0_as_a_firm_is_told_apart() {
        let mut untold = [&OTHER_FIRMS[..], &OTHER_ANSWERS, &OTHER_MOMENTS].concat();
        show_all(1, 50_000, |shown| {
            if !is_without_owners(shown.before, shown.event) {
                return;
            }
            if let Ok(reports) = shown.answer {
                untold.retain(|(_, wrong)| {
                    holds(*wrong, shown.before, shown.event, reports, shown.after)
                });
            }
        });
        let all = OTHER_FIRMS.len() + OTHER_ANSWERS.len() + OTHER_MOMENTS.len();
        assert_eq!(untold.len(), all - 1);
        assert!(untold.iter().all(|(name, _)| *name != OTHER_FIRMS[0].0));
    }
}
