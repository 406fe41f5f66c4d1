//! The conditions of an entry in the papers' order, each with the refusal of an
//! entry that breaks it: a second statement beside the model's. No formula here is
//! the model's.

use crate::full_books::{is_full, needs_place};
use crate::model::{Entry, Event, Refusal, Report, Venue};
use crate::price_rules::is_legal;
use crate::sessions::{ensure, Fault};

/// Whether an entry breaks a condition in a venue.
pub type Breaks = fn(&Entry, &Venue) -> bool;

#[derive(Clone, Copy)]
pub struct Condition {
    pub refusal: u32,
    pub name: &'static str,
    breaks: Breaks,
}

pub const fn condition(refusal: u32, name: &'static str, breaks: Breaks) -> Condition {
    Condition {
        refusal,
        name,
        breaks,
    }
}

/// "Entry then: 3 price not legal; 4 shares; 5 mark, show, life or slide; 6 id not
/// above the last accepted id (0 never is); 7 if 256 orders rest." In the place of
/// the 5, "in the order mark, show, life, slide code, slide on the wrong mark"; "an
/// owner outside its range is 21, after the slide codes", which kind 1 has none of. And
/// "only the remaining orders meet 7": those that need a place.
pub const CONDITIONS: [Condition; 10] = [
    condition(3, "price", |entry, venue| {
        entry.price != 0 && !is_legal(venue.step, entry.price)
    }),
    condition(4, "shares", |entry, _| {
        entry.shares == 0 || entry.shares > 1_000_000
    }),
    condition(18, "mark", |entry, _| !matches!(entry.mark, 0..=3)),
    condition(5, "show", |entry, _| !matches!(entry.show, 0 | 1)),
    condition(5, "life", |entry, _| !matches!(entry.life, 0 | 1)),
    condition(19, "slide code", |entry, _| !matches!(entry.slide, 0..=3)),
    condition(20, "wrong mark", |entry, _| {
        entry.slide != 0 && entry.mark != 2
    }),
    condition(21, "owner", |entry, _| {
        matches!(entry.owner, Some(0 | 65_536..))
    }),
    condition(6, "id", |entry, venue| entry.id <= venue.last_id),
    condition(7, "full book", |entry, venue| {
        is_full(venue) && needs_place(entry, venue)
    }),
];

/// Which of the conditions an entry breaks, by their places.
pub fn broken<'a>(
    conditions: &'a [Condition],
    entry: &'a Entry,
    venue: &'a Venue,
) -> impl Iterator<Item = usize> + 'a {
    let places = conditions.iter().enumerate();
    let broken = places.filter(|(_, condition)| (condition.breaks)(entry, venue));
    broken.map(|(place, _)| place)
}

/// The first that is broken gives the refusal.
pub fn refusal_of(conditions: &[Condition], entry: &Entry, venue: &Venue) -> Option<u32> {
    let first = broken(conditions, entry, venue).next();
    first.map(|place| conditions[place].refusal)
}

/// Checks the answer to an entry on a sound venue record.
pub fn check(
    before: &Venue,
    event: &Event,
    answer: Result<&[Report], Refusal>,
) -> Result<(), Fault> {
    match (event, answer) {
        (Event::Entry(_), Err(Refusal::ShortBuffer | Refusal::Spent)) => Ok(()),
        (Event::Entry(entry), _) => {
            let found = answer.err().map(Refusal::number);
            let expected = refusal_of(&CONDITIONS, entry, before);
            ensure(found == expected, "the refusal of an entry")
        }
        _ => Ok(()),
    }
}

#[cfg(test)]
mod tests {
    use super::*;
    use crate::refused_entries::RefusedEntries;
    use crate::shown::show_events;

    /// The answer to an entry of a buy at 90,000 with these codes.
    fn checked(codes: [u32; 4], answer: Result<&[Report], Refusal>) -> Result<(), Fault> {
        let [mark, show, life, slide] = codes;
        let entry = Entry {
            id: 1,
            mark,
            price: 90_000,
            shares: 5,
            show,
            life,
            slide,
            owner: None,
        };
        check(&Venue::fresh(100, 100_000), &Event::Entry(entry), answer)
    }

    #[test]
    fn a_wrong_refusal_is_seen() {
        assert_eq!(checked([4, 2, 2, 9], Err(Refusal::Mark)), Ok(()));
        assert!(checked([4, 2, 2, 9], Err(Refusal::ShowOrLife)).is_err());
        assert_eq!(checked([0, 1, 1, 4], Err(Refusal::SlideCode)), Ok(()));
        assert!(checked([0, 1, 1, 4], Err(Refusal::SlideOnMark)).is_err());
        assert!(checked([0, 1, 1, 1], Ok(&[])).is_err());
        assert!(checked([2, 1, 1, 3], Err(Refusal::SlideOnMark)).is_err());
    }

    /// Shows the entries of so many events that the venue takes or refuses for what
    /// they are, each with the venue before it and the answer.
    fn show_entries(
        seed: u64,
        events: u32,
        mut see: impl FnMut(&Venue, &Entry, Result<(), Refusal>),
    ) {
        show_events(seed, events, |before, event, answer| {
            let early = [Refusal::VenueRecord, Refusal::ShortBuffer, Refusal::Spent];
            match event {
                Event::Entry(entry) if !early.map(Err).contains(&answer) => {
                    see(before, entry, answer);
                }
                _ => {}
            }
        });
    }

    /// A wrong version of the conditions, and what is wrong with it.
    type Wrong = (String, Vec<Condition>);

    /// Each condition before each that comes before it and has another refusal.
    fn other_orders() -> Vec<Wrong> {
        let mut wrong = Vec::new();
        for (late, moved) in CONDITIONS.into_iter().enumerate() {
            for (early, passed) in CONDITIONS[..late].iter().enumerate() {
                if moved.refusal != passed.refusal {
                    let mut conditions = CONDITIONS.to_vec();
                    conditions[early..=late].rotate_right(1);
                    wrong.push((format!("{} before {}", moved.name, passed.name), conditions));
                }
            }
        }
        wrong
    }

    fn with(place: usize, condition: Condition) -> Vec<Condition> {
        let mut conditions = CONDITIONS.to_vec();
        conditions[place] = condition;
        conditions
    }

    /// Each condition with each refusal of another.
    fn other_refusals() -> Vec<Wrong> {
        let mut wrong = Vec::new();
        for (place, condition) in CONDITIONS.into_iter().enumerate() {
            for refusal in [3, 4, 18, 5, 19, 20, 21, 6, 7] {
                if refusal != condition.refusal {
                    let name = format!("{refusal} for {}", condition.name);
                    wrong.push((
                        name,
                        with(
                            place,
                            Condition {
                                refusal,
                                ..condition
                            },
                        ),
                    ));
                }
            }
        }
        wrong
    }

    /// Codes and owners up to one more or less, narrower than 32 bits or signed; slides
    /// on too many marks or on too few; and an owner asked of kind 1.
    fn other_codes() -> Vec<Wrong> {
        let wrong: [(usize, Breaks); 32] = [
            (2, |entry, _| entry.mark > 4),
            (2, |entry, _| entry.mark > 2),
            (2, |entry, _| entry.mark as u8 > 3),
            (2, |entry, _| entry.mark as u16 > 3),
            (2, |entry, _| entry.mark as i32 > 3),
            (3, |entry, _| entry.show > 2),
            (3, |entry, _| entry.show > 0),
            (3, |entry, _| entry.show as u8 > 1),
            (3, |entry, _| entry.show as u16 > 1),
            (3, |entry, _| entry.show as i32 > 1),
            (4, |entry, _| entry.life > 2),
            (4, |entry, _| entry.life > 0),
            (4, |entry, _| entry.life as u8 > 1),
            (4, |entry, _| entry.life as u16 > 1),
            (4, |entry, _| entry.life as i32 > 1),
            (5, |entry, _| entry.slide > 4),
            (5, |entry, _| entry.slide > 2),
            (5, |entry, _| entry.slide as u8 > 3),
            (5, |entry, _| entry.slide as u16 > 3),
            (5, |entry, _| entry.slide as i32 > 3),
            (6, |entry, _| entry.slide != 0 && entry.mark < 2),
            (6, |entry, _| entry.slide != 0 && entry.mark & 1 == 1),
            (6, |entry, _| entry.slide != 0 && entry.mark % 3 == 0),
            (6, |entry, _| entry.slide > 1 && entry.mark != 2),
            (7, |entry, _| matches!(entry.owner, Some(65_536..))),
            (7, |entry, _| matches!(entry.owner, Some(0 | 65_537..))),
            (7, |entry, _| matches!(entry.owner, Some(0 | 65_535..))),
            (7, |entry, _| matches!(entry.owner, Some(0 | 1 | 65_536..))),
            (7, |entry, _| matches!(entry.owner, Some(0 | 256..))),
            (7, |entry, _| {
                matches!(entry.owner, None | Some(0 | 65_536..))
            }),
            (7, |entry, _| {
                entry.owner.is_some_and(|owner| owner as u16 == 0)
            }),
            (7, |entry, _| {
                let signed = entry.owner.map(|owner| owner as i32);
                matches!(signed, Some(0 | 65_536..))
            }),
        ];
        let versions = wrong.into_iter().enumerate();
        versions
            .map(|(number, (place, breaks))| {
                let condition = CONDITIONS[place];
                let name = format!("code {number}: {}", condition.name);
                (
                    name,
                    with(
                        place,
                        Condition {
                            breaks,
                            ..condition
                        },
                    ),
                )
            })
            .collect()
    }

    /// Streams tell each wrong version within so many events.
    #[test]
    fn wrong_versions_are_told_apart() {
        for seed in [1, 2, 3] {
            let mut untold = [other_orders(), other_refusals(), other_codes()].concat();
            show_entries(seed, 50_000, |venue, entry, answer| {
                let right = answer.err().map(Refusal::number);
                untold.retain(|(_, wrong)| refusal_of(wrong, entry, venue) == right);
            });
            let names: Vec<String> = untold.into_iter().map(|(name, _)| name).collect();
            assert!(names.is_empty(), "seed {seed}: {}", names.join("; "));
        }
    }

    /// And they reach each refusal beside each other, at both steps.
    #[test]
    fn refused_entries_are_complete() {
        let mut refused = RefusedEntries::default();
        show_entries(1, 200_000, |venue, entry, answer| {
            if let Err(refusal) = answer {
                refused.refuse(venue, &Event::Entry(*entry), refusal);
            }
        });
        assert!(refused.are_complete(), "{refused}");
    }
}
