//! Days of timed prices, worked out by hand from No. 10 of document 02. The lines of a day
//! are the model's, and the reader of pauses agrees with each of them; with a report 7 or a
//! refusal of No. 10 made wrong it doesn't.

use crate::days::{assert_day, event_of, is_refused, report_bytes, Played, ON};
use crate::model::{
    copy_out, Event, Progress, RecordCheck, Refusal, Report, ReportWriter, TimedPrice, Venue, CENT,
    HALF_CENT, LEAST_BUFFER,
};
use crate::pauses::Pauses;
use crate::sessions::Fault;

type Answer = Result<Vec<Report>, Refusal>;

/// The answer that lines say: reports, or a refusal, of which a timed price has few.
fn answer_of(lines: &[&str]) -> Answer {
    match lines {
        ["0 3"] => Err(Refusal::Price),
        ["0 22"] => Err(Refusal::Time),
        ["0 23"] => Err(Refusal::KeptPrices),
        lines if is_refused(lines) => panic!("{lines:?}"),
        lines => Ok(Report::read_all(&report_bytes(lines)).expect("reports")),
    }
}

/// What the reader says of an event with its answer.
fn take(pauses: &mut Pauses, event: &Event, answer: &Answer) -> Result<(), Fault> {
    let mut buffer = vec![0; LEAST_BUFFER];
    let written = answer.as_ref().map(|reports| {
        let mut writer = ReportWriter::new(&mut buffer);
        reports.iter().for_each(|report| writer.put(*report));
        writer.byte_count()
    });
    let answer = written.map(|count| &buffer[..count]);
    pauses.take(event, answer.map_err(|refusal| *refusal))
}

/// The reports with one more behind so many of them.
fn put(reports: &[Report], at: usize, report: Report) -> Vec<Report> {
    [&reports[..at], &[report], &reports[at..]].concat()
}

/// A report 7 lost, turned round, of another price, doubled, with one turned round before or
/// behind it, and put behind each of the others.
fn with_other_pauses(direction: u32, price: u32, others: &[Report]) -> Vec<Vec<Report>> {
    let pause = |direction, price| Report::Pause { direction, price };
    let right = pause(direction, price);
    let turned = pause(3 - direction, price);
    let fronts: [&[Report]; 6] = [
        &[],
        &[turned],
        &[pause(direction, price + 1)],
        &[right, right],
        &[turned, right],
        &[right, turned],
    ];
    let fronts = fronts.iter().map(|front| [front, others].concat());
    let behind = (1..=others.len()).map(|at| put(others, at, right));
    fronts.chain(behind).collect()
}

/// A report 7 put where there is none, of both directions and in each place.
fn with_a_pause(event: &Event, reports: &[Report]) -> Vec<Vec<Report>> {
    let price = match event {
        Event::Timed(new) => new.price,
        _ => 90_000,
    };
    let pauses = [1, 2].map(|direction| Report::Pause { direction, price });
    let places = (0..=reports.len()).flat_map(|at| pauses.map(|pause| put(reports, at, pause)));
    places.collect()
}

/// Each refusal of No. 10 but the right one: "Checked after the price: [...] 22, and [...]
/// 23." Of an event without a time the reader leaves 3 to others.
fn other_refusals(event: &Event, right: &Answer) -> Vec<Answer> {
    let refusals = [Refusal::Price, Refusal::Time, Refusal::KeptPrices];
    let first = usize::from(!matches!(event, Event::Timed(_)));
    let refusals = refusals[first..].iter().map(|refusal| Err(*refusal));
    refusals.filter(|wrong| wrong != right).collect()
}

/// Other answers to an event, which the reader must see.
fn wrong_answers(event: &Event, right: &Answer) -> Vec<Answer> {
    let wrong = match (event, right.as_deref()) {
        (_, Ok([Report::Pause { direction, price }, others @ ..])) => {
            with_other_pauses(*direction, *price, others)
        }
        (Event::Timed(_), Err(_)) => [vec![vec![]], with_a_pause(event, &[])].concat(),
        (_, reports) => with_a_pause(event, reports.unwrap_or_default()),
    };
    let wrong = wrong.into_iter().map(Ok);
    wrong.chain(other_refusals(event, right)).collect()
}

/// The lines of the day are those of model and reader, and none of the wrong answers passes
/// the reader.
fn assert_pauses(step: u32, day: &[Played]) {
    assert_day(step, day);
    let mut pauses = Pauses::start(true, step).expect("a stream from open");
    for (event, lines) in day {
        let (event, right) = (event_of(event), answer_of(lines));
        for wrong in wrong_answers(&event, &right) {
            let taken = take(&mut pauses.clone(), &event, &wrong);
            assert!(taken.is_err(), "{event:?}: {wrong:?}");
        }
        assert_eq!(take(&mut pauses, &event, &right), Ok(()));
    }
}

fn assert_at_both_steps(day: &[Played]) {
    assert_pauses(CENT, day);
    assert_pauses(HALF_CENT, day);
}

/// At 310 the price of 10 is 300 seconds old and within, that of 0 isn't. 99,000 is 110% of
/// 90,000, and 90,000 is more than 90% of 99,000. At 612 all are gone. Behind the day end
/// nothing is kept, times begin anew, and the price of 301 that is refused drops nothing.
#[test]
fn two_days() {
    assert_at_both_steps(&[
        ("timed 0 100000", &[]),
        ("timed 10 100000", &[]),
        ("timed 310 90000", &["7 1 90000", "5"]),
        ("timed 311 99000", &["7 2 99000"]),
        ("timed 311 90000", &[]),
        ("timed 612 99000", &[]),
        ("timed 611 99000", &["0 22"]),
        ("end 100000", &["6 2"]),
        ("timed 0 100", &["5"]),
        ("timed 301 0", &["0 3"]),
        ("timed 300 90", &["7 1 90"]),
        ("timed 300 99", &["7 2 99"]),
    ]);
}

/// "300 itself is within" (F10.2).
#[test]
fn three_hundred_seconds_are_within_and_one_more_is_not() {
    let days: [(&'static str, &'static [&'static str]); 3] = [
        ("timed 1299 90000", &["7 1 90000", "5"]),
        ("timed 1300 90000", &["7 1 90000", "5"]),
        ("timed 1301 90000", &["5"]),
    ];
    for last in days {
        assert_at_both_steps(&[("timed 1000 100000", &[]), last]);
    }
}

/// "below 300 nothing wraps", and times may be any number (F10.1, F10.2).
#[test]
fn the_lowest_and_the_highest_times() {
    for last in ["timed 0 90000", "timed 299 90000", "timed 300 90000"] {
        let fall: Played = (last, &["7 1 90000", "5"]);
        assert_at_both_steps(&[("timed 0 100000", &[]), fall]);
    }
    assert_at_both_steps(&[
        ("timed 4294966994 100000", &[]),
        ("timed 4294966995 99900", &[]),
        ("timed 4294967295 90000", &["5"]),
        ("timed 4294967295 99000", &["7 2 99000"]),
        ("timed 4294967294 99000", &["0 22"]),
        ("timed 0 99000", &["0 22"]),
        ("end 100000", &["6 2"]),
        ("timed 0 100000", &[]),
        ("timed 4294967295 90000", &["5"]),
    ]);
}

/// 110% of 90,000 is 99,000 and 90% of 100,000 is 90,000, both included; a step less isn't.
#[test]
fn borders_of_falls_and_rises() {
    assert_pauses(
        CENT,
        &[
            ("timed 5 100000", &[]),
            ("timed 6 90100", &[]),
            ("timed 400 90000", &["5"]),
            ("timed 401 98900", &[]),
            ("timed 402 99000", &["7 2 99000"]),
        ],
    );
    assert_pauses(
        HALF_CENT,
        &[
            ("timed 5 100000", &[]),
            ("timed 6 90050", &[]),
            ("timed 400 90000", &["5"]),
            ("timed 401 98950", &[]),
            ("timed 402 99000", &["7 2 99000"]),
        ],
    );
    // 90% of 9 is 8.1 and 110% of 9 is 9.9; of 1 they are 0.9 and 1.1.
    assert_at_both_steps(&[
        ("timed 0 9", &["5"]),
        ("timed 0 9", &[]),
        ("timed 1 8", &["7 1 8"]),
        ("timed 302 9", &[]),
        ("timed 302 10", &["7 2 10"]),
        ("timed 603 1", &[]),
        ("timed 603 1", &[]),
        ("timed 603 2", &["7 2 2"]),
        ("timed 603 1", &["7 1 1"]),
    ]);
    assert_at_both_steps(&[
        ("timed 0 100000000", &[]),
        ("timed 0 100000000", &[]),
        ("timed 0 90000000", &["7 1 90000000"]),
    ]);
}

/// 90,000 is a fall from 100,000 and a rise from 81,000: the fall is looked for first, over
/// all kept prices, in whatever order they came.
#[test]
fn a_fall_comes_before_a_rise() {
    assert_at_both_steps(&[
        ("timed 0 100000", &[]),
        ("timed 0 81000", &["7 1 81000", "5"]),
        ("timed 0 90000", &["7 1 90000"]),
    ]);
    assert_at_both_steps(&[
        ("timed 0 81000", &["5"]),
        ("timed 0 100000", &["7 2 100000"]),
        ("timed 300 90000", &["7 1 90000"]),
        ("timed 301 99000", &["7 2 99000"]),
    ]);
}

/// "Kind 4 prices are neither kept nor looked at" (F10.2), and own trades aren't either.
#[test]
fn tape_prices_without_a_time_do_not_count() {
    assert_at_both_steps(&[
        ("tape 100000", &[]),
        ("timed 0 90000", &["5"]),
        ("tape 99000", &[]),
        ("tape 80000", &[]),
        ("timed 0 90000", &[]),
        ("timed 0 99000", &["7 2 99000"]),
    ]);
}

/// "A refused event drops nothing" (F10.3), and isn't kept either.
#[test]
fn refused_prices_drop_nothing_and_are_not_kept() {
    assert_pauses(
        CENT,
        &[
            ("timed 100 100000", &[]),
            ("timed 401 90050", &["0 3"]),
            ("timed 401 0", &["0 3"]),
            ("timed 99 50000", &["0 22"]),
            ("timed 99 50050", &["0 3"]),
            ("timed 4294967295 100000001", &["0 3"]),
            ("timed 400 90000", &["7 1 90000", "5"]),
            ("timed 401 99000", &["7 2 99000"]),
        ],
    );
}

/// "22 for the last one of the day": a day end lets any time begin; bids, entries, cancels
/// and tape prices keep what is kept.
#[test]
fn only_a_day_end_empties_the_kept_prices() {
    assert_at_both_steps(&[
        ("timed 500 100000", &[]),
        ("bid 91000", &[]),
        ("tape 99900", &[]),
        ("entry 1 0 90000 5 1 0 0", &["1 1 1 90000"]),
        ("owned 2 0 90000 5 1 0 0 7", &["1 2 2 90000"]),
        ("cancel 1", &["3 1 5 1"]),
        ("end 0", &["0 3"]),
        ("timed 499 90000", &["0 22"]),
        ("timed 500 90000", &["7 1 90000", "5"]),
        ("end 90000", &["3 2 5 4", "6 2"]),
        ("timed 0 99000", &[]),
        ("timed 0 90000", &[]),
        ("end 90000", &["6 0"]),
        ("timed 0 99000", &[]),
    ]);
}

/// "It comes before the restriction's report", and that before the pass, which a timed price
/// runs as a tape event does.
#[test]
fn report_7_comes_before_report_5_and_the_pass() {
    assert_pauses(
        CENT,
        &[
            ("bid 91000", &[]),
            ("entry 1 2 91000 5 0 0 0", &["1 1 1 91000"]),
            ("timed 7 100000", &[]),
            ("timed 8 90000", &["7 1 90000", "5", "4 1 91100 2"]),
            ("timed 9 99000", &["7 2 99000"]),
            ("end 100000", &["3 1 5 4", "6 2"]),
            ("timed 5 90000", &["5"]),
            ("timed 5 90000", &[]),
        ],
    );
}

/// Trading isn't stopped by a pause.
#[test]
fn trading_goes_on() {
    let mut day = ON.to_vec();
    day.extend::<[Played; 5]>([
        ("timed 0 100000", &[]),
        ("timed 0 90000", &["7 1 90000"]),
        ("entry 1 0 90000 5 1 0 0", &["1 1 1 90000"]),
        ("entry 2 1 90000 5 1 0 0", &["1 2 2 90000", "2 1 2 90000 5"]),
        ("timed 1 99000", &["7 2 99000"]),
    ]);
    assert_pauses(CENT, &day);
}

/// So many timed prices of one second at 100,000, which give nothing.
fn in_one_second(second: &'static str, count: usize) -> Vec<Played> {
    vec![(second, &[]); count]
}

/// "at most 512 with the new one", "a 513th kept price is 23".
#[test]
fn the_513th_price_of_a_second_is_refused() {
    let mut day = in_one_second("timed 0 100000", 512);
    day.extend::<[Played; 6]>([
        ("timed 0 100000", &["0 23"]),
        ("timed 300 90000", &["0 23"]),
        ("timed 300 90050", &["0 3"]),
        ("tape 90000", &["5"]),
        ("timed 301 90000", &[]),
        ("timed 301 99000", &["7 2 99000"]),
    ]);
    assert_pauses(CENT, &day);
}

/// 23 is judged "after leaving out what the new time drops" (F10.3): exactly one at 301, the
/// other 511 at 302. And 22 comes before 23.
#[test]
fn a_full_watch_lets_go_of_one_and_of_all() {
    let mut day = in_one_second("timed 0 90000", 1);
    day[0].1 = &["5"];
    day.extend(in_one_second("timed 1 95000", 511));
    day.extend::<[Played; 9]>([
        ("timed 1 99000", &["0 23"]),
        ("timed 0 99000", &["0 22"]),
        ("timed 300 99000", &["0 23"]),
        ("timed 301 99000", &[]),
        ("timed 301 99000", &["0 23"]),
        ("timed 300 99000", &["0 22"]),
        ("end 0", &["0 3"]),
        ("timed 302 90000", &[]),
        ("timed 302 99000", &["7 2 99000"]),
    ]);
    assert_at_both_steps(&day);
}

fn timed(time: u32, price: u32) -> TimedPrice {
    TimedPrice { time, price }
}

/// A venue at a step that keeps these prices.
fn keeping(step: u32, kept: Vec<TimedPrice>) -> Venue {
    Venue {
        kept,
        ..Venue::fresh(step, 100_000)
    }
}

/// Whether the record is taken: by an event, a play and copy out alike.
fn is_taken(venue: &Venue) -> bool {
    let bid = Event::Bid { price: 0 };
    let mut buffer = vec![0; LEAST_BUFFER];
    let applied = venue.clone().apply(&bid, &mut buffer, RecordCheck::Done);
    let mut progress = Progress::default();
    let check = RecordCheck::Done;
    let played = venue
        .clone()
        .play(&[], 0, &mut [], &mut [], &mut progress, check);
    let broken = [
        applied == Err(Refusal::VenueRecord),
        played == Err(Refusal::VenueRecord),
        copy_out(venue, &mut []) == Err(Refusal::VenueRecord),
    ];
    assert_eq!(broken, [broken[0]; 3]);
    assert_eq!(applied.is_ok(), !broken[0]);
    !broken[0]
}

/// "Over 512 kept prices [...] break the venue record."
#[test]
fn over_512_kept_prices_break_the_venue_record() {
    for (count, sound) in [(0, true), (1, true), (511, true), (512, true), (513, false)] {
        for step in [CENT, HALF_CENT] {
            let venue = keeping(step, vec![timed(7, 90_000); count]);
            assert_eq!(is_taken(&venue), sound, "{count}");
        }
    }
}

/// "an illegal one", at the venue's step and in any place.
#[test]
fn an_illegal_kept_price_breaks_the_venue_record() {
    let cases = [
        (0, false, false),
        (1, true, true),
        (9_951, true, true),
        (10_050, true, false),
        (90_025, false, false),
        (99_999_950, true, false),
        (100_000_000, true, true),
        (100_000_050, false, false),
        (100_000_100, false, false),
        (u32::MAX, false, false),
    ];
    for (price, at_half, at_cent) in cases {
        for place in [0, 1, 255, 511] {
            for (step, sound) in [(HALF_CENT, at_half), (CENT, at_cent)] {
                let mut venue = keeping(step, vec![timed(7, 90_000); 512]);
                venue.kept[place].price = price;
                assert_eq!(is_taken(&venue), sound, "{price} at {place}");
            }
        }
    }
}

/// "times that fall or span more than 300 seconds", "Last less first at most 300; equal
/// times are fine" (F10.5).
#[test]
fn times_of_a_venue_record() {
    let cases: [(&[u32], bool); 12] = [
        (&[u32::MAX], true),
        (&[0, 0, 0], true),
        (&[0, 1, 300], true),
        (&[0, 1, 301], false),
        (&[0, 301, 301], false),
        (&[5, 4], false),
        (&[5, 9, 8], false),
        (&[5, 4, 5], false),
        (&[0, 299, 298, 300], false),
        (&[u32::MAX - 300, u32::MAX], true),
        (&[u32::MAX - 301, u32::MAX], false),
        (&[u32::MAX, 0], false),
    ];
    for (times, sound) in cases {
        for step in [CENT, HALF_CENT] {
            let kept = times.iter().map(|&time| timed(time, 100)).collect();
            assert_eq!(is_taken(&keeping(step, kept)), sound, "{times:?}");
        }
    }
}

/// What a venue keeps behind a timed price: oldest first, those within and the new one.
#[test]
fn the_kept_prices_after_a_timed_price() {
    let mut venue = keeping(
        CENT,
        vec![timed(10, 5), timed(11, 6), timed(11, 7), timed(310, 8)],
    );
    let mut buffer = vec![0; LEAST_BUFFER];
    let mut take = |venue: &mut Venue, event: Event| {
        let answer = venue.apply(&event, &mut buffer, RecordCheck::Done);
        answer.is_ok()
    };
    let mut refused = venue.clone();
    assert!(!take(&mut refused, Event::Timed(timed(311, 0))));
    assert!(!take(&mut refused, Event::Timed(timed(309, 9))));
    assert_eq!(refused, venue);
    assert!(take(&mut venue, Event::Timed(timed(311, 9))));
    let kept = [timed(11, 6), timed(11, 7), timed(310, 8), timed(311, 9)];
    assert_eq!(venue.kept, kept);
    assert!(take(&mut venue, Event::Tape { price: 3 }));
    assert_eq!(venue.kept, kept);
    assert!(take(&mut venue, Event::DayEnd { price: 100_000 }));
    assert_eq!(venue.kept, []);
}
