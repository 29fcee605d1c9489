//! Quay town of document 01: its rows, answered by both contestants. Nothing here is timed.
use crate::agree;
use crate::files::{self, Files};
use crate::plain::trips::Ask;
use crate::plain::Refusal;
use crate::town::{self, Town};

pub fn quay_town() -> Town {
    Town {
        number: 1,
        period: 10,
        cell_count: 2,
        hours: false,
        cells: vec![0, 0, 1, 1],
        opens: vec![0; 4],
        closes: vec![10; 4],
        tails: vec![0, 1, 0, 2],
        heads: vec![1, 2, 2, 3],
        counts: vec![1, 2, 1, 1],
        ticks: vec![0, 0, 5, 0, 0],
        travels: vec![2, 3, 7, 6, 1],
    }
}

fn ask(from: u32, to: u32, departure: u32) -> Ask {
    Ask { from, to, departure }
}

/// Arrival and roads of a plain trip, the flagged one's arrival being the same.
fn trip(files: &Files, ask: &Ask) -> Result<(u32, Vec<u16>), u32> {
    let (outcome, _, roads) = agree::plain_trips(&files.network, ask);
    let flagged = agree::flagged_trips(&files.network, &files.plan, ask).0;
    assert_eq!(outcome.map(|arrived| arrived.tick), flagged.map(|arrived| arrived.tick));
    match outcome {
        Ok(arrived) => Ok((arrived.tick, roads[..arrived.count].to_vec())),
        Err(refusal) => Err(refusal.number),
    }
}

#[test]
fn trips_are_those_of_the_document() {
    let files = files::make(&quay_town());
    assert_eq!(files.network.len(), 2048);
    assert_eq!(files.plan.len(), 2048);
    assert_eq!(trip(&files, &ask(0, 3, 0)), Ok((7, vec![2, 3])));
    assert_eq!(trip(&files, &ask(0, 3, 1)), Ok((8, vec![2, 3])));
    assert_eq!(trip(&files, &ask(0, 3, 7)), Ok((14, vec![2, 3])));
    assert_eq!(trip(&files, &ask(0, 3, 8)), Ok((14, vec![0, 1, 3])));
    assert_eq!(trip(&files, &ask(3, 0, 0)), Err(28));
    assert_eq!(trip(&files, &ask(3, 3, 4)), Ok((4, vec![])));
    assert_eq!(trip(&files, &ask(4, 0, 0)), Err(25));
    assert_eq!(trip(&files, &ask(0, 0, 10)), Err(26));
}

/// A plan with the flags of some arcs set to other words.
fn verdict(change: impl FnOnce(&mut [u8])) -> Result<(), Refusal> {
    let mut files = files::make(&quay_town());
    change(&mut files.plan);
    for block in 0..4 {
        agree::mend(&mut files.plan, block);
    }
    agree::checks(&files.network, &files.plan)
}

fn refused(number: u32, places: [u32; 3]) -> Result<(), Refusal> {
    Err(Refusal { number, places })
}

/// The flag words, and the travel of a profile's point, as the file of four blocks holds them.
fn set_flags(plan: &mut [u8], flags: [u8; 4]) {
    for (a, word) in flags.into_iter().enumerate() {
        plan[512 + 8 + 8 * a] = word;
    }
}

#[test]
fn verdicts_are_those_of_the_document() {
    assert_eq!(verdict(|_| ()), Ok(()));
    assert_eq!(verdict(|plan| set_flags(plan, [3, 2, 2, 2])), Ok(()));
    assert_eq!(verdict(|plan| set_flags(plan, [1, 2, 2, 2])), refused(24, [0, 0, 8]));
    assert_eq!(verdict(|plan| set_flags(plan, [3, 2, 0, 2])), refused(24, [0, 0, 0]));
    assert_eq!(verdict(|plan| plan[3 * 512 + 10] = 5), refused(23, [0, 0, 0]));
    assert_eq!(verdict(|plan| plan[3 * 512 + 10] = 7), refused(22, [0, 0, 0]));
}

#[test]
fn contestants_agree_on_the_medium_town() {
    let town = town::make(&town::MEDIUM);
    let files = files::make(&town);
    agree::on_tables(&town, &files);
    let asks: Vec<Ask> = (0..20).map(|k| ask(k * 5 % 100, k * 37 % 100, k * 143)).collect();
    agree::on_trips(&files, &asks);
    agree::on_damaged_files(&files, &asks, 300);
    agree::on_hours(&town, &files, &asks, 300);
}
