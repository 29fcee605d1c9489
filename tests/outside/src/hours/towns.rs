//! Towns for hours: small ones, whose trips can all be tried; wide ones, whose places fill blocks of kind 9
//! to the last entry or one more; and the longest files of both forms.

use crate::draft::NetworkDraft;
use crate::generate::hours::{hours, Hours};
use crate::generate::{town, Size};
use crate::rng::Rng;
use crate::towns::{draft, Road};

/// What a case of the series is about, by its number.
#[derive(Clone, Copy, PartialEq, Eq)]
pub enum Extent {
    Small,
    Wide,
    /// As many places, roads and points as there may be.
    Longest,
}

pub fn extent(number: u64) -> Extent {
    match number % 32 {
        3 if number % 128 == 3 => Extent::Longest,
        1 | 9 | 17 | 25 => Extent::Wide,
        _ => Extent::Small,
    }
}

pub fn hall_town(rng: &mut Rng, number: u64) -> NetworkDraft {
    let mut draft = match extent(number) {
        Extent::Small if number.is_multiple_of(8) => town(rng, Size::Tiny),
        Extent::Small => town(rng, Size::Small),
        Extent::Wide => wide(rng),
        Extent::Longest => longest(),
    };
    let (period, nodes) = (draft.header.period as usize, draft.header.nodes as usize);
    if number % 4 == 2 {
        draft.drop_hours();
    } else {
        draft.hold_hours(&hours(rng, period, nodes));
    }
    draft
}

/// Few roads, and so many places that blocks of 83 or 250 are full, or nearly.
fn wide(rng: &mut Rng) -> NetworkDraft {
    let places = rng.pick(&[82, 83, 84, 165, 166, 167, 249, 250, 251, 332, 333, 498, 499, 511, 512]);
    let short = rng.within(1, 9) as u16;
    let period = rng.pick(&[short, short, 255, 256, 257, 300, 2_880]);
    let travel = rng.within(1, usize::from(period)) as u16;
    let roads: Vec<Road> =
        (1..20).map(|road| (road - 1, if road == 19 { places as u16 - 1 } else { road }, vec![(0, travel)])).collect();
    draft(period, 1, &vec![0; places], &roads)
}

/// 512 places, 2,048 roads and 65,535 points: 554 blocks without hours, 558 with.
fn longest() -> NetworkDraft {
    let points = |count: u16| (0..count).map(|tick| (tick, 1)).collect::<Vec<_>>();
    let roads: Vec<Road> =
        (0..2_048).map(|road| (road % 512, (road + 1) % 512, points(if road == 0 { 31 } else { 32 }))).collect();
    draft(32, 1, &[0; 512], &roads)
}

/// Hours for a town made on purpose, by its number.
pub fn some_hours(number: u64, draft: &NetworkDraft) -> Vec<Hours> {
    hours(&mut Rng::new(6, number), draft.header.period as usize, draft.header.nodes as usize)
}

/// Other hours for a town, or none: nothing but open, pack and the open tick may change.
pub fn with_other_hours(rng: &mut Rng, draft: &NetworkDraft) -> NetworkDraft {
    let mut other = draft.clone();
    if draft.header.hours == 1 && rng.once_in(2) {
        other.drop_hours();
    } else {
        let others: Vec<Hours> = hours(rng, draft.header.period as usize, draft.header.nodes as usize);
        other.hold_hours(&others);
    }
    other
}
