//! Towns for whole days: small ones of every shape, with and without hours, and some as large as there may
//! be.

use crate::draft::NetworkDraft;
use crate::generate::{town, Size};
use crate::rng::Rng;
use crate::towns::{draft, Road};

pub fn day_town(rng: &mut Rng, number: u64) -> NetworkDraft {
    match number % 32 {
        0 | 8 | 16 => town(rng, Size::Tiny),
        // A day of all ticks and many roads.
        31 if number % 64 == 63 => town(rng, Size::Large),
        5 | 21 => town(rng, Size::Medium),
        15 => far(),
        _ => town(rng, Size::Small),
    }
}

/// 25 roads of a whole day, one behind the other: arrivals pass 16 bits.
fn far() -> NetworkDraft {
    let roads: Vec<Road> = (0..25).map(|place| (place, place + 1, vec![(0, 2_880)])).collect();
    draft(2_880, 1, &[0; 26], &roads)
}
