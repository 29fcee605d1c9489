//! Hours of a town's places: all day, one tick, up to the day's end or from its start, or anything between.

use crate::rng::Rng;

/// A place's open tick and its close tick.
pub type Hours = (u16, u16);

/// Hours for so many nodes, all of one fashion or each of its own.
pub fn hours(rng: &mut Rng, period: usize, nodes: usize) -> Vec<Hours> {
    let fashion = rng.below(FASHIONS + 4);
    (0..nodes)
        .map(|_| {
            let own = rng.below(FASHIONS);
            one(rng, period, if fashion < FASHIONS { fashion } else { own })
        })
        .collect()
}

const FASHIONS: usize = 8;

fn one(rng: &mut Rng, period: usize, fashion: usize) -> Hours {
    let open = rng.below(period);
    let close = rng.within(open + 1, period);
    let (open, close) = match fashion {
        0 => (0, period),
        1 => (open, open + 1),
        2 => (period - 1, period),
        3 => (0, 1),
        4 => (0, close),
        5 => (open, period),
        _ => (open, close),
    };
    (open as u16, close as u16)
}
