//! Document 02's wish 7: the arrival for every leaving tick, and what a call leaves. The wish works it out
//! backwards in one go; here each tick is a plain trip of its own.

use super::make_plan::work_entries;
use super::network::Network;
use super::trips::least_arrivals;
use super::{refuse, Refusal};

/// How many entries the lent lists have.
#[derive(Clone, Copy, Debug, PartialEq, Eq)]
pub struct DayLengths {
    pub work: usize,
    pub list: usize,
}

/// From and to.
pub type Pair = (u32, u32);

/// A call's answer, and how many of the first work entries end as zero (none: the list is untouched).
pub struct DayCall {
    pub answer: Result<Vec<u32>, Refusal>,
    pub zeroed: usize,
}

/// "Work list as in 34, then list below P as 31; both after 25, before 28". "Past them the work list ends as
/// the planner's does", and "the list is untouched by a refusal, 'no way' included". `day` gives the arrivals
/// of a pair of places, none where there is no way; it is asked for only past 31.
pub fn day_sheet(
    network: &Network,
    pair: Pair,
    lengths: DayLengths,
    day: impl Fn(usize, usize) -> Option<Vec<u32>>,
) -> DayCall {
    if let Err(refusal) = judge_call(network, pair, lengths) {
        return DayCall { answer: Err(refusal), zeroed: 0 };
    }
    let answer = day(pair.0 as usize, pair.1 as usize).map_or(refuse(28, 0), Ok);
    DayCall { answer, zeroed: work_entries(network) }
}

fn judge_call(network: &Network, pair: Pair, lengths: DayLengths) -> Result<(), Refusal> {
    for node in [pair.0, pair.1] {
        if node >= network.header.nodes {
            return refuse(25, node as usize);
        }
    }
    if lengths.work < work_entries(network) {
        return refuse(34, 0);
    }
    if lengths.list < network.header.period as usize {
        return refuse(31, 0);
    }
    Ok(())
}

/// "Each entry equals the plain trip's arrival at that tick".
pub fn by_trips(network: &Network, from: usize, to: usize) -> Option<Vec<u32>> {
    let all = vec![true; network.arcs.len()];
    let arrival = |tick| least_arrivals(network, &all, from, u64::from(tick))[to].map(|tick| tick as u32);
    (0..network.header.period).map(arrival).collect()
}
