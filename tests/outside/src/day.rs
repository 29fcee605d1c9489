//! Wish 7's day sheet: a day's arrivals worked out in two ways, and a stand-in for the day sheet in which
//! errors are planted.

pub mod planted;
pub mod standin;
pub mod towns;

use crate::reference::day_sheet::by_trips;
use crate::reference::network::Network;
use crate::reference::trips::least_arrivals;
use std::cell::RefCell;

/// Larger days are worked out backwards and held to trips at some ticks.
const MOST_BY_TRIPS: usize = 40_000;

/// The arrivals of a pair of places, none where there is no way.
type Day = Option<Vec<u32>>;

/// A network's bytes, from, to, and the day.
type Known = (Vec<u8>, usize, usize, Day);

thread_local! {
    static LAST: RefCell<Option<Known>> = const { RefCell::new(None) };
}

/// The arrival at `to` for every tick of leaving `from`; `file` are the bytes that the network was opened
/// from.
pub fn whole_day(file: &[u8], network: &Network, from: usize, to: usize) -> Day {
    let is_known = |known: &&Known| known.1 == from && known.2 == to && known.0 == file;
    if let Some(day) = LAST.with_borrow(|last| last.as_ref().filter(is_known).map(|known| known.3.clone())) {
        return day;
    }
    let travels = network.header.period as usize * (network.arcs.len() + network.nodes());
    let day = if travels <= MOST_BY_TRIPS { by_trips(network, from, to) } else { held_to_trips(network, from, to) };
    LAST.set(Some((file.to_vec(), from, to, day.clone())));
    day
}

/// Backwards, and then the same as plain trips at the day's ends and at some ticks between.
fn held_to_trips(network: &Network, from: usize, to: usize) -> Day {
    let day = backwards(network, to).into_iter().nth(from)?;
    let all = vec![true; network.arcs.len()];
    let period = network.header.period as usize;
    for tick in (0..24).map(|part| part * (period - 1) / 23) {
        let arrival = least_arrivals(network, &all, from, tick as u64)[to].map(|tick| tick as u32);
        let backwards = day.as_ref().map(|day| day[tick]);
        assert_eq!(arrival, backwards, "the reference's trip from {from} to {to} at {tick}, and backwards");
    }
    day
}

/// From every node, the arrivals at `to` for every tick of leaving: lowered until no arc gives less.
pub fn backwards(network: &Network, to: usize) -> Vec<Day> {
    let period = network.header.period as usize;
    let day_of = |arc| (0..period).map(|tick| network.arc_travel(arc, tick as u64) as u32).collect();
    let travels: Vec<Vec<u32>> = (0..network.arcs.len()).map(day_of).collect();
    let mut days: Vec<Day> = vec![None; network.nodes()];
    days[to] = Some((0..period as u32).collect());
    let mut into = vec![Vec::new(); network.nodes()];
    for (number, arc) in network.arcs.iter().enumerate() {
        into[arc.to].push(number);
    }
    let mut lowered = std::collections::VecDeque::from([to]);
    while let Some(node) = lowered.pop_front() {
        for &arc in &into[node] {
            let tail = network.arcs[arc].from;
            let given = after(days[node].as_ref().expect("a node in the queue has a day"), &travels[arc]);
            if lower(&mut days[tail], given) && !lowered.contains(&tail) {
                lowered.push_back(tail);
            }
        }
    }
    days
}

/// An arc of these travels, and then the rest of the way from its head's day.
fn after(day: &[u32], travels: &[u32]) -> Vec<u32> {
    let period = day.len();
    let arrival = |(tick, &travel): (usize, &u32)| {
        let end = tick + travel as usize;
        day[end % period] + (end - end % period) as u32
    };
    travels.iter().enumerate().map(arrival).collect()
}

/// Lowers a day's arrivals to those given; whether any fell.
fn lower(day: &mut Day, given: Vec<u32>) -> bool {
    let Some(day) = day else {
        *day = Some(given);
        return true;
    };
    let mut fell = false;
    for (arrival, given) in day.iter_mut().zip(given) {
        fell |= given < *arrival;
        *arrival = given.min(*arrival);
    }
    fell
}
