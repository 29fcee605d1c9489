//! Which of all failures is told.

use super::errors::Order;
use super::walk::Failure;
use super::Planted;
use crate::reference::Refusal;

/// "The lowest refusal number wins", then "the first border index, then place, then tick".
pub fn told(planted: Planted, failures: &[Failure]) -> Option<Refusal> {
    let failure = failures.iter().min_by_key(|failure| rank(planted, failure))?;
    let mut places = [failure.index as u32, failure.place as u32, failure.tick as u32];
    match () {
        _ if planted.has(Order::EndInPlaceOfStart) => places[1] = failure.ends.0 as u32,
        _ if planted.has(Order::BorderInPlaceOfIndex) => places[0] = failure.border as u32,
        _ if planted.has(Order::TickOfTheEnd) => places[2] = failure.ends.1 as u32,
        _ => {}
    }
    Some(Refusal { number: failure.number, places })
}

fn rank(planted: Planted, failure: &Failure) -> [u64; 4] {
    let Failure { index, place, tick, .. } = *failure;
    let (number, index, place) = (u64::from(failure.number), index as u64, place as u64);
    let last = |number: u64| u64::MAX - number;
    match () {
        _ if planted.has(Order::FirstPlaceWins) => [index, place, tick, number],
        _ if planted.has(Order::FirstBorderWins) => [index, number, place, tick],
        _ if planted.has(Order::FirstTickBeforePlace) => [number, index, tick, place],
        _ if planted.has(Order::FirstPlaceBeforeBorder) => [number, place, index, tick],
        _ if planted.has(Order::LastPlaceWins) => [number, last(index), last(place), last(tick)],
        _ if planted.has(Order::HighestNumberWins) => [last(number), index, place, tick],
        _ if planted.has(Order::LessLosesToNoRoad) => [if number == 22 { 25 } else { number }, index, place, tick],
        _ => [number, index, place, tick],
    }
}
