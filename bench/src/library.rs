//! The C library that is linked, behind safe functions: every call returns what it tells, or the refusal.
use crate::functions::{DayLists, TripLists, LINKED};
use crate::plain::network::{Header, Tables};
use crate::plain::pack::Lists;
use crate::plain::trips::{Arrived, Ask};
use crate::plain::Refusal;

/// A refusal with the places that an answer list holds, or what the call answers.
fn outcome<T>(number: u32, answer: &[u32], told: T) -> Result<T, Refusal> {
    match number {
        0 => Ok(told),
        _ => Err(Refusal { number, places: [answer[0], answer[1], answer[2]] }),
    }
}

/// What the trips with lists answer behind the places.
fn arrived(answer: &[u32; 6]) -> Arrived {
    Arrived { tick: answer[3], count: answer[4] as usize, open: answer[5] }
}

pub fn plain_trip(network: &[u8], out: &mut [u8], ask: &Ask) -> u32 {
    LINKED.plain_trip(network, ask, out)
}

pub fn flagged_trip(network: &[u8], plan: &[u8], out: &mut [u8], ask: &Ask) -> u32 {
    LINKED.flagged_trip(network, plan, ask, out)
}

pub fn plain_trip_lists(network: &[u8], ask: &Ask, arrivals: &mut [u32], roads: &mut [u16]) -> Result<Arrived, Refusal> {
    let mut answer = [0; 6];
    let lent = TripLists { arrivals, roads, answer: &mut answer };
    let number = LINKED.plain_trip_lists(network, ask, lent);
    outcome(number, &answer, arrived(&answer))
}

pub fn flagged_trip_lists(network: &[u8], plan: &[u8], ask: &Ask, arrivals: &mut [u32], roads: &mut [u16]) -> Result<Arrived, Refusal> {
    let mut answer = [0; 6];
    let lent = TripLists { arrivals, roads, answer: &mut answer };
    let number = LINKED.flagged_trip_lists(network, plan, ask, lent);
    outcome(number, &answer, arrived(&answer))
}

/// The verdict, and how many finds the check made.
pub fn check_plan(network: &[u8], plan: &[u8]) -> (Result<(), Refusal>, u64) {
    let mut answer = [0; 5];
    let number = LINKED.check_plan(network, plan, &mut answer);
    (outcome(number, &answer, ()), finds(&answer))
}

/// The finds in a check's answer: the low word stands behind the places, and the high one behind it.
pub fn finds(answer: &[u32]) -> u64 {
    answer[3] as u64 | (answer[4] as u64) << 32
}

pub fn open(network: &[u8], tables: Tables) -> Result<Header, Refusal> {
    let mut answer = [0; 10];
    let refusal = LINKED.open(network, tables, &mut answer);
    let [_, _, _, number, period, nodes, arcs, cells, points, hours] = answer;
    outcome(refusal, &answer, Header { number, period, nodes, arcs, cells, points, hours })
}

pub fn pack(header: &Header, lists: &Lists, out: &mut [u8]) -> Result<usize, Refusal> {
    let mut answer = [0; 4];
    let number = LINKED.pack(header, lists, out, &mut answer);
    outcome(number, &answer, answer[3] as usize)
}

pub fn import(text: &[u8], number: u32, out: &mut [u8]) -> Result<usize, Refusal> {
    let mut answer = [0; 4];
    let refusal = LINKED.import(text, number, out, &mut answer);
    outcome(refusal, &answer, answer[3] as usize)
}

pub fn day_sheet(network: &[u8], from: u32, to: u32, work: &mut [u32], list: &mut [u32]) -> Result<usize, Refusal> {
    let mut answer = [0; 4];
    let number = LINKED.day_sheet(network, from, to, DayLists { work, list, answer: &mut answer });
    outcome(number, &answer, answer[3] as usize)
}
