//! The call itself: the files are opened by the reference, and the answer is written as the C interface says.

use super::errors::{Answer, Finds};
use super::walk::Walk;
use super::{order, Planted, PLANTED};
use crate::library::CHECK_ANSWER;
use crate::reference::check::judge_rule_a;
use crate::reference::finds::find_bounds;
use crate::reference::network::{self, Network};
use crate::reference::plan::{self, Plan};
use crate::reference::Refusal;
use std::cell::Cell;

thread_local! {
    /// The finds of the call before, for an error to add.
    static BEFORE: Cell<u64> = const { Cell::new(0) };
}

/// The C function's place is taken by this one.
///
/// # Safety
/// Each pointer leads to as many entries as its count says, and planted errors write a few entries beyond.
pub unsafe extern "C" fn check_plan(
    network: *const u8,
    network_length: usize,
    plan: *const u8,
    plan_length: usize,
    answer: *mut u32,
    answer_length: usize,
) -> u32 {
    let planted = PLANTED.get();
    let needed = match () {
        _ if planted.has(Answer::FourAreEnough) => 4,
        _ if planted.has(Answer::ThreeAreEnough) => 3,
        _ => CHECK_ANSWER,
    };
    // SAFETY: as the caller says.
    unsafe {
        if answer_length < needed {
            if answer_length > 0 && planted.has(Answer::ShortOneWritten) {
                answer.write(0);
            }
            return 31;
        }
        let network = std::slice::from_raw_parts(network, network_length);
        let plan = std::slice::from_raw_parts(plan, plan_length);
        let (refused, finds) = checked(planted, network, plan);
        let places = refused.map_or([0; 3], |refusal| refusal.places);
        let words = places.into_iter().chain(told(planted, finds));
        for (place, word) in words.enumerate().take(answer_length) {
            answer.add(place).write(word);
        }
        if answer_length > CHECK_ANSWER && planted.has(Answer::ClearedBehind) {
            answer.add(CHECK_ANSWER).write(0);
        }
        refused.map_or(0, |refusal| refusal.number)
    }
}

/// The count's two words.
fn told(planted: Planted, finds: u64) -> Vec<u32> {
    let (low, high) = (finds as u32, (finds >> 32) as u32);
    match () {
        _ if planted.has(Finds::WordsExchanged) => vec![high, low],
        _ if planted.has(Finds::LowWordAlone) => vec![low],
        _ if planted.has(Finds::HighWordOfTheLow) => vec![low, low >> 1],
        _ => vec![low, high],
    }
}

fn checked(planted: Planted, network: &[u8], plan: &[u8]) -> (Option<Refusal>, u64) {
    let opened = network::open(network).and_then(|network| Ok((plan::open(&network, plan)?, network)));
    let (plan, network) = match opened {
        Ok(opened) => opened,
        Err(refusal) => return (Some(refusal), 0),
    };
    if let Err(refusal) = judge_rule_a(&network, &plan) {
        return (Some(refusal), u64::from(planted.has(Finds::ToldOnRefusal20)));
    }
    let walk = Walk::through(planted, &network, &plan);
    let finds = counted(planted, &network, &plan, &walk.finds);
    (order::told(planted, &walk.failures), finds)
}

fn counted(planted: Planted, network: &Network, plan: &Plan, by_border: &[u64]) -> u64 {
    let finds: u64 = by_border.iter().sum();
    let bounds = find_bounds(network, plan);
    let each_tick = u64::from(network.header.period) * (plan.profiles.len() + network.arcs.len()) as u64;
    match () {
        _ if planted.has(Finds::None) => 0,
        _ if planted.has(Finds::AtEveryTick) => each_tick,
        _ if planted.has(Finds::ForEachTestAndOneMore) => bounds.all_tests() + 1,
        _ if planted.has(Finds::OfTheLastBorder) => by_border.last().copied().unwrap_or(0),
        _ if planted.has(Finds::OneTooFew) => bounds.least.saturating_sub(1),
        _ if planted.has(Finds::OfTheCallBeforeToo) => finds + BEFORE.replace(finds),
        _ => finds,
    }
}
