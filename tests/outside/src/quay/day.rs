//! Quay town's days by hand: for every pair of places the arrivals at all ten ticks.

use super::{drafts, expect, input, way_at};
use crate::compare::{compare, compare_day_sheet, DaySheetCall};
use crate::day::whole_day;
use crate::library::LINKED;
use crate::reference::day_sheet::DayLengths;
use crate::reference::trips::TripCall;
use crate::reference::Refusal;

/// From 0 to 3: road 2 and road 3 take 7, but for tick 8, where roads 0, 1 and 3 take 6.
const FROM_0_TO_3: [u32; 10] = [7, 8, 9, 10, 11, 12, 13, 14, 14, 16];

pub fn days(failures: &mut Vec<String>) {
    let input = input(&drafts(), TripCall { from: 0, to: 3, departure: 0 });
    let verdict = compare(&input);
    failures.extend(verdict.differences.clone());
    let network = verdict.opened.as_ref().expect("Quay town opens");
    let day = |from: u32, to: u32| whole_day(&input.network, network, from as usize, to as usize);
    expect(failures, "the day from 0 to 3", day(0, 3), Some(FROM_0_TO_3.to_vec()));
    for (from, to) in (0..4).flat_map(|from| (0..4).map(move |to| (from, to))) {
        let by_hand: Option<Vec<u32>> =
            (0..10).map(|tick| way_at(from, to, tick).map(|(travel, _)| tick as u32 + travel)).collect();
        expect(failures, &format!("the day from {from} to {to}"), day(from, to), by_hand.clone());
        let call = DaySheetCall { pair: (from, to), lengths: DayLengths { work: 41, list: 11 }, answer: 5 };
        let (refused, differences) = compare_day_sheet(LINKED, &input, &verdict, call);
        failures.extend(differences);
        let no_way = Refusal { number: 28, places: [0; 3] };
        expect(failures, &format!("the day sheet from {from} to {to}"), refused, by_hand.is_none().then_some(no_way));
    }
}
