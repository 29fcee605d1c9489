//! Faults in a call's numbers and in the lengths of lent lists: refusals 25 to 31 and 34, and pack's 4 and
//! 37.

use super::Intended::{Any, Gives};
use super::{call, Fault, Kind};
use crate::case::Case;
use crate::library::*;
use crate::reference::network::TABLES;
use crate::reference::trips::least_arrivals;
use crate::rng::Rng;

pub fn kinds() -> Vec<Kind> {
    vec![
        Kind { name: "from at N or beyond", intended: Gives(FLAGGED_LISTS, &[25]), make: from_beyond },
        Kind { name: "to at N or beyond", intended: Gives(FLAGGED_LISTS, &[25]), make: to_beyond },
        Kind { name: "departure at P or beyond", intended: Gives(FLAGGED_LISTS, &[26]), make: departure_beyond },
        Kind { name: "arrival list too short", intended: Gives(FLAGGED_LISTS, &[27]), make: arrivals_short },
        Kind { name: "no way", intended: Gives(FLAGGED_LISTS, &[28]), make: no_way },
        Kind { name: "road list too short", intended: Gives(PLAIN_LISTS, &[29]), make: roads_short },
        Kind { name: "road list just long enough", intended: Gives(PLAIN_LISTS, &[0]), make: roads_just_enough },
        Kind { name: "flagged road list short", intended: Gives(FLAGGED_LISTS, &[29]), make: flagged_short },
        Kind { name: "flagged road list enough", intended: Gives(FLAGGED_LISTS, &[0]), make: flagged_enough },
        Kind { name: "road list empty", intended: Any, make: roads_empty },
        Kind { name: "open's table too short", intended: Gives(OPEN, &[30]), make: open_table_short },
        Kind { name: "pack's table too short", intended: Gives(PACK, &[30]), make: pack_table_short },
        Kind { name: "pack's out-bytes too short", intended: Gives(PACK, &[31]), make: out_short },
        Kind { name: "pack's number outside its limit", intended: Gives(PACK, &[4]), make: pack_outside },
        Kind { name: "pack's number one off", intended: Any, make: pack_one_off },
        Kind { name: "hours packed under 0", intended: Gives(PACK, &[37]), make: hours_under_0 },
        Kind { name: "all day packed under 1", intended: Gives(PACK, &[0, 31]), make: all_day_under_1 },
        Kind { name: "trip's answer below 1,032 bytes", intended: Gives(PLAIN, &[31]), make: trip_answer_short },
        Kind { name: "lists' answer too short", intended: Gives(PLAIN_LISTS, &[31]), make: lists_answer_short },
        Kind { name: "check's answer too short", intended: Gives(CHECK, &[31]), make: check_answer_short },
        Kind { name: "open's answer too short", intended: Gives(OPEN, &[31]), make: open_answer_short },
        Kind { name: "pack's answer too short", intended: Gives(PACK, &[31]), make: pack_answer_short },
        Kind { name: "work list too short", intended: Gives(MAKE, &[34]), make: work_short },
        Kind { name: "day's work list too short", intended: Any, make: day_work_short },
        Kind { name: "day's list too short", intended: Any, make: day_list_short },
        Kind { name: "day's answer too short", intended: Any, make: day_answer_short },
        Kind { name: "planner's out-bytes too short", intended: Gives(MAKE, &[31]), make: make_out_short },
        Kind { name: "planner's lists just enough", intended: Gives(MAKE, &[0]), make: make_just_enough },
        Kind { name: "planner's answer too short", intended: Gives(MAKE, &[31]), make: make_answer_short },
    ]
}

/// A number at a limit or beyond it; one that only its low 16 bits would let pass too.
fn beyond(rng: &mut Rng, limit: u32, good: u32) -> u32 {
    rng.pick(&[limit, limit + 1, good + 65_536, good | 0x8000_0000, u32::MAX])
}

/// One too few, or none.
fn too_few(rng: &mut Rng, needed: usize) -> usize {
    rng.pick(&[needed - 1, needed - 1, 0, needed / 2])
}

fn from_beyond(rng: &mut Rng, case: &Case) -> Option<Fault> {
    let from = beyond(rng, case.network.header.nodes, case.call.from);
    call(move |input| input.call.from = from)
}

fn to_beyond(rng: &mut Rng, case: &Case) -> Option<Fault> {
    let to = beyond(rng, case.network.header.nodes, case.call.to);
    call(move |input| input.call.to = to)
}

fn departure_beyond(rng: &mut Rng, case: &Case) -> Option<Fault> {
    let departure = beyond(rng, case.network.header.period, case.call.departure);
    call(move |input| input.call.departure = departure)
}

fn arrivals_short(rng: &mut Rng, case: &Case) -> Option<Fault> {
    let length = too_few(rng, case.network.nodes());
    call(move |input| input.lengths.arrivals = length)
}

/// Another pair of nodes, with no way between them.
fn no_way(rng: &mut Rng, case: &Case) -> Option<Fault> {
    let all = vec![true; case.network.arcs.len()];
    let from = rng.below(case.network.nodes());
    let labels = least_arrivals(&case.network, &all, from, 0);
    let cut_off: Vec<usize> = (0..labels.len()).filter(|&node| labels[node].is_none()).collect();
    (!cut_off.is_empty()).then_some(())?;
    let to = rng.pick(&cut_off);
    call(move |input| {
        input.call.from = from as u32;
        input.call.to = to as u32;
    })
}

fn roads_short(rng: &mut Rng, case: &Case) -> Option<Fault> {
    (case.roads > 0).then_some(())?;
    let length = too_few(rng, case.roads);
    call(move |input| input.lengths.roads = length)
}

fn roads_just_enough(_rng: &mut Rng, case: &Case) -> Option<Fault> {
    let length = case.roads;
    call(move |input| input.lengths.roads = length)
}

fn flagged_short(rng: &mut Rng, case: &Case) -> Option<Fault> {
    (case.flagged_roads > 0).then_some(())?;
    let length = too_few(rng, case.flagged_roads);
    call(move |input| input.lengths.roads = length)
}

fn flagged_enough(_rng: &mut Rng, case: &Case) -> Option<Fault> {
    let length = case.flagged_roads;
    call(move |input| input.lengths.roads = length)
}

fn roads_empty(_rng: &mut Rng, _case: &Case) -> Option<Fault> {
    call(|input| input.lengths.roads = 0)
}

fn some_table(rng: &mut Rng, case: &Case) -> Option<(usize, usize)> {
    let table = rng.below(TABLES);
    let needed = case.network.header.table_lengths()[table];
    (needed > 0).then(|| (table, too_few(rng, needed)))
}

fn open_table_short(rng: &mut Rng, case: &Case) -> Option<Fault> {
    let (table, length) = some_table(rng, case)?;
    call(move |input| input.lengths.open_tables[table] = length)
}

fn pack_table_short(rng: &mut Rng, case: &Case) -> Option<Fault> {
    let (table, length) = some_table(rng, case)?;
    call(move |input| input.lengths.pack_tables[table] = length)
}

fn out_short(rng: &mut Rng, case: &Case) -> Option<Fault> {
    let length = too_few(rng, case.drafts.network.file().len());
    call(move |input| input.lengths.pack_out = length)
}

fn pack_outside(rng: &mut Rng, case: &Case) -> Option<Fault> {
    let choice = rng.below(6);
    let header = case.network.header;
    let zero = rng.once_in(3);
    let (limit, good) = match choice {
        0 => (2_881, header.period),
        1 => (513, header.nodes),
        2 => (2_049, header.arcs),
        3 => (65, header.cells),
        4 => (2, header.hours),
        _ => (65_536, header.points),
    };
    let number = if zero && [0, 1, 3].contains(&choice) { 0 } else { beyond(rng, limit, good) };
    call(move |input| {
        let pack = &mut input.pack;
        match choice {
            0 => pack.period = number,
            1 => pack.nodes = number,
            2 => pack.arcs = number,
            3 => pack.cells = number,
            4 => pack.hours = number,
            _ => pack.points = number,
        }
    })
}

fn pack_one_off(rng: &mut Rng, _case: &Case) -> Option<Fault> {
    let choice = rng.below(7);
    let up = rng.once_in(2);
    call(move |input| {
        let pack = &mut input.pack;
        let number = match choice {
            0 => &mut pack.number,
            1 => &mut pack.period,
            2 => &mut pack.nodes,
            3 => &mut pack.arcs,
            4 => &mut pack.cells,
            5 => &mut pack.hours,
            _ => &mut pack.points,
        };
        *number = if up { number.wrapping_add(1) } else { number.wrapping_sub(1) };
    })
}

/// Tables of a town with a place that is not open all day, and 0 for the hours.
fn hours_under_0(_rng: &mut Rng, case: &Case) -> Option<Fault> {
    let tables = &case.network.tables;
    let all_day = tables.opens.iter().all(|&open| open == 0)
        && tables.closes.iter().all(|&close| u32::from(close) == case.network.header.period);
    (!all_day).then_some(())?;
    call(|input| input.pack.hours = 0)
}

/// Tables of a town without hours, and 1 for the hours: the file may be longer.
fn all_day_under_1(_rng: &mut Rng, case: &Case) -> Option<Fault> {
    (case.network.header.hours == 0).then_some(())?;
    call(|input| input.pack.hours = 1)
}

fn trip_answer_short(rng: &mut Rng, _case: &Case) -> Option<Fault> {
    let length = rng.pick(&[TRIP_ANSWER_BYTES - 1, 10, 9, 0]);
    call(move |input| input.lengths.trip_answer = length)
}

fn lists_answer_short(rng: &mut Rng, _case: &Case) -> Option<Fault> {
    let length = rng.below(LISTS_ANSWER);
    call(move |input| input.lengths.lists_answer = length)
}

fn check_answer_short(rng: &mut Rng, _case: &Case) -> Option<Fault> {
    let length = rng.below(CHECK_ANSWER);
    call(move |input| input.lengths.check_answer = length)
}

fn open_answer_short(rng: &mut Rng, _case: &Case) -> Option<Fault> {
    let length = rng.below(OPEN_ANSWER);
    call(move |input| input.lengths.open_answer = length)
}

fn pack_answer_short(rng: &mut Rng, _case: &Case) -> Option<Fault> {
    let length = rng.below(PACK_ANSWER);
    call(move |input| input.lengths.pack_answer = length)
}

fn work_short(rng: &mut Rng, case: &Case) -> Option<Fault> {
    let length = too_few(rng, case.make_needs.work);
    call(move |input| input.lengths.make.work = length)
}

fn day_work_short(rng: &mut Rng, case: &Case) -> Option<Fault> {
    let length = too_few(rng, case.make_needs.work);
    call(move |input| input.lengths.day.work = length)
}

fn day_list_short(rng: &mut Rng, case: &Case) -> Option<Fault> {
    let length = too_few(rng, case.network.header.period as usize);
    call(move |input| input.lengths.day.list = length)
}

fn day_answer_short(rng: &mut Rng, _case: &Case) -> Option<Fault> {
    let length = rng.below(DAY_ANSWER);
    call(move |input| input.lengths.day_answer = length)
}

fn make_out_short(rng: &mut Rng, case: &Case) -> Option<Fault> {
    let length = too_few(rng, case.make_needs.out);
    call(move |input| input.lengths.make.out = length)
}

fn make_just_enough(_rng: &mut Rng, case: &Case) -> Option<Fault> {
    let needs = case.make_needs;
    call(move |input| input.lengths.make = needs)
}

fn make_answer_short(rng: &mut Rng, _case: &Case) -> Option<Fault> {
    let length = rng.below(MAKE_ANSWER);
    call(move |input| input.lengths.make_answer = length)
}
