//! The calls themselves, as the C interface has them.

use super::errors::{OpenTick, Opened, Packed, Plans, Trips};
use super::{file, trips, PLANTED};
use crate::day::standin::day_sheet;
use crate::library::{Functions, LISTS_ANSWER, OPEN_ANSWER, TRIP_ANSWER_BYTES};
use crate::made;
use crate::reference::finds::find_bounds;
use crate::reference::make_plan::{make_plan as made_call, MakeLengths};
use crate::reference::network::{self, Header, Tables};
use crate::reference::trips::{ListLengths, TripCall};
use crate::reference::{check, plan, refuse, Refusal};
use std::slice::{from_raw_parts, from_raw_parts_mut};

/// The stand-ins.
pub const FUNCTIONS: Functions = Functions {
    plain_trip,
    flagged_trip,
    check_plan,
    open_network,
    pack_network,
    plain_trip_lists,
    flagged_trip_lists,
    make_plan,
    day_sheet,
};

/// Writes three places and then numbers, and gives the number to return.
unsafe fn reply(answer: *mut u32, answer_length: usize, named: usize, told: Result<Vec<u32>, Refusal>) -> u32 {
    let mut words = vec![0; named];
    let returned = match told {
        Ok(numbers) => {
            words[3..].copy_from_slice(&numbers);
            0
        }
        Err(refusal) => {
            words[..3].copy_from_slice(&refusal.places);
            refusal.number
        }
    };
    // SAFETY: the answer has as many entries as its count says.
    let answer = unsafe { from_raw_parts_mut(answer, answer_length) };
    let written = named.min(answer_length);
    answer[..written].copy_from_slice(&words[..written]);
    returned
}

#[rustfmt::skip]
unsafe extern "C" fn open_network(
    network: *const u8, network_length: usize,
    cells: *mut u16, cells_length: usize,
    opens: *mut u16, opens_length: usize,
    closes: *mut u16, closes_length: usize,
    from: *mut u16, from_length: usize,
    to: *mut u16, to_length: usize,
    points: *mut u16, points_length: usize,
    ticks: *mut u16, ticks_length: usize,
    travels: *mut u16, travels_length: usize,
    answer: *mut u32, answer_length: usize,
) -> u32 {
    let planted = PLANTED.get();
    if answer_length < if planted.has(Opened::NineAreEnough) { OPEN_ANSWER - 1 } else { OPEN_ANSWER } {
        return 31;
    }
    // SAFETY: as the caller says.
    let (network, mut lent) = unsafe {
        let lent: [&mut [u16]; 8] = [
            from_raw_parts_mut(cells, cells_length),
            from_raw_parts_mut(opens, opens_length),
            from_raw_parts_mut(closes, closes_length),
            from_raw_parts_mut(from, from_length),
            from_raw_parts_mut(to, to_length),
            from_raw_parts_mut(points, points_length),
            from_raw_parts_mut(ticks, ticks_length),
            from_raw_parts_mut(travels, travels_length),
        ];
        (from_raw_parts(network, network_length), lent)
    };
    let told = file::open(planted, network).and_then(|opened| fill(&opened, &mut lent));
    if let (Err(Refusal { number: 37, .. }), true) = (&told, planted.has(Opened::WrittenOn37)) {
        let header = network::read_header(network);
        write_tables(&header, &network::read_tables(network), &mut lent);
    }
    let refused_under_1 = told.is_err() && network.get(24) == Some(&1);
    // SAFETY: as the caller says.
    unsafe {
        let returned = reply(answer, answer_length, OPEN_ANSWER, told);
        if refused_under_1 && planted.has(Opened::HoursToldOnRefusal) {
            answer.add(OPEN_ANSWER - 1).write(1);
        }
        returned
    }
}

/// Fills the tables of a file that opened, where they are long enough; the header's numbers.
fn fill(opened: &file::Opened, lent: &mut [&mut [u16]; 8]) -> Result<Vec<u32>, Refusal> {
    let planted = PLANTED.get();
    let (header, tables) = (opened.header, &opened.tables);
    let passes = |table: usize| match table {
        1 if planted.has(Opened::OpensShortPass) => true,
        2 if planted.has(Opened::ClosesShortPass) => true,
        1 | 2 => header.hours == 0 && planted.has(Opened::TablesUnder0NotLookedAt),
        _ => false,
    };
    let lengths = header.table_lengths();
    let short = (0..8).any(|table| lent[table].len() < lengths[table] && !passes(table));
    if !short || planted.has(Opened::WrittenOn30) {
        write_tables(&header, tables, lent);
    }
    if short {
        return refuse(30, 0);
    }
    let all_day = tables.opens.iter().all(|&open| open == 0)
        && tables.closes.iter().all(|&close| u32::from(close) == header.period);
    let hours = match () {
        _ if planted.has(Opened::HoursNotTold) => 0,
        _ if planted.has(Opened::HoursToldAs1) => 1,
        _ if planted.has(Opened::AllDayToldAs0) && all_day => 0,
        _ => header.hours,
    };
    Ok(vec![header.number, header.period, header.nodes, header.arcs, header.cells, header.points, hours])
}

fn write_tables(header: &Header, tables: &Tables, lent: &mut [&mut [u16]; 8]) {
    let planted = PLANTED.get();
    let mut tables = tables.clone();
    let under_0 = header.hours == 0;
    match () {
        _ if planted.has(Opened::OpensExchangedForCloses) => std::mem::swap(&mut tables.opens, &mut tables.closes),
        _ if planted.has(Opened::OpensUnder0Stay) && under_0 => tables.opens.clear(),
        _ if planted.has(Opened::ClosesUnder0Stay) && under_0 => tables.closes.clear(),
        _ if planted.has(Opened::ClosesUnder0Are2880) && under_0 => tables.closes.fill(2_880),
        _ if planted.has(Opened::ClosesUnder0Are0) && under_0 => tables.closes.fill(0),
        _ if planted.has(Opened::OpensOfTheNextPlace) => tables.opens.rotate_left(1),
        _ if planted.has(Opened::ClearedBehind) => tables.closes.push(0),
        _ => {}
    }
    for (table, lent) in tables.in_order().into_iter().zip(lent) {
        let written = table.len().min(lent.len());
        lent[..written].copy_from_slice(&table[..written]);
    }
}

#[rustfmt::skip]
unsafe extern "C" fn pack_network(
    number: u32, period: u32, nodes: u32, arcs: u32, cell_count: u32, point_count: u32, hours: u32,
    cells: *const u16, cells_length: usize,
    opens: *const u16, opens_length: usize,
    closes: *const u16, closes_length: usize,
    from: *const u16, from_length: usize,
    to: *const u16, to_length: usize,
    points: *const u16, points_length: usize,
    ticks: *const u16, ticks_length: usize,
    travels: *const u16, travels_length: usize,
    out: *mut u8, out_length: usize,
    answer: *mut u32, answer_length: usize,
) -> u32 {
    let planted = PLANTED.get();
    if answer_length < 4 {
        return 31;
    }
    // SAFETY: as the caller says.
    let tables = unsafe {
        Tables {
            cells: from_raw_parts(cells, cells_length).to_vec(),
            opens: from_raw_parts(opens, opens_length).to_vec(),
            closes: from_raw_parts(closes, closes_length).to_vec(),
            from: from_raw_parts(from, from_length).to_vec(),
            to: from_raw_parts(to, to_length).to_vec(),
            counts: from_raw_parts(points, points_length).to_vec(),
            ticks: from_raw_parts(ticks, ticks_length).to_vec(),
            travels: from_raw_parts(travels, travels_length).to_vec(),
        }
    };
    let header = Header { number, period, nodes, arcs, cells: cell_count, points: point_count, hours };
    let packed = file::pack(planted, &header, &tables, out_length);
    // SAFETY: as the caller says.
    unsafe {
        let out = from_raw_parts_mut(out, out_length);
        match &packed {
            Ok(file) => out[..file.len()].copy_from_slice(file),
            Err(Refusal { number: 37, .. }) if planted.has(Packed::WrittenOn37) && out_length > 0 => out[0] ^= 1,
            Err(_) => {}
        }
        reply(answer, answer_length, 4, packed.map(|file| vec![file.len() as u32]))
    }
}

unsafe fn c_trip(network: &[u8], plan: Option<&[u8]>, answer: *mut u8, answer_length: usize, call: TripCall) -> u32 {
    let planted = PLANTED.get();
    if answer_length < TRIP_ANSWER_BYTES {
        return 31;
    }
    let told = trips::trip(planted, network, plan, call, ListLengths { arrivals: 512, roads: 511 });
    let (refusal, tick, roads) = match told.trip.answer {
        Ok(arrived) if planted.has(Trips::ArrivalIsTheOpenTickInC) => (0, arrived.open, arrived.roads),
        Ok(arrived) => (0, arrived.tick, arrived.roads),
        Err(refusal) => (refusal.number, 0, Vec::new()),
    };
    let mut bytes = refusal.to_le_bytes().to_vec();
    bytes.extend_from_slice(&tick.to_le_bytes());
    bytes.extend_from_slice(&(roads.len() as u16).to_le_bytes());
    bytes.extend(roads.iter().flat_map(|road| road.to_le_bytes()));
    // SAFETY: as the caller says.
    let answer = unsafe { from_raw_parts_mut(answer, answer_length) };
    answer[..bytes.len()].copy_from_slice(&bytes);
    refusal
}

#[rustfmt::skip]
unsafe extern "C" fn plain_trip(
    network: *const u8, network_length: usize,
    answer: *mut u8, answer_length: usize,
    from: u32, to: u32, departure: u32,
) -> u32 {
    // SAFETY: as the caller says.
    unsafe {
        let network = from_raw_parts(network, network_length);
        c_trip(network, None, answer, answer_length, TripCall { from, to, departure })
    }
}

#[rustfmt::skip]
unsafe extern "C" fn flagged_trip(
    network: *const u8, network_length: usize,
    plan: *const u8, plan_length: usize,
    answer: *mut u8, answer_length: usize,
    from: u32, to: u32, departure: u32,
) -> u32 {
    // SAFETY: as the caller says.
    unsafe {
        let network = from_raw_parts(network, network_length);
        let plan = from_raw_parts(plan, plan_length);
        c_trip(network, Some(plan), answer, answer_length, TripCall { from, to, departure })
    }
}

/// The lists and the answer that a trip is lent.
struct Lists<'a> {
    arrivals: &'a mut [u32],
    roads: &'a mut [u16],
    answer: *mut u32,
    answer_length: usize,
}

unsafe fn trip_lists(network: &[u8], plan: Option<&[u8]>, call: TripCall, lists: Lists) -> u32 {
    let planted = PLANTED.get();
    if lists.answer_length < if planted.has(OpenTick::FiveAreEnough) { 5 } else { LISTS_ANSWER } {
        return 31;
    }
    let lengths = ListLengths { arrivals: lists.arrivals.len(), roads: lists.roads.len() };
    let told = trips::trip(planted, network, plan, call, lengths);
    lists.arrivals[..told.trip.arrivals.len()].copy_from_slice(&told.trip.arrivals);
    let refused = told.trip.answer.is_err();
    let hours = network.get(24).copied().unwrap_or_default();
    let numbers = told.trip.answer.map(|arrived| {
        lists.roads[..arrived.roads.len()].copy_from_slice(&arrived.roads);
        let count = arrived.roads.len() as u32;
        match () {
            _ if planted.has(OpenTick::ShownBeforeTheCount) => vec![arrived.tick, arrived.open, count],
            _ => vec![arrived.tick, count, arrived.open],
        }
    });
    // SAFETY: as the caller says.
    unsafe {
        let sixth = lists.answer.add(LISTS_ANSWER - 1);
        let before = if lists.answer_length < LISTS_ANSWER { 0 } else { sixth.read() };
        let returned = reply(lists.answer, lists.answer_length, LISTS_ANSWER, numbers);
        if refused && told.open != 0 && lists.answer_length >= LISTS_ANSWER {
            sixth.write(told.open);
        }
        if hours == 0 && planted.has(OpenTick::Under0NotWritten) && lists.answer_length >= LISTS_ANSWER {
            sixth.write(before);
        }
        if planted.has(OpenTick::WrittenBehind) && lists.answer_length > LISTS_ANSWER {
            sixth.add(1).write(told.open);
        }
        returned
    }
}

#[rustfmt::skip]
unsafe extern "C" fn plain_trip_lists(
    network: *const u8, network_length: usize,
    from: u32, to: u32, departure: u32,
    arrivals: *mut u32, arrivals_length: usize,
    roads: *mut u16, roads_length: usize,
    answer: *mut u32, answer_length: usize,
) -> u32 {
    // SAFETY: as the caller says.
    unsafe {
        let network = from_raw_parts(network, network_length);
        let arrivals = from_raw_parts_mut(arrivals, arrivals_length);
        let roads = from_raw_parts_mut(roads, roads_length);
        trip_lists(network, None, TripCall { from, to, departure }, Lists { arrivals, roads, answer, answer_length })
    }
}

#[rustfmt::skip]
unsafe extern "C" fn flagged_trip_lists(
    network: *const u8, network_length: usize,
    plan: *const u8, plan_length: usize,
    from: u32, to: u32, departure: u32,
    arrivals: *mut u32, arrivals_length: usize,
    roads: *mut u16, roads_length: usize,
    answer: *mut u32, answer_length: usize,
) -> u32 {
    // SAFETY: as the caller says.
    unsafe {
        let network = from_raw_parts(network, network_length);
        let plan = from_raw_parts(plan, plan_length);
        let arrivals = from_raw_parts_mut(arrivals, arrivals_length);
        let roads = from_raw_parts_mut(roads, roads_length);
        let lists = Lists { arrivals, roads, answer, answer_length };
        trip_lists(network, Some(plan), TripCall { from, to, departure }, lists)
    }
}

#[rustfmt::skip]
unsafe extern "C" fn check_plan(
    network: *const u8, network_length: usize,
    plan: *const u8, plan_length: usize,
    answer: *mut u32, answer_length: usize,
) -> u32 {
    let planted = PLANTED.get();
    if answer_length < 5 {
        return 31;
    }
    // SAFETY: as the caller says.
    let (network, plan) = unsafe { (from_raw_parts(network, network_length), from_raw_parts(plan, plan_length)) };
    let mut finds = 0;
    let checked = file::open(planted, network).and_then(|opened| {
        let plan = plan::open(&opened.network, plan)?;
        if opened.header.hours == 1 && planted.has(Plans::Refused14UnderHours) {
            return refuse(14, 0);
        }
        let checked = check::check(&opened.network, &plan);
        if checked.is_ok() || checked.is_err_and(|refusal| refusal.number > 20) {
            let more = opened.header.hours == 1 && planted.has(Plans::MoreFindsUnderHours);
            finds = find_bounds(&opened.network, &plan).least + u64::from(more);
        }
        checked
    });
    // SAFETY: as the caller says.
    unsafe {
        let returned = reply(answer, answer_length, 5, checked.map(|()| vec![0, 0]));
        answer.add(3).write(finds as u32);
        answer.add(4).write((finds >> 32) as u32);
        returned
    }
}

#[rustfmt::skip]
unsafe extern "C" fn make_plan(
    network: *const u8, network_length: usize,
    work: *mut u32, work_length: usize,
    out: *mut u8, out_length: usize,
    answer: *mut u32, answer_length: usize,
) -> u32 {
    let planted = PLANTED.get();
    if answer_length < 4 {
        return 31;
    }
    // SAFETY: as the caller says.
    unsafe {
        let opened = file::open(planted, from_raw_parts(network, network_length));
        let told = opened.and_then(|opened| {
            if opened.header.hours == 1 && planted.has(Plans::NotMadeUnderHours) {
                return refuse(33, 0);
            }
            let bytes = network::write(&opened.network.header, &opened.network.tables);
            let made = made::of(&bytes, &opened.network);
            let call = made_call(&opened.network, made.file(), MakeLengths { work: work_length, out: out_length });
            from_raw_parts_mut(work, work_length)[..call.zeroed].fill(0);
            let file = call.answer?;
            let out = from_raw_parts_mut(out, out_length);
            out[..file.len()].copy_from_slice(file);
            if opened.header.hours == 1 && planted.has(Plans::MadeWithOtherFlags) && opened.header.arcs > 0 {
                out[512 + 8] ^= 1;
            }
            Ok(vec![file.len() as u32])
        });
        reply(answer, answer_length, 4, told)
    }
}
