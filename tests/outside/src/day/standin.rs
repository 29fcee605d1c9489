//! A stand-in for the day sheet, written as an engine might be: least travels towards the target, a row of P
//! numbers for each place in the lent work list, cleared at the end. As it is, it has to agree with the
//! reference; with an error planted it has to be found out.

use crate::reference::network::{self, Network};
use std::cell::Cell;
use std::slice::{from_raw_parts, from_raw_parts_mut};

macro_rules! errors {
    ($($name:ident)*) => {
        #[derive(Clone, Copy, PartialEq, Eq, Debug)]
        pub enum Error {
            $($name,)*
        }

        /// All errors.
        pub const ERRORS: &[Error] = &[$(Error::$name,)*];
    };
}

errors! {
    // The list's entries.
    ReducedModuloP
    TravelsInPlaceOfArrivals
    FromAndToExchanged
    OneEntryTooMany
    OneEntryTooFew
    FirstEntryMissing
    TicksFrom1
    LatestFirst
    OneArrivalForAll
    OwnPlaceIs0
    OwnPlaceGoesRound
    OwnPlaceIsNoWay
    NoNextDay
    NextDayIsNotAdded
    EndsAfterMidnightAtTick0
    TravelAtTheTickBefore
    OneRound
    TwoRounds
    ParallelRoadsOnce
    LastRoadMissing
    RowOfTheFirstPlace
    OpenTicksInPlaceOfArrivals
    In16Bits
    // What is left in lent memory.
    ListWrittenOn28
    ListClearedOn28
    ListWrittenOn25
    ListClearedBehind
    WorkLeft
    WorkLeftOn28
    WorkClearedOn25
    WorkClearedOn34
    WorkClearedOn31
    WorkClearedToItsEnd
    WorkClearedOneTooFew
    WorkClearedOneTooMany
    WorkClearedForThePairAlone
    // Refusals and their order.
    WorkNotAsked
    WorkOneShortPasses
    WorkOfPIsEnough
    ListNotAsked
    ListOneShortPasses
    ListNeedsWorkEntries
    ListBefore34
    NoWayBefore34
    NoWayBefore31
    PlacesAfter34
    ToBeforeFrom
    PlaceNotTold
    ToNotAsked
    NoWayIsNever
    NoWayIs25
    // The answer.
    PlacesInPlaceOfP
    ArrivalInPlaceOfP
    PNotTold
    PToldOn28
    ThreeAreEnough
    ShortOneWritten
    AnswerClearedBehind
}

thread_local! {
    static PLANTED: Cell<Option<Error>> = const { Cell::new(None) };
}

/// Plants an error in this thread's stand-in, or none.
pub fn plant(error: Option<Error>) {
    PLANTED.set(error);
}

fn has(error: Error) -> bool {
    PLANTED.get() == Some(error)
}

const NO_WAY: u32 = u32::MAX;

/// The lent lists.
struct Lists<'a> {
    work: &'a mut [u32],
    list: &'a mut [u32],
}

/// A refusal and its first place.
type Refused = (u32, u32);

/// The C function's place is taken by this one.
///
/// # Safety
/// Each pointer leads to as many entries as its count says, and planted errors write an entry beyond.
#[rustfmt::skip]
pub unsafe extern "C" fn day_sheet(
    network: *const u8, network_length: usize,
    from: u32, to: u32,
    work: *mut u32, work_length: usize,
    list: *mut u32, list_length: usize,
    answer: *mut u32, answer_length: usize,
) -> u32 {
    // SAFETY: as the caller says.
    let (network, mut lists, answer) = unsafe {
        let lists = Lists { work: from_raw_parts_mut(work, work_length), list: from_raw_parts_mut(list, list_length) };
        (from_raw_parts(network, network_length), lists, from_raw_parts_mut(answer, answer_length))
    };
    let named = if has(Error::ThreeAreEnough) { 3 } else { 4 };
    if answer.len() < named {
        if let (Some(first), true) = (answer.first_mut(), has(Error::ShortOneWritten)) {
            *first = 0;
        }
        return 31;
    }
    let opened = network::open(network);
    let (told, period) = match &opened {
        Err(refusal) => (Err((refusal.number, refusal.places[0])), 0),
        Ok(network) => (sheet(network, from, to, &mut lists), network.header.period),
    };
    let number = match told {
        Ok(arrival) if has(Error::ArrivalInPlaceOfP) => arrival,
        Ok(_) if has(Error::PNotTold) => 0,
        Ok(_) if has(Error::PlacesInPlaceOfP) => opened.map_or(0, |network| network.header.nodes),
        Ok(_) => period,
        Err((28, _)) if has(Error::PToldOn28) => period,
        Err(_) => 0,
    };
    let (refusal, place) = told.err().unwrap_or_default();
    let words = [if has(Error::PlaceNotTold) { 0 } else { place }, 0, 0, number];
    for (entry, word) in answer.iter_mut().zip(words) {
        *entry = word;
    }
    if let (Some(behind), true) = (answer.get_mut(4), has(Error::AnswerClearedBehind)) {
        *behind = 0;
    }
    refusal
}

/// The list is filled, or it is refused; the first arrival.
fn sheet(network: &Network, from: u32, to: u32, lists: &mut Lists) -> Result<u32, Refused> {
    let period = network.header.period as usize;
    let entries = period * network.nodes();
    judge(network, from, to, lists)?;
    if has(Error::NoWayBefore34) || has(Error::NoWayBefore31) {
        judge_lists(network, lists)?;
    }
    let (from, to) = if has(Error::FromAndToExchanged) { (to, from) } else { (from, to) };
    let mut rows = rows_towards(network, to as usize);
    if !has(Error::WorkNotAsked) && lists.work.len() >= entries {
        lists.work[..entries].copy_from_slice(&rows);
    }
    let start = if has(Error::RowOfTheFirstPlace) { 0 } else { from as usize * period };
    let row = rows.split_off(start)[..period].to_vec();
    let told = if row.contains(&NO_WAY) || has(Error::OwnPlaceIsNoWay) && from == to {
        no_way(lists, period)
    } else {
        Ok(fill(network, to as usize, &row, lists))
    };
    clear(lists.work, entries, from as usize, period, told.is_err());
    told
}

fn no_way(lists: &mut Lists, period: usize) -> Result<u32, Refused> {
    let list = &mut lists.list[..period];
    match () {
        _ if has(Error::ListWrittenOn28) => list.fill(NO_WAY),
        _ if has(Error::ListClearedOn28) => list[period - 1] = 0,
        _ if has(Error::NoWayIsNever) => {
            list.fill(NO_WAY);
            return Ok(NO_WAY);
        }
        _ if has(Error::NoWayIs25) => return Err((25, 0)),
        _ => {}
    }
    Err((28, 0))
}

/// 25, 34 and 31, in their order.
fn judge(network: &Network, from: u32, to: u32, lists: &mut Lists) -> Result<(), Refused> {
    let nodes = network.header.nodes;
    let ends = if has(Error::ToBeforeFrom) { [to, from] } else { [from, to] };
    let ends = if has(Error::ToNotAsked) { [from, from] } else { ends };
    let beyond = ends.into_iter().find(|&end| end >= nodes);
    if has(Error::PlacesAfter34) {
        judge_lists(network, lists)?;
    }
    if let Some(end) = beyond {
        if has(Error::WorkClearedOn25) {
            lists.work.fill(0);
        }
        if let (Some(first), true) = (lists.list.first_mut(), has(Error::ListWrittenOn25)) {
            *first = NO_WAY;
        }
        return Err((25, end));
    }
    if to >= nodes {
        return Err((28, 0));
    }
    if has(Error::NoWayBefore34) || has(Error::NoWayBefore31) {
        let period = network.header.period as usize;
        let rows = rows_towards(network, to as usize);
        let short = lists.work.len() < period * network.nodes();
        if rows[from as usize * period] == NO_WAY && (has(Error::NoWayBefore34) || !short) {
            return Err((28, 0));
        }
        return Ok(());
    }
    judge_lists(network, lists)
}

fn judge_lists(network: &Network, lists: &mut Lists) -> Result<(), Refused> {
    let period = network.header.period as usize;
    let entries = period * network.nodes();
    let needed = match () {
        _ if has(Error::WorkNotAsked) => 0,
        _ if has(Error::WorkOneShortPasses) => entries - 1,
        _ if has(Error::WorkOfPIsEnough) => period,
        _ => entries,
    };
    let listed = match () {
        _ if has(Error::ListNotAsked) => 0,
        _ if has(Error::ListOneShortPasses) => period - 1,
        _ if has(Error::ListNeedsWorkEntries) => entries,
        _ => period,
    };
    if has(Error::ListBefore34) && lists.list.len() < listed {
        return Err((31, 0));
    }
    if lists.work.len() < needed {
        if has(Error::WorkClearedOn34) {
            lists.work.fill(0);
        }
        return Err((34, 0));
    }
    if lists.list.len() < listed {
        if has(Error::WorkClearedOn31) {
            lists.work[..entries].fill(0);
        }
        return Err((31, 0));
    }
    Ok(())
}

/// The least travels towards a place: a row of P numbers for each.
fn rows_towards(network: &Network, to: usize) -> Vec<u32> {
    let period = network.header.period as usize;
    let mut rows = vec![NO_WAY; period * network.nodes()];
    if !has(Error::OwnPlaceGoesRound) {
        rows[to * period..][..period].fill(0);
    }
    let last = network.arcs.len() - usize::from(has(Error::LastRoadMissing) && !network.arcs.is_empty());
    let mut rounds = 0;
    let mut fell = true;
    while fell && !(rounds == 1 && has(Error::OneRound)) && !(rounds == 2 && has(Error::TwoRounds)) {
        fell = false;
        rounds += 1;
        for (number, arc) in network.arcs[..last].iter().enumerate() {
            let is_parallel = |other: &network::Arc| other.from == arc.from && other.to == arc.to;
            if has(Error::ParallelRoadsOnce) && network.arcs[..number].iter().any(is_parallel) {
                continue;
            }
            for tick in 0..period {
                let given = given(network, number, &rows, to, tick);
                let entry = &mut rows[arc.from * period + tick];
                if given < *entry {
                    *entry = given;
                    fell = true;
                }
            }
        }
    }
    rows
}

/// What an arc gives at a tick, NO_WAY where its head has no way on.
fn given(network: &Network, number: usize, rows: &[u32], to: usize, tick: usize) -> u32 {
    let period = network.header.period as usize;
    let head = network.arcs[number].to;
    let asked = if has(Error::TravelAtTheTickBefore) { tick + period - 1 } else { tick };
    let travel = network.arc_travel(number, asked as u64) as usize;
    let end = tick + travel;
    let at = match () {
        _ if has(Error::EndsAfterMidnightAtTick0) && end >= period => 0,
        _ => end % period,
    };
    let rest = match rows[head * period + at] {
        NO_WAY if head == to && has(Error::OwnPlaceGoesRound) => 0,
        rest => rest,
    };
    match () {
        _ if rest == NO_WAY || has(Error::NoNextDay) && end >= period => NO_WAY,
        _ if has(Error::NextDayIsNotAdded) && end >= period => (end % period) as u32 + rest,
        _ => travel as u32 + rest,
    }
}

/// Writes the arrivals; the first of them.
fn fill(network: &Network, to: usize, row: &[u32], lists: &mut Lists) -> u32 {
    let period = network.header.period;
    let arrival = |tick: usize| {
        let arrival = tick as u32 + row[tick];
        match () {
            _ if has(Error::ReducedModuloP) => arrival % period,
            _ if has(Error::TravelsInPlaceOfArrivals) => row[tick],
            _ if has(Error::TicksFrom1) => arrival + 1,
            _ if has(Error::LatestFirst) => period - 1 - tick as u32 + row[period as usize - 1 - tick],
            _ if has(Error::OneArrivalForAll) => row[0],
            _ if has(Error::OwnPlaceIs0) && row.iter().all(|&travel| travel == 0) => 0,
            _ if has(Error::OpenTicksInPlaceOfArrivals) => open_tick(network, to, arrival),
            _ if has(Error::In16Bits) => arrival & 0xffff,
            _ => arrival,
        }
    };
    let arrivals: Vec<u32> = (0..row.len()).map(arrival).collect();
    let skipped = usize::from(has(Error::FirstEntryMissing));
    let written = row.len() - usize::from(has(Error::OneEntryTooFew));
    for (tick, entry) in lists.list.iter_mut().enumerate().take(written).skip(skipped) {
        *entry = arrivals[tick];
    }
    if let Some(behind) = lists.list.get_mut(row.len()) {
        match () {
            _ if has(Error::OneEntryTooMany) => *behind = arrivals[0] + period,
            _ if has(Error::ListClearedBehind) => *behind = 0,
            _ => {}
        }
    }
    arrivals[0]
}

fn open_tick(network: &Network, place: usize, arrival: u32) -> u32 {
    let hours = u32::from(network.tables.opens[place])..u32::from(network.tables.closes[place]);
    (arrival..).find(|tick| hours.contains(&(tick % network.header.period))).unwrap_or(arrival)
}

/// The work list is left as the planner leaves it.
fn clear(work: &mut [u32], entries: usize, from: usize, period: usize, refused: bool) {
    if has(Error::WorkLeft) || has(Error::WorkLeftOn28) && refused {
        return;
    }
    if has(Error::WorkClearedForThePairAlone) {
        work[from * period..][..period].fill(0);
        return;
    }
    let cleared = match () {
        _ if has(Error::WorkClearedToItsEnd) => work.len(),
        _ if has(Error::WorkClearedOneTooFew) => entries - 1,
        _ if has(Error::WorkClearedOneTooMany) => entries + 1,
        _ => entries,
    };
    let cleared = cleared.min(work.len());
    work[..cleared].fill(0);
}
