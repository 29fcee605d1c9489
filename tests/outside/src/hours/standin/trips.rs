//! Trips with an open tick: it is worked out, where the reference looks for it.

use super::errors::{OpenTick, Trips};
use super::file::{self, Opened};
use super::Planted;
use crate::reference::network::Network;
use crate::reference::plan;
use crate::reference::trips::{flagged_trip, plain_trip, Arrived, ListLengths, Trip, TripCall};
use crate::reference::{Refusal, NEVER};

/// A trip, and what the answer's sixth number says where it is told on a refusal.
pub struct Told {
    pub trip: Trip,
    pub open: u32,
}

pub fn trip(planted: Planted, network: &[u8], plan: Option<&[u8]>, call: TripCall, lists: ListLengths) -> Told {
    let refused = |refusal: Refusal| Told { trip: Trip::refused(refusal), open: 0 };
    let opened = match file::open(planted, network) {
        Ok(opened) => opened,
        Err(refusal) => return refused(refusal),
    };
    let network = seen(planted, &opened, call);
    let run = |call: TripCall, lists: ListLengths| match plan {
        None => Ok(plain_trip(&network, call, lists)),
        Some(plan) => {
            let mut plan = plan::open(&opened.network, plan)?;
            if planted.has(Trips::HoursInTheFlags) {
                clear_flags_of_shut_ends(&opened, call, &mut plan);
            }
            Ok(flagged_trip(&network, &plan, call, lists))
        }
    };
    match run(call, lists) {
        Err(refusal) => refused(refusal),
        Ok(trip) => told(planted, &opened, plan.is_some(), call, trip, |lists| run(call, lists)),
    }
}

/// The network as a search sees it.
fn seen(planted: Planted, opened: &Opened, call: TripCall) -> Network {
    let mut network = opened.network.clone();
    if planted.has(Trips::NoWayThroughAShutPlace) && opened.header.hours == 1 {
        let shut = |node: usize| {
            let tick = call.departure as u16;
            node as u32 != call.to && !(opened.tables.opens[node]..opened.tables.closes[node]).contains(&tick)
        };
        let away = network.nodes();
        for arc in &mut network.arcs {
            if shut(arc.to) {
                arc.from = away;
            }
        }
        network.arcs.retain(|arc| arc.from < away);
    }
    if planted.has(Trips::WaitsAtShutPlaces) {
        for arc in &mut network.arcs {
            let wait = u32::from(opened.tables.opens[arc.to]);
            for point in &mut arc.points {
                point.travel += wait;
            }
        }
    }
    network
}

fn clear_flags_of_shut_ends(opened: &Opened, call: TripCall, plan: &mut plan::Plan) {
    for (arc, word) in opened.network.arcs.iter().zip(&mut plan.flags) {
        if opened.tables.opens[arc.to] > call.departure as u16 {
            *word = 0;
        }
    }
}

fn told(
    planted: Planted,
    opened: &Opened,
    flagged: bool,
    call: TripCall,
    mut trip: Trip,
    again: impl Fn(ListLengths) -> Result<Trip, Refusal>,
) -> Told {
    let mut open = 0;
    match &mut trip.answer {
        Ok(arrived) => {
            arrived.open = open_tick(planted, opened, flagged, call, u64::from(arrived.tick)) as u32;
            open = arrived.open;
            if planted.has(Trips::ArrivalIsTheOpenTick) {
                arrived.tick = arrived.open;
            }
            if planted.has(Trips::NoWayToAShutPlace) && arrived.open != arrived.tick {
                trip = Trip::refused(Refusal { number: 28, places: [0; 3] });
                open = 0;
            }
        }
        Err(refusal) if refusal.number == 28 && planted.has(OpenTick::ToldOn28) => {
            open = u32::from(opened.tables.opens[call.to as usize]).max(1);
        }
        Err(refusal) if refusal.number == 29 && planted.has(OpenTick::ToldOn29) => {
            let longer = again(ListLengths { arrivals: 512, roads: 512 });
            if let Ok(Trip { answer: Ok(Arrived { tick, .. }), .. }) = longer {
                open = open_tick(planted, opened, flagged, call, u64::from(tick)) as u32;
            }
        }
        Err(_) => {}
    }
    if planted.has(Trips::ArrivalsAtShutPlacesAreNever) {
        hide_shut_places(opened, call, &mut trip.arrivals);
    }
    Told { trip, open }
}

fn hide_shut_places(opened: &Opened, call: TripCall, arrivals: &mut [u32]) {
    for (node, arrival) in arrivals.iter_mut().enumerate() {
        let tick = u64::from(*arrival) % u64::from(opened.header.period);
        let hours = u64::from(opened.tables.opens[node])..u64::from(opened.tables.closes[node]);
        if node as u32 != call.to && !hours.contains(&tick) {
            *arrival = NEVER;
        }
    }
}

/// The day on which the van arrives, the tick of that day, and from there today or tomorrow.
fn open_tick(planted: Planted, opened: &Opened, flagged: bool, call: TripCall, arrival: u64) -> u64 {
    let has = |error: OpenTick| planted.has(error);
    let node = if has(OpenTick::OfTheSource) { call.from } else { call.to } as usize;
    let (open, close) = (u64::from(opened.tables.opens[node]), u64::from(opened.tables.closes[node]));
    let period = if has(OpenTick::DayOf2880Ticks) { 2_880 } else { u64::from(opened.header.period) };
    let start = match () {
        _ if has(OpenTick::OfTheDeparture) => u64::from(call.departure),
        _ if has(OpenTick::ArrivalsTickLeftOut) => arrival + 1,
        _ => arrival,
    };
    let (day, tick) = (start - start % period, start % period);
    let (is_before, is_open) = match () {
        _ if has(OpenTick::CloseIncluded) => (tick < open, tick <= close),
        _ if has(OpenTick::FirstOpenTickLeftOut) => (tick < open, tick > open && tick < close),
        _ if has(OpenTick::LastOpenTickLeftOut) => (tick < open, tick + 1 < close),
        _ if has(OpenTick::DaysLastTickIsShut) => (tick < open, tick < close && tick + 1 < period),
        _ if has(OpenTick::TheNextDaysAlways) => (false, false),
        _ => (tick < open, tick < close),
    };
    let same_place = call.from == call.to;
    let told = match () {
        _ if is_before => day + open,
        _ if is_open => start,
        _ if has(OpenTick::NotMovedToTheNextDay) => day + open,
        _ if has(OpenTick::StaysAtTheArrival) => start,
        _ if has(OpenTick::TwoDaysOn) => day + 2 * period + open,
        _ if has(OpenTick::NextDayAtTick0) => day + period,
        _ => day + period + open,
    };
    match () {
        _ if has(OpenTick::ReducedModuloP) => told % period,
        _ if has(OpenTick::DayOfTheDeparture) && told >= 2 * period => told % period + period,
        _ if has(OpenTick::FirstDayAlone) && arrival >= period => arrival,
        _ if has(OpenTick::TickOfTheDay) => open,
        _ if has(OpenTick::WaitInPlaceOfTheTick) => told.saturating_sub(arrival),
        _ if has(OpenTick::OwnPlaceIs0) && same_place => 0,
        _ if has(OpenTick::OwnPlaceOpensAtOnce) && same_place => arrival,
        _ if has(OpenTick::Under0Is0) && opened.header.hours == 0 => 0,
        _ if has(OpenTick::NotOnFlaggedTrips) && flagged => arrival,
        _ => told,
    }
}
