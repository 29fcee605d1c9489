//! Faults in a network's header numbers and tables: refusals 4, 7 to 10 and 37, and numbers that no longer
//! agree.

use super::Intended::{Any, Gives};
use super::{tables, Fault, Kind};
use crate::case::Case;
use crate::generate::hours::hours;
use crate::library::{CHECK, OPEN};
use crate::rng::Rng;

pub fn kinds() -> Vec<Kind> {
    vec![
        Kind { name: "header number outside its limit", intended: Gives(CHECK, &[4]), make: outside_limit },
        Kind { name: "header number one off", intended: Any, make: header_one_off },
        Kind { name: "network number changed", intended: Gives(CHECK, &[14]), make: number_changed },
        Kind { name: "cells lowered to the highest cell", intended: Gives(CHECK, &[7]), make: cells_lowered },
        Kind { name: "period lowered", intended: Any, make: period_lowered },
        Kind { name: "cell at K", intended: Gives(CHECK, &[7]), make: cell_at_count },
        Kind { name: "cell exchanged for another", intended: Any, make: cell_exchanged },
        Kind { name: "open at close", intended: Gives(CHECK, &[37]), make: open_at_close },
        Kind { name: "open above close", intended: Gives(CHECK, &[37]), make: open_above_close },
        Kind { name: "close above P", intended: Gives(CHECK, &[37]), make: close_above_period },
        Kind { name: "close at P", intended: Gives(OPEN, &[0]), make: close_at_period },
        Kind { name: "hours wrong in several places", intended: Gives(CHECK, &[37]), make: hours_wrong },
        Kind { name: "hours exchanged for others", intended: Gives(OPEN, &[0]), make: other_hours },
        Kind { name: "hours dropped", intended: Gives(OPEN, &[0]), make: hours_dropped },
        Kind { name: "arc end at N", intended: Gives(CHECK, &[8]), make: end_at_count },
        Kind { name: "arc to its own start", intended: Gives(CHECK, &[8]), make: loop_arc },
        Kind { name: "arc turned round", intended: Any, make: arc_turned },
        Kind { name: "arc without points", intended: Gives(CHECK, &[8]), make: no_points },
        Kind { name: "arc with more than P points", intended: Gives(CHECK, &[8]), make: too_many_points },
        Kind { name: "point moved to the next arc", intended: Any, make: count_moved },
        Kind { name: "point that no arc counts", intended: Gives(CHECK, &[8]), make: point_uncounted },
        Kind { name: "count one off", intended: Gives(CHECK, &[8]), make: count_one_off },
        Kind { name: "first tick not 0", intended: Gives(CHECK, &[9]), make: first_tick },
        Kind { name: "tick repeated or falling", intended: Gives(CHECK, &[9]), make: tick_not_rising },
        Kind { name: "tick at P or above", intended: Gives(CHECK, &[9]), make: tick_at_period },
        Kind { name: "travel 0 or above P", intended: Gives(CHECK, &[9]), make: travel_outside },
        Kind { name: "FIFO broken by one", intended: Gives(CHECK, &[10]), make: fifo_broken },
        Kind { name: "FIFO broken at the day's end", intended: Gives(CHECK, &[10]), make: fifo_broken_at_days_end },
        Kind { name: "FIFO at its edge", intended: Any, make: fifo_at_edge },
        Kind { name: "travel one off", intended: Any, make: travel_one_off },
    ]
}

fn some_arc(rng: &mut Rng, case: &Case) -> Option<usize> {
    let arcs = case.network.arcs.len();
    (arcs > 0).then(|| rng.below(arcs))
}

fn some_point(rng: &mut Rng, case: &Case) -> Option<usize> {
    let points = case.drafts.network.tables.ticks.len();
    (points > 0).then(|| rng.below(points))
}

/// An arc and the place in it of a point that is not its first; the arc's points are numbered from the first.
fn some_later_point(rng: &mut Rng, case: &Case) -> Option<usize> {
    let arc = some_arc(rng, case)?;
    let count = case.network.arcs[arc].points.len();
    (count > 1).then(|| case.drafts.network.first_point(arc) + rng.within(1, count - 1))
}

fn outside_limit(rng: &mut Rng, _case: &Case) -> Option<Fault> {
    let choice = rng.below(7);
    let high = rng.pick(&[0, 1, 100]);
    let zero = rng.once_in(2);
    tables(move |drafts| {
        let header = &mut drafts.network.header;
        match choice {
            0 => header.period = if zero { 0 } else { 2_881 + high },
            1 => header.nodes = if zero { 0 } else { 513 + high },
            2 => header.arcs = 2_049 + high,
            3 => header.cells = if zero { 0 } else { 65 + high },
            4 => header.points = 65_536 + high,
            5 => header.hours = 2 + high,
            _ => header.points |= 0x8000_0000,
        }
    })
}

fn header_one_off(rng: &mut Rng, _case: &Case) -> Option<Fault> {
    let choice = rng.below(6);
    let up = rng.once_in(2);
    tables(move |drafts| {
        let header = &mut drafts.network.header;
        let number = match choice {
            0 => &mut header.period,
            1 => &mut header.nodes,
            2 => &mut header.arcs,
            3 => &mut header.cells,
            4 => &mut header.hours,
            _ => &mut header.points,
        };
        *number = if up { number.wrapping_add(1) } else { number.saturating_sub(1) };
    })
}

fn number_changed(rng: &mut Rng, _case: &Case) -> Option<Fault> {
    let bit = rng.below(32);
    tables(move |drafts| drafts.network.header.number ^= 1 << bit)
}

fn cells_lowered(_rng: &mut Rng, case: &Case) -> Option<Fault> {
    let highest = *case.network.cell_of.iter().max()? as u32;
    (highest > 0).then_some(())?;
    tables(move |drafts| drafts.network.header.cells = highest)
}

fn period_lowered(rng: &mut Rng, case: &Case) -> Option<Fault> {
    let period = rng.within(1, case.network.header.period as usize) as u32;
    tables(move |drafts| {
        drafts.network.header.period = period;
        drafts.plan.header.period = period;
    })
}

fn cell_at_count(rng: &mut Rng, case: &Case) -> Option<Fault> {
    let node = rng.below(case.network.nodes());
    let cell = rng.pick(&[case.network.header.cells as u16, 64, 256, u16::MAX]);
    tables(move |drafts| drafts.network.tables.cells[node] = cell)
}

fn cell_exchanged(rng: &mut Rng, case: &Case) -> Option<Fault> {
    let node = rng.below(case.network.nodes());
    let cell = rng.below(case.network.header.cells as usize) as u16;
    tables(move |drafts| drafts.network.tables.cells[node] = cell)
}

/// A place of a town that holds hours.
fn some_hall(rng: &mut Rng, case: &Case) -> Option<usize> {
    (case.network.header.hours == 1).then(|| rng.below(case.network.nodes()))
}

fn open_at_close(rng: &mut Rng, case: &Case) -> Option<Fault> {
    let node = some_hall(rng, case)?;
    let late = rng.once_in(2);
    tables(move |drafts| {
        let tables = &mut drafts.network.tables;
        let tick = if late { tables.closes[node] } else { tables.opens[node] };
        (tables.opens[node], tables.closes[node]) = (tick, tick);
    })
}

fn open_above_close(rng: &mut Rng, case: &Case) -> Option<Fault> {
    let node = some_hall(rng, case)?;
    let far = rng.once_in(3);
    tables(move |drafts| {
        let tables = &mut drafts.network.tables;
        let (open, close) = (tables.opens[node], tables.closes[node]);
        (tables.opens[node], tables.closes[node]) = if far { (u16::MAX, close) } else { (close, open) };
    })
}

fn close_above_period(rng: &mut Rng, case: &Case) -> Option<Fault> {
    let node = some_hall(rng, case)?;
    let period = case.network.header.period as u16;
    let close = rng.pick(&[period + 1, period + 1, period + 256, u16::MAX]);
    let open_too = rng.once_in(4);
    tables(move |drafts| {
        let tables = &mut drafts.network.tables;
        tables.closes[node] = close;
        if open_too {
            tables.opens[node] = period;
        }
    })
}

fn close_at_period(rng: &mut Rng, case: &Case) -> Option<Fault> {
    let node = some_hall(rng, case)?;
    let period = case.network.header.period as u16;
    tables(move |drafts| drafts.network.tables.closes[node] = period)
}

fn hours_wrong(rng: &mut Rng, case: &Case) -> Option<Fault> {
    let first = some_hall(rng, case)?;
    let period = case.network.header.period as u16;
    let wrong = [(0, 0), (1, 0), (period, period), (period, period + 1), (0, period + 1), (u16::MAX, 0)];
    let wrong: Vec<(usize, (u16, u16))> = (0..4)
        .map(|number| (if number == 0 { first } else { rng.below(case.network.nodes()) }, rng.pick(&wrong)))
        .collect();
    tables(move |drafts| {
        for &(node, hours) in &wrong {
            let tables = &mut drafts.network.tables;
            (tables.opens[node], tables.closes[node]) = hours;
        }
    })
}

fn other_hours(rng: &mut Rng, case: &Case) -> Option<Fault> {
    let others = hours(rng, case.network.header.period as usize, case.network.nodes());
    tables(move |drafts| drafts.network.hold_hours(&others))
}

fn hours_dropped(_rng: &mut Rng, case: &Case) -> Option<Fault> {
    (case.network.header.hours == 1).then_some(())?;
    tables(|drafts| drafts.network.drop_hours())
}

fn end_at_count(rng: &mut Rng, case: &Case) -> Option<Fault> {
    let arc = some_arc(rng, case)?;
    let end = rng.pick(&[case.network.header.nodes as u16, 512, u16::MAX]);
    let from = rng.once_in(2);
    tables(move |drafts| {
        let tables = &mut drafts.network.tables;
        let ends = if from { &mut tables.from } else { &mut tables.to };
        ends[arc] = end;
    })
}

fn loop_arc(rng: &mut Rng, case: &Case) -> Option<Fault> {
    let arc = some_arc(rng, case)?;
    tables(move |drafts| drafts.network.tables.to[arc] = drafts.network.tables.from[arc])
}

fn arc_turned(rng: &mut Rng, case: &Case) -> Option<Fault> {
    let arc = some_arc(rng, case)?;
    tables(move |drafts| {
        let tables = &mut drafts.network.tables;
        std::mem::swap(&mut tables.from[arc], &mut tables.to[arc]);
    })
}

/// The count's points go to another arc where there is one, so that the sum stays.
fn no_points(rng: &mut Rng, case: &Case) -> Option<Fault> {
    let arc = some_arc(rng, case)?;
    let other = some_arc(rng, case)?;
    tables(move |drafts| {
        let counts = &mut drafts.network.tables.counts;
        counts[other] = counts[other].wrapping_add(counts[arc]);
        counts[arc] = 0;
    })
}

fn too_many_points(rng: &mut Rng, case: &Case) -> Option<Fault> {
    let arc = some_arc(rng, case)?;
    let count = rng.pick(&[case.network.header.period as u16 + 1, 2_881, u16::MAX]);
    tables(move |drafts| drafts.network.tables.counts[arc] = count)
}

fn count_moved(rng: &mut Rng, case: &Case) -> Option<Fault> {
    let arc = some_arc(rng, case)?;
    (arc + 1 < case.network.arcs.len()).then_some(())?;
    let forwards = rng.once_in(2);
    tables(move |drafts| {
        let counts = &mut drafts.network.tables.counts;
        let (giver, taker) = if forwards { (arc, arc + 1) } else { (arc + 1, arc) };
        counts[giver] = counts[giver].wrapping_sub(1);
        counts[taker] = counts[taker].wrapping_add(1);
    })
}

fn point_uncounted(_rng: &mut Rng, case: &Case) -> Option<Fault> {
    (case.network.header.points < 65_535).then_some(())?;
    tables(|drafts| {
        drafts.network.tables.ticks.push(0);
        drafts.network.tables.travels.push(1);
        drafts.network.header.points += 1;
    })
}

fn count_one_off(rng: &mut Rng, case: &Case) -> Option<Fault> {
    let arc = some_arc(rng, case)?;
    let up = rng.once_in(2);
    tables(move |drafts| {
        let count = &mut drafts.network.tables.counts[arc];
        *count = if up { count.wrapping_add(1) } else { count.wrapping_sub(1) };
    })
}

fn first_tick(rng: &mut Rng, case: &Case) -> Option<Fault> {
    let arc = some_arc(rng, case)?;
    let point = case.drafts.network.first_point(arc);
    let tick = rng.pick(&[1, case.network.header.period as u16, u16::MAX]);
    tables(move |drafts| drafts.network.tables.ticks[point] = tick)
}

fn tick_not_rising(rng: &mut Rng, case: &Case) -> Option<Fault> {
    let point = some_later_point(rng, case)?;
    let falling = rng.once_in(2);
    tables(move |drafts| {
        let ticks = &mut drafts.network.tables.ticks;
        let before = ticks[point - 1];
        ticks[point] = if falling { before.saturating_sub(1) } else { before };
    })
}

fn tick_at_period(rng: &mut Rng, case: &Case) -> Option<Fault> {
    let point = some_later_point(rng, case)?;
    let period = case.network.header.period as u16;
    let tick = rng.pick(&[period, period + 1, u16::MAX]);
    tables(move |drafts| drafts.network.tables.ticks[point] = tick)
}

fn travel_outside(rng: &mut Rng, case: &Case) -> Option<Fault> {
    let point = some_point(rng, case)?;
    let period = case.network.header.period as u16;
    let travel = rng.pick(&[0, period + 1, u16::MAX]);
    tables(move |drafts| drafts.network.tables.travels[point] = travel)
}

/// Raises a point's travel until it ends `over` ticks after the next one, the next day's first included; only
/// an arc's last point if `at_days_end`.
fn end_raised(rng: &mut Rng, case: &Case, over: u32, at_days_end: bool) -> Option<Fault> {
    let period = case.network.header.period;
    let mut choices = Vec::new();
    let mut number = 0;
    for arc in &case.network.arcs {
        for (place, point) in arc.points.iter().enumerate() {
            let next_end = match arc.points.get(place + 1) {
                Some(next) => next.tick + next.travel,
                None => period + arc.points[0].travel,
            };
            let travel = next_end + over - point.tick;
            let is_last = place + 1 == arc.points.len();
            if arc.points.len() > 1 && travel <= period && (is_last || !at_days_end) {
                choices.push((number, travel as u16));
            }
            number += 1;
        }
    }
    (!choices.is_empty()).then_some(())?;
    let (point, travel) = rng.pick(&choices);
    tables(move |drafts| drafts.network.tables.travels[point] = travel)
}

fn fifo_broken(rng: &mut Rng, case: &Case) -> Option<Fault> {
    end_raised(rng, case, 1, false)
}

fn fifo_broken_at_days_end(rng: &mut Rng, case: &Case) -> Option<Fault> {
    end_raised(rng, case, 1, true)
}

fn fifo_at_edge(rng: &mut Rng, case: &Case) -> Option<Fault> {
    end_raised(rng, case, 0, false)
}

fn travel_one_off(rng: &mut Rng, case: &Case) -> Option<Fault> {
    let point = some_point(rng, case)?;
    let up = rng.once_in(2);
    tables(move |drafts| {
        let travel = &mut drafts.network.tables.travels[point];
        *travel = if up { travel.wrapping_add(1) } else { travel.wrapping_sub(1) };
    })
}
