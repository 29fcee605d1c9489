//! Towns made on purpose for the planner, each with the plan that wish 1's words give for it, worked out by
//! hand; `ties` has those for wish 2. They hold the reference to the wishes a second time, as `Intended` does
//! for the faults.

mod limits;
mod small;
pub mod ties;

use crate::draft::NetworkDraft;
use crate::made::Made;
use crate::reference::blocks::BLOCK;
use crate::reference::line::Point;
use crate::reference::network::{Header, Tables};

pub struct Town {
    pub name: &'static str,
    pub draft: NetworkDraft,
    pub gives: Gives,
    /// Small enough for the oracles and for every choice of lengths.
    pub small: bool,
}

/// What the planner has to make of a town.
pub enum Gives {
    /// Flag words by road; points by border, then by place.
    Plan(Vec<u64>, Vec<Vec<Point>>),
    /// So many profile points and blocks.
    Size { points: usize, blocks: usize },
    /// So many profile points that no plan can hold them.
    TooManyPoints,
}

/// A road as the towns list it: from, to, points of tick and travel.
pub type Road = (u16, u16, Vec<(u16, u16)>);

const MAKERS: [fn() -> Town; 27] = [
    small::quay,
    small::one_place,
    small::no_roads,
    small::one_cell,
    small::no_crossing_road,
    small::period_1,
    small::period_2,
    small::cut_off_parts,
    small::ties,
    small::falling_by_one,
    small::detour_and_back,
    small::turn_at_the_days_end,
    small::no_turn_at_the_days_end,
    small::fractions,
    small::each_rounded_up,
    small::forty_short_roads,
    small::steeper_and_steeper,
    small::better_at_one_tick,
    small::whole_days,
    small::cells_on_the_way,
    small::ring_of_64_cells,
    limits::longest_way,
    limits::most_points_to_one_border,
    limits::one_point_too_many_to_one_border,
    limits::most_points_to_many_borders,
    limits::one_point_too_many_to_many_borders,
    limits::longest_file,
];
pub const COUNT: u64 = MAKERS.len() as u64;

/// A town by its number, which is below `COUNT`.
pub fn town(number: u64) -> Town {
    MAKERS[number as usize]()
}

/// A network of these roads; as many cells as are in use, or more.
pub fn draft(period: u16, cell_count: u16, cells: &[u16], roads: &[Road]) -> NetworkDraft {
    let mut tables = Tables { cells: cells.to_vec(), ..Tables::default() };
    for (from, to, points) in roads {
        tables.from.push(*from);
        tables.to.push(*to);
        tables.counts.push(points.len() as u16);
        tables.ticks.extend(points.iter().map(|point| point.0));
        tables.travels.extend(points.iter().map(|point| point.1));
    }
    tables.open_all_day(period);
    let header = Header {
        number: 0x5741_4C4E,
        period: period.into(),
        nodes: cells.len() as u32,
        arcs: roads.len() as u32,
        cells: cell_count.into(),
        points: tables.ticks.len() as u32,
        hours: 0,
    };
    NetworkDraft { header, tables }
}

impl Town {
    /// Where what the reference makes of the town is not what it has to be.
    pub fn unlike(&self, made: &Made) -> Option<String> {
        let written = made.written.as_ref();
        match (&self.gives, written) {
            (Gives::TooManyPoints, None) => None,
            (Gives::Plan(flags, profiles), Some(written)) => {
                let (words, made) = (&written.plan.flags, &written.plan.profiles);
                (words != flags || made != profiles)
                    .then(|| format!("by hand {flags:?} {profiles:?}, made {words:?} {made:?}"))
            }
            (Gives::Size { points, blocks }, Some(written)) => {
                let made: usize = written.plan.profiles.iter().map(Vec::len).sum();
                let bytes = written.file.len();
                (made != *points || bytes != BLOCK * blocks)
                    .then(|| format!("by hand {points} points, {blocks} blocks, made {made}, {bytes} bytes"))
            }
            _ => Some(format!("plan written: {}", written.is_some())),
        }
    }
}
