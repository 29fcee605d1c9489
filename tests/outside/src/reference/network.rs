//! Document 01's network with wish 6's hours: opened with refusals 1 to 10 and 37, its tables judged alike
//! for open and pack, and packed.

use super::blocks::{
    entries, first_block_holds, judge_later_blocks, judge_length_and_checks, read16, read32, write_file, Kind, ARCS,
    BLOCK, CELLS, CELLS_AND_HOURS, CHECK, NETWORK_HEADER, POINTS,
};
use super::line::{travel_at, Point};
use super::{refuse, Refusal};
use std::ops::Range;

/// "A network file may now have 558 blocks", whichever kind its places have.
pub const MOST_BLOCKS: usize = 558;
/// "Header byte 24 is 1 where hours are held".
pub const HOURS_AT: usize = 24;
/// The bytes of the first block that no field uses.
const FILL: &[Range<usize>] = &[Range { start: HOURS_AT + 1, end: CHECK }];
pub const MOST_PERIOD: u32 = 2_880;
pub const MOST_NODES: u32 = 512;
pub const MOST_ARCS: u32 = 2_048;
pub const MOST_CELLS: u32 = 64;
pub const MOST_POINTS: u32 = 65_535;

/// The header's numbers in the file's order: network number, P, N, R, K, Q, and 1 where hours are held. As
/// wide as in calls.
#[derive(Clone, Copy, Debug, PartialEq, Eq)]
pub struct Header {
    pub number: u32,
    pub period: u32,
    pub nodes: u32,
    pub arcs: u32,
    pub cells: u32,
    pub points: u32,
    pub hours: u32,
}

/// How many tables calls lend.
pub const TABLES: usize = 8;

/// The tables in the order in which calls lend them.
#[derive(Clone, Debug, Default, PartialEq, Eq)]
pub struct Tables {
    pub cells: Vec<u16>,
    pub opens: Vec<u16>,
    pub closes: Vec<u16>,
    pub from: Vec<u16>,
    pub to: Vec<u16>,
    pub counts: Vec<u16>,
    pub ticks: Vec<u16>,
    pub travels: Vec<u16>,
}

#[derive(Clone)]
pub struct Arc {
    pub from: usize,
    pub to: usize,
    pub points: Vec<Point>,
}

/// An opened network.
#[derive(Clone)]
pub struct Network {
    pub header: Header,
    pub tables: Tables,
    pub cell_of: Vec<usize>,
    pub arcs: Vec<Arc>,
}

impl Network {
    pub fn nodes(&self) -> usize {
        self.cell_of.len()
    }

    pub fn arc_travel(&self, arc: usize, tick: u64) -> u64 {
        travel_at(&self.arcs[arc].points, tick, self.header.period)
    }
}

impl Tables {
    pub fn in_order(&self) -> [&Vec<u16>; TABLES] {
        let Tables { cells, opens, closes, from, to, counts, ticks, travels } = self;
        [cells, opens, closes, from, to, counts, ticks, travels]
    }

    pub fn in_order_mut(&mut self) -> [&mut Vec<u16>; TABLES] {
        let Tables { cells, opens, closes, from, to, counts, ticks, travels } = self;
        [cells, opens, closes, from, to, counts, ticks, travels]
    }

    /// "Files with 0 there .. open as 0 to P": every place is open all day.
    pub fn open_all_day(&mut self, period: u16) {
        self.opens = vec![0; self.cells.len()];
        self.closes = vec![period; self.cells.len()];
    }
}

impl Header {
    pub fn within_limits(&self) -> bool {
        (1..=MOST_PERIOD).contains(&self.period)
            && (1..=MOST_NODES).contains(&self.nodes)
            && self.arcs <= MOST_ARCS
            && (1..=MOST_CELLS).contains(&self.cells)
            && self.points <= MOST_POINTS
            && self.hours <= 1
    }

    /// How many entries each of the tables has.
    pub fn table_lengths(&self) -> [usize; TABLES] {
        let (nodes, arcs, points) = (self.nodes as usize, self.arcs as usize, self.points as usize);
        [nodes, nodes, nodes, arcs, arcs, arcs, points, points]
    }

    /// "blocks of kind 9 in place of kind 2"; "files with 0 there keep kind 2".
    fn kind_of_places(&self) -> Kind {
        if self.hours == 0 {
            CELLS
        } else {
            CELLS_AND_HOURS
        }
    }
}

pub fn open(file: &[u8]) -> Result<Network, Refusal> {
    judge_length_and_checks(file, MOST_BLOCKS, 1)?;
    if !first_block_holds(&file[..BLOCK], NETWORK_HEADER, FILL) {
        return refuse(3, 0);
    }
    let header = read_header(file);
    if !header.within_limits() {
        return refuse(4, 0);
    }
    let (nodes, arcs, points) = (header.nodes as usize, header.arcs as usize, header.points as usize);
    judge_later_blocks(file, &[(header.kind_of_places(), nodes), (ARCS, arcs), (POINTS, points)], 5)?;
    let tables = read_tables(file);
    let arcs = judge_tables(&header, &tables)?;
    let cell_of = tables.cells.iter().map(|&cell| usize::from(cell)).collect();
    Ok(Network { header, tables, cell_of, arcs })
}

/// The header's fields where they stand in the first block, whatever they say.
pub fn read_header(file: &[u8]) -> Header {
    Header {
        number: read32(file, 8),
        period: u32::from(read16(file, 12)),
        nodes: u32::from(read16(file, 14)),
        arcs: u32::from(read16(file, 16)),
        cells: u32::from(read16(file, 18)),
        points: read32(file, 20),
        hours: u32::from(file[HOURS_AT]),
    }
}

/// The tables as the blocks of kinds 2 to 4 and 9 hold them, whatever they say.
pub fn read_tables(file: &[u8]) -> Tables {
    let mut tables = Tables::default();
    for entry in entries(file, CELLS) {
        tables.cells.push(read16(entry, 0));
        tables.opens.push(0);
        tables.closes.push(read16(file, 12));
    }
    for entry in entries(file, CELLS_AND_HOURS) {
        tables.cells.push(read16(entry, 0));
        tables.opens.push(read16(entry, 2));
        tables.closes.push(read16(entry, 4));
    }
    for entry in entries(file, ARCS) {
        tables.from.push(read16(entry, 0));
        tables.to.push(read16(entry, 2));
        tables.counts.push(read16(entry, 4));
    }
    for entry in entries(file, POINTS) {
        tables.ticks.push(read16(entry, 0));
        tables.travels.push(read16(entry, 2));
    }
    tables
}

/// Refusals 7, 37 and 8 to 10 over the first N, R and Q entries; the arcs with their points if none applies.
fn judge_tables(header: &Header, tables: &Tables) -> Result<Vec<Arc>, Refusal> {
    judge_cells(header, tables)?;
    judge_hours(header, tables)?;
    judge_arcs(header, tables)?;
    judge_points(header, tables)?;
    let arcs = arcs_of(header, tables);
    judge_fifo(header, &arcs)?;
    Ok(arcs)
}

fn judge_cells(header: &Header, tables: &Tables) -> Result<(), Refusal> {
    for node in 0..header.nodes as usize {
        if u32::from(tables.cells[node]) >= header.cells {
            return refuse(7, node);
        }
    }
    Ok(())
}

/// "37 open not below close, or close above P, with the place; straight after 7", that is over all places,
/// and "packing other hours under 0 is 37".
fn judge_hours(header: &Header, tables: &Tables) -> Result<(), Refusal> {
    for node in 0..header.nodes as usize {
        let open = u32::from(tables.opens[node]);
        let close = u32::from(tables.closes[node]);
        let all_day = open == 0 && close == header.period;
        if open >= close || close > header.period || header.hours == 0 && !all_day {
            return refuse(37, node);
        }
    }
    Ok(())
}

fn judge_arcs(header: &Header, tables: &Tables) -> Result<(), Refusal> {
    let mut sum = 0;
    for arc in 0..header.arcs as usize {
        let from = u32::from(tables.from[arc]);
        let to = u32::from(tables.to[arc]);
        let count = u32::from(tables.counts[arc]);
        let ends_hold = from < header.nodes && to < header.nodes && from != to;
        if !ends_hold || count < 1 || count > header.period {
            return refuse(8, arc);
        }
        sum += count;
    }
    if sum != header.points {
        return refuse(8, header.arcs as usize);
    }
    Ok(())
}

fn judge_points(header: &Header, tables: &Tables) -> Result<(), Refusal> {
    let mut point = 0;
    for arc in 0..header.arcs as usize {
        for place in 0..tables.counts[arc] {
            let tick = u32::from(tables.ticks[point]);
            let travel = u32::from(tables.travels[point]);
            let tick_holds = if place == 0 { tick == 0 } else { tick > u32::from(tables.ticks[point - 1]) };
            if !tick_holds || tick >= header.period || travel < 1 || travel > header.period {
                return refuse(9, point);
            }
            point += 1;
        }
    }
    Ok(())
}

fn arcs_of(header: &Header, tables: &Tables) -> Vec<Arc> {
    let mut first = 0;
    let mut arcs = Vec::new();
    for arc in 0..header.arcs as usize {
        let end = first + usize::from(tables.counts[arc]);
        let points = (first..end)
            .map(|point| Point { tick: u32::from(tables.ticks[point]), travel: u32::from(tables.travels[point]) })
            .collect();
        arcs.push(Arc { from: usize::from(tables.from[arc]), to: usize::from(tables.to[arc]), points });
        first = end;
    }
    arcs
}

/// "for neighbouring points, the last and the next day's first included, earlier tick + travel is at most
/// later tick + travel"; the refusal names the earlier one, numbered through the whole file.
fn judge_fifo(header: &Header, arcs: &[Arc]) -> Result<(), Refusal> {
    let mut number = 0;
    for arc in arcs {
        for (place, earlier) in arc.points.iter().enumerate() {
            let later_end = match arc.points.get(place + 1) {
                Some(later) => later.tick + later.travel,
                None => header.period + arc.points[0].travel,
            };
            if earlier.tick + earlier.travel > later_end {
                return refuse(10, number);
            }
            number += 1;
        }
    }
    Ok(())
}

/// "4, then 30 where a table is shorter than its count, then 7 to 10, then 31 out-bytes too short", and 37
/// straight after 7.
pub fn pack(header: &Header, tables: &Tables, out_length: usize) -> Result<Vec<u8>, Refusal> {
    if !header.within_limits() {
        return refuse(4, 0);
    }
    let lengths = header.table_lengths();
    if tables.in_order().iter().zip(lengths).any(|(table, length)| table.len() < length) {
        return refuse(30, 0);
    }
    judge_tables(header, tables)?;
    let mut cut = tables.clone();
    for (table, length) in cut.in_order_mut().into_iter().zip(lengths) {
        table.truncate(length);
    }
    let file = write(header, &cut);
    if out_length < file.len() {
        return refuse(31, 0);
    }
    Ok(file)
}

/// The file of these numbers and tables, whether or not they would open.
pub fn write(header: &Header, tables: &Tables) -> Vec<u8> {
    let mut first = Vec::new();
    first.extend_from_slice(&header.number.to_le_bytes());
    for number in [header.period, header.nodes, header.arcs, header.cells] {
        first.extend_from_slice(&(number as u16).to_le_bytes());
    }
    first.extend_from_slice(&header.points.to_le_bytes());
    first.push(header.hours as u8);
    let places = match header.hours {
        0 => side_by_side(&[&tables.cells]),
        _ => side_by_side(&[&tables.cells, &tables.opens, &tables.closes]),
    };
    write_file(
        NETWORK_HEADER,
        &first,
        &[
            (header.kind_of_places(), places),
            (ARCS, side_by_side(&[&tables.from, &tables.to, &tables.counts])),
            (POINTS, side_by_side(&[&tables.ticks, &tables.travels])),
        ],
    )
}

/// Entries made of one 16-bit number of each table.
fn side_by_side(tables: &[&Vec<u16>]) -> Vec<u8> {
    (0..tables[0].len()).flat_map(|entry| tables.iter().flat_map(move |table| table[entry].to_le_bytes())).collect()
}
