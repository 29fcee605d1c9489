//! The files of a town: its network packed, its borders, and a plan with true profiles and the flags that a planner sets.
use crate::plain::blocks::{Block, BLOCK};
use crate::plain::network::Header;
use crate::plain::pack::{pack, put_first, put_run, Lists};
use crate::plain::plan::{COUNTS, FLAGS, POINTS};
use crate::profiles::{compress, Days};
use crate::town::Town;

/// A network file and plan files for it.
#[derive(Clone)]
pub struct Files {
    pub network: Vec<u8>,
    pub plan: Vec<u8>,
    /// The same flags with every profile never: well-formed, quick to validate, and refused by the check.
    pub light_plan: Vec<u8>,
    pub points: usize,
}

pub fn header(town: &Town) -> Header {
    Header {
        number: town.number,
        period: town.period as u32,
        nodes: town.cells.len() as u32,
        arcs: town.tails.len() as u32,
        cells: town.cell_count as u32,
        points: town.ticks.len() as u32,
        hours: town.hours as u32,
    }
}

pub fn lists(town: &Town) -> Lists<'_> {
    Lists {
        cells: &town.cells,
        opens: &town.opens,
        closes: &town.closes,
        tails: &town.tails,
        heads: &town.heads,
        counts: &town.counts,
        ticks: &town.ticks,
        travels: &town.travels,
    }
}

/// The nodes with an arc from another cell, rising.
pub fn borders(town: &Town) -> Vec<usize> {
    let enters = |v: usize| {
        let ends = town.tails.iter().zip(&town.heads);
        ends.into_iter().any(|(&tail, &head)| head as usize == v && town.cells[tail as usize] != town.cells[v])
    };
    (0..town.cells.len()).filter(|&v| enters(v)).collect()
}

/// A plan before it is written.
struct Draft {
    flags: Vec<u64>,
    counts: Vec<u16>,
    points: Vec<(u16, u32)>,
}

fn draft(town: &Town, borders: &[usize]) -> Draft {
    let days = Days::new(town);
    let mut draft = Draft { flags: flags_inside(town), counts: Vec::new(), points: Vec::new() };
    for &border in borders {
        let least = days.least_travels(border);
        for (arc, flags) in draft.flags.iter_mut().enumerate() {
            if days.starts_a_least_way(arc, &least) {
                *flags |= 1 << town.cells[border];
            }
        }
        for day in least.chunks_exact(days.period) {
            let points = compress(day);
            draft.counts.push(points.len() as u16);
            draft.points.extend(points);
        }
    }
    draft
}

fn flags_inside(town: &Town) -> Vec<u64> {
    let cells = town.tails.iter().zip(&town.heads).map(|(&tail, &head)| (town.cells[tail as usize], town.cells[head as usize]));
    cells.map(|(tail, head)| if tail == head { 1 << head } else { 0 }).collect()
}

fn write_plan(town: &Town, borders: usize, draft: &Draft) -> Vec<u8> {
    let (arcs, profiles, points) = (draft.flags.len(), draft.counts.len(), draft.points.len());
    let count_block = 1 + FLAGS.blocks(arcs);
    let point_block = count_block + COUNTS.blocks(profiles);
    let mut file = vec![0; BLOCK * (point_block + POINTS.blocks(points))];
    let blocks: &mut [Block] = file.as_chunks_mut().0;
    put_first(&mut blocks[0], 5, 28, |block| {
        block[8..12].copy_from_slice(&town.number.to_le_bytes());
        let fields = [town.period, town.cells.len() as u16, arcs as u16, town.cell_count, borders as u16, 0];
        for (slot, field) in block[12..24].as_chunks_mut::<2>().0.iter_mut().zip(fields) {
            *slot = field.to_le_bytes();
        }
        block[24..28].copy_from_slice(&(points as u32).to_le_bytes());
    });
    put_run(blocks, 1, FLAGS, arcs, |slot: &mut [u8; 8], i| *slot = draft.flags[i].to_le_bytes());
    put_run(blocks, count_block, COUNTS, profiles, |slot: &mut [u8; 2], i| *slot = draft.counts[i].to_le_bytes());
    put_run(blocks, point_block, POINTS, points, |slot: &mut [u8; 6], i| {
        slot[..2].copy_from_slice(&draft.points[i].0.to_le_bytes());
        slot[2..].copy_from_slice(&draft.points[i].1.to_le_bytes());
    });
    file
}

pub fn make(town: &Town) -> Files {
    let header = header(town);
    let mut network = vec![0; BLOCK * header.blocks()];
    pack(&header, &lists(town), &mut network).expect("a town obeys every rule");
    let borders = borders(town);
    let draft = draft(town, &borders);
    let plan = write_plan(town, borders.len(), &draft);
    let points = draft.points.len();
    let light = Draft { flags: draft.flags, counts: vec![0; draft.counts.len()], points: Vec::new() };
    let light_plan = write_plan(town, borders.len(), &light);
    Files { network, plan, light_plan, points }
}
