//! The file of a graph.

use super::errors::{Error, Planted};
use super::Graph;
use crate::import::Arc;
use crate::reference::blocks::{mend, BLOCK, CHECK};
use crate::reference::network::{self, Header, Tables};

/// Where an error lets more nodes pass, a file still has no more cells than this.
const MOST_CELLS: u32 = 70_000;

pub fn file(planted: Planted, number: u32, graph: &Graph) -> Vec<u8> {
    let arcs = arcs_of(planted, &graph.arcs);
    let mut tables = Tables { cells: vec![0; graph.nodes.min(MOST_CELLS) as usize], ..Tables::default() };
    if let (Some(cell), true) = (tables.cells.last_mut(), planted.has(Error::LastPlaceInCell1)) {
        *cell = 1;
    }
    tables.open_all_day(2_880);
    for &arc in &arcs {
        push_arc(planted, &mut tables, arc);
    }
    let longest = arcs.iter().map(|arc| arc.2).max();
    let header = Header {
        number: match planted.0 {
            Some(Error::NumberIs0) => 0,
            Some(Error::NumberIn16Bits) => number & 0xffff,
            Some(Error::NumberSigned) => number & 0x7fff_ffff,
            _ => number,
        },
        period: match planted.0 {
            Some(Error::Period2879) => 2_879,
            Some(Error::LongestWeightIsThePeriod) => longest.unwrap_or(2_880),
            _ => 2_880,
        },
        nodes: graph.nodes,
        arcs: arcs.len() as u32,
        cells: 1 + u32::from(planted.has(Error::TwoCells)),
        points: tables.ticks.len() as u32,
        hours: u32::from(planted.has(Error::HoursHeld)),
    };
    let mut file = network::write(&header, &tables);
    alter(planted, &mut file, arcs.len());
    file
}

fn arcs_of(planted: Planted, arcs: &[Arc]) -> Vec<Arc> {
    let mut arcs = arcs.to_vec();
    match planted.0 {
        Some(Error::ArcsSorted) => arcs.sort(),
        Some(Error::ArcsReversed) => arcs.reverse(),
        Some(Error::ParallelArcsOnce) => {
            let mut met = Vec::new();
            arcs.retain(|arc| {
                let ends = (arc.0, arc.1);
                let is_new = !met.contains(&ends);
                met.push(ends);
                is_new
            });
        }
        Some(Error::LastArcTwice) => arcs.extend(arcs.last().copied()),
        _ => {}
    }
    arcs
}

fn push_arc(planted: Planted, tables: &mut Tables, (tail, head, weight): Arc) {
    let by = u32::from(!planted.has(Error::NodesNotLowered));
    let head_by = by - u32::from(planted.has(Error::HeadNotLowered));
    let ends = (tail.wrapping_sub(by) as u16, head.wrapping_sub(head_by) as u16);
    let (from, to) = if planted.has(Error::EndsExchanged) { (ends.1, ends.0) } else { ends };
    tables.from.push(from);
    tables.to.push(to);
    tables.counts.push(1 + u16::from(planted.has(Error::TwoPoints)));
    tables.ticks.push(u16::from(planted.has(Error::PointAtTick1)));
    let weight = weight.wrapping_sub(u32::from(planted.has(Error::WeightLowered))) as u16;
    tables.travels.push(weight);
    if planted.has(Error::TwoPoints) {
        tables.ticks.push(1_440);
        tables.travels.push(weight);
    }
}

fn alter(planted: Planted, file: &mut Vec<u8>, arcs: usize) {
    match planted.0 {
        Some(Error::ChecksExchanged) => {
            for block in file.chunks_exact_mut(BLOCK) {
                block[CHECK..].rotate_left(2);
            }
        }
        Some(Error::CheckOfLastBlockMissing) => {
            let last = file.len() - BLOCK;
            file[last + CHECK..].fill(0);
        }
        Some(Error::BlockNumbersFrom1) => {
            for block in file.chunks_exact_mut(BLOCK) {
                block[4] += 1;
                mend(block);
            }
        }
        Some(Error::EmptyBlockBehindFullOnes) if arcs > 0 && arcs.is_multiple_of(125) => {
            let mut block = [0; BLOCK];
            block[0] = 4;
            block[4] = (file.len() / BLOCK) as u8;
            mend(&mut block);
            file.extend_from_slice(&block);
        }
        _ => {}
    }
}
