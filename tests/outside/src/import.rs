//! Texts for the import of DIMACS road files: valid ones with the network they stand for, faults with what
//! they have to lead to, edits of single bytes, and texts made on purpose. And a stand-in for the import in
//! which errors can be planted, to see whether the tests find them.

pub mod by_hand;
pub mod damage;
pub mod edits;
pub mod every;
pub mod generate;
pub mod planted;
mod standin;
pub mod text;

use crate::reference::blocks::BLOCK;
use crate::reference::network::{self, Header, Tables};

/// An arc as a text has it: tail and head from 1, and a weight.
pub type Arc = (u32, u32, u32);

/// The tables that opening has to show: "each arc once, nodes lowered by one", each weight a constant travel.
pub fn shown(nodes: u32, arcs: &[Arc]) -> Tables {
    Tables {
        cells: vec![0; nodes as usize],
        opens: vec![0; nodes as usize],
        closes: vec![2_880; nodes as usize],
        from: arcs.iter().map(|arc| arc.0 as u16 - 1).collect(),
        to: arcs.iter().map(|arc| arc.1 as u16 - 1).collect(),
        counts: vec![1; arcs.len()],
        ticks: vec![0; arcs.len()],
        travels: arcs.iter().map(|arc| arc.2 as u16).collect(),
    }
}

/// The file that the import has to write.
pub fn file_of(number: u32, nodes: u32, arcs: &[Arc]) -> Vec<u8> {
    let count = arcs.len() as u32;
    let header = Header { number, period: 2_880, nodes, arcs: count, cells: 1, points: count, hours: 0 };
    network::write(&header, &shown(nodes, arcs))
}

/// How long it is: a header, 250 places, 83 roads and 125 points a block.
pub fn file_length(nodes: usize, arcs: usize) -> usize {
    BLOCK * (1 + nodes.div_ceil(250) + arcs.div_ceil(83) + arcs.div_ceil(125))
}
