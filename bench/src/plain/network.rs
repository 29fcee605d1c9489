//! Network files: the header and its limits, validation (refusals 1 to 10 and 37), the entries read in place, and Open.
use super::blocks::{blocks_of, first_bad_sum, first_unformed, is_formed, le16, le32, Block, Kind, BLOCK};
use super::points::judge_points;
use super::{refuse, Refusal};

pub const CELLS: Kind = Kind { kind: 2, per: 250, size: 2 };
/// Cells with hours, where byte 24 of the header is 1.
pub const HALLS: Kind = Kind { kind: 9, per: 83, size: 6 };
pub const ARCS: Kind = Kind { kind: 3, per: 83, size: 6 };
pub const POINTS: Kind = Kind { kind: 4, per: 125, size: 4 };

const MOST_BLOCKS: usize = 558;

#[derive(Clone, Copy, Debug, PartialEq, Eq)]
pub struct Header {
    pub number: u32,
    pub period: u32,
    pub nodes: u32,
    pub arcs: u32,
    pub cells: u32,
    pub points: u32,
    /// 1 where hours are held.
    pub hours: u32,
}

impl Header {
    pub fn is_within_limits(&self) -> bool {
        (1..=2880).contains(&self.period)
            && (1..=512).contains(&self.nodes)
            && self.arcs <= 2048
            && (1..=64).contains(&self.cells)
            && self.points <= 65_535
            && self.hours <= 1
    }

    pub fn place_kind(&self) -> Kind {
        if self.hours == 0 {
            CELLS
        } else {
            HALLS
        }
    }

    /// May a place have these hours?
    #[inline(always)]
    pub fn allows(&self, open: u16, close: u16) -> bool {
        let all_day = open == 0 && close as u32 == self.period;
        open < close && close as u32 <= self.period && (self.hours == 1 || all_day)
    }

    pub fn arc_block(&self) -> usize {
        1 + self.place_kind().blocks(self.nodes as usize)
    }

    pub fn point_block(&self) -> usize {
        self.arc_block() + ARCS.blocks(self.arcs as usize)
    }

    pub fn blocks(&self) -> usize {
        self.point_block() + POINTS.blocks(self.points as usize)
    }
}

/// An arc's entry.
#[derive(Clone, Copy)]
pub struct Arc {
    pub tail: usize,
    pub head: usize,
    pub count: usize,
}

/// A validated file, its tables read in place.
#[derive(Clone, Copy)]
pub struct Network<'a> {
    pub header: Header,
    pub period: u32,
    pub nodes: usize,
    pub arcs: usize,
    cells: &'a [Block],
    arc_blocks: &'a [Block],
    pub point_blocks: &'a [Block],
}

impl<'a> Network<'a> {
    /// The tables of a file that is as long as its header calls for.
    pub fn of(header: Header, blocks: &'a [Block]) -> Network<'a> {
        Network {
            header,
            period: header.period,
            nodes: header.nodes as usize,
            arcs: header.arcs as usize,
            cells: &blocks[1..header.arc_block()],
            arc_blocks: &blocks[header.arc_block()..header.point_block()],
            point_blocks: &blocks[header.point_block()..header.blocks()],
        }
    }

    #[inline(always)]
    pub fn cell(&self, v: usize) -> u16 {
        match self.header.hours {
            0 => le16(&self.cells[v / CELLS.per], 8 + 2 * (v % CELLS.per)),
            _ => le16(&self.cells[v / HALLS.per], 8 + 6 * (v % HALLS.per)),
        }
    }

    /// The ticks at which a place opens and closes.
    pub fn hours(&self, v: usize) -> (u16, u16) {
        if self.header.hours == 0 {
            return (0, self.period as u16);
        }
        let (block, at) = (&self.cells[v / HALLS.per], 8 + 6 * (v % HALLS.per));
        (le16(block, at + 2), le16(block, at + 4))
    }

    /// All arcs by rising number, without a division for each.
    #[inline(always)]
    pub fn each_arc(&self) -> impl Iterator<Item = Arc> + 'a {
        let entries = self.arc_blocks.iter().flat_map(|block| block[8..506].as_chunks::<6>().0);
        entries.take(self.arcs).map(|entry| Arc {
            tail: le16(entry, 0) as usize,
            head: le16(entry, 2) as usize,
            count: le16(entry, 4) as usize,
        })
    }

    /// The nodes with an arc from another cell, marked, and how many they are.
    pub fn borders(&self) -> ([bool; 512], usize) {
        let mut marks = [false; 512];
        let mut cells = [0; 512];
        for (v, cell) in cells.iter_mut().enumerate().take(self.nodes) {
            *cell = self.cell(v);
        }
        for arc in self.each_arc() {
            marks[arc.head] |= cells[arc.tail] != cells[arc.head];
        }
        let count = marks.iter().filter(|&&mark| mark).count();
        (marks, count)
    }
}

fn header_of(block: &Block) -> Header {
    Header {
        number: le32(block, 8),
        period: le16(block, 12) as u32,
        nodes: le16(block, 14) as u32,
        arcs: le16(block, 16) as u32,
        cells: le16(block, 18) as u32,
        points: le32(block, 20),
        hours: block[24] as u32,
    }
}

/// Refusals 1 to 10 and 37, or the tables.
pub fn validate(file: &[u8]) -> Result<Network<'_>, Refusal> {
    if file.is_empty() || !file.len().is_multiple_of(BLOCK) || file.len() > MOST_BLOCKS * BLOCK {
        return Err(refuse(1, 0));
    }
    let blocks = blocks_of(file);
    if let Some(block) = first_bad_sum(blocks) {
        return Err(refuse(2, block));
    }
    if !is_formed(&blocks[0], 0, 1, 1, 25) {
        return Err(refuse(3, 0));
    }
    let header = header_of(&blocks[0]);
    if !header.is_within_limits() {
        return Err(refuse(4, 0));
    }
    if blocks.len() != header.blocks() {
        return Err(refuse(5, 0));
    }
    let runs =
        [(1, header.place_kind(), header.nodes), (header.arc_block(), ARCS, header.arcs), (header.point_block(), POINTS, header.points)];
    for (from, kind, n) in runs {
        if let Some(block) = first_unformed(blocks, from, kind, n as usize) {
            return Err(refuse(6, block));
        }
    }
    let network = Network::of(header, blocks);
    judge(&network)?;
    Ok(network)
}

/// Rules 7, 37 and 8 to 10.
pub fn judge(network: &Network) -> Result<(), Refusal> {
    if let Some(v) = (0..network.nodes).find(|&v| network.cell(v) as u32 >= network.header.cells) {
        return Err(refuse(7, v));
    }
    let is_allowed = |(open, close)| network.header.allows(open, close);
    if let Some(v) = (0..network.nodes).find(|&v| !is_allowed(network.hours(v))) {
        return Err(refuse(37, v));
    }
    let mut sum = 0;
    for (a, arc) in network.each_arc().enumerate() {
        let apart = arc.tail < network.nodes && arc.head < network.nodes && arc.tail != arc.head;
        if !apart || arc.count < 1 || arc.count > network.period as usize {
            return Err(refuse(8, a));
        }
        sum += arc.count;
    }
    if sum != network.header.points as usize {
        return Err(refuse(8, network.arcs));
    }
    judge_points(network)
}

/// The tables of Open.
pub struct Tables<'a> {
    pub cells: &'a mut [u16],
    pub opens: &'a mut [u16],
    pub closes: &'a mut [u16],
    pub tails: &'a mut [u16],
    pub heads: &'a mut [u16],
    pub counts: &'a mut [u16],
    pub ticks: &'a mut [u16],
    pub travels: &'a mut [u16],
}

/// The cells of a file that holds no hours.
fn open_all_day(network: &Network, cells: &mut [u16]) {
    for (part, block) in cells.chunks_mut(CELLS.per).zip(network.cells) {
        for (cell, entry) in part.iter_mut().zip(block[8..508].as_chunks::<2>().0) {
            *cell = le16(entry, 0);
        }
    }
}

/// Refusals 1 to 10, 37 and 30, or the header with the tables filled.
pub fn open(file: &[u8], tables: Tables) -> Result<Header, Refusal> {
    let network = validate(file)?;
    let header = network.header;
    let (nodes, arcs, points) = (network.nodes, network.arcs, header.points as usize);
    let is_short = tables.cells.len() < nodes
        || tables.opens.len() < nodes
        || tables.closes.len() < nodes
        || tables.tails.len() < arcs
        || tables.heads.len() < arcs
        || tables.counts.len() < arcs
        || tables.ticks.len() < points
        || tables.travels.len() < points;
    if is_short {
        return Err(refuse(30, 0));
    }
    if header.hours == 0 {
        open_all_day(&network, &mut tables.cells[..nodes]);
        tables.opens[..nodes].fill(0);
        tables.closes[..nodes].fill(network.period as u16);
    } else {
        for v in 0..nodes {
            tables.cells[v] = network.cell(v);
            (tables.opens[v], tables.closes[v]) = network.hours(v);
        }
    }
    let ends = tables.tails[..arcs].iter_mut().zip(&mut tables.heads[..arcs]);
    for (((tail, head), count), arc) in ends.zip(&mut tables.counts[..arcs]).zip(network.each_arc()) {
        *tail = arc.tail as u16;
        *head = arc.head as u16;
        *count = arc.count as u16;
    }
    let ticks = tables.ticks[..points].chunks_mut(POINTS.per);
    let travels = tables.travels[..points].chunks_mut(POINTS.per);
    for ((ticks, travels), block) in ticks.zip(travels).zip(network.point_blocks) {
        for ((tick, travel), entry) in ticks.iter_mut().zip(travels).zip(block[8..508].as_chunks::<4>().0) {
            *tick = le16(entry, 0);
            *travel = le16(entry, 2);
        }
    }
    Ok(header)
}
