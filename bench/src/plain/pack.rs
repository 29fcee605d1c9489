//! Pack: the tables are judged where they stand, and the file is written straight into the lent bytes.
use super::blocks::{blocks_of, sums, Block, Kind, BLOCK};
use super::network::{judge, Header, Network, ARCS, CELLS, HALLS, POINTS};
use super::{refuse, Refusal};

/// The tables of a network.
#[derive(Clone, Copy)]
pub struct Lists<'a> {
    pub cells: &'a [u16],
    pub opens: &'a [u16],
    pub closes: &'a [u16],
    pub tails: &'a [u16],
    pub heads: &'a [u16],
    pub counts: &'a [u16],
    pub ticks: &'a [u16],
    pub travels: &'a [u16],
}

#[inline(always)]
pub fn put16(out: &mut [u8], at: usize, value: u16) {
    out[at..at + 2].copy_from_slice(&value.to_le_bytes());
}

#[inline(always)]
fn put32(out: &mut [u8], at: usize, value: u32) {
    out[at..at + 4].copy_from_slice(&value.to_le_bytes());
}

/// Bytes 0 to 7, zeros after `used` bytes, and the check.
#[inline(always)]
fn frame(block: &mut Block, number: usize, kind: u8, entries: usize, used: usize) {
    put16(block, 0, kind as u16);
    put16(block, 2, entries as u16);
    put32(block, 4, number as u32);
    block[used..508].fill(0);
    let (a, b) = sums(block);
    put16(block, 508, a);
    put16(block, 510, b);
}

/// The blocks of one kind, from number `from` on; `put` writes entry i.
#[inline(always)]
pub fn put_run<const SIZE: usize>(blocks: &mut [Block], from: usize, kind: Kind, n: usize, put: impl Fn(&mut [u8; SIZE], usize)) {
    for j in 0..kind.blocks(n) {
        let entries = kind.per.min(n - kind.per * j);
        let block = &mut blocks[from + j];
        let slots = block[8..].as_chunks_mut::<SIZE>().0;
        for (e, slot) in slots[..entries].iter_mut().enumerate() {
            put(slot, kind.per * j + e);
        }
        frame(block, from + j, kind.kind, entries, 8 + SIZE * entries);
    }
}

/// The first block of a file, whose fields `put` writes.
pub fn put_first(block: &mut Block, kind: u8, used: usize, put: impl Fn(&mut Block)) {
    put(block);
    frame(block, 0, kind, 1, used);
}

/// The first block of a network's file.
pub fn put_header(block: &mut Block, header: &Header) {
    put_first(block, 1, 25, |block| {
        put32(block, 8, header.number);
        let fields = [header.period, header.nodes, header.arcs, header.cells];
        for (k, field) in fields.into_iter().enumerate() {
            put16(block, 12 + 2 * k, field as u16);
        }
        put32(block, 20, header.points);
        block[24] = header.hours as u8;
    });
}

fn encode(header: &Header, lists: &Lists, out: &mut [u8]) {
    let blocks = out.as_chunks_mut().0;
    put_header(&mut blocks[0], header);
    let (nodes, arcs, points) = (header.nodes as usize, header.arcs as usize, header.points as usize);
    let (cells, opens, closes) = (&lists.cells[..nodes], &lists.opens[..nodes], &lists.closes[..nodes]);
    if header.hours == 0 {
        put_run(blocks, 1, CELLS, nodes, |slot: &mut [u8; 2], i| put16(slot, 0, cells[i]));
    } else {
        put_run(blocks, 1, HALLS, nodes, |slot: &mut [u8; 6], i| {
            put16(slot, 0, cells[i]);
            put16(slot, 2, opens[i]);
            put16(slot, 4, closes[i]);
        });
    }
    let (tails, heads, counts) = (&lists.tails[..arcs], &lists.heads[..arcs], &lists.counts[..arcs]);
    put_run(blocks, header.arc_block(), ARCS, arcs, |slot: &mut [u8; 6], i| {
        put16(slot, 0, tails[i]);
        put16(slot, 2, heads[i]);
        put16(slot, 4, counts[i]);
    });
    let (ticks, travels) = (&lists.ticks[..points], &lists.travels[..points]);
    put_run(blocks, header.point_block(), POINTS, points, |slot: &mut [u8; 4], i| {
        put16(slot, 0, ticks[i]);
        put16(slot, 2, travels[i]);
    });
}

fn is_short(header: &Header, lists: &Lists) -> bool {
    let (nodes, arcs, points) = (header.nodes as usize, header.arcs as usize, header.points as usize);
    lists.cells.len() < nodes
        || lists.opens.len() < nodes
        || lists.closes.len() < nodes
        || lists.tails.len() < arcs
        || lists.heads.len() < arcs
        || lists.counts.len() < arcs
        || lists.ticks.len() < points
        || lists.travels.len() < points
}

/// Rules 7, 37 and 8 to 10 of tables.
fn judge_lists(header: &Header, lists: &Lists) -> Result<(), Refusal> {
    let nodes = header.nodes as usize;
    if let Some(v) = lists.cells[..nodes].iter().position(|&cell| cell as u32 >= header.cells) {
        return Err(refuse(7, v));
    }
    if let Some(v) = (0..nodes).find(|&v| !header.allows(lists.opens[v], lists.closes[v])) {
        return Err(refuse(37, v));
    }
    let arcs = header.arcs as usize;
    let mut from = 0;
    for a in 0..arcs {
        let (tail, head, count) = (lists.tails[a] as usize, lists.heads[a] as usize, lists.counts[a] as u32);
        if tail >= nodes || head >= nodes || tail == head || count < 1 || count > header.period {
            return Err(refuse(8, a));
        }
        from += count as usize;
    }
    if from != header.points as usize {
        return Err(refuse(8, arcs));
    }
    if !lists.are_points_sound(header) {
        return Err(points_fault(header, lists));
    }
    Ok(())
}

impl Lists<'_> {
    /// Do rules 9 and 10 hold everywhere?
    fn are_points_sound(&self, header: &Header) -> bool {
        let mut from = 0;
        for &count in &self.counts[..header.arcs as usize] {
            let to = from + count as usize;
            if !is_arc_sound(&self.ticks[from..to], &self.travels[from..to], header.period) {
                return false;
            }
            from = to;
        }
        true
    }
}

fn is_arc_sound(ticks: &[u16], travels: &[u16], period: u32) -> bool {
    let travels = &travels[..ticks.len()];
    let last = ticks.len() - 1;
    let end = |i: usize| ticks[i] as u32 + travels[i] as u32;
    let mut bad = ticks[0] != 0 || ticks[last] as u32 >= period || end(last) > period + travels[0] as u32;
    for &travel in travels {
        bad |= (travel as u32).wrapping_sub(1) >= period;
    }
    for i in 0..last {
        bad |= ticks[i + 1] <= ticks[i];
        bad |= end(i + 1) < end(i);
    }
    !bad
}

/// The fault that the file of these tables has: found on the file itself, since speed matters no more.
#[cold]
fn points_fault(header: &Header, lists: &Lists) -> Refusal {
    let mut file = vec![0; BLOCK * header.blocks()];
    encode(header, lists, &mut file);
    let network = Network::of(*header, blocks_of(&file));
    judge(&network).expect_err("a rule is broken")
}

/// Refusals 4, 30, 7, 37, 8 to 10 and 31, or the file's length with the file written.
pub fn pack(header: &Header, lists: &Lists, out: &mut [u8]) -> Result<usize, Refusal> {
    if !header.is_within_limits() {
        return Err(refuse(4, 0));
    }
    if is_short(header, lists) {
        return Err(refuse(30, 0));
    }
    judge_lists(header, lists)?;
    let long = BLOCK * header.blocks();
    if out.len() < long {
        return Err(refuse(31, 0));
    }
    encode(header, lists, &mut out[..long]);
    Ok(long)
}
