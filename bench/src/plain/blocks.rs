//! Blocks of 512 bytes: fields, the sum, a block's form and a file as blocks.
//! The sum is one pass of plain additions that the compiler turns into vector code, with one remainder at the end.

pub type Block = [u8; 512];

pub const BLOCK: usize = 512;
const WORDS: usize = 254;
const MODULUS: u32 = 65_535;

#[inline(always)]
pub fn le16(bytes: &[u8], at: usize) -> u16 {
    u16::from_le_bytes([bytes[at], bytes[at + 1]])
}

#[inline(always)]
pub fn le32(bytes: &[u8], at: usize) -> u32 {
    u32::from_le_bytes([bytes[at], bytes[at + 1], bytes[at + 2], bytes[at + 3]])
}

/// The blocks of a file whose length is a multiple of 512.
pub fn blocks_of(file: &[u8]) -> &[Block] {
    file.as_chunks().0
}

/// Words are added in four columns side by side: written out, they become vector additions.
const COLUMNS: usize = 4;
const ROWS: usize = WORDS / COLUMNS;
const REST: usize = WORDS % COLUMNS;

/// A and B over the first 508 bytes. B adds up every A, so word i counts 254 - i times and the starting 1 of A 254 times. A column's own
/// sum of sums counts its word in row k ROWS - k times; 254 - (COLUMNS·k + l) is COLUMNS·(ROWS - k) + REST - l. The whole stays below 2^32.
#[inline]
pub fn sums(block: &Block) -> (u16, u16) {
    let (rows, _) = block[..2 * COLUMNS * ROWS].as_chunks::<{ 2 * COLUMNS }>();
    let (mut a0, mut a1, mut a2, mut a3) = (0, 0, 0, 0);
    let (mut b0, mut b1, mut b2, mut b3) = (0, 0, 0, 0);
    for row in rows {
        a0 += le16(row, 0) as u32;
        b0 += a0;
        a1 += le16(row, 2) as u32;
        b1 += a1;
        a2 += le16(row, 4) as u32;
        b2 += a2;
        a3 += le16(row, 6) as u32;
        b3 += a3;
    }
    let (y, z) = (le16(block, 504) as u32, le16(block, 506) as u32);
    let a = 1 + a0 + a1 + a2 + a3 + y + z;
    let rest = REST as u32;
    let low = rest * a0 + (rest - 1) * a1 + rest * y + z;
    let b = WORDS as u32 + COLUMNS as u32 * (b0 + b1 + b2 + b3) + low - a3;
    ((a % MODULUS) as u16, (b % MODULUS) as u16)
}

fn is_good(block: &Block) -> bool {
    sums(block) == (le16(block, 508), le16(block, 510))
}

/// The first block whose check is wrong.
pub fn first_bad_sum(blocks: &[Block]) -> Option<usize> {
    blocks.iter().position(|block| !is_good(block))
}

/// A kind of entry: its block kind, how many stand in a block, and the bytes of one.
#[derive(Clone, Copy)]
pub struct Kind {
    pub kind: u8,
    pub per: usize,
    pub size: usize,
}

impl Kind {
    pub fn blocks(&self, entries: usize) -> usize {
        entries.div_ceil(self.per)
    }
}

/// Has the block this kind, number and count of entries, and zeros after `used` bytes?
pub fn is_formed(block: &Block, number: usize, kind: u8, entries: usize, used: usize) -> bool {
    block[0] == kind
        && block[1] == 0
        && le16(block, 2) as usize == entries
        && le32(block, 4) as usize == number
        && block[used..508].iter().all(|&byte| byte == 0)
}

/// The first block of a run of n entries, which starts at block `from`, that is out of its form.
pub fn first_unformed(blocks: &[Block], from: usize, kind: Kind, n: usize) -> Option<usize> {
    let run = &blocks[from..from + kind.blocks(n)];
    let position = run.iter().enumerate().position(|(j, block)| {
        let entries = kind.per.min(n - kind.per * j);
        !is_formed(block, from + j, kind.kind, entries, 8 + kind.size * entries)
    });
    position.map(|j| from + j)
}
