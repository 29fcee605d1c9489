//! Document 01's section "Blocks": the 512-byte block, its check, its form, and files written as blocks.
//! Shared by the network and the plan; the refusals common to both (1, 2 and 11, 12) are here too.

use super::{refuse, Refusal};
use std::ops::Range;

pub const BLOCK: usize = 512;
pub const FIRST_ENTRY: usize = 8;
pub const CHECK: usize = 508;

/// A kind of later block: its number, the bytes of an entry, the entries of a full block.
#[derive(Clone, Copy)]
pub struct Kind {
    pub kind: u8,
    pub width: usize,
    pub per_block: usize,
}

pub const NETWORK_HEADER: u8 = 1;
pub const CELLS: Kind = Kind { kind: 2, width: 2, per_block: 250 };
pub const ARCS: Kind = Kind { kind: 3, width: 6, per_block: 83 };
pub const POINTS: Kind = Kind { kind: 4, width: 4, per_block: 125 };
pub const PLAN_HEADER: u8 = 5;
pub const FLAGS: Kind = Kind { kind: 6, width: 8, per_block: 62 };
pub const COUNTS: Kind = Kind { kind: 7, width: 2, per_block: 250 };
pub const PROFILE_POINTS: Kind = Kind { kind: 8, width: 6, per_block: 83 };
pub const CELLS_AND_HOURS: Kind = Kind { kind: 9, width: 6, per_block: 83 };

pub fn read16(bytes: &[u8], at: usize) -> u16 {
    u16::from_le_bytes([bytes[at], bytes[at + 1]])
}

pub fn read32(bytes: &[u8], at: usize) -> u32 {
    u32::from(read16(bytes, at)) | u32::from(read16(bytes, at + 2)) << 16
}

pub fn read64(bytes: &[u8], at: usize) -> u64 {
    u64::from(read32(bytes, at)) | u64::from(read32(bytes, at + 4)) << 32
}

/// "254 sixteen-bit words w; A starts at 1, B at 0; A = (A + w) mod 65,535, then B = (B + A) mod 65,535."
pub fn check_of(block: &[u8]) -> [u8; 4] {
    let mut a: u32 = 1;
    let mut b: u32 = 0;
    for word in block[..CHECK].chunks_exact(2) {
        a = (a + u32::from(u16::from_le_bytes([word[0], word[1]]))) % 65_535;
        b = (b + a) % 65_535;
    }
    let [a0, a1] = (a as u16).to_le_bytes();
    let [b0, b1] = (b as u16).to_le_bytes();
    [a0, a1, b0, b1]
}

/// Stores the check that the block's other bytes call for.
pub fn mend(block: &mut [u8]) {
    let check = check_of(block);
    block[CHECK..].copy_from_slice(&check);
}

/// What a later block has to look like.
pub struct Form {
    pub kind: Kind,
    pub number: usize,
    pub entries: usize,
}

/// "All blocks of a kind but the last are full; a kind with no entries has no block."
pub fn later_forms(parts: &[(Kind, usize)]) -> Vec<Form> {
    let mut forms = Vec::new();
    for &(kind, entries) in parts {
        let mut left = entries;
        while left > 0 {
            let entries = left.min(kind.per_block);
            forms.push(Form { kind, number: forms.len() + 1, entries });
            left -= entries;
        }
    }
    forms
}

/// Kind, byte 1, entries, number, and every unused entry byte zero.
pub fn form_holds(block: &[u8], form: &Form) -> bool {
    block[0] == form.kind.kind
        && block[1] == 0
        && usize::from(read16(block, 2)) == form.entries
        && read32(block, 4) as usize == form.number
        && block[FIRST_ENTRY + form.entries * form.kind.width..CHECK].iter().all(|&byte| byte == 0)
}

/// The first block: one entry of `kind`, number 0, and zero in the fill.
pub fn first_block_holds(block: &[u8], kind: u8, fill: &[Range<usize>]) -> bool {
    block[0] == kind
        && block[1] == 0
        && read16(block, 2) == 1
        && read32(block, 4) == 0
        && fill.iter().all(|range| block[range.clone()].iter().all(|&byte| byte == 0))
}

/// Refusals 1 and 2 (`length` and the number after it; the plan's are 11 and 12). Every block is summed,
/// also one that the header does not call for.
pub fn judge_length_and_checks(file: &[u8], most_blocks: usize, length: u32) -> Result<(), Refusal> {
    if file.is_empty() || !file.len().is_multiple_of(BLOCK) || file.len() / BLOCK > most_blocks {
        return refuse(length, 0);
    }
    for (number, block) in file.chunks_exact(BLOCK).enumerate() {
        if block[CHECK..] != check_of(block) {
            return refuse(length + 1, number);
        }
    }
    Ok(())
}

/// Refusals 5 and 6 (`length` and the number after it; the plan's are 15 and 16).
pub fn judge_later_blocks(file: &[u8], parts: &[(Kind, usize)], length: u32) -> Result<(), Refusal> {
    let forms = later_forms(parts);
    if file.len() != BLOCK * (1 + forms.len()) {
        return refuse(length, 0);
    }
    for form in &forms {
        let block = &file[form.number * BLOCK..][..BLOCK];
        if !form_holds(block, form) {
            return refuse(length + 1, form.number);
        }
    }
    Ok(())
}

/// The entries of all whole blocks of a kind, in the file's order. Also used on damaged files, whose blocks
/// may claim more entries than they hold.
pub fn entries(file: &[u8], kind: Kind) -> impl Iterator<Item = &[u8]> {
    file.chunks_exact(BLOCK).skip(1).filter(move |block| block[0] == kind.kind).flat_map(move |block| {
        let count = usize::from(read16(block, 2)).min(kind.per_block);
        block[FIRST_ENTRY..].chunks_exact(kind.width).take(count)
    })
}

/// A file of blocks: the header's entry, then each kind's entry bytes cut into blocks.
pub fn write_file(header_kind: u8, header: &[u8], parts: &[(Kind, Vec<u8>)]) -> Vec<u8> {
    let mut file = Vec::new();
    push_block(&mut file, header_kind, 1, header);
    for (kind, bytes) in parts {
        for chunk in bytes.chunks(kind.width * kind.per_block) {
            push_block(&mut file, kind.kind, chunk.len() / kind.width, chunk);
        }
    }
    file
}

fn push_block(file: &mut Vec<u8>, kind: u8, entries: usize, bytes: &[u8]) {
    let number = (file.len() / BLOCK) as u32;
    let mut block = [0u8; BLOCK];
    block[0] = kind;
    block[2..4].copy_from_slice(&(entries as u16).to_le_bytes());
    block[4..8].copy_from_slice(&number.to_le_bytes());
    block[FIRST_ENTRY..FIRST_ENTRY + bytes.len()].copy_from_slice(bytes);
    mend(&mut block);
    file.extend_from_slice(&block);
}
