//! Faults in a file's bytes, the same for network and plan: lengths, checks, forms, and bytes changed with
//! the check mended or left. Refusals 1 to 3, 5 and 6, and 11 to 13, 15 and 16.

use super::Intended::{Any, Gives};
use super::{bytes, Fault, Files, Kind};
use crate::case::Case;
use crate::library;
use crate::reference::blocks::{mend, read16, BLOCK, CHECK, FIRST_ENTRY};
use crate::reference::{network, plan};
use crate::rng::Rng;

pub fn kinds() -> Vec<Kind> {
    let mut kinds = file_kinds();
    kinds.extend([
        Kind { name: "network: 559 blocks", intended: Gives(library::CHECK, &[1]), make: network_too_long },
        Kind { name: "network: up to 558 blocks", intended: Gives(library::CHECK, &[5]), make: network_long },
        Kind { name: "network: byte 24 above 1", intended: Gives(library::CHECK, &[4]), make: hours_above_1 },
        Kind { name: "network: byte 24 turned", intended: Gives(library::CHECK, &[5, 6]), make: hours_turned },
        Kind { name: "network: byte 25", intended: Gives(library::CHECK, &[3]), make: byte_25 },
        Kind { name: "network: kind 2 for 9", intended: Gives(library::CHECK, &[6]), make: kind_of_places },
        Kind { name: "plan: 13,719 blocks", intended: Gives(library::CHECK, &[11]), make: plan_too_long },
        Kind { name: "plan given as network", intended: Any, make: plan_as_network },
        Kind { name: "network given as plan", intended: Gives(library::CHECK, &[13]), make: network_as_plan },
    ]);
    kinds
}

/// One row for each file: the same maker, with the network's and the plan's refusal.
fn file_kinds() -> Vec<Kind> {
    macro_rules! for_both {
        ($($network:literal, $plan:literal, $intended:expr, $intended_plan:expr, $maker:ident;)*) => {
            vec![$(
                Kind { name: $network, intended: $intended, make: |rng, case| $maker(rng, case, Which::Network) },
                Kind { name: $plan, intended: $intended_plan, make: |rng, case| $maker(rng, case, Which::Plan) },
            )*]
        };
    }
    const fn check(numbers: &'static [u32]) -> super::Intended {
        Gives(library::CHECK, numbers)
    }
    for_both! {
        "network: emptied", "plan: emptied", check(&[1]), check(&[11]), emptied;
        "network: a byte less", "plan: a byte less", check(&[1]), check(&[11]), byte_less;
        "network: a byte more", "plan: a byte more", check(&[1]), check(&[11]), byte_more;
        "network: last block gone", "plan: last block gone", check(&[5]), check(&[15]), block_less;
        "network: a block more", "plan: a block more", check(&[5]), check(&[15]), block_more;
        "network: a block of zeros more", "plan: a block of zeros more", check(&[2]), check(&[12]), zeros_more;
        "network: byte flipped", "plan: byte flipped", check(&[2]), check(&[12]), flipped;
        "network: two blocks' bytes flipped", "plan: two blocks' bytes flipped", check(&[2]), check(&[12]), two_flipped;
        "network: byte flipped and mended", "plan: byte flipped and mended", Any, Any, flipped_and_mended;
        "network: entry flipped and mended", "plan: entry flipped and mended", Any, Any, entry_flipped;
        "network: 0 for 65,535", "plan: 0 for 65,535", Any, Any, word_exchanged;
        "network: check 0 as 65,535", "plan: check 0 as 65,535", check(&[2]), check(&[12]), check_all_ones;
        "network: check 0", "plan: check 0", check(&[0]), check(&[0]), check_zero;
        "network: first block's form", "plan: first block's form", check(&[3]), check(&[13]), first_form;
        "network: a later block's form", "plan: a later block's form", check(&[6]), check(&[16]), later_form;
        "network: two blocks exchanged", "plan: two blocks exchanged", check(&[6]), check(&[16]), blocks_exchanged;
    }
}

#[derive(Clone, Copy)]
enum Which {
    Network,
    Plan,
}

impl Which {
    fn file_of(self, case: &Case) -> Vec<u8> {
        match self {
            Which::Network => case.drafts.network.file(),
            Which::Plan => case.drafts.plan.file(),
        }
    }

    fn file(self, files: &mut Files) -> &mut Vec<u8> {
        match self {
            Which::Network => &mut files.network,
            Which::Plan => &mut files.plan,
        }
    }
}

/// Flips bits of one byte; outside the file nothing.
pub fn flip(file: &mut [u8], at: usize, bits: u8) {
    if let Some(byte) = file.get_mut(at) {
        *byte ^= bits;
    }
}

/// Mends the check of the block that holds this byte, if it is whole.
fn mend_at(file: &mut [u8], at: usize) {
    let start = at / BLOCK * BLOCK;
    if let Some(block) = file.get_mut(start..start + BLOCK) {
        mend(block);
    }
}

pub fn mend_all(file: &mut [u8]) {
    for block in file.chunks_exact_mut(BLOCK) {
        mend(block);
    }
}

fn some_bits(rng: &mut Rng) -> u8 {
    if rng.once_in(2) {
        1 << rng.below(8)
    } else {
        rng.within(1, 255) as u8
    }
}

fn emptied(_rng: &mut Rng, _case: &Case, which: Which) -> Option<Fault> {
    bytes(move |files| which.file(files).clear())
}

fn byte_less(_rng: &mut Rng, _case: &Case, which: Which) -> Option<Fault> {
    bytes(move |files| {
        which.file(files).pop();
    })
}

fn byte_more(rng: &mut Rng, _case: &Case, which: Which) -> Option<Fault> {
    let more = rng.pick(&[1, 2, 256, 511]);
    bytes(move |files| {
        let file = which.file(files);
        file.resize(file.len() + more, 0);
    })
}

fn block_less(_rng: &mut Rng, case: &Case, which: Which) -> Option<Fault> {
    (which.file_of(case).len() > BLOCK).then_some(())?;
    bytes(move |files| {
        let file = which.file(files);
        file.truncate(file.len().saturating_sub(BLOCK));
    })
}

/// A last block once more, or one with no entry, in true form and sum.
fn block_more(rng: &mut Rng, case: &Case, which: Which) -> Option<Fault> {
    let empty = rng.once_in(2);
    let most = match which {
        Which::Network => network::MOST_BLOCKS,
        Which::Plan => plan::MOST_BLOCKS,
    };
    (which.file_of(case).len() / BLOCK < most).then_some(())?;
    bytes(move |files| {
        let file = which.file(files);
        let number = file.len() / BLOCK;
        let mut block = file.rchunks_exact(BLOCK).next().map_or(vec![0; BLOCK], <[u8]>::to_vec);
        if empty {
            block[2..].fill(0);
        }
        block[4..8].copy_from_slice(&(number as u32).to_le_bytes());
        mend(&mut block);
        file.extend_from_slice(&block);
    })
}

fn zeros_more(_rng: &mut Rng, case: &Case, which: Which) -> Option<Fault> {
    (which.file_of(case).len() / BLOCK < network::MOST_BLOCKS).then_some(())?;
    bytes(move |files| which.file(files).extend_from_slice(&[0; BLOCK]))
}

fn flipped(rng: &mut Rng, case: &Case, which: Which) -> Option<Fault> {
    let at = rng.below(which.file_of(case).len());
    let bits = some_bits(rng);
    bytes(move |files| flip(which.file(files), at, bits))
}

fn two_flipped(rng: &mut Rng, case: &Case, which: Which) -> Option<Fault> {
    let length = which.file_of(case).len();
    (length > BLOCK).then_some(())?;
    let one = rng.below(BLOCK);
    let other = rng.within(BLOCK, length - 1);
    let bits = some_bits(rng);
    bytes(move |files| {
        flip(which.file(files), one, bits);
        flip(which.file(files), other, bits);
    })
}

fn flipped_and_mended(rng: &mut Rng, case: &Case, which: Which) -> Option<Fault> {
    let at = rng.below(which.file_of(case).len());
    let bits = some_bits(rng);
    bytes(move |files| {
        flip(which.file(files), at, bits);
        mend_at(which.file(files), at);
    })
}

/// A byte of an entry that is in use, in any block.
fn entry_flipped(rng: &mut Rng, case: &Case, which: Which) -> Option<Fault> {
    let file = which.file_of(case);
    let block = rng.below(file.len() / BLOCK);
    let start = block * BLOCK;
    let used = (FIRST_ENTRY..CHECK).rev().find(|&at| file[start + at] != 0)?;
    let at = start + rng.within(FIRST_ENTRY, used);
    let bits = some_bits(rng);
    bytes(move |files| {
        flip(which.file(files), at, bits);
        mend_at(which.file(files), at);
    })
}

/// A word 0 becomes 65,535 or the reverse: the check cannot tell, so it stays true unmended.
fn word_exchanged(rng: &mut Rng, case: &Case, which: Which) -> Option<Fault> {
    let file = which.file_of(case);
    let at = (0..40)
        .map(|_| rng.below(file.len() / 2) * 2)
        .find(|&at| at % BLOCK < CHECK && [0, u16::MAX].contains(&read16(&file, at)))?;
    bytes(move |files| zero_for_all_ones(which.file(files), at))
}

/// Exchanges a word 0 for 65,535 or the reverse; another word, or one in a check, stays.
pub fn zero_for_all_ones(file: &mut [u8], at: usize) {
    if at + 2 > file.len() || at % BLOCK >= CHECK {
        return;
    }
    let exchanged = match read16(file, at) {
        0 => u16::MAX,
        u16::MAX => 0,
        other => other,
    };
    file[at..at + 2].copy_from_slice(&exchanged.to_le_bytes());
}

/// Turns both files' network number so that the first block's A is 0, and mends both.
fn make_first_sum_zero(which: Which, files: &mut Files) {
    let file = which.file(files);
    if file.len() < BLOCK {
        return;
    }
    mend(&mut file[..BLOCK]);
    let sum = u32::from(read16(file, CHECK));
    let word = u32::from(read16(file, FIRST_ENTRY));
    let turned = ((word + 65_535 - sum) % 65_535) as u16;
    for file in [&mut files.network, &mut files.plan] {
        if file.len() >= BLOCK {
            file[FIRST_ENTRY..FIRST_ENTRY + 2].copy_from_slice(&turned.to_le_bytes());
            mend(&mut file[..BLOCK]);
        }
    }
}

/// A check of 0 stored as 65,535: no sum is 65,535, though the two look alike as words.
fn check_all_ones(_rng: &mut Rng, _case: &Case, which: Which) -> Option<Fault> {
    bytes(move |files| {
        make_first_sum_zero(which, files);
        let file = which.file(files);
        if file.len() >= BLOCK && read16(file, CHECK) == 0 {
            file[CHECK..CHECK + 2].fill(u8::MAX);
        }
    })
}

/// A check of 0 stored as 0, which is right.
fn check_zero(_rng: &mut Rng, _case: &Case, which: Which) -> Option<Fault> {
    bytes(move |files| make_first_sum_zero(which, files))
}

/// Changes kind, byte 1, entries, number or fill of a block whose entries take `used` bytes, and mends it.
fn change_form(rng: &mut Rng, start: usize, used: usize, which: Which) -> Option<Fault> {
    let at = match rng.below(5) {
        0 => 0,
        1 => 1,
        2 => rng.within(2, 3),
        3 => rng.within(4, 7),
        _ if FIRST_ENTRY + used < CHECK => {
            *[FIRST_ENTRY + used, CHECK - 1, rng.within(FIRST_ENTRY + used, CHECK - 1)].get(rng.below(3))?
        }
        _ => 1,
    };
    let bits = some_bits(rng);
    bytes(move |files| {
        flip(which.file(files), start + at, bits);
        mend_at(which.file(files), start + at);
    })
}

fn first_form(rng: &mut Rng, _case: &Case, which: Which) -> Option<Fault> {
    let used = match which {
        Which::Network => 17,
        Which::Plan => 20,
    };
    change_form(rng, 0, used, which)
}

fn later_form(rng: &mut Rng, case: &Case, which: Which) -> Option<Fault> {
    let file = which.file_of(case);
    let blocks = file.len() / BLOCK;
    (blocks > 1).then_some(())?;
    let start = rng.within(1, blocks - 1) * BLOCK;
    let width = match file[start] {
        2 | 7 => 2,
        3 | 8 | 9 => 6,
        4 => 4,
        _ => 8,
    };
    let used = usize::from(read16(&file, start + 2)) * width;
    change_form(rng, start, used, which)
}

fn blocks_exchanged(rng: &mut Rng, case: &Case, which: Which) -> Option<Fault> {
    let blocks = which.file_of(case).len() / BLOCK;
    (blocks > 2).then_some(())?;
    let one = rng.within(1, blocks - 2);
    let other = rng.within(one + 1, blocks - 1);
    bytes(move |files| {
        let file = which.file(files);
        if (other + 1) * BLOCK <= file.len() {
            for at in 0..BLOCK {
                file.swap(one * BLOCK + at, other * BLOCK + at);
            }
        }
    })
}

/// Fills a file up to `blocks` blocks with true but empty ones.
fn lengthen(file: &mut Vec<u8>, blocks: usize) {
    let mut block = [0; BLOCK];
    mend(&mut block);
    while file.len() < blocks * BLOCK {
        file.extend_from_slice(&block);
    }
}

fn network_too_long(_rng: &mut Rng, _case: &Case) -> Option<Fault> {
    bytes(|files| lengthen(&mut files.network, network::MOST_BLOCKS + 1))
}

/// As many blocks as a file without hours may have, one more, or as many as any may have.
fn network_long(rng: &mut Rng, case: &Case) -> Option<Fault> {
    let blocks = rng.pick(&[554, 555, network::MOST_BLOCKS]);
    (case.drafts.network.file().len() < blocks * BLOCK).then_some(())?;
    bytes(move |files| lengthen(&mut files.network, blocks))
}

/// Changes a byte of the network's first block, and mends it.
fn change_first(files: &mut Files, at: usize, change: impl Fn(u8) -> u8) {
    if let Some(byte) = files.network.get_mut(at) {
        *byte = change(*byte);
        mend_at(&mut files.network, at);
    }
}

fn hours_above_1(rng: &mut Rng, _case: &Case) -> Option<Fault> {
    let value = rng.pick(&[2, 2, 3, 9, 128, 129, 254, 255]);
    bytes(move |files| change_first(files, network::HOURS_AT, |_| value))
}

/// Kind 2 where byte 24 is 1, or kind 9 where it is 0.
fn hours_turned(_rng: &mut Rng, _case: &Case) -> Option<Fault> {
    bytes(|files| change_first(files, network::HOURS_AT, |byte| byte ^ 1))
}

fn byte_25(rng: &mut Rng, _case: &Case) -> Option<Fault> {
    let value = rng.pick(&[1, 1, 2, 255]);
    bytes(move |files| change_first(files, network::HOURS_AT + 1, |_| value))
}

/// The first block of places gets the other kind, and byte 24 stays.
fn kind_of_places(_rng: &mut Rng, _case: &Case) -> Option<Fault> {
    bytes(|files| {
        if let Some(kind) = files.network.get_mut(BLOCK) {
            *kind = if *kind == 9 { 2 } else { 9 };
            mend_at(&mut files.network, BLOCK);
        }
    })
}

/// Seven million bytes: tried seldom.
fn plan_too_long(rng: &mut Rng, _case: &Case) -> Option<Fault> {
    rng.once_in(16).then_some(())?;
    bytes(|files| lengthen(&mut files.plan, plan::MOST_BLOCKS + 1))
}

fn plan_as_network(_rng: &mut Rng, _case: &Case) -> Option<Fault> {
    bytes(|files| files.network = files.plan.clone())
}

fn network_as_plan(_rng: &mut Rng, _case: &Case) -> Option<Fault> {
    bytes(|files| files.plan = files.network.clone())
}
