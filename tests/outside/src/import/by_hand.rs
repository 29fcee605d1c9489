//! Texts made on purpose, each with what wish 3's words give for it, worked out by hand. They hold the
//! reference to the wish a second time.

use super::Arc;

/// What the import has to make of a text.
#[derive(Clone, Copy)]
pub enum Gives {
    /// So many nodes, and these arcs.
    Arcs(u32, &'static [Arc]),
    /// So many nodes, and so many times the same arc.
    Same(u32, usize, Arc),
    /// This refusal at this line.
    Refused(u32, usize),
}

use Gives::{Arcs, Refused, Same};

pub struct ByHand {
    pub text: Vec<u8>,
    pub gives: Gives,
    /// Small enough for every choice of lengths.
    pub small: bool,
}

/// Tried with every choice of lengths.
#[rustfmt::skip]
const SMALL: &[(&[u8], Gives)] = &[
    // Good texts.
    (b"p sp 1 0", Arcs(1, &[])),
    (b"p sp 1 0\n", Arcs(1, &[])),
    (b"p sp 000000001 000000000", Arcs(1, &[])),
    (b"p sp 512 0\n", Arcs(512, &[])),
    (b"c\np sp 1 0\nc", Arcs(1, &[])),
    (b"c\np sp 1 0\nc\n", Arcs(1, &[])),
    (b"cow\np sp 2 1\nc\r\na 1 2 3\ncat", Arcs(2, &[(1, 2, 3)])),
    (b"c\0\xff\tp sp 9 9\nca 1 2 3\np sp 2 1\ncp sp 1 0\na 2 1 2880\nc \n", Arcs(2, &[(2, 1, 2_880)])),
    (b"p sp 2 2\na 1 2 1\na 2 1 2880\n", Arcs(2, &[(1, 2, 1), (2, 1, 2_880)])),
    (b"p sp 2 3\na 1 2 7\na 1 2 7\na 1 2 6", Arcs(2, &[(1, 2, 7), (1, 2, 7), (1, 2, 6)])),
    (b"p sp 4 3\na 4 1 30\na 3 2 20\na 1 3 10\n", Arcs(4, &[(4, 1, 30), (3, 2, 20), (1, 3, 10)])),
    (b"p sp 000000002 000000001\na 000000002 000000001 000002880", Arcs(2, &[(2, 1, 2_880)])),
    (b"p sp 02 1\na 01 002 0003\n", Arcs(2, &[(1, 2, 3)])),
    (b"p sp 512 1\na 512 511 2879\n", Arcs(512, &[(512, 511, 2_879)])),
    // Which lines there are.
    (b"", Refused(35, 0)),
    (b"\n", Refused(35, 1)),
    (b"\n\n", Refused(35, 1)),
    (b"c", Refused(35, 1)),
    (b"c\n", Refused(35, 1)),
    (b"c\nc", Refused(35, 2)),
    (b"c\nc\n", Refused(35, 2)),
    (b"c\n\n", Refused(35, 2)),
    (b"c\n\nc\n", Refused(35, 2)),
    (b"\np sp 1 0\n", Refused(35, 1)),
    (b"p sp 1 0\n\n", Refused(35, 2)),
    (b"p sp 1 0\n\n\n", Refused(35, 2)),
    (b"p sp 1 0\n ", Refused(35, 2)),
    (b"p sp 1 0\n\r\n", Refused(35, 2)),
    (b"p sp 1 0\n\0", Refused(35, 2)),
    (b"p sp 2 1\n\na 1 2 3\n", Refused(35, 2)),
    (b"p sp 2 1\na 1 2 3\n\n", Refused(35, 3)),
    (b"p sp 2 1\na 1 2 3\n\nc\n", Refused(35, 3)),
    (b"p sp 2 1\ra 1 2 3\r", Refused(35, 1)),
    // Remarks and what is none.
    (b"C\np sp 1 0\n", Refused(35, 1)),
    (b" c\np sp 1 0\n", Refused(35, 1)),
    (b"\tc\np sp 1 0\n", Refused(35, 1)),
    (b"\xe3\np sp 1 0\n", Refused(35, 1)),
    (b"#\np sp 1 0\n", Refused(35, 1)),
    (b"p sp 1 0\nC", Refused(35, 2)),
    (b"p sp 1 0 c", Refused(35, 1)),
    // The `p` line's form.
    (b"p", Refused(35, 1)),
    (b"p ", Refused(35, 1)),
    (b"p sp", Refused(35, 1)),
    (b"p sp ", Refused(35, 1)),
    (b"p sp 1", Refused(35, 1)),
    (b"p sp 1 ", Refused(35, 1)),
    (b"p sp  ", Refused(35, 1)),
    (b"p sp  0", Refused(35, 1)),
    (b"p sp 10", Refused(35, 1)),
    (b"p sp 1 0 ", Refused(35, 1)),
    (b"p sp 1 0 0", Refused(35, 1)),
    (b"p sp 1 0\r\n", Refused(35, 1)),
    (b"p sp 1 0\0", Refused(35, 1)),
    (b" p sp 1 0", Refused(35, 1)),
    (b"p  sp 1 0", Refused(35, 1)),
    (b"p sp  1 0", Refused(35, 1)),
    (b"p sp 1  0", Refused(35, 1)),
    (b"p\tsp 1 0", Refused(35, 1)),
    (b"p sp\t1 0", Refused(35, 1)),
    (b"p sp 1\t0", Refused(35, 1)),
    (b"P sp 1 0", Refused(35, 1)),
    (b"p SP 1 0", Refused(35, 1)),
    (b"p sP 1 0", Refused(35, 1)),
    (b"p max 1 0", Refused(35, 1)),
    (b"p aux sp 1 0", Refused(35, 1)),
    (b"p spx 1 0", Refused(35, 1)),
    (b"p s 1 0", Refused(35, 1)),
    (b"p s p 1 0", Refused(35, 1)),
    (b"p 1 0", Refused(35, 1)),
    (b"psp 1 0", Refused(35, 1)),
    (b"p sp1 0", Refused(35, 1)),
    (b"sp 1 0", Refused(35, 1)),
    (b"p sp +1 0", Refused(35, 1)),
    (b"p sp -1 0", Refused(35, 1)),
    (b"p sp 1 -0", Refused(35, 1)),
    (b"p sp 1. 0", Refused(35, 1)),
    (b"p sp 0x1 0", Refused(35, 1)),
    (b"p sp 1 o", Refused(35, 1)),
    (b"p sp 1 /", Refused(35, 1)),
    (b"p sp 1 :", Refused(35, 1)),
    (b"p sp 0000000001 0", Refused(35, 1)),
    (b"p sp 1 0000000000", Refused(35, 1)),
    (b"p sp 4294967297 0", Refused(35, 1)),
    (b"p sp 1000000000 0", Refused(35, 1)),
    (b"p sp 1 18446744073709551616", Refused(35, 1)),
    // The `a` lines' form.
    (b"p sp 2 1\na", Refused(35, 2)),
    (b"p sp 2 1\na ", Refused(35, 2)),
    (b"p sp 2 1\na 1", Refused(35, 2)),
    (b"p sp 2 1\na 1 2", Refused(35, 2)),
    (b"p sp 2 1\na 1 2 ", Refused(35, 2)),
    (b"p sp 2 1\na 1 2 3 ", Refused(35, 2)),
    (b"p sp 2 1\na 1 2 3 4", Refused(35, 2)),
    (b"p sp 2 1\na 1 2 3\r\n", Refused(35, 2)),
    (b"p sp 2 1\n a 1 2 3", Refused(35, 2)),
    (b"p sp 2 1\na  1 2 3", Refused(35, 2)),
    (b"p sp 2 1\na 1  2 3", Refused(35, 2)),
    (b"p sp 2 1\na 1 2  3", Refused(35, 2)),
    (b"p sp 2 1\na\t1 2 3", Refused(35, 2)),
    (b"p sp 2 1\na 1 2\t3", Refused(35, 2)),
    (b"p sp 2 1\nA 1 2 3", Refused(35, 2)),
    (b"p sp 2 1\ne 1 2 3", Refused(35, 2)),
    (b"p sp 2 1\na1 2 3", Refused(35, 2)),
    (b"p sp 2 1\nasp 1 2 3", Refused(35, 2)),
    (b"p sp 2 1\na sp 1 2 3", Refused(35, 2)),
    (b"p sp 2 1\n1 2 3", Refused(35, 2)),
    (b"p sp 2 1\na +1 2 3", Refused(35, 2)),
    (b"p sp 2 1\na 1 -2 3", Refused(35, 2)),
    (b"p sp 2 1\na 1 2 3.0", Refused(35, 2)),
    (b"p sp 2 1\na 1 2 3x", Refused(35, 2)),
    (b"p sp 2 1\na 1 2 3\0", Refused(35, 2)),
    (b"p sp 2 1\na 0000000001 2 3", Refused(35, 2)),
    (b"p sp 2 1\na 1 0000000002 3", Refused(35, 2)),
    (b"p sp 2 1\na 1 2 0000000003", Refused(35, 2)),
    // The order.
    (b"a 1 2 3", Refused(35, 1)),
    (b"a 1 2 3\np sp 2 1\n", Refused(35, 1)),
    (b"c\na 1 2 3\np sp 2 1\na 1 2 3\n", Refused(35, 2)),
    (b"a 1 1 0\nx\n", Refused(35, 1)),
    (b"p sp 1 0\np sp 1 0", Refused(35, 2)),
    (b"p sp 1 0\nc\np sp 0 0\n", Refused(35, 3)),
    (b"p sp 2 1\np sp 2 1\na 1 2 3\n", Refused(35, 2)),
    (b"p sp 2 1\na 1 2 3\np sp 2 1", Refused(35, 3)),
    (b"p sp 2 1\na 1 2 3\nc\np sp 2 1\nx", Refused(35, 4)),
    // Arcs too many and too few.
    (b"p sp 2 0\na 1 2 3", Refused(35, 2)),
    (b"p sp 1 0\na 1 1 0\n", Refused(35, 2)),
    (b"p sp 2 1\na 1 2 3\na 1 2 3\na 1 2 3\n", Refused(35, 3)),
    (b"p sp 2 1\na 1 2 3\nc\na 1 1 0\nx\n", Refused(35, 4)),
    (b"p sp 2 1\na 1 2 3\nx\na 1 2 3\n", Refused(35, 3)),
    (b"p sp 2 1", Refused(35, 1)),
    (b"p sp 2 1\n", Refused(35, 1)),
    (b"p sp 2 1\nc\nc", Refused(35, 3)),
    (b"c\np sp 2 2\na 1 2 3\nc\n", Refused(35, 4)),
    (b"p sp 2 2\na 1 2 3\nx\nc\n", Refused(35, 3)),
    (b"p sp 2 1\nx\n", Refused(35, 2)),
    (b"p sp 2 2048\n", Refused(35, 1)),
    (b"p sp 2 2049\n", Refused(35, 1)),
    (b"p sp 4 999999999", Refused(35, 1)),
    (b"p sp 4 999999999\na 1 2 3\n", Refused(35, 2)),
    (b"p sp 2 65537\na 1 2 3\n", Refused(35, 2)),
    (b"p sp 2 65536\n", Refused(35, 1)),
    // 35 over the whole text comes before 36.
    (b"p sp 2 1\na 1 1 3\nx", Refused(35, 3)),
    (b"p sp 2 2\na 1 1 3\nc\n", Refused(35, 3)),
    (b"p sp 513 1\nc\nx\n", Refused(35, 3)),
    (b"p sp 0 1", Refused(35, 1)),
    (b"p sp 0 0\n\n", Refused(35, 2)),
    (b"p sp 0 0\np sp 1 0", Refused(35, 2)),
    (b"p sp 0 1\na 1 2 3\na 1 2 3\n", Refused(35, 3)),
    // The sizes.
    (b"p sp 0 0", Refused(36, 1)),
    (b"c\nc\np sp 000000000 0\nc\n", Refused(36, 3)),
    (b"p sp 513 0\n", Refused(36, 1)),
    (b"p sp 65536 0\n", Refused(36, 1)),
    (b"p sp 65537 0\n", Refused(36, 1)),
    (b"p sp 999999999 0\n", Refused(36, 1)),
    (b"p sp 0 1\na 1 2 3\n", Refused(36, 1)),
    (b"c\np sp 513 1\na 1 1 0\n", Refused(36, 2)),
    // The arcs.
    (b"p sp 2 1\na 1 1 3", Refused(36, 2)),
    (b"p sp 2 1\na 1 01 3", Refused(36, 2)),
    (b"p sp 2 1\na 0 1 3", Refused(36, 2)),
    (b"p sp 2 1\na 1 0 3", Refused(36, 2)),
    (b"p sp 2 1\na 0 0 3", Refused(36, 2)),
    (b"p sp 2 1\na 3 1 3", Refused(36, 2)),
    (b"p sp 2 1\na 1 3 3", Refused(36, 2)),
    (b"p sp 2 1\na 3 3 3", Refused(36, 2)),
    (b"p sp 1 1\na 1 2 3", Refused(36, 2)),
    (b"p sp 512 1\na 513 1 3", Refused(36, 2)),
    (b"p sp 512 1\na 1 513 3", Refused(36, 2)),
    (b"p sp 2 1\na 65537 2 3", Refused(36, 2)),
    (b"p sp 2 1\na 1 65538 3", Refused(36, 2)),
    (b"p sp 2 1\na 999999999 2 3", Refused(36, 2)),
    (b"p sp 2 1\na 1 2 0", Refused(36, 2)),
    (b"p sp 2 1\na 1 2 2881", Refused(36, 2)),
    (b"p sp 2 1\na 1 2 65537", Refused(36, 2)),
    (b"p sp 2 1\na 1 2 999999999", Refused(36, 2)),
    (b"p sp 3 4\na 1 2 3\nc\na 1 1 1\na 0 1 1\na 1 2 0\n", Refused(36, 4)),
    (b"p sp 2 2\nc\na 1 2 2880\nc\na 2 1 2881\nc\n", Refused(36, 5)),
];

const MEGABYTE: usize = 1 << 20;
/// More lines than 16 bits count.
const MANY: usize = 70_000;

type Maker = fn() -> (Vec<u8>, Gives);
const LARGE: &[Maker] = &[
    // The limits of nodes and arcs.
    || (with_arcs(512, 2_048, 2_048), Same(512, 2_048, ARC)),
    || (with_arcs(2, 2_048, 2_048), Same(2, 2_048, ARC)),
    || (with_arcs(512, 2_049, 2_049), Refused(36, 1)),
    || (with_arcs(513, 2_048, 2_048), Refused(36, 1)),
    || (with_arcs(512, 2_048, 2_047), Refused(35, 2_048)),
    || (with_arcs(512, 2_049, 2_048), Refused(35, 2_049)),
    || (with_arcs(512, 2_048, 2_049), Refused(35, 2_050)),
    || (with_arcs(0, 2_049, 2_050), Refused(35, 2_051)),
    || (with_arcs(2, 999_999_999, 3_000), Refused(35, 3_001)),
    || (with_arcs(2, MANY, MANY), Refused(36, 1)),
    || (with_arcs(2, MANY, MANY + 1), Refused(35, MANY + 2)),
    || (with_arcs(2, MANY, MANY - 1), Refused(35, MANY)),
    || (joined(&[&with_arcs(2, 2_048, 2_047), b"a 1 2 0"]), Refused(36, 2_049)),
    || (joined(&[&with_arcs(2, 2_048, 2_047), b"a 1 2 0 "]), Refused(35, 2_049)),
    // The ends of blocks.
    || (with_arcs(250, 83, 83), Same(250, 83, ARC)),
    || (with_arcs(251, 84, 84), Same(251, 84, ARC)),
    || (with_arcs(500, 125, 125), Same(500, 125, ARC)),
    || (with_arcs(501, 126, 126), Same(501, 126, ARC)),
    || (with_arcs(249, 166, 166), Same(249, 166, ARC)),
    || (with_arcs(256, 256, 256), Same(256, 256, ARC)),
    // Many lines.
    || (joined(&[&remarks(63), b"p sp 1 0\n", &remarks(64)]), Arcs(1, &[])),
    || (joined(&[&remarks(MANY), b"p sp 2 1\na 1 2 3"]), Arcs(2, &[(1, 2, 3)])),
    || (joined(&[b"p sp 2 1\n", &remarks(MANY), b"a 1 2 3\n", &remarks(MANY)]), Arcs(2, &[(1, 2, 3)])),
    || (joined(&[&remarks(255), b"p sp 0 0\n"]), Refused(36, 256)),
    || (joined(&[&remarks(MANY), b"p sp 0 0\n"]), Refused(36, MANY + 1)),
    || (joined(&[&remarks(MANY), b"x"]), Refused(35, MANY + 1)),
    || (joined(&[b"p sp 2 1\n", &remarks(MANY), b"a 2 2 1\n"]), Refused(36, MANY + 2)),
    || (joined(&[b"p sp 2 1\n", &remarks(MANY)]), Refused(35, MANY + 1)),
    || (remarks(65_536), Refused(35, 65_536)),
    || (remarks(MEGABYTE / 2), Refused(35, MEGABYTE / 2)),
    || (many(b'\n', MEGABYTE), Refused(35, 1)),
    || (joined(&[b"p sp 1 0\n", &many(b'\n', MEGABYTE)]), Refused(35, 2)),
    // Long lines.
    || (joined(&[b"c", &many(b'x', MEGABYTE)]), Refused(35, 1)),
    || (joined(&[b"c", &many(b' ', MEGABYTE), b"\np sp 1 0"]), Arcs(1, &[])),
    || (joined(&[b"p sp 2 1\nc", &many(0, MEGABYTE), b"\na 1 2 3\nc"]), Arcs(2, &[(1, 2, 3)])),
    || (joined(&[b"p sp 2 1\na 1 2 3\nc", &many(b'9', MEGABYTE)]), Arcs(2, &[(1, 2, 3)])),
    || (many(b'x', MEGABYTE), Refused(35, 1)),
    || (many(b'p', MEGABYTE), Refused(35, 1)),
    || (many(b' ', MEGABYTE), Refused(35, 1)),
    || (many(0, MEGABYTE), Refused(35, 1)),
    || (joined(&[b"p sp ", &many(b'0', MEGABYTE), b"1 0"]), Refused(35, 1)),
    || (joined(&[b"p sp 1 ", &many(b'0', MEGABYTE)]), Refused(35, 1)),
    || (joined(&[b"p sp 1 0", &many(b' ', MEGABYTE)]), Refused(35, 1)),
    || (joined(&[b"p sp 2 1\na 1 2 ", &many(b'0', 256), b"3"]), Refused(35, 2)),
    || (joined(&[b"p sp 2 1\na 1 2 ", &many(b'0', 65_536), b"3"]), Refused(35, 2)),
    || (joined(&[b"p sp 2 1\na 1 2 3", &b" 3".repeat(256)]), Refused(35, 2)),
    || (joined(&[b"p sp 2 1\na 1 2 3", &b" 3".repeat(65_536)]), Refused(35, 2)),
    || (joined(&[b"p sp 2 1\na 1 2 3\n", &b"a".repeat(MEGABYTE)]), Refused(35, 3)),
];

pub const COUNT: usize = SMALL.len() + LARGE.len();

/// A text by its number, which is below `COUNT`.
pub fn text(number: usize) -> ByHand {
    match SMALL.get(number) {
        Some(&(text, gives)) => ByHand { text: text.to_vec(), gives, small: true },
        None => {
            let (text, gives) = LARGE[number - SMALL.len()]();
            ByHand { text, gives, small: false }
        }
    }
}

const ARC: Arc = (1, 2, 2_880);

/// A `p` line of these numbers, and so many arcs.
fn with_arcs(nodes: usize, named: usize, arcs: usize) -> Vec<u8> {
    joined(&[format!("p sp {nodes} {named}\n").as_bytes(), &b"a 1 2 2880\n".repeat(arcs)])
}

fn many(byte: u8, count: usize) -> Vec<u8> {
    vec![byte; count]
}

fn remarks(count: usize) -> Vec<u8> {
    b"c\n".repeat(count)
}

fn joined(parts: &[&[u8]]) -> Vec<u8> {
    parts.concat()
}
