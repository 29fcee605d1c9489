//! Road files, made deterministically: remarks alone, arcs alone, and a long text of both. Each has one line of sizes.
use crate::plain::network::Header;
use crate::plain::pack::Lists;
use crate::town::{Dice, PERIOD};

const NODES: u64 = 512;
const ARCS: usize = 2048;
/// Remarks of a text without arcs, and between two arcs of the long one.
const REMARKS: usize = 20_000;
const BETWEEN: usize = 8;

pub struct Text {
    pub name: &'static str,
    pub bytes: Vec<u8>,
    pub summary: String,
}

/// A remark of 12 to 90 bytes.
fn remark(bytes: &mut Vec<u8>, dice: &mut Dice) {
    bytes.extend(b"c ");
    for _ in 0..dice.within(9, 87) {
        bytes.push(dice.within(b' ' as u64, b'z' as u64) as u8);
    }
    bytes.push(b'\n');
}

/// An arc between two different nodes.
fn arc(bytes: &mut Vec<u8>, dice: &mut Dice) {
    let tail = dice.within(1, NODES);
    let head = 1 + (tail - 1 + dice.within(1, NODES - 1)) % NODES;
    bytes.extend(format!("a {tail} {head} {}\n", dice.within(1, PERIOD as u64)).bytes());
}

/// So many remarks, the sizes, and so many arcs, each with some remarks behind it.
fn make(name: &'static str, remarks: usize, arcs: usize, between: usize) -> Text {
    let mut dice = Dice::new(6);
    let mut bytes = Vec::new();
    for _ in 0..remarks {
        remark(&mut bytes, &mut dice);
    }
    bytes.extend(format!("p sp {NODES} {arcs}\n").bytes());
    for _ in 0..arcs {
        arc(&mut bytes, &mut dice);
        for _ in 0..between {
            remark(&mut bytes, &mut dice);
        }
    }
    let summary = format!("{name}: {} remarks, {arcs} arcs, {} bytes", remarks + arcs * between, bytes.len());
    Text { name, bytes, summary }
}

pub fn all() -> [Text; 3] {
    [make("remark", REMARKS, 0, 0), make("arcs", 0, ARCS, 0), make("mixed", 0, ARCS, BETWEEN)]
}

/// The roads of a network as a text: a road's weight is the travel of its first point.
pub fn of_roads(header: &Header, lists: &Lists) -> Vec<u8> {
    let mut text = format!("p sp {} {}\n", header.nodes, header.arcs);
    let mut point = 0;
    for (arc, &count) in lists.counts[..header.arcs as usize].iter().enumerate() {
        let (tail, head) = (lists.tails[arc] + 1, lists.heads[arc] + 1);
        text += &format!("a {tail} {head} {}\n", lists.travels[point]);
        point += count as usize;
    }
    text.into_bytes()
}

/// Bytes that tell lines and fields apart.
const TELLING: &[u8] = b"\n\r\t  0019acp:/";

/// A text with one byte changed, put in or left out; or cut off.
pub fn damage(text: &[u8], dice: &mut Dice) -> Vec<u8> {
    let mut text = text.to_vec();
    let at = dice.within(0, text.len() as u64 - 1) as usize;
    let byte = TELLING[dice.within(0, TELLING.len() as u64 - 1) as usize];
    match dice.within(0, 3) {
        0 => text[at] = byte,
        1 => text.insert(at, byte),
        2 => _ = text.remove(at),
        _ => text.truncate(at),
    }
    text
}

/// A short text of all kinds of line, on which a damage is likely to matter.
pub fn short(dice: &mut Dice) -> Vec<u8> {
    let mut bytes = b"c\n".to_vec();
    let arcs = dice.within(0, 4);
    bytes.extend(format!("p sp {} {arcs}\n", dice.within(NODES - 2, NODES)).bytes());
    for _ in 0..arcs {
        arc(&mut bytes, dice);
    }
    remark(&mut bytes, dice);
    bytes
}
