//! Import: one pass over the text, which judges its lines and keeps the arcs in a table; then the file is written by runs.
use super::blocks::BLOCK;
use super::network::{Header, ARCS, CELLS, POINTS};
use super::pack::{put16, put_header, put_run};
use super::{refuse, Refusal};

const MOST_NODES: u32 = 512;
const MOST_ARCS: usize = 2048;
const PERIOD: u32 = 2880;
const FORM: u32 = 35;
const VALUE: u32 = 36;

/// Tail and head from 0 on, and weight.
type Arc = [u16; 3];

/// What the lines so far come to; `wrong` is the first line that is to be refused as 36, or 0.
struct Reading {
    lines: usize,
    sizes: Option<(u32, u32)>,
    seen: u32,
    wrong: usize,
    arcs: [Arc; MOST_ARCS],
}

/// A place in the text.
struct Cursor<'a> {
    text: &'a [u8],
    at: usize,
}

impl Cursor<'_> {
    #[inline(always)]
    fn byte(&self) -> Option<u8> {
        self.text.get(self.at).copied()
    }

    #[inline(always)]
    fn takes(&mut self, word: &[u8]) -> bool {
        let found = self.text[self.at..].starts_with(word);
        self.at += if found { word.len() } else { 0 };
        found
    }

    /// A number of one to nine digits.
    #[inline(always)]
    fn number(&mut self) -> Option<u32> {
        let start = self.at;
        let mut value = 0;
        while let Some(digit) = self.byte().map(|byte| byte.wrapping_sub(b'0')).filter(|&digit| digit < 10) {
            if self.at - start == 9 {
                return None;
            }
            value = 10 * value + digit as u32;
            self.at += 1;
        }
        (start < self.at).then_some(value)
    }

    /// The end of a line, taken: a line feed, or the end of the text.
    #[inline(always)]
    fn ends(&mut self) -> bool {
        let found = self.byte().is_none_or(|byte| byte == b'\n');
        self.at += 1;
        found
    }

    /// Goes behind the next line feed. Sixteen bytes are looked at together, which the compiler makes one comparison.
    fn skip_line(&mut self) {
        let (parts, _) = self.text[self.at..].as_chunks::<16>();
        let whole = parts.iter().take_while(|part| !part.iter().fold(false, |found, &byte| found | (byte == b'\n'))).count();
        self.at += 16 * whole;
        let rest = self.text[self.at..].iter().position(|&byte| byte == b'\n');
        self.at = rest.map_or(self.text.len(), |rest| self.at + rest) + 1;
    }

    /// `p sp NODES ARCS`.
    #[inline(always)]
    fn sizes(&mut self) -> Option<(u32, u32)> {
        if !self.takes(b"p sp ") {
            return None;
        }
        let nodes = self.number()?;
        if !self.takes(b" ") {
            return None;
        }
        let arcs = self.number()?;
        self.ends().then_some((nodes, arcs))
    }

    /// `a TAIL HEAD WEIGHT`.
    #[inline(always)]
    fn arc(&mut self) -> Option<[u32; 3]> {
        if !self.takes(b"a ") {
            return None;
        }
        let tail = self.number()?;
        if !self.takes(b" ") {
            return None;
        }
        let head = self.number()?;
        if !self.takes(b" ") {
            return None;
        }
        let weight = self.number()?;
        self.ends().then_some([tail, head, weight])
    }
}

impl Reading {
    /// A line of a form, or None.
    #[inline(always)]
    fn line(&mut self, cursor: &mut Cursor) -> Option<()> {
        match cursor.byte() {
            Some(b'c') => cursor.skip_line(),
            Some(b'a') => {
                let arc = cursor.arc()?;
                self.arc(arc)?;
            }
            _ => {
                let sizes = cursor.sizes().filter(|_| self.sizes.is_none())?;
                self.sizes = Some(sizes);
                let within = (1..=MOST_NODES).contains(&sizes.0) && sizes.1 <= MOST_ARCS as u32;
                self.note(!within);
            }
        }
        Some(())
    }

    #[inline(always)]
    fn arc(&mut self, [tail, head, weight]: [u32; 3]) -> Option<()> {
        let (nodes, arcs) = self.sizes?;
        if self.seen == arcs {
            return None;
        }
        let is_node = |end: u32| end.wrapping_sub(1) < nodes;
        self.note(tail == head || !is_node(tail) || !is_node(head) || weight.wrapping_sub(1) >= PERIOD);
        if let Some(slot) = self.arcs.get_mut(self.seen as usize) {
            *slot = [tail.wrapping_sub(1) as u16, head.wrapping_sub(1) as u16, weight as u16];
        }
        self.seen += 1;
        Some(())
    }

    #[inline(always)]
    fn note(&mut self, fault: bool) {
        if fault && self.wrong == 0 {
            self.wrong = self.lines;
        }
    }
}

/// Refusals 35 and 36, or the sizes, with the arcs in the table.
fn judge(text: &[u8], reading: &mut Reading) -> Result<(u32, u32), Refusal> {
    let mut cursor = Cursor { text, at: 0 };
    while cursor.at < text.len() {
        reading.lines += 1;
        if reading.line(&mut cursor).is_none() {
            return Err(refuse(FORM, reading.lines));
        }
    }
    match reading.sizes {
        Some(sizes) if reading.seen == sizes.1 && reading.wrong == 0 => Ok(sizes),
        Some(sizes) if reading.seen == sizes.1 => Err(refuse(VALUE, reading.wrong)),
        _ => Err(refuse(FORM, reading.lines)),
    }
}

fn encode(header: &Header, arcs: &[Arc], out: &mut [u8]) {
    let blocks = out.as_chunks_mut().0;
    put_header(&mut blocks[0], header);
    put_run(blocks, 1, CELLS, header.nodes as usize, |slot: &mut [u8; 2], _| put16(slot, 0, 0));
    put_run(blocks, header.arc_block(), ARCS, arcs.len(), |slot: &mut [u8; 6], i| {
        put16(slot, 0, arcs[i][0]);
        put16(slot, 2, arcs[i][1]);
        put16(slot, 4, 1);
    });
    put_run(blocks, header.point_block(), POINTS, arcs.len(), |slot: &mut [u8; 4], i| {
        put16(slot, 0, 0);
        put16(slot, 2, arcs[i][2]);
    });
}

/// Refusals 35, 36 and 31, or the file's length with the file written.
pub fn import(text: &[u8], number: u32, out: &mut [u8]) -> Result<usize, Refusal> {
    let mut reading = Reading { lines: 0, sizes: None, seen: 0, wrong: 0, arcs: [[0; 3]; MOST_ARCS] };
    let (nodes, arcs) = judge(text, &mut reading)?;
    let header = Header { number, period: PERIOD, nodes, arcs, cells: 1, points: arcs, hours: 0 };
    let long = BLOCK * header.blocks();
    if out.len() < long {
        return Err(refuse(31, 0));
    }
    encode(&header, &reading.arcs[..arcs as usize], &mut out[..long]);
    Ok(long)
}
