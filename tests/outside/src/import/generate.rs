//! Seeded valid texts of every size, with the remarks, zeros and last line feeds that the form allows.

use super::text::{Text, What};
use super::Arc;
use crate::rng::Rng;

/// How large a text's network is.
#[derive(Clone, Copy, PartialEq, Eq)]
pub enum Size {
    Small,
    /// A few blocks of each kind, their ends met exactly or missed by one.
    Medium,
    /// At the limits: 512 nodes, 2,048 arcs.
    Full,
}

pub fn text(rng: &mut Rng, size: Size) -> Text {
    let (nodes, arcs) = sizes(rng, size);
    let arcs = arcs_of(rng, nodes, arcs);
    let style = Style {
        remarks: rng.pick(&[0, 0, 2, 4, 9]),
        zeros: rng.pick(&[0, 0, 3, 1]),
        longest: if size == Size::Small { 300 } else { 40 },
    };
    let mut text = Text { lines: Vec::new(), fed: !rng.once_in(3), short: false, nodes, arcs };
    style.remarks(rng, &mut text);
    let line = style.line(rng, "p sp", &[nodes, text.arcs.len() as u32]);
    text.push(What::Sizes, line);
    for number in 0..text.arcs.len() {
        style.remarks(rng, &mut text);
        let (tail, head, weight) = text.arcs[number];
        let line = style.line(rng, "a", &[tail, head, weight]);
        text.push(What::Arc(number), line);
    }
    style.remarks(rng, &mut text);
    text
}

fn sizes(rng: &mut Rng, size: Size) -> (u32, usize) {
    let (nodes, arcs) = match size {
        Size::Small if rng.once_in(16) => (1, 0),
        Size::Small => (rng.within(2, 9), rng.within(0, 9)),
        Size::Medium => (
            rng.pick(&[2, 249, 250, 251, 255, 256, 257, 499, 500, 501, 511, 512]),
            rng.pick(&[0, 1, 82, 83, 84, 124, 125, 126, 165, 166, 167, 249, 250, 251, 256, 257, 375, 498]),
        ),
        Size::Full => (rng.pick(&[2, 511, 512, 512]), rng.pick(&[2_047, 2_048, 2_048])),
    };
    (nodes as u32, arcs)
}

/// Anywhere, or round through all nodes; some lead where the one before them does, or back.
fn arcs_of(rng: &mut Rng, nodes: u32, count: usize) -> Vec<Arc> {
    let most_weight = rng.pick(&[3, 40, 2_880]);
    let ring = rng.once_in(3);
    let mut arcs: Vec<Arc> = Vec::new();
    for number in 0..count as u32 {
        let (tail, head) = match arcs.last() {
            Some(&(tail, head, _)) if rng.once_in(6) => rng.pick(&[(tail, head), (head, tail)]),
            _ if ring => (1 + number % nodes, 1 + (number + 1) % nodes),
            _ => different(rng, nodes),
        };
        let weight = if rng.once_in(8) { rng.pick(&[1, 2_879, 2_880]) } else { rng.within(1, most_weight) };
        arcs.push((tail, head, weight as u32));
    }
    arcs
}

fn different(rng: &mut Rng, nodes: u32) -> (u32, u32) {
    let tail = rng.below(nodes as usize) as u32;
    let step = rng.within(1, nodes as usize - 1) as u32;
    (1 + tail, 1 + (tail + step) % nodes)
}

/// How a text is written.
struct Style {
    /// A remark stands between two lines so often in 10 times.
    remarks: usize,
    /// 0: no number has leading zeros; else one in so many has.
    zeros: usize,
    /// A remark's most bytes.
    longest: usize,
}

impl Style {
    fn remarks(&self, rng: &mut Rng, text: &mut Text) {
        while rng.below(10) < self.remarks {
            text.push(What::Remark, remark(rng, self.longest));
        }
    }

    fn line(&self, rng: &mut Rng, letter: &str, numbers: &[u32]) -> Vec<u8> {
        let mut line = letter.to_string();
        for number in numbers {
            let width = if self.zeros > 0 && rng.once_in(self.zeros) { rng.within(1, 9) } else { 0 };
            line.push_str(&format!(" {number:0width$}"));
        }
        line.into_bytes()
    }
}

/// "Any line that begins with `c` is a remark".
pub fn remark(rng: &mut Rng, longest: usize) -> Vec<u8> {
    let usual: [&[u8]; 12] = [
        b"c",
        b"c ",
        b"c a remark",
        b"cow",
        b"c\r",
        b"c\t",
        b"cc",
        b"ca 1 2 3",
        b"cp sp 1 0",
        b"c p sp 1 0",
        b"c\0",
        b"c\xff\x80",
    ];
    if !rng.once_in(3) {
        return rng.pick(&usual).to_vec();
    }
    let mut bytes = b"c".to_vec();
    for _ in 0..rng.spread(1, longest) {
        let byte = rng.below(256) as u8;
        bytes.push(if byte == b'\n' { b'\r' } else { byte });
    }
    bytes
}
