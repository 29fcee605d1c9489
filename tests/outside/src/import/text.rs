//! A text before it is bytes: lines that know what they are and what is wrong with them.

use super::Arc;

#[derive(Clone, Copy, PartialEq, Eq, Debug)]
pub enum What {
    Remark,
    /// The `p` line.
    Sizes,
    /// The `a` line of the arc with this number.
    Arc(usize),
    /// A line that a fault has put there.
    Extra,
}

#[derive(Clone)]
pub struct Line {
    /// Stays with the line when others come and go; a line of a valid text has its number, from 0.
    pub key: usize,
    pub what: What,
    /// Without the line feed.
    pub bytes: Vec<u8>,
    /// The refusal that this line has to cause, 35 or 36, if nothing comes before it.
    pub due: Option<u32>,
}

/// A text and the network it stands for.
#[derive(Clone)]
pub struct Text {
    pub lines: Vec<Line>,
    /// A line feed stands after the last line.
    pub fed: bool,
    /// 35 is due at the line count: too few arcs, or no `p` line.
    pub short: bool,
    pub nodes: u32,
    pub arcs: Vec<Arc>,
}

impl Text {
    pub fn bytes(&self) -> Vec<u8> {
        let mut bytes = Vec::new();
        for line in &self.lines {
            bytes.extend_from_slice(&line.bytes);
            bytes.push(b'\n');
        }
        // An empty last line is there by its line feed alone.
        if !self.fed && self.lines.last().is_some_and(|line| !line.bytes.is_empty()) {
            bytes.pop();
        }
        bytes
    }

    pub fn push(&mut self, what: What, bytes: Vec<u8>) {
        self.lines.push(Line { key: self.lines.len(), what, bytes, due: None });
    }

    /// The refusal and the line that are due by what the lines and the text say of themselves.
    pub fn due(&self) -> Option<(u32, usize)> {
        let first = |due| self.lines.iter().position(|line| line.due == Some(due)).map(|at| (due, at + 1));
        let short = self.short.then_some((35, self.lines.len()));
        first(35).or(short).or(first(36))
    }

    pub fn place(&self, key: usize) -> Option<usize> {
        self.lines.iter().position(|line| line.key == key)
    }

    pub fn line(&mut self, key: usize) -> Option<&mut Line> {
        self.lines.iter_mut().find(|line| line.key == key)
    }

    pub fn sizes_key(&self) -> usize {
        let sizes = self.lines.iter().find(|line| line.what == What::Sizes);
        sizes.expect("a valid text has a `p` line").key
    }

    /// The `a` lines in their order.
    pub fn arc_keys(&self) -> Vec<usize> {
        let is_arc = |line: &&Line| matches!(line.what, What::Arc(_));
        self.lines.iter().filter(is_arc).map(|line| line.key).collect()
    }

    /// Puts a line at a place, or at the end if there are fewer.
    pub fn insert(&mut self, place: usize, bytes: &[u8], due: Option<u32>) {
        let line = Line { key: usize::MAX, what: What::Extra, bytes: bytes.to_vec(), due };
        self.lines.insert(place.min(self.lines.len()), line);
    }
}

impl Line {
    pub fn fields(&self) -> Vec<Vec<u8>> {
        self.bytes.split(|&byte| byte == b' ').map(<[u8]>::to_vec).collect()
    }

    /// Puts other bytes in a field's place, if there is such a field.
    pub fn set_field(&mut self, number: usize, bytes: &[u8]) {
        let mut fields = self.fields();
        if let Some(field) = fields.get_mut(number) {
            *field = bytes.to_vec();
            self.bytes = fields.join(&b' ');
        }
    }
}
