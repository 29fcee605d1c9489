//! The one pass over a text: its lines, their order, their numbers.

use super::cursor::Cursor;
use super::errors::{Error, Planted};
use super::{refusal, Graph};
use crate::import::Arc;
use crate::reference::Refusal;
use std::cell::Cell;

#[derive(Clone, Copy)]
struct Sizes {
    nodes: u32,
    arcs: u32,
    line: u32,
}

enum Form {
    Remark,
    Sizes(u32, u32),
    Arc(Arc),
}

pub struct Pass {
    planted: Planted,
    line: u32,
    sizes: Option<Sizes>,
    arcs: Vec<Arc>,
    /// The line of each arc.
    lines: Vec<u32>,
    /// The first line outside the limits, among those met so far.
    outside: Option<u32>,
    /// The last malformed line, where that is wanted.
    malformed: Option<u32>,
    skip: bool,
}

thread_local! {
    /// What a call leaves for the next one, where that is wanted.
    static KEPT: Cell<Option<Sizes>> = const { Cell::new(None) };
}

impl Pass {
    pub fn new(planted: Planted) -> Pass {
        let (arcs, lines) = (Vec::new(), Vec::new());
        Pass { planted, line: 0, sizes: None, arcs, lines, outside: None, malformed: None, skip: false }
    }

    fn has(&self, error: Error) -> bool {
        self.planted.has(error)
    }

    fn refuse<T>(&self, number: u32, line: u32) -> Result<T, Refusal> {
        let line = match self.planted.0 {
            Some(Error::LinesFrom0) => line.wrapping_sub(1),
            Some(Error::LineIn16Bits) => line & 0xffff,
            Some(Error::LineIn8Bits) => line & 0xff,
            _ => line,
        };
        Err(refusal(number, line))
    }

    /// `text` may have bytes behind it, which only an error looks at.
    pub fn read(mut self, text: &[u8], behind: &[u8]) -> Result<Graph, Refusal> {
        let mut rest = text;
        if self.has(Error::UnfedLastByteIgnored) && !text.ends_with(b"\n") {
            rest = &text[..text.len().saturating_sub(1)];
        }
        if self.has(Error::Byte0EndsTheText) {
            rest = rest.split(|&byte| byte == 0).next().unwrap_or_default();
        }
        while !rest.is_empty() {
            let feed = rest.iter().position(|&byte| self.ends_a_line(byte));
            let line = &rest[..feed.unwrap_or(rest.len())];
            rest = feed.map_or(&[], |feed| &rest[feed + 1..]);
            if self.has(Error::UnfedLastLineIgnored) && feed.is_none()
                || self.has(Error::Only64Lines) && self.line == 64
            {
                break;
            }
            self.line += 1;
            if self.has(Error::UnfedLastLineRefused) && feed.is_none() {
                return self.refuse(35, self.line);
            }
            if self.has(Error::EmptyLastLinePasses) && line.is_empty() && rest.is_empty() {
                continue;
            }
            self.take(line, if feed.is_none() { behind } else { &[] })?;
        }
        if self.has(Error::LastFeedBeginsALine) && (text.is_empty() || text.ends_with(b"\n")) {
            self.line += 1;
            self.take(b"", b"")?;
        }
        self.end()
    }

    fn ends_a_line(&self, byte: u8) -> bool {
        byte == b'\n' || self.has(Error::CarriageReturnEndsALine) && byte == b'\r'
    }

    fn take(&mut self, line: &[u8], behind: &[u8]) -> Result<(), Refusal> {
        let without_0: Vec<u8> = line.iter().copied().filter(|&byte| byte != 0).collect();
        let line = match self.planted.0 {
            Some(Error::CarriageReturnStripped) => line.strip_suffix(b"\r").unwrap_or(line),
            Some(Error::SpacesStrippedBehind) => line.trim_ascii_end(),
            Some(Error::SpacesStrippedBefore) => line.trim_ascii_start(),
            Some(Error::Byte0Stripped) => &without_0,
            _ => line,
        };
        if self.has(Error::EmptyLinesPass) && line.is_empty() {
            return Ok(());
        }
        if std::mem::take(&mut self.skip) {
            return Ok(());
        }
        match self.form(line, behind) {
            Some(Form::Remark) => {
                let counted = match self.planted.0 {
                    Some(Error::RemarksNotCounted) => false,
                    Some(Error::RemarksNotCountedAfterSizes) => self.sizes.is_none(),
                    _ => true,
                };
                self.line -= u32::from(!counted);
                self.skip = self.has(Error::RemarkTakesTheNextLine);
                Ok(())
            }
            Some(Form::Sizes(nodes, arcs)) => self.take_sizes(nodes, arcs),
            Some(Form::Arc(arc)) => self.take_arc(arc),
            None if self.has(Error::OtherLinesAreRemarks) && !line.starts_with(b"a") => Ok(()),
            None if self.has(Error::LastMalformedLineWins) => {
                self.malformed = Some(self.line);
                Ok(())
            }
            None if self.has(Error::TooFewBeforeMalformed) && self.sizes.is_none() => {
                self.malformed = Some(self.line);
                Ok(())
            }
            None => self.refuse(35, self.line),
        }
    }

    fn form(&self, line: &[u8], behind: &[u8]) -> Option<Form> {
        let mut cursor = Cursor { planted: self.planted, line, at: 0, behind };
        match line.first()? {
            b'c' => self.remark_holds(line).then_some(Form::Remark),
            b'C' if self.has(Error::CapitalRemarkPasses) => Some(Form::Remark),
            b'p' | b'P' => {
                cursor.word(b"p")?;
                cursor.space()?;
                if self.has(Error::ProblemWordIgnored) {
                    cursor.any_word();
                    cursor.space()?;
                } else if !self.has(Error::ProblemWordMissing) || line[cursor.at..].starts_with(b"s") {
                    cursor.word(b"sp")?;
                    cursor.space()?;
                }
                let nodes = cursor.number()?;
                cursor.space()?;
                let arcs = cursor.number()?;
                cursor.end(true)?;
                Some(Form::Sizes(nodes, arcs))
            }
            b'a' | b'A' => {
                cursor.word(b"a")?;
                cursor.space()?;
                let tail = cursor.number()?;
                cursor.space()?;
                let head = cursor.number()?;
                cursor.space()?;
                let weight = cursor.number()?;
                cursor.end(false)?;
                Some(Form::Arc((tail, head, weight)))
            }
            _ => None,
        }
    }

    fn remark_holds(&self, line: &[u8]) -> bool {
        match self.planted.0 {
            Some(Error::RemarkNeedsASpace) => line.len() == 1 || line[1] == b' ',
            Some(Error::RemarkNeedsMoreThanItsLetter) => line.len() > 1,
            Some(Error::RemarkOfPrintableBytes) => line.iter().all(|byte| (b' '..0x7f).contains(byte)),
            Some(Error::RemarkOf255Bytes) => line.len() <= 255,
            Some(Error::RemarkNotAfterSizes) => self.sizes.is_none(),
            Some(Error::RemarkNotBehindTheArcs) => {
                let count = self.arcs.len() as u32;
                self.sizes.is_none_or(|sizes| count < sizes.arcs)
            }
            _ => true,
        }
    }

    fn take_sizes(&mut self, nodes: u32, arcs: u32) -> Result<(), Refusal> {
        let nodes = if self.has(Error::NodesIn16Bits) { nodes & 0xffff } else { nodes };
        let arcs = if self.has(Error::ArcsIn16Bits) { arcs & 0xffff } else { arcs };
        if let Some(first) = self.sizes {
            let passes = match self.planted.0 {
                Some(Error::SecondSizesIgnored) => true,
                Some(Error::EqualSecondSizesPass) => (nodes, arcs) == (first.nodes, first.arcs),
                Some(Error::SecondSizesPassBehindTheArcs) => self.arcs.len() as u32 == first.arcs,
                _ => false,
            };
            if passes {
                return Ok(());
            }
            if !self.has(Error::SecondSizesTaken) {
                let line = if self.has(Error::SecondSizesAtTheFirst) { first.line } else { self.line };
                return self.refuse(35, line);
            }
        }
        self.sizes = Some(Sizes { nodes, arcs, line: self.line });
        if !self.sizes_hold(nodes, arcs) {
            if self.has(Error::TooManyArcsAre35) && arcs > 2_048 {
                return self.refuse(35, self.line);
            }
            if self.has(Error::ValuesOfSizesAsTheyAreMet) {
                return self.refuse(36, self.line);
            }
            self.note_outside(self.line)?;
        }
        Ok(())
    }

    fn sizes_hold(&self, nodes: u32, arcs: u32) -> bool {
        let nodes_hold = match self.planted.0 {
            Some(Error::Nodes0Pass) => nodes <= 512,
            Some(Error::Nodes513Pass) => (1..=513).contains(&nodes),
            Some(Error::Nodes512Refused) => (1..512).contains(&nodes),
            Some(Error::OneNodeRefused) => (2..=512).contains(&nodes),
            Some(Error::AnyNodesPass) => nodes >= 1,
            Some(Error::SizesJudgedOnlyWithArcs) => arcs == 0 || (1..=512).contains(&nodes),
            _ => (1..=512).contains(&nodes),
        };
        nodes_hold
            && match self.planted.0 {
                Some(Error::Arcs2049Pass) => arcs <= 2_049,
                Some(Error::Arcs2048Refused) => arcs < 2_048,
                Some(Error::Arcs0Refused) => (1..=2_048).contains(&arcs),
                _ => arcs <= 2_048,
            }
    }

    fn take_arc(&mut self, arc: Arc) -> Result<(), Refusal> {
        let (mut tail, mut head, mut weight) = arc;
        if self.has(Error::EndsIn16Bits) {
            (tail, head) = (tail & 0xffff, head & 0xffff);
        }
        if self.has(Error::WeightIn16Bits) {
            weight &= 0xffff;
        }
        let Some(sizes) = self.sizes else {
            return self.take_early_arc((tail, head, weight));
        };
        let holds = self.arc_holds(sizes.nodes, tail, head, weight);
        if self.arcs.len() as u64 >= self.arcs_that_pass(sizes) {
            if self.has(Error::TooManyPass) {
                return Ok(());
            }
            if self.has(Error::TooManyAndFaultyIs36) && !holds {
                return self.refuse(36, self.line);
            }
            if !self.has(Error::TooManyAtTheEnd) {
                let line = self.line - u32::from(self.has(Error::TooManyAtTheLineBefore));
                return self.refuse(35, line);
            }
        }
        if !holds {
            self.note_outside(self.line)?;
        }
        self.arcs.push((tail, head, weight));
        self.lines.push(self.line);
        Ok(())
    }

    fn arcs_that_pass(&self, sizes: Sizes) -> u64 {
        u64::from(sizes.arcs) + u64::from(self.has(Error::OneTooManyPasses))
    }

    fn take_early_arc(&mut self, arc: Arc) -> Result<(), Refusal> {
        match self.planted.0 {
            Some(Error::ArcBeforeSizesIgnored) => Ok(()),
            Some(Error::ArcBeforeSizesPasses) => {
                self.arcs.push(arc);
                self.lines.push(self.line);
                Ok(())
            }
            Some(Error::ArcBeforeSizesAtTheEnd) => Ok(()),
            _ => self.refuse(35, self.line),
        }
    }

    fn arc_holds(&self, nodes: u32, tail: u32, head: u32, weight: u32) -> bool {
        let most = if self.has(Error::EndsHeldTo512) { 512 } else { nodes };
        let tail_holds = match self.planted.0 {
            Some(Error::Tail0Passes) => tail <= most,
            Some(Error::TailAbovePasses) => tail >= 1,
            Some(Error::TailAtNodesRefused) => (1..most).contains(&tail),
            _ => (1..=most).contains(&tail),
        };
        let head_holds = match self.planted.0 {
            Some(Error::Head0Passes) => head <= most,
            Some(Error::HeadAbovePasses) => head >= 1,
            Some(Error::HeadAtNodesRefused) => (1..most).contains(&head),
            _ => (1..=most).contains(&head),
        };
        let weight_holds = match self.planted.0 {
            Some(Error::Weight0Passes) => weight <= 2_880,
            Some(Error::Weight2881Passes) => (1..=2_881).contains(&weight),
            Some(Error::Weight2880Refused) => (1..2_880).contains(&weight),
            Some(Error::AnyWeightPasses) => weight >= 1,
            _ => (1..=2_880).contains(&weight),
        };
        tail_holds && head_holds && weight_holds && (tail != head || self.has(Error::EqualEndsPass))
    }

    /// A line outside the limits: the first is kept, for nothing is known of the lines to come.
    fn note_outside(&mut self, line: u32) -> Result<(), Refusal> {
        match self.planted.0 {
            Some(Error::ValuesAsTheyAreMet) => return self.refuse(36, line),
            Some(Error::ValuesAre35) => return self.refuse(35, line),
            Some(Error::LastOutsideWins) => self.outside = Some(line),
            Some(Error::SizesAfterArcs) => {
                let at_sizes = self.sizes.map(|sizes| sizes.line);
                if self.outside.is_none() || self.outside == at_sizes {
                    self.outside = Some(line);
                }
            }
            Some(Error::OutsideAtSizes) => self.outside = self.sizes.map(|sizes| sizes.line),
            Some(Error::OutsideAtTheArcsNumber) if self.sizes.is_some_and(|sizes| sizes.line != line) => {
                self.outside = self.outside.or(Some(self.arcs.len() as u32 + 1));
            }
            _ => self.outside = self.outside.or(Some(line)),
        }
        Ok(())
    }

    fn end(mut self) -> Result<Graph, Refusal> {
        if let Some(line) = self.malformed {
            let at_the_end = self.has(Error::TooFewBeforeMalformed) && self.sizes.is_none();
            return self.refuse(35, if at_the_end { self.line } else { line });
        }
        if self.has(Error::SizesKeptFromTheCallBefore) {
            self.sizes = self.sizes.or(KEPT.get());
            KEPT.set(self.sizes);
        }
        let Some(sizes) = self.sizes else {
            let line = match self.planted.0 {
                Some(Error::NoSizesAt0) => 0,
                Some(Error::NoSizesAtTheNextLine) => self.line + 1,
                Some(Error::EmptyTextAt1) => self.line.max(1),
                Some(Error::NoSizesPasses) => return Ok(Graph { nodes: 1, arcs: Vec::new() }),
                _ => self.line,
            };
            return self.refuse(35, line);
        };
        let count = self.arcs.len() as u32;
        let last = self.lines.last().copied().unwrap_or_default();
        if count > sizes.arcs && self.has(Error::TooManyAtTheEnd) {
            return self.refuse(35, self.line);
        }
        if count > sizes.arcs && self.has(Error::ArcBeforeSizesPasses) {
            return self.refuse(35, last);
        }
        if count < sizes.arcs {
            match self.planted.0 {
                Some(Error::TooFewPass) => {}
                Some(Error::TooFewAtSizes) => return self.refuse(35, sizes.line),
                Some(Error::TooFewAtTheNextLine) => return self.refuse(35, self.line + 1),
                Some(Error::TooFewIs36) => return self.refuse(36, self.line),
                _ => return self.refuse(35, self.line),
            }
        }
        match self.outside {
            Some(line) => self.refuse(36, line),
            None => Ok(Graph { nodes: sizes.nodes, arcs: self.arcs }),
        }
    }
}
