//! Files before they are bytes: a network's and a plan's numbers and tables, free to contradict each other.
//! Damage works on these, and the files made of them have true block forms and sums.

use crate::reference::blocks::{write_file, COUNTS, FLAGS, PLAN_HEADER, PROFILE_POINTS};
use crate::reference::network::{self, Header, Tables};

#[derive(Clone)]
pub struct NetworkDraft {
    pub header: Header,
    pub tables: Tables,
}

/// The plan header's numbers in the file's order; `zero` are the 16 bits that have to be zero.
#[derive(Clone, Copy)]
pub struct PlanHeader {
    pub number: u32,
    pub period: u32,
    pub nodes: u32,
    pub arcs: u32,
    pub cells: u32,
    pub borders: u32,
    pub zero: u16,
    pub points: u32,
}

#[derive(Clone)]
pub struct PlanDraft {
    pub header: PlanHeader,
    pub flags: Vec<u64>,
    pub counts: Vec<u16>,
    pub ticks: Vec<u16>,
    pub travels: Vec<u32>,
}

/// Both files of one case.
#[derive(Clone)]
pub struct Drafts {
    pub network: NetworkDraft,
    pub plan: PlanDraft,
}

impl NetworkDraft {
    pub fn file(&self) -> Vec<u8> {
        network::write(&self.header, &self.tables)
    }

    /// The same town with these hours, open and close by node.
    pub fn hold_hours(&mut self, hours: &[(u16, u16)]) {
        self.header.hours = 1;
        self.tables.opens = hours.iter().map(|hours| hours.0).collect();
        self.tables.closes = hours.iter().map(|hours| hours.1).collect();
    }

    /// The same town without hours.
    pub fn drop_hours(&mut self) {
        self.header.hours = 0;
        self.tables.open_all_day(self.header.period as u16);
    }

    /// The number of an arc's first point, by the counts as they stand.
    pub fn first_point(&self, arc: usize) -> usize {
        self.tables.counts[..arc].iter().map(|&count| usize::from(count)).sum()
    }
}

impl PlanDraft {
    pub fn file(&self) -> Vec<u8> {
        let header = &self.header;
        let mut first = Vec::new();
        first.extend_from_slice(&header.number.to_le_bytes());
        for number in [header.period, header.nodes, header.arcs, header.cells, header.borders] {
            first.extend_from_slice(&(number as u16).to_le_bytes());
        }
        first.extend_from_slice(&header.zero.to_le_bytes());
        first.extend_from_slice(&header.points.to_le_bytes());
        let flags = self.flags.iter().flat_map(|word| word.to_le_bytes()).collect();
        let counts = self.counts.iter().flat_map(|count| count.to_le_bytes()).collect();
        let points = self
            .ticks
            .iter()
            .zip(&self.travels)
            .flat_map(|(tick, travel)| tick.to_le_bytes().into_iter().chain(travel.to_le_bytes()))
            .collect();
        write_file(PLAN_HEADER, &first, &[(FLAGS, flags), (COUNTS, counts), (PROFILE_POINTS, points)])
    }

    /// The number of a profile's first point, by the counts as they stand.
    pub fn first_point(&self, profile: usize) -> usize {
        self.counts[..profile].iter().map(|&count| usize::from(count)).sum()
    }

    /// Puts other points in a profile's place and keeps the counts and the header's total in step.
    pub fn replace_profile(&mut self, profile: usize, points: &[(u16, u32)]) {
        let first = self.first_point(profile);
        let end = first + usize::from(self.counts[profile]);
        self.ticks.splice(first..end, points.iter().map(|point| point.0));
        self.travels.splice(first..end, points.iter().map(|point| point.1));
        self.counts[profile] = points.len() as u16;
        self.header.points = self.ticks.len() as u32;
    }
}
