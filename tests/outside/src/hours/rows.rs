//! Inputs made of a town, each with the outcome that wish 6's words lead to: what hours may be, which refusal
//! comes first, which bytes the two forms have, and how long the lent tables are.

use crate::case::Case;
use crate::damage::mend_all;
use crate::draft::Drafts;
use crate::input::Input;
use crate::library::{FLAGGED_LISTS, LISTS_ANSWER, OPEN, OPEN_ANSWER, PACK, PLAIN_LISTS};
use crate::reference::blocks::BLOCK;
use crate::reference::network::{HOURS_AT, MOST_POINTS};
use crate::rng::Rng;

/// An input, and what comes of it: the refusal and its first place, or nothing.
pub struct Row {
    pub name: String,
    pub operation: usize,
    pub wanted: Option<(u32, u32)>,
    pub input: Input,
}

/// The tables that hours stand in.
const OPENS: usize = 1;
const CLOSES: usize = 2;

struct Rows<'a> {
    case: &'a Case,
    rows: Vec<Row>,
}

pub fn rows(rng: &mut Rng, case: &Case) -> Vec<Row> {
    let mut rows = Rows { case, rows: Vec::new() };
    rows.header_bytes(rng);
    rows.forms(rng);
    rows.lengths_of_files();
    rows.lengths_of_tables();
    rows.numbers_to_pack(rng);
    rows.other_lengths();
    if case.network.header.hours == 1 {
        rows.hours(rng);
        rows.orders(rng);
        rows.packed_under_0();
    } else {
        rows.packed_under_1();
    }
    rows.rows
}

impl Rows<'_> {
    fn push(&mut self, name: impl Into<String>, operation: usize, wanted: Option<(u32, u32)>, input: Input) {
        self.rows.push(Row { name: name.into(), operation, wanted, input });
    }

    /// The same outcome for open and pack.
    fn judged(&mut self, name: impl Into<String>, wanted: Option<(u32, u32)>, change: impl Fn(&mut Drafts)) {
        let name = name.into();
        let mut drafts = self.case.drafts.clone();
        change(&mut drafts);
        for operation in [OPEN, PACK] {
            self.push(name.clone(), operation, wanted, self.case.input(&drafts));
        }
    }

    /// Open's outcome for the network's bytes, changed and then mended.
    fn changed(&mut self, name: impl Into<String>, wanted: Option<(u32, u32)>, change: impl Fn(&mut Vec<u8>)) {
        let mut network = self.case.drafts.network.file();
        change(&mut network);
        mend_all(&mut network);
        let input = self.case.input_of_files(network, self.case.drafts.plan.file());
        self.push(name, OPEN, wanted, input);
    }

    fn called(
        &mut self,
        name: impl Into<String>,
        operation: usize,
        wanted: Option<(u32, u32)>,
        change: impl Fn(&mut Input),
    ) {
        let mut input = self.case.input(&self.case.drafts);
        change(&mut input);
        self.push(name, operation, wanted, input);
    }

    /// "any value above 1 is refused as 4"; the bytes after it are fill.
    fn header_bytes(&mut self, rng: &mut Rng) {
        let above = rng.within(4, 254) as u8;
        for value in [2, 3, above, 255] {
            self.changed(format!("byte 24 is {value}"), Some((4, 0)), |file| file[HOURS_AT] = value);
            self.changed(format!("byte 24 is {value}, the last block gone"), Some((4, 0)), |file| {
                file[HOURS_AT] = value;
                file.truncate(file.len() - BLOCK);
            });
            self.changed(format!("byte 24 is {value}, byte 25 is 1"), Some((3, 0)), |file| {
                file[HOURS_AT] = value;
                file[HOURS_AT + 1] = 1;
            });
        }
        for at in [HOURS_AT + 1, HOURS_AT + 2, 507] {
            self.changed(format!("byte {at} is 1"), Some((3, 0)), |file| file[at] = 1);
        }
    }

    /// Blocks of the other kind, and forms that do not hold.
    fn forms(&mut self, rng: &mut Rng) {
        let nodes = self.case.network.nodes();
        let hours = self.case.network.header.hours == 1;
        let (width, per_block, other) = if hours { (6, 83, 250) } else { (2, 250, 83) };
        let blocks = nodes.div_ceil(per_block);
        let turned = if blocks == nodes.div_ceil(other) { (6, 1) } else { (5, 0) };
        self.changed("byte 24 turned", Some(turned), |file| file[HOURS_AT] ^= 1);
        let block = rng.within(1, blocks);
        let form = Some((6, block as u32));
        self.changed("the other kind", form, |file| file[block * BLOCK] ^= 2 ^ 9);
        self.changed("an entry more", form, |file| file[block * BLOCK + 2] ^= 128);
        let entries = if block == blocks { nodes - (blocks - 1) * per_block } else { per_block };
        let used = 8 + entries * width;
        if used < 508 {
            self.changed("fill behind the places", form, |file| file[block * BLOCK + used] = 1);
            self.changed("fill at the end", form, |file| file[block * BLOCK + 507] = 1);
        }
    }

    /// "A network file may now have 558 blocks", of either form.
    fn lengths_of_files(&mut self) {
        let blocks = self.case.drafts.network.file().len() / BLOCK;
        for (length, refusal) in [(554, 5), (555, 5), (556, 5), (558, 5), (559, 1), (560, 1)] {
            if length > blocks {
                let wanted = Some((refusal, 0));
                self.changed(format!("{length} blocks"), wanted, |file| file.resize(length * BLOCK, 0));
            }
        }
    }

    /// "N entries each or 30", under 0 too.
    fn lengths_of_tables(&mut self) {
        let nodes = self.case.network.nodes();
        for table in [OPENS, CLOSES] {
            for length in [nodes - 1, 0] {
                self.called("open's hours short", OPEN, Some((30, 0)), |input| {
                    input.lengths.open_tables[table] = length
                });
                self.called("pack's hours short", PACK, Some((30, 0)), |input| {
                    input.lengths.pack_tables[table] = length
                });
            }
            self.called("open's hours just enough", OPEN, None, |input| input.lengths.open_tables[table] = nodes);
            self.called("pack's hours just enough", PACK, None, |input| input.lengths.pack_tables[table] = nodes);
        }
    }

    /// Answers with room for all numbers but the last, and road lists with none.
    fn other_lengths(&mut self) {
        self.called("open's answer short", OPEN, Some((31, 0)), |input| input.lengths.open_answer = OPEN_ANSWER - 1);
        for (operation, roads) in [(PLAIN_LISTS, self.case.roads), (FLAGGED_LISTS, self.case.flagged_roads)] {
            self.called("lists' answer short", operation, Some((31, 0)), |input| {
                input.lengths.lists_answer = LISTS_ANSWER - 1;
            });
            self.called("lists' answer just enough", operation, None, |input| {
                input.lengths.lists_answer = LISTS_ANSWER;
            });
            if roads > 0 {
                self.called("no room for roads", operation, Some((29, 0)), |input| input.lengths.roads = roads - 1);
            }
        }
    }

    /// "Pack takes the number as 32 bits: above 1 is 4."
    fn numbers_to_pack(&mut self, rng: &mut Rng) {
        let high = 1 << rng.within(8, 31);
        for number in [2, 3, 255, 256, 257, 65_536, 65_537, 0x8000_0000, 0x8000_0001, u32::MAX, high, high | 1] {
            self.called(format!("pack's hours {number}"), PACK, Some((4, 0)), |input| input.pack.hours = number);
            self.called(format!("pack's hours {number}, a short table"), PACK, Some((4, 0)), |input| {
                input.pack.hours = number;
                input.lengths.pack_tables[OPENS] = 0;
            });
        }
    }

    /// "open not below close, or close above P, with the place".
    fn hours(&mut self, rng: &mut Rng) {
        let period = self.case.network.header.period as u16;
        let nodes = self.case.network.nodes();
        let tick = rng.below(usize::from(period)) as u16;
        let good = [(0, period), (0, 1), (period - 1, period), (tick, period), (tick, tick + 1), (0, tick + 1)];
        for hours in good {
            let node = some_place(rng, nodes);
            self.judged(format!("hours {hours:?}"), None, |drafts| set(drafts, node, hours));
        }
        for hours in wrong_hours(period, tick) {
            let node = some_place(rng, nodes);
            let wanted = Some((37, node as u32));
            self.judged(format!("hours {hours:?} at {node}"), wanted, |drafts| set(drafts, node, hours));
        }
        let all: Vec<(u16, u16)> = wrong_hours(period, tick);
        let first = rng.below(nodes);
        let picked: Vec<(u16, u16)> = (first..nodes).map(|_| rng.pick(&all)).collect();
        self.judged(format!("hours wrong from {first} on"), Some((37, first as u32)), |drafts| {
            for (node, &hours) in (first..).zip(&picked) {
                set(drafts, node, hours);
            }
        });
    }

    /// "straight after 7": over all places, and before every road.
    fn orders(&mut self, rng: &mut Rng) {
        let header = self.case.network.header;
        let nodes = self.case.network.nodes();
        let period = header.period as u16;
        let wrong = rng.pick(&wrong_hours(period, 0));
        let (hall, other) = (rng.below(nodes), rng.below(nodes));
        for (hall, other) in [(hall, other), (0, nodes - 1), (nodes - 1, 0)] {
            self.judged("7 and 37", Some((7, other as u32)), |drafts| {
                set(drafts, hall, wrong);
                drafts.network.tables.cells[other] = header.cells as u16;
            });
        }
        let wanted = Some((37, hall as u32));
        if header.arcs > 0 {
            self.judged("37 and 8", wanted, |drafts| {
                set(drafts, hall, wrong);
                drafts.network.tables.from[0] = header.nodes as u16;
            });
            self.judged("37 and 9", wanted, |drafts| {
                set(drafts, hall, wrong);
                drafts.network.tables.travels[0] = 0;
            });
        }
        if header.points < MOST_POINTS {
            self.judged("37 and a sum", wanted, |drafts| {
                set(drafts, hall, wrong);
                drafts.network.header.points += 1;
                drafts.network.tables.ticks.push(0);
                drafts.network.tables.travels.push(1);
            });
        }
        self.orders_with_lengths(hall, wrong);
    }

    /// 4 and 30 come before 37 in pack; 31 comes after it, and so does open's 30.
    fn orders_with_lengths(&mut self, hall: usize, wrong: (u16, u16)) {
        let nodes = self.case.network.nodes();
        let wanted = Some((37, hall as u32));
        let mut drafts = self.case.drafts.clone();
        set(&mut drafts, hall, wrong);
        let mut input = self.case.input(&drafts);
        input.lengths.pack_out = 0;
        self.push("37 and 31", PACK, wanted, input.clone());
        input.lengths.open_tables[0] = 0;
        self.push("37 and 30", OPEN, wanted, input.clone());
        input.lengths.pack_tables[CLOSES] = nodes - 1;
        self.push("30 and 37", PACK, Some((30, 0)), input.clone());
        input.pack.hours = 2;
        self.push("4 and 30 and 37", PACK, Some((4, 0)), input);
    }

    /// "packing other hours under 0 is 37".
    fn packed_under_0(&mut self) {
        let tables = &self.case.drafts.network.tables;
        let period = self.case.network.header.period as u16;
        let other =
            (0..self.case.network.nodes()).find(|&node| (tables.opens[node], tables.closes[node]) != (0, period));
        let wanted = other.map(|node| (37, node as u32));
        self.called("packed under 0", PACK, wanted, |input| input.pack.hours = 0);
        let cells = self.case.network.header.cells;
        if cells > 1 && self.case.network.cell_of.contains(&(cells as usize - 1)) {
            let last = self.case.network.cell_of.iter().position(|&cell| cell == cells as usize - 1);
            self.called("packed under 0, and 7", PACK, last.map(|node| (7, node as u32)), |input| {
                input.pack.hours = 0;
                input.pack.cells = cells - 1;
            });
        }
    }

    /// A file that is to hold hours holds them, though all places are open all day.
    fn packed_under_1(&mut self) {
        let blocks = self.case.drafts.network.file().len() / BLOCK;
        let nodes = self.case.network.nodes();
        let length = (blocks - nodes.div_ceil(250) + nodes.div_ceil(83)) * BLOCK;
        let packed = |out: usize| {
            move |input: &mut Input| {
                input.pack.hours = 1;
                input.lengths.pack_out = out;
            }
        };
        self.called("all day, packed under 1", PACK, None, packed(length));
        self.called("all day, packed under 1, too short", PACK, Some((31, 0)), packed(length - 1));
        self.judged("all day under 1", None, |drafts| drafts.network.header.hours = 1);
    }
}

/// Often the first or the last.
fn some_place(rng: &mut Rng, nodes: usize) -> usize {
    let any = rng.below(nodes);
    rng.pick(&[0, nodes - 1, any])
}

fn set(drafts: &mut Drafts, node: usize, hours: (u16, u16)) {
    (drafts.network.tables.opens[node], drafts.network.tables.closes[node]) = hours;
}

/// Hours that no place may have.
fn wrong_hours(period: u16, tick: u16) -> Vec<(u16, u16)> {
    vec![
        (0, 0),
        (tick, tick),
        (tick + 1, tick),
        (period, period),
        (period, 0),
        (0, period + 1),
        (period - 1, period + 1),
        (period, period + 1),
        (tick, u16::MAX),
        (u16::MAX, 0),
        (u16::MAX, period),
        (u16::MAX, u16::MAX),
    ]
}
