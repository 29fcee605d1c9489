//! One input for the nine functions on networks: two files, the numbers of a call, and how long each lent
//! list is. What pack gets is read out of the network file without judging it, so that every damage reaches
//! pack too.

use crate::library::{
    CHECK_ANSWER, DAY_ANSWER, LISTS_ANSWER, MAKE_ANSWER, OPEN_ANSWER, PACK_ANSWER, TRIP_ANSWER_BYTES,
};
use crate::made;
use crate::reference::day_sheet::DayLengths;
use crate::reference::make_plan::{work_entries, MakeLengths};
use crate::reference::network::{self, read_header, read_tables, Header, Tables, HOURS_AT, TABLES};
use crate::reference::trips::TripCall;

/// How many entries each lent list has.
#[derive(Clone, Copy, Debug, PartialEq, Eq)]
pub struct Lengths {
    pub arrivals: usize,
    pub roads: usize,
    pub trip_answer: usize,
    pub lists_answer: usize,
    pub check_answer: usize,
    pub open_answer: usize,
    pub pack_answer: usize,
    pub pack_out: usize,
    pub open_tables: [usize; TABLES],
    pub pack_tables: [usize; TABLES],
    /// The planner's work list and out-bytes.
    pub make: MakeLengths,
    pub make_answer: usize,
    /// The day sheet's work list and list.
    pub day: DayLengths,
    pub day_answer: usize,
}

#[derive(Clone, PartialEq, Eq)]
pub struct Input {
    pub network: Vec<u8>,
    pub plan: Vec<u8>,
    pub call: TripCall,
    pub pack: Header,
    pub lengths: Lengths,
}

/// Entries with which a table for pack is lengthened: no table may be judged beyond its count.
const BEYOND: u16 = 0xEEEE;

impl Input {
    /// The tables lent to pack: the network file's, cut or lengthened to the lent lengths.
    pub fn pack_tables(&self) -> Tables {
        let mut tables = read_tables(&self.network);
        for (table, length) in tables.in_order_mut().into_iter().zip(self.lengths.pack_tables) {
            table.resize(length, BEYOND);
        }
        tables
    }

    /// Makes pack's numbers and table lengths those of the network file as it stands now.
    pub fn pack_what_the_network_says(&mut self, spare: usize) {
        self.pack = if self.network.len() <= HOURS_AT { NO_HEADER } else { read_header(&self.network) };
        let tables = read_tables(&self.network);
        self.lengths.pack_tables = tables.in_order().map(|table| table.len() + spare);
        self.lengths.pack_out = self.network.len() + spare;
    }

    /// Makes the planner's lists as long as the network file as it stands now needs them, and `spare` entries
    /// longer. What does not open needs none: then they are as long as `otherwise` says.
    pub fn plan_what_the_network_says(&mut self, otherwise: MakeLengths, spare: usize) {
        let needs = made::needs(&self.network).unwrap_or(otherwise);
        self.lengths.make = MakeLengths { work: needs.work + spare, out: needs.out + spare };
    }

    /// Makes the day sheet's lists as long as the network file as it stands now needs them, and `spare`
    /// entries longer; where it does not open they stay.
    pub fn list_what_the_network_says(&mut self, spare: usize) {
        if let Ok(network) = network::open(&self.network) {
            let (work, list) = (work_entries(&network) + spare, network.header.period as usize + spare);
            self.lengths.day = DayLengths { work, list };
        }
    }

    /// An input whose lists are all long enough for any town, `spare` entries beyond what is named.
    pub fn roomy(network: Vec<u8>, plan: Vec<u8>, call: TripCall, open_tables: [usize; TABLES], spare: usize) -> Input {
        let mut input = Input {
            network,
            plan,
            call,
            pack: NO_HEADER,
            lengths: Lengths {
                arrivals: open_tables[0] + spare,
                roads: open_tables[0] + spare,
                trip_answer: TRIP_ANSWER_BYTES + spare,
                lists_answer: LISTS_ANSWER + spare,
                check_answer: CHECK_ANSWER + spare,
                open_answer: OPEN_ANSWER + spare,
                pack_answer: PACK_ANSWER + spare,
                pack_out: 0,
                open_tables: open_tables.map(|length| length + spare),
                pack_tables: [0; TABLES],
                make: NO_LISTS,
                make_answer: MAKE_ANSWER + spare,
                day: DayLengths { work: 0, list: 0 },
                day_answer: DAY_ANSWER + spare,
            },
        };
        input.list_what_the_network_says(spare);
        input.pack_what_the_network_says(spare);
        input.plan_what_the_network_says(NO_LISTS, spare);
        input
    }
}

const NO_HEADER: Header = Header { number: 0, period: 0, nodes: 0, arcs: 0, cells: 0, points: 0, hours: 0 };
pub const NO_LISTS: MakeLengths = MakeLengths { work: 0, out: 0 };
