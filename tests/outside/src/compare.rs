//! One input through all nine functions that work on networks: the reference predicts the returned number,
//! the answer and every entry of lent memory, and each difference becomes a line of text. The import has
//! inputs of its own.

mod check_plan;
mod day_sheet;
mod import;
mod make_plan;

use crate::input::Input;
use crate::library::*;
use crate::made::{self, Made};
use crate::marked::{Entry, Lent};
use crate::reference::network::{self, Header, Network};
use crate::reference::plan::{self, Plan};
use crate::reference::trips::{flagged_trip, plain_trip, ListLengths, Trip, TripCall};
use crate::reference::{refuse, Refusal};
use std::rc::Rc;

pub use check_plan::{compare_check, TellsFinds};
pub use day_sheet::{compare_day_sheet, DaySheetCall};
pub use import::{compare_import, ImportCall, Imported};
pub use make_plan::PlannerLengths;

/// What the reference says of one operation: nothing refused, or which refusal.
pub type Predicted = Option<Refusal>;

/// All operations on one input.
pub struct Verdict {
    pub predicted: [Predicted; ON_NETWORKS],
    pub differences: Vec<String>,
    /// The reference's reading of the files, for the oracles.
    pub opened: Result<Network, Refusal>,
    pub planned: Result<Plan, Refusal>,
    pub finds: TellsFinds,
    /// What the reference's planner makes of the network, if it opens.
    pub made: Option<Rc<Made>>,
}

impl Verdict {
    /// The reference's reading of the files; no function is called.
    pub fn of_files(input: &Input) -> Verdict {
        let opened = network::open(&input.network);
        let planned = match &opened {
            Ok(network) => plan::open(network, &input.plan),
            Err(refusal) => Err(*refusal),
        };
        let predicted = [None; ON_NETWORKS];
        Verdict { predicted, differences: Vec::new(), opened, planned, finds: None, made: None }
    }

    pub fn refusal(&self, operation: usize) -> u32 {
        self.predicted[operation].map_or(0, |refusal| refusal.number)
    }
}

/// The files as lent, the reference's reading of them, and the differences so far.
struct Run<'a> {
    input: &'a Input,
    call: TripCall,
    network: Lent<u8>,
    plan: Lent<u8>,
    opened: &'a Result<Network, Refusal>,
    planned: &'a Result<Plan, Refusal>,
    made: Option<Rc<Made>>,
    functions: Functions,
    differences: Vec<String>,
}

/// The library's functions on an input.
pub fn compare(input: &Input) -> Verdict {
    compare_all(LINKED, input)
}

/// These functions on an input.
pub fn compare_all(functions: Functions, input: &Input) -> Verdict {
    let Verdict { opened, planned, .. } = Verdict::of_files(input);
    let made = opened.as_ref().ok().map(|network| made::of(&input.network, network));
    let mut run = Run { functions, ..Run::new(input, &opened, &planned, made) };
    let (checked, finds) = run.check_plan();
    let predicted = [
        run.open_network(),
        run.pack_network(),
        checked,
        run.c_trip(PLAIN),
        run.c_trip(FLAGGED),
        run.trip_lists(PLAIN_LISTS),
        run.trip_lists(FLAGGED_LISTS),
        run.make_plan(),
        run.day_sheet(),
    ];
    let (made, differences) = (run.made, run.differences);
    Verdict { predicted, differences, opened, planned, finds, made }
}

/// Both C trips, and the trips with lists too if `lists`, for every pair of nodes and every tick of the
/// input's town.
pub fn compare_all_trips(functions: Functions, input: &Input, verdict: &Verdict, lists: bool) -> Vec<String> {
    let Ok(network) = &verdict.opened else { return Vec::new() };
    let mut run = Run { functions, ..Run::again(input, verdict) };
    for from in 0..network.header.nodes {
        for to in 0..network.header.nodes {
            for departure in 0..network.header.period {
                run.call = TripCall { from, to, departure };
                run.c_trip(PLAIN);
                run.c_trip(FLAGGED);
                if lists {
                    run.trip_lists(PLAIN_LISTS);
                    run.trip_lists(FLAGGED_LISTS);
                }
            }
        }
    }
    run.differences
}

/// The library's planner alone, with lists of other lengths: its refusal and the differences.
pub fn compare_make_plan(input: &Input, verdict: &Verdict, lengths: PlannerLengths) -> (u32, Vec<String>) {
    let mut run = Run::again(input, verdict);
    let refused = run.make_plan_with(lengths);
    (refused.map_or(0, |refusal| refusal.number), run.differences)
}

/// "an answer list shorter than named gives 31 before all else and nothing is written".
fn judge_answer(length: usize, named: usize) -> Result<(), Refusal> {
    if length < named {
        refuse(31, 0)
    } else {
        Ok(())
    }
}

/// The answer words after a call: three places, then numbers. Nothing where the list was too short.
fn answer_words(lent: usize, named: usize, refused: Predicted, numbers: &[u32]) -> Vec<u32> {
    if lent < named {
        return Vec::new();
    }
    let mut words = vec![0; named];
    match refused {
        Some(refusal) => words[..3].copy_from_slice(&refusal.places),
        None => words[3..].copy_from_slice(numbers),
    }
    words
}

impl<'a> Run<'a> {
    fn again(input: &'a Input, verdict: &'a Verdict) -> Run<'a> {
        Run::new(input, &verdict.opened, &verdict.planned, verdict.made.clone())
    }

    fn new(
        input: &'a Input,
        opened: &'a Result<Network, Refusal>,
        planned: &'a Result<Plan, Refusal>,
        made: Option<Rc<Made>>,
    ) -> Run<'a> {
        // Files are lent at changing distances from an even address.
        let shift = input.call.departure as usize % 16;
        Run {
            input,
            call: input.call,
            network: Lent::holding(&input.network, shift),
            plan: Lent::holding(&input.plan, shift / 2),
            opened,
            planned,
            made,
            functions: LINKED,
            differences: Vec::new(),
        }
    }

    fn expect_return(&mut self, operation: usize, returned: u32, predicted: Predicted) {
        let expected = predicted.map_or(0, |refusal| refusal.number);
        if returned != expected {
            let call = self.call;
            self.differ(operation, format!("returned {returned}, expected {expected} ({predicted:?}, {call:?})"));
        }
        let files =
            [("network", self.network.unlike(&self.input.network)), ("plan", self.plan.unlike(&self.input.plan))];
        for (name, unlike) in files {
            if let Some(text) = unlike {
                self.differ(operation, format!("{name}: {text}"));
            }
        }
    }

    fn expect_list<T: Entry>(&mut self, operation: usize, name: &str, lent: &Lent<T>, written: &[T]) {
        if let Some(text) = lent.unlike(written) {
            self.differ(operation, format!("{name}: {text}"));
        }
    }

    fn differ(&mut self, operation: usize, text: String) {
        self.differences.push(format!("{}: {text}", OPERATIONS[operation]));
    }

    fn open_network(&mut self) -> Predicted {
        let lengths = &self.input.lengths;
        let mut tables = lengths.open_tables.map(Lent::<u16>::blank);
        let mut answer = Lent::<u32>::blank(lengths.open_answer);
        let predicted = self.predict_open();
        let [cells, opens, closes, from, to, points, ticks, travels] = &mut tables;
        let open_network = self.functions.open_network;
        // SAFETY: each pointer leads to as many entries as its count says, and no two lists overlap.
        #[rustfmt::skip]
        let returned = unsafe {
            open_network(
                self.network.pointer(), self.network.length(),
                cells.pointer_mut(), cells.length(),
                opens.pointer_mut(), opens.length(),
                closes.pointer_mut(), closes.length(),
                from.pointer_mut(), from.length(),
                to.pointer_mut(), to.length(),
                points.pointer_mut(), points.length(),
                ticks.pointer_mut(), ticks.length(),
                travels.pointer_mut(), travels.length(),
                answer.pointer_mut(), answer.length(),
            )
        };
        let refused = predicted.as_ref().err().copied();
        self.expect_return(OPEN, returned, refused);
        let (written, numbers) = match predicted {
            Ok(network) => {
                let Header { number, period, nodes, arcs, cells, points, hours } = network.header;
                let numbers = [number, period, nodes, arcs, cells, points, hours];
                (network.tables.in_order().map(Clone::clone), numbers)
            }
            Err(_) => (Default::default(), [0; 7]),
        };
        let names = ["cells", "opens", "closes", "from", "to", "points", "ticks", "travels"];
        for ((name, table), written) in names.iter().zip(&tables).zip(&written) {
            self.expect_list(OPEN, name, table, written);
        }
        let words = answer_words(answer.length(), OPEN_ANSWER, refused, &numbers);
        self.expect_list(OPEN, "answer", &answer, &words);
        refused
    }

    fn predict_open(&self) -> Result<&'a Network, Refusal> {
        let lengths = &self.input.lengths;
        judge_answer(lengths.open_answer, OPEN_ANSWER)?;
        let network = self.opened.as_ref().map_err(|refusal| *refusal)?;
        let needed = network.header.table_lengths();
        if lengths.open_tables.iter().zip(needed).any(|(lent, needed)| *lent < needed) {
            return refuse(30, 0);
        }
        Ok(network)
    }

    fn pack_network(&mut self) -> Predicted {
        let lengths = &self.input.lengths;
        let header = self.input.pack;
        let tables = self.input.pack_tables();
        let predicted = judge_answer(lengths.pack_answer, PACK_ANSWER)
            .and_then(|()| network::pack(&header, &tables, lengths.pack_out));
        let lent = tables.in_order().map(|table| Lent::holding(table, 0));
        let mut out = Lent::<u8>::blank(lengths.pack_out);
        let mut answer = Lent::<u32>::blank(lengths.pack_answer);
        let [cells, opens, closes, from, to, points, ticks, travels] = &lent;
        let pack_network = self.functions.pack_network;
        // SAFETY: each pointer leads to as many entries as its count says, and no two lists overlap.
        #[rustfmt::skip]
        let returned = unsafe {
            pack_network(
                header.number, header.period, header.nodes, header.arcs, header.cells, header.points, header.hours,
                cells.pointer(), cells.length(),
                opens.pointer(), opens.length(),
                closes.pointer(), closes.length(),
                from.pointer(), from.length(),
                to.pointer(), to.length(),
                points.pointer(), points.length(),
                ticks.pointer(), ticks.length(),
                travels.pointer(), travels.length(),
                out.pointer_mut(), out.length(),
                answer.pointer_mut(), answer.length(),
            )
        };
        let refused = predicted.as_ref().err().copied();
        self.expect_return(PACK, returned, refused);
        let file = predicted.unwrap_or_default();
        self.expect_list(PACK, "out", &out, &file);
        for (lent, table) in lent.iter().zip(tables.in_order()) {
            self.expect_list(PACK, "table", lent, table);
        }
        let words = answer_words(answer.length(), PACK_ANSWER, refused, &[file.len() as u32]);
        self.expect_list(PACK, "answer", &answer, &words);
        refused
    }

    /// Both trips by lists of these lengths, once no file is refused.
    fn predict_trip(&self, flagged: bool, lists: ListLengths) -> Trip {
        let call = self.call;
        match (self.opened, self.planned) {
            (Err(refusal), _) => Trip::refused(*refusal),
            (Ok(network), _) if !flagged => plain_trip(network, call, lists),
            (Ok(_), Err(refusal)) => Trip::refused(*refusal),
            (Ok(network), Ok(plan)) => flagged_trip(network, plan, call, lists),
        }
    }

    /// The call from C has a fresh list of 512 arrivals, and 1,032 bytes hold any way's 511 roads: neither 27
    /// nor 29 can come of it.
    fn c_trip(&mut self, operation: usize) -> Predicted {
        let lent = self.input.lengths.trip_answer;
        let mut answer = Lent::<u8>::blank(lent);
        let flagged = operation == FLAGGED;
        let trip = if lent < TRIP_ANSWER_BYTES {
            Trip::refused(Refusal { number: 31, places: [0; 3] })
        } else {
            self.predict_trip(flagged, ListLengths { arrivals: 512, roads: (TRIP_ANSWER_BYTES - 10) / 2 })
        };
        let call = self.call;
        let (network, plan, functions) = (&self.network, &self.plan, self.functions);
        // SAFETY: each pointer leads to as many entries as its count says, and no two lists overlap.
        #[rustfmt::skip]
        let returned = unsafe {
            if flagged {
                (functions.flagged_trip)(
                    network.pointer(), network.length(),
                    plan.pointer(), plan.length(),
                    answer.pointer_mut(), answer.length(),
                    call.from, call.to, call.departure,
                )
            } else {
                (functions.plain_trip)(
                    network.pointer(), network.length(),
                    answer.pointer_mut(), answer.length(),
                    call.from, call.to, call.departure,
                )
            }
        };
        let refused = trip.answer.as_ref().err().copied();
        self.expect_return(operation, returned, refused);
        let bytes = if lent < TRIP_ANSWER_BYTES { Vec::new() } else { c_answer(&trip) };
        self.expect_list(operation, "answer", &answer, &bytes);
        refused
    }

    fn trip_lists(&mut self, operation: usize) -> Predicted {
        let lengths = &self.input.lengths;
        let flagged = operation == FLAGGED_LISTS;
        let trip = match judge_answer(lengths.lists_answer, LISTS_ANSWER) {
            Err(refusal) => Trip::refused(refusal),
            Ok(()) => self.predict_trip(flagged, ListLengths { arrivals: lengths.arrivals, roads: lengths.roads }),
        };
        let mut arrivals = Lent::<u32>::blank(lengths.arrivals);
        let mut roads = Lent::<u16>::blank(lengths.roads);
        let mut answer = Lent::<u32>::blank(lengths.lists_answer);
        let call = self.call;
        let (network, plan, functions) = (&self.network, &self.plan, self.functions);
        // SAFETY: each pointer leads to as many entries as its count says, and no two lists overlap.
        #[rustfmt::skip]
        let returned = unsafe {
            if flagged {
                (functions.flagged_trip_lists)(
                    network.pointer(), network.length(),
                    plan.pointer(), plan.length(),
                    call.from, call.to, call.departure,
                    arrivals.pointer_mut(), arrivals.length(),
                    roads.pointer_mut(), roads.length(),
                    answer.pointer_mut(), answer.length(),
                )
            } else {
                (functions.plain_trip_lists)(
                    network.pointer(), network.length(),
                    call.from, call.to, call.departure,
                    arrivals.pointer_mut(), arrivals.length(),
                    roads.pointer_mut(), roads.length(),
                    answer.pointer_mut(), answer.length(),
                )
            }
        };
        let refused = trip.answer.as_ref().err().copied();
        self.expect_return(operation, returned, refused);
        self.expect_list(operation, "arrivals", &arrivals, &trip.arrivals);
        let (way, numbers) = match &trip.answer {
            Ok(arrived) => (arrived.roads.clone(), [arrived.tick, arrived.roads.len() as u32, arrived.open]),
            Err(_) => (Vec::new(), [0; 3]),
        };
        self.expect_list(operation, "roads", &roads, &way);
        let words = answer_words(answer.length(), LISTS_ANSWER, refused, &numbers);
        self.expect_list(operation, "answer", &answer, &words);
        refused
    }
}

/// "refusal or 0 and arrival, 4 bytes each, count and road numbers, 2 each ... On a refusal the arrival and
/// count are 0."
fn c_answer(trip: &Trip) -> Vec<u8> {
    let mut bytes = Vec::new();
    match &trip.answer {
        Ok(arrived) => {
            bytes.extend_from_slice(&0u32.to_le_bytes());
            bytes.extend_from_slice(&arrived.tick.to_le_bytes());
            bytes.extend_from_slice(&(arrived.roads.len() as u16).to_le_bytes());
            for road in &arrived.roads {
                bytes.extend_from_slice(&road.to_le_bytes());
            }
        }
        Err(refusal) => {
            bytes.extend_from_slice(&refusal.number.to_le_bytes());
            bytes.extend_from_slice(&[0; 6]);
        }
    }
    bytes
}
