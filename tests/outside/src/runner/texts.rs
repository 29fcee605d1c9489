//! The import's cases: texts made on purpose and generated ones, valid, with one fault, another and both, and
//! edited byte by byte. What a text leads to is known by hand or by how it was made; of edited bytes only the
//! reference knows.

use super::{CaseName, Runner, Trial};
use crate::compare::{compare_import, ImportCall, Imported};
use crate::import::by_hand::{self, Gives};
use crate::import::damage::Fault;
use crate::import::edits::edit;
use crate::import::every;
use crate::import::generate::{self, Size};
use crate::import::text::Text;
use crate::import::{file_length, file_of, shown, Arc};
use crate::input::Input;
use crate::library::{CHECK, IMPORT, IMPORT_ANSWER, MAKE, OPEN, OPERATIONS, PACK};
use crate::made;
use crate::reference::network;
use crate::reference::trips::{flagged_trip, plain_trip, ListLengths, TripCall};
use crate::reference::Refusal;
use crate::rng::Rng;

const NUMBERS: [u32; 6] = [0, u32::MAX, 1, 65_535, 65_536, 0x8001_0203];

/// A difference shows so many bytes of its text.
const MOST_SHOWN: usize = 400;

/// What a text has to lead to: a refusal and its line, or nodes and arcs.
enum Due {
    Refused(u32, usize),
    Graph(u32, Vec<Arc>),
}

impl Due {
    fn of(text: &Text) -> Due {
        match text.due() {
            Some((number, line)) => Due::Refused(number, line),
            None => Due::Graph(text.nodes, text.arcs.clone()),
        }
    }

    /// How long the file is. For a refused text as long as a small town's, so that fewer bytes are a second
    /// fault beside it.
    fn needs(&self) -> usize {
        match self {
            Due::Refused(..) => file_length(2, 1),
            Due::Graph(nodes, arcs) => file_length(*nodes as usize, arcs.len()),
        }
    }

    /// The refusals that are due, in the order in which they are asked for.
    fn refusals(&self, call: ImportCall) -> Vec<Refusal> {
        let refusal = |number, place: usize| Refusal { number, places: [place as u32, 0, 0] };
        let mut refusals = Vec::new();
        if call.answer < IMPORT_ANSWER {
            refusals.push(refusal(31, 0));
        }
        if let Due::Refused(number, line) = *self {
            refusals.push(refusal(number, line));
        }
        if call.out < self.needs() {
            refusals.push(refusal(31, 0));
        }
        refusals
    }
}

fn text_size(number: u64) -> Size {
    match number {
        number if number % 256 == 1 => Size::Full,
        number if number % 32 == 3 => Size::Medium,
        _ => Size::Small,
    }
}

impl Trial<'_> {
    fn import(&mut self, call: ImportCall) -> Imported {
        let imported = compare_import(self.runner.import, call);
        let text = &call.text[..call.text.len().min(MOST_SHOWN)];
        for difference in &imported.differences {
            self.differ(&format!("{difference}; the text: {:?}", String::from_utf8_lossy(text)));
        }
        imported
    }

    /// A call whose outcome is known; its refusals count as met, alone or before others.
    fn import_due(&mut self, call: ImportCall, due: &Due) -> Imported {
        let refusals = due.refusals(call);
        let imported = self.import(call);
        let first = refusals.first().copied();
        if imported.predicted != first {
            self.differ(&format!("the reference gives {:?}, due are {refusals:?}", imported.predicted));
        }
        if let (None, Due::Graph(nodes, arcs)) = (first, due) {
            if imported.file != file_of(call.number, *nodes, arcs) {
                self.differ("the reference writes another file than is due");
            }
        }
        let number = first.map_or(0, |refusal| refusal.number);
        match refusals.len() {
            0 | 1 => self.runner.coverage.alone(IMPORT, number),
            _ => self.runner.coverage.with_second(IMPORT, number),
        }
        imported
    }

    /// What the other functions make of an imported file: opening shows the arcs, and the rest are the
    /// reference's, the plan made of it and trips under that plan among them.
    fn judge_imported(&mut self, file: &[u8], nodes: u32, arcs: &[Arc], calls: &[TripCall]) {
        let network = match network::open(file) {
            Ok(network) if network.tables == shown(nodes, arcs) => network,
            opened => return self.differ(&format!("opening shows other arcs ({:?})", opened.err())),
        };
        let plan = made::of(file, &network).file().unwrap_or_default().to_vec();
        let header = network.header;
        for &call in calls {
            let input = Input::roomy(file.to_vec(), plan.clone(), call, header.table_lengths(), 1);
            let verdict = self.compare(&input, false);
            for operation in [OPEN, PACK, CHECK, MAKE] {
                if let Some(refusal) = verdict.predicted[operation] {
                    self.differ(&format!("{}: the reference gives {refusal:?}", OPERATIONS[operation]));
                }
            }
            let lists = ListLengths { arrivals: 512, roads: 512 };
            let flagged = verdict.planned.map(|plan| flagged_trip(&network, &plan, call, lists).answer);
            if flagged.as_ref() != Ok(&plain_trip(&network, call, lists).answer) {
                self.differ(&format!("{call:?}: the flagged trip under the plan made is not the plain one"));
            }
        }
    }
}

/// A few trips through a town of so many nodes.
fn some_trips(rng: &mut Rng, nodes: u32, count: usize) -> Vec<TripCall> {
    let mut some = |bound: u32| rng.below(bound as usize) as u32;
    (0..count).map(|_| TripCall { from: some(nodes), to: some(nodes), departure: some(2_880) }).collect()
}

impl Runner {
    pub(super) fn run_text(&mut self, name: CaseName) {
        match (name.number as usize).checked_sub(by_hand::COUNT) {
            None => self.run_by_hand(name),
            Some(group) => self.run_every(name, group),
        }
    }

    fn run_by_hand(&mut self, name: CaseName) {
        let by_hand = by_hand::text(name.number as usize);
        let due = match by_hand.gives {
            Gives::Arcs(nodes, arcs) => Due::Graph(nodes, arcs.to_vec()),
            Gives::Same(nodes, count, arc) => Due::Graph(nodes, vec![arc; count]),
            Gives::Refused(number, line) => Due::Refused(number, line),
        };
        let begins = String::from_utf8_lossy(&by_hand.text[..by_hand.text.len().min(60)]).into_owned();
        let needs = due.needs();
        let lengths = if by_hand.small { all_choices(needs) } else { few_choices(needs) };
        let mut written = Vec::new();
        for (turn, (out, answer)) in lengths.into_iter().enumerate() {
            let number = NUMBERS[turn % NUMBERS.len()];
            let call = ImportCall { text: &by_hand.text, behind: b"", number, out, answer };
            let mut trial = self.trial(name, format!("{begins:?}, out {out}, answer {answer}"));
            // Whatever an earlier call found must not matter.
            trial.import(ImportCall { text: b"p sp 1 0\n", out: 1_024, answer: IMPORT_ANSWER, ..call });
            let imported = trial.import_due(call, &due);
            if imported.predicted.is_none() {
                written = imported.written;
            }
        }
        if let (Due::Graph(nodes, arcs), false) = (&due, self.stands_in) {
            let mut rng = Rng::new(self.seed, name.number);
            let mut calls = some_trips(&mut rng, *nodes, if by_hand.small { 20 } else { 1 });
            calls.push(TripCall { from: 0, to: nodes - 1, departure: 2_879 });
            self.trial(name, format!("{begins:?}")).judge_imported(&written, *nodes, arcs, &calls);
        }
    }

    fn run_every(&mut self, name: CaseName, group: usize) {
        let mut trial = self.trial(name, every::name(group).to_string());
        every::every(group, &mut |text, behind| {
            let call = ImportCall { text, behind, number: 7, out: file_length(9, 9), answer: IMPORT_ANSWER };
            trial.import(call);
        });
    }

    pub(super) fn run_import(&mut self, name: CaseName) {
        let mut rng = Rng::new(self.seed, name.stream());
        let text = generate::text(&mut rng, text_size(name.number));
        self.valid_text(name, &mut rng, &text);
        let first = self.text_fault_in_turn(name, &mut rng, &text);
        let second = self.some_text_fault(&mut rng, &text);
        self.faulty_text(name, &mut rng, &text, &[&first]);
        self.faulty_text(name, &mut rng, &text, &[&second]);
        self.faulty_text(name, &mut rng, &text, &[&first, &second]);
        self.edited_text(name, &mut rng, &text);
        if name.number % 8 == 5 {
            self.beginnings(name, &text);
        }
    }

    /// The valid text with lists of all lengths that matter, and what it stands for.
    fn valid_text(&mut self, name: CaseName, rng: &mut Rng, text: &Text) {
        let (bytes, due) = (text.bytes(), Due::of(text));
        let mut lengths = few_choices(due.needs());
        let mut trips = 1;
        if text_size(name.number) != Size::Small {
            lengths = vec![lengths[0], rng.pick(&lengths[1..])];
            // The planner's lists of a large town take long to compare.
            trips = usize::from(name.number % 128 < 4);
        }
        let mut written = Vec::new();
        for (out, answer) in lengths {
            let number = rng.pick(&NUMBERS).wrapping_add(rng.below(2) as u32);
            let call = ImportCall { text: &bytes, behind: b"0 ", number, out, answer };
            let mut trial = self.trial(name, format!("valid, out {out}, answer {answer}"));
            let imported = trial.import_due(call, &due);
            if imported.predicted.is_none() {
                written = imported.written;
            }
        }
        if trips > 0 && !self.stands_in {
            let calls = some_trips(rng, text.nodes, trips);
            self.trial(name, "imported".to_string()).judge_imported(&written, text.nodes, &text.arcs, &calls);
        }
    }

    fn text_fault_in_turn(&self, name: CaseName, rng: &mut Rng, text: &Text) -> (usize, Fault) {
        let kind = (name.number % self.text_kinds.len() as u64) as usize;
        match (self.text_kinds[kind].make)(rng, text) {
            Some(fault) => (kind, fault),
            None => self.some_text_fault(rng, text),
        }
    }

    fn some_text_fault(&self, rng: &mut Rng, text: &Text) -> (usize, Fault) {
        loop {
            let kind = rng.below(self.text_kinds.len());
            if let Some(fault) = (self.text_kinds[kind].make)(rng, text) {
                return (kind, fault);
            }
        }
    }

    /// One fault's outcome is known, and that of two if they stand apart.
    fn faulty_text(&mut self, name: CaseName, rng: &mut Rng, valid: &Text, faults: &[&(usize, Fault)]) {
        let mut text = valid.clone();
        for (_, fault) in faults {
            (fault.apply)(&mut text);
        }
        let known = match faults {
            [(one, first), (other, second)] => {
                let local = self.text_kinds[*one].local && self.text_kinds[*other].local;
                local && (first.on.is_none() || first.on != second.on)
            }
            _ => true,
        };
        let names: Vec<&str> = faults.iter().map(|(kind, _)| self.text_kinds[*kind].name).collect();
        let (bytes, due) = (text.bytes(), Due::of(&text));
        let needs = due.needs().max(file_length(valid.nodes as usize, valid.arcs.len()));
        let (out, answer) = some_lengths(rng, needs);
        let call = ImportCall { text: &bytes, behind: b"", number: rng.pick(&NUMBERS), out, answer };
        let mut trial = self.trial(name, format!("{}, out {out}, answer {answer}", names.join(" + ")));
        if known {
            trial.import_due(call, &due);
        } else {
            if let Some(refusal) = trial.import(call).predicted {
                self.coverage.with_second(IMPORT, refusal.number);
            }
        }
    }

    fn edited_text(&mut self, name: CaseName, rng: &mut Rng, valid: &Text) {
        let out = file_length(valid.nodes as usize, valid.arcs.len()) + 3;
        let count = if text_size(name.number) == Size::Small { 16 } else { 2 };
        for _ in 0..count {
            let mut text = valid.bytes();
            edit(rng, &mut text);
            let call = ImportCall { text: &text, behind: b"", number: 1, out, answer: IMPORT_ANSWER };
            self.trial(name, "edited".to_string()).import(call);
        }
    }

    /// The text up to each byte, with the rest behind it; a large one up to some.
    fn beginnings(&mut self, name: CaseName, valid: &Text) {
        let (bytes, out) = (valid.bytes(), file_length(valid.nodes as usize, valid.arcs.len()));
        for place in (0..bytes.len()).step_by(bytes.len().div_ceil(400)) {
            let (text, behind) = bytes.split_at(place);
            let call = ImportCall { text, behind, number: 1, out, answer: IMPORT_ANSWER + 1 };
            self.trial(name, format!("the first {place} bytes")).import(call);
        }
    }
}

fn all_choices(needs: usize) -> Vec<(usize, usize)> {
    let mut choices = Vec::new();
    for out in [0, 1, needs - 1, needs, needs + 1, needs + 600] {
        choices.extend((0..=IMPORT_ANSWER + 2).map(|answer| (out, answer)));
    }
    choices
}

/// Those that matter most.
fn few_choices(needs: usize) -> Vec<(usize, usize)> {
    vec![
        (needs, IMPORT_ANSWER),
        (needs + 600, IMPORT_ANSWER + 2),
        (needs - 1, IMPORT_ANSWER),
        (0, IMPORT_ANSWER + 1),
        (needs, IMPORT_ANSWER - 1),
        (needs, 0),
        (needs - 512, IMPORT_ANSWER),
    ]
}

/// Mostly enough.
fn some_lengths(rng: &mut Rng, needs: usize) -> (usize, usize) {
    if !rng.once_in(4) {
        return (needs + rng.below(3), IMPORT_ANSWER + rng.below(3));
    }
    (rng.pick(&[0, needs - 1, needs - 512, needs]), rng.pick(&[0, 3, 4, 4, 5]))
}
