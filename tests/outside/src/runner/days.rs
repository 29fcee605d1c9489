//! Whole days: all pairs of a small town, or some of a larger one, with lists of every length that matters;
//! each entry has to be the flagged trip's arrival too, where the plan is accepted.

use super::{CaseName, Runner};
use crate::case::{of_town, Case};
use crate::compare::{compare_day_sheet, DaySheetCall, Verdict};
use crate::day::towns::day_town;
use crate::day::{backwards, whole_day};
use crate::generate::Size;
use crate::input::Input;
use crate::library::{DAY, DAY_ANSWER};
use crate::reference::day_sheet::{by_trips, DayLengths, Pair};
use crate::reference::make_plan::work_entries;
use crate::reference::network::Network;
use crate::reference::trips::{flagged_trip, least_arrivals, ListLengths, TripCall};
use crate::reference::Refusal;
use crate::rng::Rng;

/// A town up to so many places and ticks is small: all its pairs are asked for.
const MOST_PLACES: usize = 7;
const MOST_TICKS: u32 = 30;

impl Runner {
    pub(super) fn run_days(&mut self, name: CaseName) {
        let mut rng = Rng::new(self.seed, name.stream());
        let draft = day_town(&mut rng, name.number);
        let case = of_town(&mut rng, draft, Size::Small);
        let input = case.input(&case.drafts);
        let verdict = Verdict::of_files(&input);
        let small = case.network.nodes() <= MOST_PLACES && case.network.header.period <= MOST_TICKS;
        let pairs = pairs(&mut rng, &case, small);
        for &pair in &pairs {
            self.day_of(name, &case, &input, &verdict, pair);
        }
        if small {
            self.days_backwards(name, &case);
        }
        let lengths = lengths_of(&case.network, small);
        for pair in pairs_for_lengths(&mut rng, &case.network, &pairs) {
            for &(lengths, answer) in &lengths {
                self.day_call(name, &case.network, &input, &verdict, DaySheetCall { pair, lengths, answer });
            }
        }
    }

    /// One pair with lists that are just long enough, and a little longer.
    fn day_of(&mut self, name: CaseName, case: &Case, input: &Input, verdict: &Verdict, pair: Pair) {
        let (work, list) = (work_entries(&case.network), case.network.header.period as usize);
        for spare in [0, 3] {
            let lengths = DayLengths { work: work + spare, list: list + spare };
            let call = DaySheetCall { pair, lengths, answer: DAY_ANSWER + spare };
            self.day_call(name, &case.network, input, verdict, call);
        }
        let Ok(plan) = &verdict.planned else { return };
        let day = whole_day(&input.network, &case.network, pair.0 as usize, pair.1 as usize);
        let step = if list > 200 { list / 12 } else { 1 };
        for departure in (0..list).step_by(step) {
            let call = TripCall { from: pair.0, to: pair.1, departure: departure as u32 };
            let lists = ListLengths { arrivals: case.network.nodes(), roads: case.network.nodes() };
            let arrival = flagged_trip(&case.network, plan, call, lists).answer.ok().map(|arrived| arrived.tick);
            let entry = day.as_ref().map(|day| day[departure]);
            if arrival != entry {
                let text = format!("{call:?}: the flagged trip arrives at {arrival:?}, the day has {entry:?}");
                self.trial(name, "flagged trips".to_string()).differ(&text);
            }
        }
    }

    /// A day by trips is the one worked out backwards.
    fn days_backwards(&mut self, name: CaseName, case: &Case) {
        for to in 0..case.network.nodes() {
            for (from, day) in backwards(&case.network, to).into_iter().enumerate() {
                if day != by_trips(&case.network, from, to) {
                    let text = format!("from {from} to {to}: by trips another day than {day:?}");
                    self.trial(name, "backwards".to_string()).differ(&text);
                }
            }
        }
    }

    /// A call, and the refusal that is due by the wish's order.
    fn day_call(&mut self, name: CaseName, network: &Network, input: &Input, verdict: &Verdict, call: DaySheetCall) {
        let (refused, differences) = compare_day_sheet(self.functions, input, verdict, call);
        let due = due(input, network, call);
        let mut trial = self.trial(name, format!("{call:?}"));
        for text in differences {
            trial.differ(&text);
        }
        if refused != due.first().copied() {
            trial.differ(&format!("the reference gives {refused:?}, due are {due:?}"));
        }
        let number = refused.map_or(0, |refusal| refusal.number);
        match due.len() {
            0 | 1 => self.coverage.alone(DAY, number),
            _ => self.coverage.with_second(DAY, number),
        }
    }
}

/// The refusals that are due, in the order in which they are asked for.
fn due(input: &Input, network: &Network, call: DaySheetCall) -> Vec<Refusal> {
    let nodes = network.header.nodes;
    let (from, to) = call.pair;
    let no_way = from < nodes && to < nodes && whole_day(&input.network, network, from as usize, to as usize).is_none();
    let asked = [
        (31, 0, call.answer < DAY_ANSWER),
        (25, from, from >= nodes),
        (25, to, to >= nodes),
        (34, 0, call.lengths.work < work_entries(network)),
        (31, 0, call.lengths.list < network.header.period as usize),
        (28, 0, no_way),
    ];
    let due = asked.into_iter().filter(|(_, _, holds)| *holds);
    due.map(|(number, place, _)| Refusal { number, places: [place, 0, 0] }).collect()
}

fn pairs(rng: &mut Rng, case: &Case, small: bool) -> Vec<Pair> {
    let nodes = case.network.header.nodes;
    if small {
        return (0..nodes).flat_map(|from| (0..nodes).map(move |to| (from, to))).collect();
    }
    let some = rng.below(nodes as usize) as u32;
    vec![(case.call.from, case.call.to), (some, some), (0, nodes - 1)]
}

/// A pair with a way, one without where there is one, and places that are none.
fn pairs_for_lengths(rng: &mut Rng, network: &Network, pairs: &[Pair]) -> Vec<Pair> {
    let nodes = network.header.nodes;
    let (from, to) = rng.pick(pairs);
    let beyond = rng.pick(&[nodes, nodes + 1, from + 65_536, from | 0x8000_0000, u32::MAX]);
    let mut chosen = vec![(from, to), (beyond, to), (from, beyond), (beyond, nodes)];
    let all = vec![true; network.arcs.len()];
    let has_no_way = |&&(from, to): &&Pair| least_arrivals(network, &all, from as usize, 0)[to as usize].is_none();
    let cut_off = pairs.iter().find(has_no_way);
    chosen.extend(cut_off);
    chosen
}

/// Lengths of both lists and of the answer.
fn lengths_of(network: &Network, small: bool) -> Vec<(DayLengths, usize)> {
    let (work, list) = (work_entries(network), network.header.period as usize);
    let lengths = |work: usize, list: usize| DayLengths { work, list };
    if !small {
        return vec![
            (lengths(work - 1, list - 1), DAY_ANSWER),
            (lengths(work, list - 1), DAY_ANSWER),
            (lengths(work + 1, list + 1), DAY_ANSWER + 1),
            (lengths(work, list), DAY_ANSWER - 1),
        ];
    }
    let mut all = Vec::new();
    for work in [0, list.min(work - 1), work - 1, work, work + 7] {
        for list in [0, list - 1, list, list + 5] {
            all.extend([0, DAY_ANSWER - 1, DAY_ANSWER, DAY_ANSWER + 2].map(|answer| (lengths(work, list), answer)));
        }
    }
    all
}
