//! Goes through the cases of a run: the valid case, one fault, another, and both at once, each through all
//! functions and, where the town is small enough, past the oracles. Towns made on purpose are cases too, and
//! so are the texts for the import.

mod days;
mod hours;
mod plans;
mod texts;
mod tie_town;
mod town;

use crate::case::{generate, Case};
use crate::compare::{compare_all, compare_all_trips, Verdict};
use crate::coverage::Coverage;
use crate::damage::{self, damaged, Fault, Intended, Kind};
use crate::generate::Size;
use crate::import;
use crate::input::Input;
use crate::library::{import_dimacs, Check, Functions, Import, CHECK, LINKED, ON_NETWORKS, OPERATIONS};
use crate::made::Written;
use crate::oracle::{judge_chosen_ways, judge_flags_by_ways, judge_made_plan, judge_plan};
use crate::oracle::{judge_ways_with_waits, trips_are_plain, unlike};
use crate::reference::network;
use crate::rng::Rng;
use crate::towns;

#[derive(Clone, Copy, PartialEq, Eq)]
pub enum Series {
    Small,
    Large,
    /// Towns made on purpose for the planner, whatever the seed.
    Towns,
    /// Towns made on purpose for the ways chosen on a tie, whatever the seed.
    Ways,
    /// Texts made on purpose for the import, whatever the seed.
    Texts,
    Imports,
    /// Towns with plans damaged on purpose.
    Plans,
    /// Towns with hours.
    Hours,
    /// Whole days.
    Days,
}

impl Series {
    pub const ALL: [Series; 9] = [
        Series::Small,
        Series::Large,
        Series::Towns,
        Series::Ways,
        Series::Texts,
        Series::Imports,
        Series::Plans,
        Series::Hours,
        Series::Days,
    ];

    pub fn letter(self) -> char {
        match self {
            Series::Small => 's',
            Series::Large => 'l',
            Series::Towns => 't',
            Series::Ways => 'w',
            Series::Texts => 'd',
            Series::Imports => 'i',
            Series::Plans => 'p',
            Series::Hours => 'h',
            Series::Days => 'y',
        }
    }

    /// How many towns or texts there are, in a series of those made on purpose.
    pub fn made_on_purpose(self) -> Option<u64> {
        match self {
            Series::Small | Series::Large | Series::Imports => None,
            Series::Plans | Series::Hours | Series::Days => None,
            Series::Towns => Some(towns::COUNT),
            Series::Ways => Some(towns::ties::COUNT),
            Series::Texts => Some((import::by_hand::COUNT + import::every::COUNT) as u64),
        }
    }
}

/// A case's name: its series and its number there. With the seed it repeats the case.
#[derive(Clone, Copy)]
pub struct CaseName {
    pub series: Series,
    pub number: u64,
}

impl std::fmt::Display for CaseName {
    fn fmt(&self, out: &mut std::fmt::Formatter<'_>) -> std::fmt::Result {
        write!(out, "{}{}", self.series.letter(), self.number)
    }
}

impl CaseName {
    pub fn parse(text: &str) -> Option<CaseName> {
        let letter = text.chars().next()?;
        let series = Series::ALL.into_iter().find(|series| series.letter() == letter)?;
        let number = text[1..].parse().ok()?;
        series.made_on_purpose().is_none_or(|count| number < count).then_some(CaseName { series, number })
    }

    fn size(self) -> Size {
        match (self.series, self.number) {
            (Series::Large, number) if number % 400 == 1 => Size::Full,
            (Series::Large, number) if number % 3 == 0 => Size::Medium,
            (Series::Large, _) => Size::Large,
            (_, number) if number % 16 == 0 => Size::Tiny,
            (_, number) if number % 128 == 5 => Size::Medium,
            _ => Size::Small,
        }
    }

    fn stream(self) -> u64 {
        match self.series {
            Series::Imports => self.number | 1 << 63,
            Series::Plans => self.number | 1 << 62,
            Series::Hours => self.number | 1 << 61,
            Series::Days => self.number | 1 << 60,
            _ => self.number << 1 | u64::from(self.series == Series::Large),
        }
    }
}

/// One run of cases under one seed.
pub struct Runner {
    pub seed: u64,
    pub coverage: Coverage,
    pub differences: u64,
    kinds: Vec<Kind>,
    text_kinds: Vec<import::damage::Kind>,
    /// The import under test. Without one the reference alone is held to what is known of the texts.
    import: Option<Import>,
    /// The functions on networks under test.
    functions: Functions,
    /// One of them is a stand-in: its differences are wanted, so they are not printed, and the library is
    /// left alone.
    stands_in: bool,
}

/// What is being tried, and where its differences go.
struct Trial<'a> {
    name: CaseName,
    what: String,
    runner: &'a mut Runner,
}

/// A library that is wrong throughout would print millions of lines; the count goes on.
const MOST_PRINTED: u64 = 200;

impl Trial<'_> {
    fn differ(&mut self, text: &str) {
        self.runner.differences += 1;
        if self.runner.differences > MOST_PRINTED || self.runner.stands_in {
            return;
        }
        println!("DIFFERENCE --seed {} --only {} ({}): {text}", self.runner.seed, self.name, self.what);
    }

    fn compare(&mut self, input: &Input, oracles: bool) -> Verdict {
        let verdict = compare_all(self.runner.functions, input);
        for text in &verdict.differences {
            self.differ(text);
        }
        if let Some((finds, bounds)) = verdict.finds {
            self.runner.coverage.finds.met(verdict.refusal(CHECK), finds, bounds);
        }
        if let (true, Ok(network), Ok(plan)) = (oracles, &verdict.opened, &verdict.planned) {
            if let Some(text) = judge_plan(network, plan) {
                self.differ(&text);
            }
        }
        if let Some(Err(refusal)) = written_by(&verdict).map(|written| written.checked) {
            self.differ(&format!("the reference's check refuses the plan it made: {refusal:?}"));
        }
        verdict
    }

    /// What wish 1 says of the plan made, if there is one; all ways are listed only if the town is `tiny`.
    fn judge_made_plan(&mut self, verdict: &Verdict, tiny: bool) {
        if let (Ok(network), Some(written)) = (&verdict.opened, written_by(verdict)) {
            let by_ways = if tiny { judge_flags_by_ways(network, &written.plan) } else { None };
            for text in by_ways.into_iter().chain(judge_made_plan(network, &written.plan)) {
                self.differ(&text);
            }
        }
    }

    /// What wish 2 says of the ways of all trips, over all arcs and under the input's plan.
    fn judge_chosen_ways(&mut self, verdict: &Verdict) {
        let (Ok(network), Ok(plan)) = (&verdict.opened, &verdict.planned) else { return };
        for text in [None, Some(plan)].into_iter().filter_map(|plan| judge_chosen_ways(network, plan)) {
            self.differ(&text);
        }
    }

    /// All trips under the input's plan.
    fn compare_all_trips(&mut self, input: &Input, verdict: &Verdict) {
        let holds_hours = verdict.opened.as_ref().is_ok_and(|network| network.header.hours == 1);
        let lists = holds_hours || self.name.series == Series::Hours;
        for text in compare_all_trips(self.runner.functions, input, verdict, lists) {
            self.differ(&text);
        }
    }

    /// All trips under the plan made: they are the plain ones, and the library's are the reference's.
    fn judge_trips(&mut self, input: &Input, verdict: &Verdict) {
        let (Ok(network), Some(written)) = (&verdict.opened, written_by(verdict)) else { return };
        if let Some(text) = trips_are_plain(network, &written.plan) {
            self.differ(&text);
        }
        let input = Input { plan: written.file.clone(), ..input.clone() };
        let verdict = self.compare(&input, false);
        self.compare_all_trips(&input, &verdict);
    }
}

fn written_by(verdict: &Verdict) -> Option<&Written> {
    verdict.made.as_ref()?.written.as_ref()
}

impl Runner {
    pub fn new(seed: u64) -> Runner {
        Runner {
            seed,
            coverage: Coverage::default(),
            differences: 0,
            kinds: damage::kinds(),
            text_kinds: import::damage::kinds(),
            import: import_dimacs(),
            functions: LINKED,
            stands_in: false,
        }
    }

    /// Tries a stand-in for the library's import.
    pub fn stand_in(&mut self, import: Import) {
        self.import = Some(import);
        self.stands_in = true;
    }

    /// Tries a stand-in for the library's check.
    pub fn stand_in_for_the_check(&mut self, check_plan: Check) {
        self.stand_in_for_all(Functions { check_plan, ..LINKED });
    }

    /// Tries stand-ins for the library's functions on networks.
    pub fn stand_in_for_all(&mut self, functions: Functions) {
        self.functions = functions;
        self.stands_in = true;
    }

    pub fn run(&mut self, name: CaseName) {
        match name.series {
            Series::Towns => self.run_town(name),
            Series::Ways => self.run_tie_town(name),
            Series::Texts => self.run_text(name),
            Series::Imports => self.run_import(name),
            Series::Plans => self.run_plans(name),
            Series::Hours => self.run_hours(name),
            Series::Days => self.run_days(name),
            Series::Small | Series::Large => self.run_generated(name),
        }
    }

    fn run_generated(&mut self, name: CaseName) {
        let mut rng = Rng::new(self.seed, name.stream());
        let case = generate(&mut rng, name.size());
        let town = case.network.nodes() * case.network.header.period as usize;
        let oracles = town <= 250 && (name.number.is_multiple_of(4) || self.kinds_turn(name) == 0);
        let valid = self.valid(name, &case, oracles);
        let (first_kind, first) = self.fault_in_turn(name, &mut rng, &case);
        let (second_kind, second) = self.second_fault(&mut rng, &case, first_kind);
        let one = self.single(name, &case, first_kind, &first, oracles);
        let other = self.single(name, &case, second_kind, &second, oracles);
        self.both(name, &case, [first_kind, second_kind], [&first, &second], [one, other], oracles);
        if town * case.network.nodes() <= 1_500 && name.number % 64 == 1 {
            self.all_trips(name, &case, &valid);
        }
    }

    /// The error planted in a stand-in is found, so the rest of the case has no more to tell.
    fn is_found(&self) -> bool {
        self.stands_in && self.differences > 0
    }

    fn trial(&mut self, name: CaseName, what: String) -> Trial<'_> {
        Trial { name, what, runner: self }
    }

    fn kinds_turn(&self, name: CaseName) -> usize {
        (name.number % self.kinds.len() as u64) as usize
    }

    /// The next kind of fault in turn, or another one where the case has nothing to damage in that way.
    fn fault_in_turn(&self, name: CaseName, rng: &mut Rng, case: &Case) -> (usize, Fault) {
        let kind = self.kinds_turn(name);
        match (self.kinds[kind].make)(rng, case) {
            Some(fault) => (kind, fault),
            None => self.some_fault(rng, case),
        }
    }

    fn some_fault(&self, rng: &mut Rng, case: &Case) -> (usize, Fault) {
        loop {
            let kind = rng.below(self.kinds.len());
            if let Some(fault) = (self.kinds[kind].make)(rng, case) {
                return (kind, fault);
            }
        }
    }

    /// Half the time one of the kinds listed beside the first, which is of the same subject.
    fn second_fault(&self, rng: &mut Rng, case: &Case, first_kind: usize) -> (usize, Fault) {
        let near = (first_kind + rng.within(self.kinds.len() - 5, self.kinds.len() + 5)) % self.kinds.len();
        if rng.once_in(2) {
            if let Some(fault) = (self.kinds[near].make)(rng, case) {
                return (near, fault);
            }
        }
        self.some_fault(rng, case)
    }

    /// No operation refuses the valid case, and its network packs to the same bytes.
    fn valid(&mut self, name: CaseName, case: &Case, oracles: bool) -> Verdict {
        let input = case.input(&case.drafts);
        let mut trial = self.trial(name, "valid".to_string());
        let verdict = trial.compare(&input, oracles);
        for (operation, predicted) in verdict.predicted.iter().enumerate() {
            if let Some(refusal) = predicted {
                trial.differ(&format!("{}: the reference gives {refusal:?}", OPERATIONS[operation]));
            }
        }
        if network::pack(&input.pack, &input.pack_tables(), input.network.len()).as_ref() != Ok(&input.network) {
            trial.differ("the reference packs other bytes than it opened");
        }
        if name.size() == Size::Tiny {
            if let Some(text) = judge_ways_with_waits(&case.network) {
                trial.differ(&text);
            }
        }
        if oracles {
            trial.judge_made_plan(&verdict, name.size() == Size::Tiny);
            if name.number.is_multiple_of(12) {
                trial.judge_chosen_ways(&verdict);
            }
        }
        self.count_ties(case, &verdict);
        for operation in 0..ON_NETWORKS {
            self.coverage.alone(operation, verdict.refusal(operation));
        }
        verdict
    }

    /// Which other rules the case's trips tell from the wish's.
    fn count_ties(&mut self, case: &Case, verdict: &Verdict) {
        for (flagged, plan) in [None, verdict.planned.as_ref().ok()].into_iter().enumerate() {
            if let Some(unlike) = unlike(&case.network, plan, case.call) {
                self.coverage.tie(flagged, unlike);
            }
        }
    }

    fn all_trips(&mut self, name: CaseName, case: &Case, valid: &Verdict) {
        let input = case.input(&case.drafts);
        let mut trial = self.trial(name, "all trips".to_string());
        trial.compare_all_trips(&input, valid);
        trial.judge_trips(&input, valid);
    }

    fn single(&mut self, name: CaseName, case: &Case, kind: usize, fault: &Fault, oracles: bool) -> (Input, Verdict) {
        let input = damaged(case, &[fault]);
        let intended = self.kinds[kind].intended;
        let mut trial = self.trial(name, self.kinds[kind].name.to_string());
        let verdict = trial.compare(&input, oracles);
        if let Intended::Gives(operation, refusals) = intended {
            let given = verdict.refusal(operation);
            if !refusals.contains(&given) {
                trial.differ(&format!("the reference gives {given} for {}, meant {refusals:?}", OPERATIONS[operation]));
            }
        }
        for operation in 0..ON_NETWORKS {
            let refusal = verdict.refusal(operation);
            if refusal != 0 {
                self.coverage.alone(operation, refusal);
            }
        }
        (input, verdict)
    }

    /// Both faults at once. An operation's refusal counts as met with a second fault if each of the two alone
    /// was refused and neither undid the other.
    fn both(
        &mut self,
        name: CaseName,
        case: &Case,
        kinds: [usize; 2],
        faults: [&Fault; 2],
        singles: [(Input, Verdict); 2],
        oracles: bool,
    ) {
        let input = damaged(case, &faults);
        let what = kinds.map(|kind| self.kinds[kind].name).join(" + ");
        let verdict = self.trial(name, what).compare(&input, oracles);
        if singles.iter().any(|(single, _)| *single == input) {
            return;
        }
        for operation in 0..ON_NETWORKS {
            let refusal = verdict.refusal(operation);
            if refusal != 0 && singles.iter().all(|(_, single)| single.refusal(operation) != 0) {
                self.coverage.with_second(operation, refusal);
            }
        }
    }
}
