//! The towns made on purpose for the planner: what it makes of each is known by hand, and so is its refusal
//! for lists of every length that matters.

use super::{CaseName, Runner};
use crate::compare::{compare_make_plan, PlannerLengths, Verdict};
use crate::hours::towns::some_hours;
use crate::input::Input;
use crate::library::{MAKE, MAKE_ANSWER};
use crate::made;
use crate::reference::make_plan::MakeLengths;
use crate::reference::network;
use crate::reference::trips::TripCall;
use crate::towns::{town, Gives, Town};

impl Runner {
    pub(super) fn run_town(&mut self, name: CaseName) {
        let mut town = town(name.number);
        self.try_town(name, &town);
        // Hours change nothing of what the planner makes.
        if town.small {
            town.draft.hold_hours(&some_hours(name.number, &town.draft));
            self.try_town(name, &town);
        }
    }

    fn try_town(&mut self, name: CaseName, town: &Town) {
        let file = town.draft.file();
        let network = network::open(&file).expect("a town made on purpose opens");
        let made = made::of(&file, &network);
        let mut trial = self.trial(name, town.name.to_string());
        if let Some(text) = town.unlike(&made) {
            trial.differ(&text);
        }
        let plan = made.file().unwrap_or_default().to_vec();
        let header = network.header;
        let call = TripCall { from: 0, to: header.nodes - 1, departure: header.period - 1 };
        let input = Input::roomy(file, plan, call, header.table_lengths(), 1);
        let verdict = trial.compare(&input, town.small);
        if town.small {
            trial.judge_made_plan(&verdict, true);
            trial.judge_trips(&input, &verdict);
        }
        self.choices_of_lengths(name, town, made.needs, &input, &verdict);
    }

    /// The planner with lists of all these lengths; its refusals count as met, alone or before others.
    fn choices_of_lengths(
        &mut self,
        name: CaseName,
        town: &Town,
        needs: MakeLengths,
        input: &Input,
        verdict: &Verdict,
    ) {
        for lengths in if town.small { all_choices(needs) } else { few_choices(needs) } {
            let due = due(lengths, needs, matches!(town.gives, Gives::TooManyPoints));
            let (refusal, differences) = compare_make_plan(input, verdict, lengths);
            let mut trial = self.trial(name, format!("{}, {lengths:?}", town.name));
            for text in differences {
                trial.differ(&text);
            }
            if refusal != due.first().copied().unwrap_or(0) {
                trial.differ(&format!("the reference gives {refusal}, due are {due:?}"));
            }
            match due.len() {
                0 | 1 => self.coverage.alone(MAKE, refusal),
                _ => self.coverage.with_second(MAKE, refusal),
            }
        }
    }
}

/// The refusals that are due, in the order in which they are asked for.
fn due(lengths: PlannerLengths, needs: MakeLengths, too_many_points: bool) -> Vec<u32> {
    let asked = [
        (31, lengths.answer < MAKE_ANSWER),
        (34, lengths.lists.work < needs.work),
        (33, too_many_points),
        (31, lengths.lists.out < needs.out),
    ];
    asked.into_iter().filter(|(_, holds)| *holds).map(|(refusal, _)| refusal).collect()
}

fn lengths(work: usize, out: usize, answer: usize) -> PlannerLengths {
    PlannerLengths { lists: MakeLengths { work, out }, answer }
}

fn all_choices(needs: MakeLengths) -> Vec<PlannerLengths> {
    let mut choices = Vec::new();
    for work in [0, needs.work - 1, needs.work, needs.work + 7] {
        for out in [0, needs.out - 1, needs.out, needs.out + 3, needs.out + 600] {
            choices.extend((0..=MAKE_ANSWER + 1).map(|answer| lengths(work, out, answer)));
        }
    }
    choices
}

/// Those that matter most, for towns that take long.
fn few_choices(needs: MakeLengths) -> Vec<PlannerLengths> {
    vec![
        lengths(needs.work, needs.out, MAKE_ANSWER - 1),
        lengths(needs.work - 1, needs.out - 1, MAKE_ANSWER),
        lengths(needs.work - 1, needs.out, MAKE_ANSWER),
        lengths(needs.work, needs.out - 1, MAKE_ANSWER),
        lengths(needs.work + 7, 0, MAKE_ANSWER),
        lengths(needs.work + 7, needs.out + 600, MAKE_ANSWER + 1),
    ]
}
