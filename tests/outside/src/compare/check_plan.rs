//! The check's call: the verdict, its places and the count of finds, which is held to wish 4's bounds and to
//! the sharper one that the library promises.

use super::{judge_answer, Predicted, Run};
use crate::input::Input;
use crate::library::*;
use crate::marked::Lent;
use crate::reference::finds::{find_bounds, FindBounds};
use crate::reference::network::Network;
use crate::reference::{check, plan, Refusal};

/// What the check alone came to.
pub struct Checked {
    pub refused: Predicted,
    pub differences: Vec<String>,
    pub finds: TellsFinds,
}

/// The finds told and their bounds, where there are finds to tell.
pub type TellsFinds = Option<(u64, FindBounds)>;

/// The check alone. The same files elsewhere in memory have to get the same answer.
pub fn compare_check(functions: Functions, input: &Input, opened: &Result<Network, Refusal>) -> Checked {
    let planned = opened.as_ref().map_err(|refusal| *refusal).and_then(|network| plan::open(network, &input.plan));
    let mut run = Run { functions, ..Run::new(input, opened, &planned, None) };
    let refused = run.predict_check().err();
    let (call, finds) = run.expect_check(refused);
    let length = input.lengths.check_answer;
    let again =
        Call::check(functions.check_plan, &Lent::holding(&input.network, 5), &Lent::holding(&input.plan, 10), length);
    let answers = [&call, &again].map(|call| (call.returned, call.answer.first(length)));
    if answers[0] != answers[1] {
        run.differ(CHECK, format!("the same files get two answers: {answers:?}"));
    }
    Checked { refused, differences: run.differences, finds }
}

/// The number a call returned, and the answer as it left it.
pub(super) struct Call {
    pub returned: u32,
    pub answer: Lent<u32>,
}

impl Call {
    pub(super) fn check(check: Check, network: &Lent<u8>, plan: &Lent<u8>, answer_length: usize) -> Call {
        let mut answer = Lent::<u32>::blank(answer_length);
        // SAFETY: each pointer leads to as many entries as its count says, and no two lists overlap.
        #[rustfmt::skip]
        let returned = unsafe {
            check(
                network.pointer(), network.length(),
                plan.pointer(), plan.length(),
                answer.pointer_mut(), answer.length(),
            )
        };
        Call { returned, answer }
    }

    /// "Told in 64 bits: in C as two numbers, low 32 bits, then high." The answer is long enough.
    fn finds(&self) -> u64 {
        let words = self.answer.first(CHECK_ANSWER);
        u64::from(words[4]) << 32 | u64::from(words[3])
    }
}

impl Run<'_> {
    pub(super) fn check_plan(&mut self) -> (Predicted, TellsFinds) {
        let refused = self.predict_check().err();
        (refused, self.expect_check(refused).1)
    }

    fn predict_check(&self) -> Result<(), Refusal> {
        judge_answer(self.input.lengths.check_answer, CHECK_ANSWER)?;
        let network = self.opened.as_ref().map_err(|refusal| *refusal)?;
        let plan = self.planned.as_ref().map_err(|refusal| *refusal)?;
        check::check(network, plan)
    }

    fn expect_check(&mut self, refused: Predicted) -> (Call, TellsFinds) {
        let call = Call::check(self.functions.check_plan, &self.network, &self.plan, self.input.lengths.check_answer);
        self.expect_return(CHECK, call.returned, refused);
        let bounds = self.find_bounds(refused);
        self.expect_check_answer(&call, refused, bounds);
        let finds = bounds.map(|bounds| (call.finds(), bounds));
        (call, finds)
    }

    /// "Beside 1 to 20 the count is 0; beside 21 to 24 it is the finds made, within the bound."
    fn find_bounds(&self, refused: Predicted) -> Option<FindBounds> {
        let makes_finds = refused.is_none_or(|refusal| (21..=24).contains(&refusal.number));
        match (self.opened, self.planned) {
            (Ok(network), Ok(plan)) if makes_finds => Some(find_bounds(network, plan)),
            _ => None,
        }
    }

    /// The places, then the finds: between their bounds, or 0 where there are none to tell.
    pub(super) fn expect_check_answer(&mut self, call: &Call, refused: Predicted, bounds: Option<FindBounds>) {
        if call.answer.length() < CHECK_ANSWER {
            self.expect_list(CHECK, "answer", &call.answer, &[]);
            return;
        }
        let mut words = [0; CHECK_ANSWER];
        words[..3].copy_from_slice(&refused.map_or([0; 3], |refusal| refusal.places));
        if let Some(bounds) = bounds {
            words[3..].copy_from_slice(&call.answer.first(CHECK_ANSWER)[3..]);
            for text in outside_the_bounds(call.finds(), bounds, refused) {
                self.differ(CHECK, text);
            }
        }
        self.expect_list(CHECK, "answer", &call.answer, &words);
    }
}

fn outside_the_bounds(finds: u64, bounds: FindBounds, refused: Predicted) -> Vec<String> {
    let mut outside = Vec::new();
    let mut expect = |holds: bool, text: String| {
        if !holds {
            outside.push(format!("finds: {finds}, {text} ({refused:?})"));
        }
    };
    expect(finds <= bounds.all_tests(), format!("wish 4 allows {}", bounds.all_tests()));
    expect(finds <= bounds.one_test, format!("the library promises at most {}", bounds.one_test));
    expect(refused.is_some() || finds >= bounds.least, format!("wish 4 asks for {}", bounds.least));
    outside
}
