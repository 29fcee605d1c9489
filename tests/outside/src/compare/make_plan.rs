//! The planner's call: its answer, its work list and the bytes it writes, and what the library's own check
//! says of them.

use super::check_plan::Call;
use super::{answer_words, judge_answer, Predicted, Run};
use crate::library::*;
use crate::marked::Lent;
use crate::reference::finds::find_bounds;
use crate::reference::make_plan::{make_plan, MadeCall, MakeLengths};

/// How long the planner's lists and its answer are.
#[derive(Clone, Copy, Debug)]
pub struct PlannerLengths {
    pub lists: MakeLengths,
    pub answer: usize,
}

impl Run<'_> {
    pub(super) fn make_plan(&mut self) -> Predicted {
        let lengths = &self.input.lengths;
        self.make_plan_with(PlannerLengths { lists: lengths.make, answer: lengths.make_answer })
    }

    pub(super) fn make_plan_with(&mut self, lengths: PlannerLengths) -> Predicted {
        let made = self.made.clone();
        let file = made.as_ref().and_then(|made| made.file());
        let predicted = self.predict_make_plan(file, lengths);
        let mut work = Lent::<u32>::blank(lengths.lists.work);
        let mut out = Lent::<u8>::blank(lengths.lists.out);
        let mut answer = Lent::<u32>::blank(lengths.answer);
        let make_plan = self.functions.make_plan;
        // SAFETY: each pointer leads to as many entries as its count says, and no two lists overlap.
        #[rustfmt::skip]
        let returned = unsafe {
            make_plan(
                self.network.pointer(), self.network.length(),
                work.pointer_mut(), work.length(),
                out.pointer_mut(), out.length(),
                answer.pointer_mut(), answer.length(),
            )
        };
        let refused = predicted.answer.err();
        let written = predicted.answer.unwrap_or_default();
        self.expect_return(MAKE, returned, refused);
        self.expect_list(MAKE, "work", &work, &vec![0; predicted.zeroed]);
        self.expect_list(MAKE, "out", &out, written);
        let words = answer_words(answer.length(), MAKE_ANSWER, refused, &[written.len() as u32]);
        self.expect_list(MAKE, "answer", &answer, &words);
        if returned == 0 && answer.length() >= MAKE_ANSWER {
            self.expect_accepted(out.first(answer.first(MAKE_ANSWER)[MAKE_ANSWER - 1] as usize));
        }
        refused
    }

    fn predict_make_plan<'a>(&self, file: Option<&'a [u8]>, lengths: PlannerLengths) -> MadeCall<'a> {
        let refused = judge_answer(lengths.answer, MAKE_ANSWER).and(self.opened.as_ref().map_err(|no| *no));
        match refused {
            Err(refusal) => MadeCall { answer: Err(refusal), zeroed: 0 },
            Ok(network) => make_plan(network, file, lengths.lists),
        }
    }

    /// "Every plan it writes is accepted", by the library itself; the same bytes are asked for once.
    fn expect_accepted(&mut self, file: &[u8]) {
        let made = self.made.clone();
        let wanted = made.as_ref().and_then(|made| made.written.as_ref());
        let wanted = wanted.filter(|wanted| wanted.file == file);
        if wanted.is_some_and(|wanted| wanted.accepted.get()) {
            return;
        }
        let call = Call::check(self.functions.check_plan, &self.network, &Lent::holding(file, 0), CHECK_ANSWER);
        if call.returned != 0 {
            let (returned, places) = (call.returned, call.answer.first(3));
            self.differ(MAKE, format!("the check refuses the plan made: {returned} at {places:?}"));
        } else if let (Some(wanted), Ok(network)) = (wanted, self.opened) {
            self.expect_check_answer(&call, None, Some(find_bounds(network, &wanted.plan)));
            wanted.accepted.set(true);
        }
    }
}
