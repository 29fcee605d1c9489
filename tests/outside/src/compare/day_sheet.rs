//! The day sheet's call: its answer, its list and its work list. A day is worked out once for a network and a
//! pair of places, by a plain trip at every tick; where that would take long the sheet is asked for only in
//! the series of its own.

use super::{answer_words, judge_answer, Predicted, Run, Verdict};
use crate::day::whole_day;
use crate::input::Input;
use crate::library::*;
use crate::marked::Lent;
use crate::reference::day_sheet::{day_sheet, DayCall, DayLengths, Pair};
use crate::reference::network::Network;

/// A call of the day sheet: from, to, and how long its lists and its answer are.
#[derive(Clone, Copy, Debug)]
pub struct DaySheetCall {
    pub pair: Pair,
    pub lengths: DayLengths,
    pub answer: usize,
}

/// The day sheet alone: its refusal and the differences.
pub fn compare_day_sheet(
    functions: Functions,
    input: &Input,
    verdict: &Verdict,
    call: DaySheetCall,
) -> (Predicted, Vec<String>) {
    let mut run = Run { functions, ..Run::again(input, verdict) };
    let refused = run.day_sheet_with(call);
    (refused, run.differences)
}

/// So many travels of an arc at a tick are looked up at most for each round of a day's trips.
const MOST_TRAVELS: usize = 10_000;

fn is_quick(network: &Network) -> bool {
    network.header.period as usize * (network.arcs.len() + network.nodes()) <= MOST_TRAVELS
}

impl Run<'_> {
    pub(super) fn day_sheet(&mut self) -> Predicted {
        if self.opened.as_ref().is_ok_and(|network| !is_quick(network)) {
            return None;
        }
        let (call, lengths) = (self.call, &self.input.lengths);
        let pair = (call.from, call.to);
        self.day_sheet_with(DaySheetCall { pair, lengths: lengths.day, answer: lengths.day_answer })
    }

    fn day_sheet_with(&mut self, call: DaySheetCall) -> Predicted {
        let predicted = self.predict_day_sheet(call);
        let mut work = Lent::<u32>::blank(call.lengths.work);
        let mut list = Lent::<u32>::blank(call.lengths.list);
        let mut answer = Lent::<u32>::blank(call.answer);
        let day_sheet = self.functions.day_sheet;
        // SAFETY: each pointer leads to as many entries as its count says, and no two lists overlap.
        #[rustfmt::skip]
        let returned = unsafe {
            day_sheet(
                self.network.pointer(), self.network.length(),
                call.pair.0, call.pair.1,
                work.pointer_mut(), work.length(),
                list.pointer_mut(), list.length(),
                answer.pointer_mut(), answer.length(),
            )
        };
        let refused = predicted.answer.as_ref().err().copied();
        let day = predicted.answer.unwrap_or_default();
        self.expect_return(DAY, returned, refused);
        self.expect_list(DAY, "work", &work, &vec![0; predicted.zeroed]);
        self.expect_list(DAY, "list", &list, &day);
        let words = answer_words(answer.length(), DAY_ANSWER, refused, &[day.len() as u32]);
        self.expect_list(DAY, "answer", &answer, &words);
        refused
    }

    fn predict_day_sheet(&self, call: DaySheetCall) -> DayCall {
        let refused = judge_answer(call.answer, DAY_ANSWER).and(self.opened.as_ref().map_err(|no| *no));
        match refused {
            Err(refusal) => DayCall { answer: Err(refusal), zeroed: 0 },
            Ok(network) => {
                let day = |from, to| whole_day(&self.input.network, network, from, to);
                day_sheet(network, call.pair, call.lengths, day)
            }
        }
    }
}
