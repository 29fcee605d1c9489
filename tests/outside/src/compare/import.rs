//! The import's call: its answer and the bytes it writes.

use super::{answer_words, judge_answer, Predicted};
use crate::library::{Import, IMPORT_ANSWER};
use crate::marked::{Entry, Lent};
use crate::reference::import::import as import_by_reference;

/// A call of the import.
#[derive(Clone, Copy)]
pub struct ImportCall<'a> {
    pub text: &'a [u8],
    /// What lies behind the text in memory, and must not matter.
    pub behind: &'a [u8],
    pub number: u32,
    /// How many out-bytes are lent, and how many answer numbers.
    pub out: usize,
    pub answer: usize,
}

/// What the reference says of a call, and where the import differs.
pub struct Imported {
    pub predicted: Predicted,
    /// The reference's file, and the one that the import wrote; empty on a refusal.
    pub file: Vec<u8>,
    pub written: Vec<u8>,
    pub differences: Vec<String>,
}

/// Without an import the reference is asked alone.
pub fn compare_import(import: Option<Import>, call: ImportCall) -> Imported {
    let by_reference = |()| import_by_reference(call.text, call.number, call.out);
    let answered = judge_answer(call.answer, IMPORT_ANSWER).and_then(by_reference);
    let predicted = answered.as_ref().err().copied();
    let file = answered.unwrap_or_default();
    let (written, differences) = match import {
        Some(import) => run(import, call, predicted, &file),
        None => (file.clone(), Vec::new()),
    };
    Imported { predicted, file, written, differences }
}

/// The file written, as long as the answer says, and the differences.
fn run(import: Import, call: ImportCall, predicted: Predicted, file: &[u8]) -> (Vec<u8>, Vec<String>) {
    // Texts are lent at changing distances from an even address.
    let mut text = Lent::followed(call.text, call.behind, call.text.len() % 16);
    let mut out = Lent::<u8>::blank(call.out);
    let mut answer = Lent::<u32>::blank(call.answer);
    // SAFETY: each pointer leads to as many entries as its count says, and no two lists overlap. The text's
    // may be written through as well, so that a stand-in can be wrong in that way too.
    #[rustfmt::skip]
    let returned = unsafe {
        import(
            text.pointer_mut(), text.length(),
            call.number,
            out.pointer_mut(), out.length(),
            answer.pointer_mut(), answer.length(),
        )
    };
    let mut differences = Vec::new();
    let expected = predicted.map_or(0, |refusal| refusal.number);
    if returned != expected {
        differences.push(format!("import_dimacs: returned {returned}, expected {expected} ({predicted:?})"));
    }
    let words = answer_words(call.answer, IMPORT_ANSWER, predicted, &[file.len() as u32]);
    expect(&mut differences, "answer", &answer, &words);
    expect(&mut differences, "out", &out, file);
    expect(&mut differences, "text", &text, call.text);
    let told = if returned == 0 { answer.first(IMPORT_ANSWER).last().copied() } else { None };
    (out.first(told.unwrap_or(0) as usize).to_vec(), differences)
}

fn expect<T: Entry>(differences: &mut Vec<String>, name: &str, lent: &Lent<T>, written: &[T]) {
    if let Some(text) = lent.unlike(written) {
        differences.push(format!("import_dimacs: {name}: {text}"));
    }
}
