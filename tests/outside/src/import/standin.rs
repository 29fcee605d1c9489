//! A stand-in for the import, written as an engine might be: in one pass, by a cursor on each line, with only
//! the packer taken from the reference. As it is, it has to agree with the reference; with an error planted
//! it has to be found out.

mod cursor;
mod errors;
mod lent;
mod packing;
mod pass;

pub use errors::{Error, ERRORS};

use super::Arc;
use crate::reference::Refusal;
use errors::Planted;
use lent::Call;
use pass::Pass;
use std::cell::Cell;

thread_local! {
    static PLANTED: Cell<Planted> = const { Cell::new(Planted(None)) };
}

/// Plants an error in this thread's stand-in, or none.
pub fn plant(error: Option<Error>) {
    PLANTED.set(Planted(error));
}

/// What one pass over the text has found.
struct Graph {
    nodes: u32,
    arcs: Vec<Arc>,
}

fn refusal(number: u32, line: u32) -> Refusal {
    Refusal { number, places: [line, 0, 0] }
}

/// The C function's place is taken by this one.
///
/// # Safety
/// Each pointer leads to as many entries as its count says, and planted errors write a few entries beyond.
pub unsafe extern "C" fn import_dimacs(
    text: *const u8,
    text_length: usize,
    number: u32,
    out: *mut u8,
    out_length: usize,
    answer: *mut u32,
    answer_length: usize,
) -> u32 {
    let planted = PLANTED.get();
    let call = Call { planted, text, text_length, number, out, out_length, answer, answer_length };
    // SAFETY: as the caller says.
    unsafe { call.run() }
}

/// Refusals 35 and 36, or the graph. What lies behind the text is for an error to look at.
fn read(planted: Planted, text: &[u8], behind: &[u8]) -> Result<Graph, Refusal> {
    Pass::new(planted).read(text, behind)
}
