//! Document 01 and wishes 1 to 7 of document 02, written down a second time and as naively as they read:
//! files are plain lists, every rule stands in the document's order, and nothing here was taken from the
//! proved crates. The documents' place is a node here and their road an arc, as the field calls them.

pub mod blocks;
pub mod check;
pub mod day_sheet;
pub mod finds;
pub mod import;
pub mod line;
pub mod make_plan;
pub mod network;
pub mod plan;
pub mod trips;
pub mod ways;

/// "4,294,967,295 (never)".
pub const NEVER: u32 = u32::MAX;

/// "refused, with a number and three places; unused places are 0".
#[derive(Clone, Copy, Debug, PartialEq, Eq)]
pub struct Refusal {
    pub number: u32,
    pub places: [u32; 3],
}

/// A refusal that names one place, or none (then `place` is 0).
pub fn refuse<T>(number: u32, place: usize) -> Result<T, Refusal> {
    Err(Refusal { number, places: [place as u32, 0, 0] })
}
