//! The operations of document 01, the import and the day sheet in plain Rust, written for speed and without proofs, as the measure for the library:
//! the same bytes in place, the same validation on every call, the same answers.
pub mod blocks;
pub mod check;
pub mod day;
pub mod import;
pub mod network;
pub mod pack;
pub mod plan;
pub mod points;
pub mod queue;
pub mod search;
pub mod trips;

/// A refusal of document 01: its number and three places.
#[derive(Clone, Copy, Debug, PartialEq, Eq)]
pub struct Refusal {
    pub number: u32,
    pub places: [u32; 3],
}

pub fn refuse(number: u32, place: usize) -> Refusal {
    Refusal { number, places: [place as u32, 0, 0] }
}
