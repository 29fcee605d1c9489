//! A stand-in for the functions on networks, written as an engine might be: it finds a file's places by where
//! they have to stand, and works the open tick out. A town's roads, trips and plans are the reference's, over
//! the same town without hours. As it is, it has to agree with the reference; with an error planted it has to
//! be found out.

mod calls;
mod errors;
mod file;
mod trips;

pub use calls::FUNCTIONS;
pub use errors::{errors, Error};

use std::cell::Cell;

/// The error planted in a stand-in, if any.
#[derive(Clone, Copy)]
struct Planted(Option<Error>);

impl Planted {
    fn has(self, error: impl Into<Error>) -> bool {
        self.0 == Some(error.into())
    }
}

thread_local! {
    static PLANTED: Cell<Planted> = const { Cell::new(Planted(None)) };
}

/// Plants an error in this thread's stand-in, or none.
pub fn plant(error: Option<Error>) {
    PLANTED.set(Planted(error));
}
