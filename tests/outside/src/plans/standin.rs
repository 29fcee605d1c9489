//! A stand-in for the check, written as an engine might be that does not look for a line's piece at every
//! tick: it walks along all lines at once and steps on from tick to tick. As it is, it has to agree with the
//! reference; with an error planted it has to be found out.

mod call;
mod errors;
mod order;
mod stepping;
mod tried;
mod walk;

pub use call::check_plan;
pub use errors::{errors, Error};

use std::cell::Cell;

/// The error planted in a stand-in, if any.
#[derive(Clone, Copy)]
struct Planted(Option<Error>);

impl Planted {
    fn has(self, error: impl Into<Error>) -> bool {
        self.0 == Some(error.into())
    }
}

thread_local! {
    static PLANTED: Cell<Planted> = const { Cell::new(Planted(None)) };
}

/// Plants an error in this thread's stand-in, or none.
pub fn plant(error: Option<Error>) {
    PLANTED.set(Planted(error));
}
