//! Faults of every kind that document 01 names, each made from a valid case: in the tables before they are
//! files, in a file's bytes, or in the call. A fault keeps its choices, so it can be applied alone and beside
//! another one.

mod bytes;
mod call;
mod network_tables;
mod plan_tables;

use crate::case::Case;
use crate::draft::Drafts;
use crate::input::Input;
use crate::rng::Rng;

pub use bytes::{flip, mend_all, zero_for_all_ones};

/// Both files of an input.
pub struct Files {
    pub network: Vec<u8>,
    pub plan: Vec<u8>,
}

pub enum Fault {
    /// Before the tables are files: forms and sums will be true.
    Tables(Box<dyn Fn(&mut Drafts)>),
    Bytes(Box<dyn Fn(&mut Files)>),
    Call(Box<dyn Fn(&mut Input)>),
}

/// What a fault has to lead to by itself. This holds the reference to document 01 a second time: what a fault
/// was made for is known without it.
#[derive(Clone, Copy)]
pub enum Intended {
    /// That depends on the case.
    Any,
    /// The operation (by its place in OPERATIONS) gives one of these refusals; 0 is none.
    Gives(usize, &'static [u32]),
}

pub struct Kind {
    pub name: &'static str,
    pub intended: Intended,
    /// None where the case has nothing to damage in this way.
    pub make: fn(&mut Rng, &Case) -> Option<Fault>,
}

/// All kinds of faults. Runs go through them in turn, so that each occurs.
pub fn kinds() -> Vec<Kind> {
    let mut kinds = Vec::new();
    kinds.extend(network_tables::kinds());
    kinds.extend(plan_tables::kinds());
    kinds.extend(bytes::kinds());
    kinds.extend(call::kinds());
    kinds
}

/// The case's input with these faults.
pub fn damaged(case: &Case, faults: &[&Fault]) -> Input {
    let mut drafts = case.drafts.clone();
    for fault in faults {
        if let Fault::Tables(apply) = fault {
            apply(&mut drafts);
        }
    }
    let mut files = Files { network: drafts.network.file(), plan: drafts.plan.file() };
    for fault in faults {
        if let Fault::Bytes(apply) = fault {
            apply(&mut files);
        }
    }
    let mut input = case.input_of_files(files.network, files.plan);
    for fault in faults {
        if let Fault::Call(apply) = fault {
            apply(&mut input);
        }
    }
    input
}

fn tables(apply: impl Fn(&mut Drafts) + 'static) -> Option<Fault> {
    Some(Fault::Tables(Box::new(apply)))
}

fn bytes(apply: impl Fn(&mut Files) + 'static) -> Option<Fault> {
    Some(Fault::Bytes(Box::new(apply)))
}

fn call(apply: impl Fn(&mut Input) + 'static) -> Option<Fault> {
    Some(Fault::Call(Box::new(apply)))
}
