//! What the reference's planner makes of a network. The network met last is remembered: most damage leaves it
//! as it was, and a large town takes long.

use crate::reference::blocks::BLOCK;
use crate::reference::make_plan::{plan_file, whole_plan, work_entries, MakeLengths};
use crate::reference::network::{self, Network};
use crate::reference::plan::{self, Plan};
use crate::reference::{check, Refusal};
use std::cell::{Cell, RefCell};
use std::rc::Rc;

/// A whole plan and its bytes.
pub struct Written {
    pub plan: Plan,
    pub file: Vec<u8>,
    /// "Every plan it writes is accepted": what the reference's check says of the bytes.
    pub checked: Result<(), Refusal>,
    /// Whether the library's check has accepted them, here and now.
    pub accepted: Cell<bool>,
}

pub struct Made {
    network: Vec<u8>,
    /// None where the profiles have too many points.
    pub written: Option<Written>,
    /// How long the lists have to be; where nothing can be written the out-bytes have room for any plan.
    pub needs: MakeLengths,
}

impl Made {
    pub fn file(&self) -> Option<&[u8]> {
        self.written.as_ref().map(|written| written.file.as_slice())
    }
}

thread_local! {
    static LAST: RefCell<Option<Rc<Made>>> = const { RefCell::new(None) };
}

fn remembered(file: &[u8]) -> Option<Rc<Made>> {
    LAST.with_borrow(|last| last.as_ref().filter(|made| made.network == file).cloned())
}

/// The plan of an opened network; `file` are the bytes it was opened from.
pub fn of(file: &[u8], network: &Network) -> Rc<Made> {
    remembered(file).unwrap_or_else(|| {
        let made = Rc::new(make(file, network));
        LAST.set(Some(made.clone()));
        made
    })
}

/// How long the planner's lists have to be for this network file, if it opens.
pub fn needs(file: &[u8]) -> Option<MakeLengths> {
    if let Some(made) = remembered(file) {
        return Some(made.needs);
    }
    let network = network::open(file).ok()?;
    Some(of(file, &network).needs)
}

fn make(file: &[u8], network: &Network) -> Made {
    let written = whole_plan(network).map(|plan| write(network, plan));
    let out = written.as_ref().map_or(BLOCK * plan::MOST_BLOCKS, |written| written.file.len());
    Made { network: file.to_vec(), written, needs: MakeLengths { work: work_entries(network), out } }
}

fn write(network: &Network, plan: Plan) -> Written {
    let file = plan_file(network, &plan);
    let checked = plan::open(network, &file).and_then(|plan| check::check(network, &plan));
    Written { plan, file, checked, accepted: Cell::new(false) }
}
