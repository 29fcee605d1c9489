//! The C functions, each described once: as a declaration for the library that is linked, as a pointer in a
//! table for whichever library has it, and as a call over slices.
use crate::plain::network::{Header, Tables};
use crate::plain::pack::Lists;
use crate::plain::trips::Ask;
use std::ffi::c_void;
use std::mem::transmute;

/// From the functions' declarations: those of the library that is linked, and the table of pointers.
macro_rules! functions {
    ($(fn $name:ident($($argument:ident: $type:ty,)*);)*) => {
        mod linked {
            extern "C" {
                $(pub fn $name($($argument: $type),*) -> u32;)*
            }
        }

        /// The C functions of a library; none where the library lacks one.
        #[derive(Clone, Copy)]
        pub struct Functions {
            $(pub $name: Option<unsafe extern "C" fn($($argument: $type),*) -> u32>,)*
        }

        /// Those of the library that this program is linked with.
        pub static LINKED: Functions = Functions { $($name: Some(linked::$name),)* };

        impl Functions {
            /// The functions at the addresses that their names have, null where there is none.
            ///
            /// # Safety
            /// At each address that is not null stands a function as declared, for as long as it is called.
            pub unsafe fn at(address: impl Fn(&'static str) -> *mut c_void) -> Functions {
                Functions {
                    $($name: transmute::<*mut c_void, Option<unsafe extern "C" fn($($type),*) -> u32>>(
                        address(stringify!($name)),
                    ),)*
                }
            }

            /// The names, and the address of each function that is there.
            pub fn addresses(&self) -> Vec<(&'static str, Option<usize>)> {
                vec![$((stringify!($name), self.$name.map(|function| function as usize)),)*]
            }
        }
    };
}

functions! {
    fn varnwalnut_open_network(
        network: *const u8, network_len: usize,
        cells: *mut u16, cells_len: usize,
        opens: *mut u16, opens_len: usize,
        closes: *mut u16, closes_len: usize,
        from: *mut u16, from_len: usize,
        to: *mut u16, to_len: usize,
        points: *mut u16, points_len: usize,
        ticks: *mut u16, ticks_len: usize,
        travels: *mut u16, travels_len: usize,
        answer: *mut u32, answer_len: usize,
    );
    fn varnwalnut_pack_network(
        number: u32, period: u32, nodes: u32, arcs: u32, cells: u32, points: u32, hours: u32,
        cell_of: *const u16, cell_of_len: usize,
        opens: *const u16, opens_len: usize,
        closes: *const u16, closes_len: usize,
        from: *const u16, from_len: usize,
        to: *const u16, to_len: usize,
        counts: *const u16, counts_len: usize,
        ticks: *const u16, ticks_len: usize,
        travels: *const u16, travels_len: usize,
        out: *mut u8, out_len: usize,
        answer: *mut u32, answer_len: usize,
    );
    fn varnwalnut_plain_trip(
        network: *const u8, network_len: usize,
        answer: *mut u8, answer_len: usize,
        from: u32, to: u32, departure: u32,
    );
    fn varnwalnut_plain_trip_lists(
        network: *const u8, network_len: usize,
        from: u32, to: u32, departure: u32,
        arrivals: *mut u32, arrivals_len: usize,
        roads: *mut u16, roads_len: usize,
        answer: *mut u32, answer_len: usize,
    );
    fn varnwalnut_flagged_trip(
        network: *const u8, network_len: usize,
        plan: *const u8, plan_len: usize,
        answer: *mut u8, answer_len: usize,
        from: u32, to: u32, departure: u32,
    );
    fn varnwalnut_flagged_trip_lists(
        network: *const u8, network_len: usize,
        plan: *const u8, plan_len: usize,
        from: u32, to: u32, departure: u32,
        arrivals: *mut u32, arrivals_len: usize,
        roads: *mut u16, roads_len: usize,
        answer: *mut u32, answer_len: usize,
    );
    fn varnwalnut_check_plan(
        network: *const u8, network_len: usize,
        plan: *const u8, plan_len: usize,
        answer: *mut u32, answer_len: usize,
    );
    fn varnwalnut_make_plan(
        network: *const u8, network_len: usize,
        work: *mut u32, work_len: usize,
        out: *mut u8, out_len: usize,
        answer: *mut u32, answer_len: usize,
    );
    fn varnwalnut_day_sheet(
        network: *const u8, network_len: usize,
        from: u32, to: u32,
        work: *mut u32, work_len: usize,
        list: *mut u32, list_len: usize,
        answer: *mut u32, answer_len: usize,
    );
    fn varnwalnut_import_dimacs(
        text: *const u8, text_len: usize,
        number: u32,
        out: *mut u8, out_len: usize,
        answer: *mut u32, answer_len: usize,
    );
}

/// What is lent to a trip with lists.
pub struct TripLists<'a> {
    pub arrivals: &'a mut [u32],
    pub roads: &'a mut [u16],
    pub answer: &'a mut [u32],
}

/// What is lent to a day sheet.
pub struct DayLists<'a> {
    pub work: &'a mut [u32],
    pub list: &'a mut [u32],
    pub answer: &'a mut [u32],
}

/// Callers look at the table before they ask for a function that a library may lack.
const HAS: &str = "a function that the library has";

/// The calls over slices: a slice passes as a pointer and a count of elements, and every call returns the
/// refusal or 0. Answers are lent too, so that all that a call leaves can be looked at.
impl Functions {
    pub fn open(&self, network: &[u8], tables: Tables, answer: &mut [u32]) -> u32 {
        let call = self.varnwalnut_open_network.expect(HAS);
        // SAFETY: in each call below, every pointer stands beside the length of the slice that it comes from,
        // and no two lent slices overlap.
        unsafe {
            call(
                network.as_ptr(),
                network.len(),
                tables.cells.as_mut_ptr(),
                tables.cells.len(),
                tables.opens.as_mut_ptr(),
                tables.opens.len(),
                tables.closes.as_mut_ptr(),
                tables.closes.len(),
                tables.tails.as_mut_ptr(),
                tables.tails.len(),
                tables.heads.as_mut_ptr(),
                tables.heads.len(),
                tables.counts.as_mut_ptr(),
                tables.counts.len(),
                tables.ticks.as_mut_ptr(),
                tables.ticks.len(),
                tables.travels.as_mut_ptr(),
                tables.travels.len(),
                answer.as_mut_ptr(),
                answer.len(),
            )
        }
    }

    pub fn pack(&self, header: &Header, lists: &Lists, out: &mut [u8], answer: &mut [u32]) -> u32 {
        let call = self.varnwalnut_pack_network.expect(HAS);
        unsafe {
            call(
                header.number,
                header.period,
                header.nodes,
                header.arcs,
                header.cells,
                header.points,
                header.hours,
                lists.cells.as_ptr(),
                lists.cells.len(),
                lists.opens.as_ptr(),
                lists.opens.len(),
                lists.closes.as_ptr(),
                lists.closes.len(),
                lists.tails.as_ptr(),
                lists.tails.len(),
                lists.heads.as_ptr(),
                lists.heads.len(),
                lists.counts.as_ptr(),
                lists.counts.len(),
                lists.ticks.as_ptr(),
                lists.ticks.len(),
                lists.travels.as_ptr(),
                lists.travels.len(),
                out.as_mut_ptr(),
                out.len(),
                answer.as_mut_ptr(),
                answer.len(),
            )
        }
    }

    pub fn plain_trip(&self, network: &[u8], ask: &Ask, out: &mut [u8]) -> u32 {
        let call = self.varnwalnut_plain_trip.expect(HAS);
        let Ask { from, to, departure } = *ask;
        unsafe { call(network.as_ptr(), network.len(), out.as_mut_ptr(), out.len(), from, to, departure) }
    }

    pub fn plain_trip_lists(&self, network: &[u8], ask: &Ask, lent: TripLists) -> u32 {
        let call = self.varnwalnut_plain_trip_lists.expect(HAS);
        unsafe {
            call(
                network.as_ptr(),
                network.len(),
                ask.from,
                ask.to,
                ask.departure,
                lent.arrivals.as_mut_ptr(),
                lent.arrivals.len(),
                lent.roads.as_mut_ptr(),
                lent.roads.len(),
                lent.answer.as_mut_ptr(),
                lent.answer.len(),
            )
        }
    }

    pub fn flagged_trip(&self, network: &[u8], plan: &[u8], ask: &Ask, out: &mut [u8]) -> u32 {
        let call = self.varnwalnut_flagged_trip.expect(HAS);
        let Ask { from, to, departure } = *ask;
        let (network, length) = (network.as_ptr(), network.len());
        let (out, room) = (out.as_mut_ptr(), out.len());
        unsafe { call(network, length, plan.as_ptr(), plan.len(), out, room, from, to, departure) }
    }

    pub fn flagged_trip_lists(&self, network: &[u8], plan: &[u8], ask: &Ask, lent: TripLists) -> u32 {
        let call = self.varnwalnut_flagged_trip_lists.expect(HAS);
        unsafe {
            call(
                network.as_ptr(),
                network.len(),
                plan.as_ptr(),
                plan.len(),
                ask.from,
                ask.to,
                ask.departure,
                lent.arrivals.as_mut_ptr(),
                lent.arrivals.len(),
                lent.roads.as_mut_ptr(),
                lent.roads.len(),
                lent.answer.as_mut_ptr(),
                lent.answer.len(),
            )
        }
    }

    pub fn check_plan(&self, network: &[u8], plan: &[u8], answer: &mut [u32]) -> u32 {
        let call = self.varnwalnut_check_plan.expect(HAS);
        let (network, length) = (network.as_ptr(), network.len());
        unsafe { call(network, length, plan.as_ptr(), plan.len(), answer.as_mut_ptr(), answer.len()) }
    }

    pub fn make_plan(&self, network: &[u8], work: &mut [u32], out: &mut [u8], answer: &mut [u32]) -> u32 {
        let call = self.varnwalnut_make_plan.expect(HAS);
        unsafe {
            call(
                network.as_ptr(),
                network.len(),
                work.as_mut_ptr(),
                work.len(),
                out.as_mut_ptr(),
                out.len(),
                answer.as_mut_ptr(),
                answer.len(),
            )
        }
    }

    pub fn day_sheet(&self, network: &[u8], from: u32, to: u32, lent: DayLists) -> u32 {
        let call = self.varnwalnut_day_sheet.expect(HAS);
        unsafe {
            call(
                network.as_ptr(),
                network.len(),
                from,
                to,
                lent.work.as_mut_ptr(),
                lent.work.len(),
                lent.list.as_mut_ptr(),
                lent.list.len(),
                lent.answer.as_mut_ptr(),
                lent.answer.len(),
            )
        }
    }

    pub fn import(&self, text: &[u8], number: u32, out: &mut [u8], answer: &mut [u32]) -> u32 {
        let call = self.varnwalnut_import_dimacs.expect(HAS);
        let (text, length) = (text.as_ptr(), text.len());
        unsafe { call(text, length, number, out.as_mut_ptr(), out.len(), answer.as_mut_ptr(), answer.len()) }
    }
}
