//! The C functions under test, as the engine's C interface names them. A slice passes as a pointer and a
//! count of elements; pointers are never null, also where the count is 0. The import is linked only if the
//! feature `import` is on.

/// Declares the functions on networks: their types, where they are linked, and the whole of them.
macro_rules! functions {
    ($($field:ident: $type:ident = $name:ident($($parameters:tt)*);)*) => {
        $(pub type $type = unsafe extern "C" fn($($parameters)*) -> u32;)*

        extern "C" {
            $(fn $name($($parameters)*) -> u32;)*
        }

        /// The functions on networks, or some that stand in for them.
        #[derive(Clone, Copy)]
        pub struct Functions {
            $(pub $field: $type,)*
        }

        /// The library's own.
        pub const LINKED: Functions = Functions { $($field: $name,)* };
    };
}

// Each slice on a line of its own, as the C interface lists them.
#[rustfmt::skip]
functions! {
    plain_trip: PlainTrip = varnwalnut_plain_trip(
        network: *const u8, network_length: usize,
        answer: *mut u8, answer_length: usize,
        from: u32, to: u32, departure: u32,
    );

    flagged_trip: FlaggedTrip = varnwalnut_flagged_trip(
        network: *const u8, network_length: usize,
        plan: *const u8, plan_length: usize,
        answer: *mut u8, answer_length: usize,
        from: u32, to: u32, departure: u32,
    );

    check_plan: Check = varnwalnut_check_plan(
        network: *const u8, network_length: usize,
        plan: *const u8, plan_length: usize,
        answer: *mut u32, answer_length: usize,
    );

    open_network: Open = varnwalnut_open_network(
        network: *const u8, network_length: usize,
        cells: *mut u16, cells_length: usize,
        opens: *mut u16, opens_length: usize,
        closes: *mut u16, closes_length: usize,
        from: *mut u16, from_length: usize,
        to: *mut u16, to_length: usize,
        points: *mut u16, points_length: usize,
        ticks: *mut u16, ticks_length: usize,
        travels: *mut u16, travels_length: usize,
        answer: *mut u32, answer_length: usize,
    );

    pack_network: Pack = varnwalnut_pack_network(
        number: u32, period: u32, nodes: u32, arcs: u32, cell_count: u32, point_count: u32, hours: u32,
        cells: *const u16, cells_length: usize,
        opens: *const u16, opens_length: usize,
        closes: *const u16, closes_length: usize,
        from: *const u16, from_length: usize,
        to: *const u16, to_length: usize,
        points: *const u16, points_length: usize,
        ticks: *const u16, ticks_length: usize,
        travels: *const u16, travels_length: usize,
        out: *mut u8, out_length: usize,
        answer: *mut u32, answer_length: usize,
    );

    plain_trip_lists: PlainTripLists = varnwalnut_plain_trip_lists(
        network: *const u8, network_length: usize,
        from: u32, to: u32, departure: u32,
        arrivals: *mut u32, arrivals_length: usize,
        roads: *mut u16, roads_length: usize,
        answer: *mut u32, answer_length: usize,
    );

    flagged_trip_lists: FlaggedTripLists = varnwalnut_flagged_trip_lists(
        network: *const u8, network_length: usize,
        plan: *const u8, plan_length: usize,
        from: u32, to: u32, departure: u32,
        arrivals: *mut u32, arrivals_length: usize,
        roads: *mut u16, roads_length: usize,
        answer: *mut u32, answer_length: usize,
    );

    make_plan: MakePlan = varnwalnut_make_plan(
        network: *const u8, network_length: usize,
        work: *mut u32, work_length: usize,
        out: *mut u8, out_length: usize,
        answer: *mut u32, answer_length: usize,
    );

    day_sheet: DaySheet = varnwalnut_day_sheet(
        network: *const u8, network_length: usize,
        from: u32, to: u32,
        work: *mut u32, work_length: usize,
        list: *mut u32, list_length: usize,
        answer: *mut u32, answer_length: usize,
    );
}

/// The import's C function, or one that stands in for it.
#[rustfmt::skip]
pub type Import = unsafe extern "C" fn(
    text: *const u8, text_length: usize,
    number: u32,
    out: *mut u8, out_length: usize,
    answer: *mut u32, answer_length: usize,
) -> u32;

/// The library's import, where it is linked.
#[cfg(feature = "import")]
pub fn import_dimacs() -> Option<Import> {
    #[rustfmt::skip]
    extern "C" {
        fn varnwalnut_import_dimacs(
            text: *const u8, text_length: usize,
            number: u32,
            out: *mut u8, out_length: usize,
            answer: *mut u32, answer_length: usize,
        ) -> u32;
    }
    Some(varnwalnut_import_dimacs)
}

#[cfg(not(feature = "import"))]
pub fn import_dimacs() -> Option<Import> {
    None
}

/// The operations in the order of the tables printed at the end. All but the last take a network's file or
/// its tables, and are tried together; the import takes a text.
pub const COUNT: usize = 10;
pub const ON_NETWORKS: usize = 9;
pub const OPERATIONS: [&str; COUNT] = [
    "open_network",
    "pack_network",
    "check_plan",
    "plain_trip",
    "flagged_trip",
    "plain_trip_lists",
    "flagged_trip_lists",
    "make_plan",
    "day_sheet",
    "import_dimacs",
];
pub const OPEN: usize = 0;
pub const PACK: usize = 1;
pub const CHECK: usize = 2;
pub const PLAIN: usize = 3;
pub const FLAGGED: usize = 4;
pub const PLAIN_LISTS: usize = 5;
pub const FLAGGED_LISTS: usize = 6;
pub const MAKE: usize = 7;
pub const DAY: usize = 8;
pub const IMPORT: usize = 9;

/// "Below 1,032 bytes it gives 31 before all else".
pub const TRIP_ANSWER_BYTES: usize = 1_032;
/// Words each answer list has to have, as the C interface names them.
pub const OPEN_ANSWER: usize = 10;
pub const PACK_ANSWER: usize = 4;
pub const CHECK_ANSWER: usize = 5;
pub const LISTS_ANSWER: usize = 6;
pub const MAKE_ANSWER: usize = 4;
pub const DAY_ANSWER: usize = 4;
pub const IMPORT_ANSWER: usize = 4;
