//! Network files with their hours: read at the places where everything has to stand, judged, and written.

use super::errors::{Form, Judged, Packed};
use super::Planted;
use crate::reference::blocks::Form as BlockForm;
use crate::reference::blocks::{
    first_block_holds, form_holds, judge_length_and_checks, read16, read32, write_file, Kind, ARCS, BLOCK, CHECK,
    FIRST_ENTRY, POINTS,
};
use crate::reference::network::{self, Header, Network, Tables};
use crate::reference::{refuse, Refusal};

/// A file that opened: its numbers and tables, and the town without hours.
pub struct Opened {
    pub header: Header,
    pub tables: Tables,
    pub network: Network,
}

const WITHOUT: Kind = Kind { kind: 2, width: 2, per_block: 250 };
const WITH: Kind = Kind { kind: 9, width: 6, per_block: 83 };

pub fn open(planted: Planted, file: &[u8]) -> Result<Opened, Refusal> {
    judge_length_and_checks(file, most_blocks(planted, file), 1)?;
    judge_first_block(planted, file)?;
    let header = header_of(planted, file);
    if !(Header { hours: 0, ..header }).within_limits() || header.hours > 1 && !planted.has(Form::Above1AfterTheForms) {
        return refuse(if header.hours > 1 && planted.has(Form::Above1Is3) { 3 } else { 4 }, 0);
    }
    let places = judge_forms(planted, &header, file)?;
    if header.hours > 1 {
        return refuse(4, 0);
    }
    let tables = tables_of(&header, places, file);
    let network = judge(planted, &header, &tables, false)?;
    Ok(Opened { header, tables, network })
}

fn most_blocks(planted: Planted, file: &[u8]) -> usize {
    match () {
        _ if planted.has(Form::Most554) => 554,
        _ if planted.has(Form::Most554Under0) && file.get(24) == Some(&0) => 554,
        _ if planted.has(Form::Most557) => 557,
        _ if planted.has(Form::Most559) => 559,
        _ => 558,
    }
}

fn judge_first_block(planted: Planted, file: &[u8]) -> Result<(), Refusal> {
    let fill = match () {
        _ if planted.has(Form::Byte24IsFill) => 24..CHECK,
        _ if planted.has(Form::Byte25IsNoFill) => 26..CHECK,
        _ => 25..CHECK,
    };
    if first_block_holds(&file[..BLOCK], 1, &[fill]) {
        Ok(())
    } else {
        refuse(3, 0)
    }
}

fn header_of(planted: Planted, file: &[u8]) -> Header {
    let byte = u32::from(file[24]);
    let hours = match () {
        _ if planted.has(Form::Above1Is1) => byte.min(1),
        _ if planted.has(Form::Above1Is0) && byte > 1 => 0,
        _ if planted.has(Form::LowBitAlone) => byte & 1,
        _ => byte,
    };
    let number = |at: usize| u32::from(read16(file, at));
    Header {
        number: read32(file, 8),
        period: number(12),
        nodes: number(14),
        arcs: number(16),
        cells: number(18),
        points: read32(file, 20),
        hours,
    }
}

/// The kind of place entries that a header calls for.
fn kind_of_places(planted: Planted, hours: u32) -> Kind {
    match () {
        _ if hours == 1 && planted.has(Form::PlacesBy250) => Kind { per_block: 250, ..WITH },
        _ if hours == 1 && planted.has(Form::PlacesBy84) => Kind { per_block: 84, ..WITH },
        _ if hours == 0 && planted.has(Form::PlacesUnder0By83) => Kind { per_block: 83, ..WITHOUT },
        _ if hours == 0 => WITHOUT,
        _ => WITH,
    }
}

/// Refusals 5 and 6; the kind of the place entries as the blocks have it.
fn judge_forms(planted: Planted, header: &Header, file: &[u8]) -> Result<Kind, Refusal> {
    let due = kind_of_places(planted, header.hours);
    let found = file.get(BLOCK).copied().unwrap_or_default();
    let accepts = match () {
        _ if planted.has(Form::Kind2Under1) => header.hours == 1 && found == 2,
        _ if planted.has(Form::Kind9Under0) => header.hours == 0 && found == 9,
        _ if planted.has(Form::AnyKind) => found == 2 || found == 9,
        _ => false,
    };
    let places = match (accepts, found) {
        (true, 2) => WITHOUT,
        (true, _) => WITH,
        _ => due,
    };
    let parts = [(places, header.nodes), (ARCS, header.arcs), (POINTS, header.points)];
    let mut number = 1;
    let mut blocks = Vec::new();
    for (kind, entries) in parts {
        let mut left = entries as usize;
        while left > 0 {
            let form = BlockForm { kind, number, entries: left.min(kind.per_block) };
            left -= form.entries;
            number += 1;
            blocks.push(form);
        }
    }
    if file.len() != number * BLOCK {
        return refuse(5, 0);
    }
    for form in &blocks {
        if !form_is_right(planted, header, &file[form.number * BLOCK..][..BLOCK], form) {
            return refuse(6, form.number);
        }
    }
    Ok(places)
}

fn form_is_right(planted: Planted, header: &Header, block: &[u8], form: &BlockForm) -> bool {
    let is_place = form.kind.kind == 2 || form.kind.kind == 9;
    if !is_place {
        return form_holds(block, form);
    }
    let mut block = block.to_vec();
    let used = (FIRST_ENTRY + form.entries * form.kind.width).min(CHECK);
    if planted.has(Form::FillNotLookedAt) || planted.has(Form::FillNotLookedAtUnder1) && header.hours == 1 {
        block[used..CHECK].fill(0);
    }
    if planted.has(Form::EntriesNotLookedAt) {
        block[2..4].copy_from_slice(&(form.entries as u16).to_le_bytes());
    }
    if planted.has(Form::KindOfTheFirstBlockAlone) && form.number > 1 {
        block[0] = form.kind.kind;
    }
    used <= CHECK && FIRST_ENTRY + form.entries * form.kind.width <= CHECK && form_holds(&block, form)
}

fn tables_of(header: &Header, places: Kind, file: &[u8]) -> Tables {
    let mut tables = network::read_tables(file);
    for table in [&mut tables.cells, &mut tables.opens, &mut tables.closes] {
        table.clear();
    }
    for node in 0..header.nodes as usize {
        let block = (1 + node / places.per_block) * BLOCK;
        let entry = block + FIRST_ENTRY + node % places.per_block * places.width;
        tables.cells.push(read16(file, entry));
        if places.width == WITH.width {
            tables.opens.push(read16(file, entry + 2));
            tables.closes.push(read16(file, entry + 4));
        } else {
            tables.opens.push(0);
            tables.closes.push(header.period as u16);
        }
    }
    tables
}

/// Refusals 7, 37 and 8 to 10, in their order; the town without hours.
fn judge(planted: Planted, header: &Header, tables: &Tables, packing: bool) -> Result<Network, Refusal> {
    let cell = (0..header.nodes as usize).find(|&node| u32::from(tables.cells[node]) >= header.cells);
    let hours = wrong_hours(planted, header, tables, packing);
    let rest = without_hours(header, tables);
    let before_8 = |refusal: &Refusal| (11..).contains(&refusal.number) || refusal.number < 8;
    let hours_after_8 = planted.has(Judged::After8) && rest.as_ref().is_err_and(|refusal| refusal.number == 8);
    let hours_after_10 = planted.has(Judged::After10) && rest.as_ref().is_err_and(|refusal| !before_8(refusal));
    match (cell, hours) {
        (Some(cell), None) => refuse(7, cell),
        (Some(cell), Some((node, _))) if planted.has(Judged::PlaceByPlaceWith7) && cell <= node => refuse(7, cell),
        (_, Some((_, refusal))) if planted.has(Judged::PlaceByPlaceWith7) => Err(refusal),
        (Some(_), Some((_, refusal))) if planted.has(Judged::Before7) => Err(refusal),
        (Some(cell), Some(_)) => refuse(7, cell),
        (None, Some((_, refusal))) if !hours_after_8 && !hours_after_10 => Err(refusal),
        _ => rest,
    }
}

/// The town without hours, if its roads are right.
fn without_hours(header: &Header, tables: &Tables) -> Result<Network, Refusal> {
    let header = Header { hours: 0, ..*header };
    let mut tables = tables.clone();
    for (table, length) in tables.in_order_mut().into_iter().zip(header.table_lengths()) {
        table.truncate(length);
    }
    tables.open_all_day(header.period as u16);
    network::open(&network::write(&header, &tables))
}

/// The first place whose hours are wrong, and the refusal for it.
fn wrong_hours(planted: Planted, header: &Header, tables: &Tables, packing: bool) -> Option<(usize, Refusal)> {
    let nodes = header.nodes as usize;
    let places = match () {
        _ if planted.has(Judged::NotTheFirstPlace) => 1..nodes,
        _ if planted.has(Judged::NotTheLastPlace) => 0..nodes - 1,
        _ => 0..nodes,
    };
    let mut wrong = places.filter(|&node| {
        let (open, close) = (u32::from(tables.opens[node]), u32::from(tables.closes[node]));
        is_wrong(planted, header, open, close) || packing && is_other_under_0(planted, header, open, close)
    });
    let node = if planted.has(Judged::LastPlaceWins) { wrong.next_back() } else { wrong.next() }?;
    let place = match () {
        _ if planted.has(Judged::TickInPlaceOfThePlace) => usize::from(tables.opens[node]),
        _ if planted.has(Judged::CloseInPlaceOfThePlace) => usize::from(tables.closes[node]),
        _ if planted.has(Judged::CellInPlaceOfThePlace) => usize::from(tables.cells[node]),
        _ if planted.has(Judged::PlaceIs0) => 0,
        _ if planted.has(Judged::PlaceFrom1) => node + 1,
        _ => node,
    };
    let under_0 = packing && header.hours == 0 && planted.has(Packed::HoursUnder0Are4);
    let number = match () {
        _ if under_0 => 4,
        _ if planted.has(Judged::NumberIs7) => 7,
        _ => 37,
    };
    Some((node, Refusal { number, places: [if under_0 { 0 } else { place as u32 }, 0, 0] }))
}

fn is_wrong(planted: Planted, header: &Header, open: u32, close: u32) -> bool {
    let period = header.period;
    let signed = |tick: u32| i32::from(tick as u16 as i16);
    match () {
        _ if planted.has(Judged::Never) => false,
        _ if planted.has(Judged::OpenAtClosePasses) => open > close || close > period,
        _ if planted.has(Judged::OpenAboveClosePasses) => open == close || close > period || open > period,
        _ if planted.has(Judged::CloseAtPIsRefused) => open >= close || close >= period && header.hours == 1,
        _ if planted.has(Judged::CloseAbovePPasses) => open >= close,
        _ if planted.has(Judged::CloseUpTo2880) => open >= close || close > 2_880,
        _ if planted.has(Judged::OpenBelowPIsEnough) => open >= period || close > period,
        _ if planted.has(Judged::InSignedBits) => signed(open) >= signed(close) || signed(close) > signed(period),
        _ if planted.has(Judged::In8Bits) => open >= close || close & 0xff > period & 0xff,
        _ => open >= close || close > period,
    }
}

fn is_other_under_0(planted: Planted, header: &Header, open: u32, close: u32) -> bool {
    if header.hours != 0 {
        return false;
    }
    match () {
        _ if planted.has(Packed::HoursUnder0Pass) || planted.has(Packed::HoursUnder0PassIfRight) => false,
        _ if planted.has(Packed::OpenUnder0NotLookedAt) => close != header.period,
        _ if planted.has(Packed::CloseUnder0NotLookedAt) => open != 0,
        _ if planted.has(Packed::AllDayUnder0Is2880) => (open, close) != (0, 2_880),
        _ => (open, close) != (0, header.period),
    }
}

pub fn pack(planted: Planted, header: &Header, tables: &Tables, out_length: usize) -> Result<Vec<u8>, Refusal> {
    let header = packed_header(planted, header);
    if !header.within_limits() {
        return refuse(4, 0);
    }
    let short = is_short(planted, &header, tables);
    if short && !(planted.has(Packed::Before30) && long_enough_to_judge(&header, tables)) {
        return refuse(30, 0);
    }
    let mut whole = tables.clone();
    for (table, length) in whole.in_order_mut().into_iter().zip(header.table_lengths()) {
        table.resize(length, 0);
    }
    let judged = judge(planted, &header, &whole, true);
    if let Err(refusal) = &judged {
        let passes = refusal.number == 37 && header.hours == 0 && planted.has(Packed::HoursUnder0Pass);
        let late = refusal.number == 37 && planted.has(Packed::After31);
        if !passes && !late {
            return Err(*refusal);
        }
    }
    if short {
        return refuse(30, 0);
    }
    let file = write(planted, &header, &whole);
    if out_length < file.len() {
        return refuse(31, 0);
    }
    judged.map(|_| file)
}

fn packed_header(planted: Planted, header: &Header) -> Header {
    let hours = match () {
        _ if planted.has(Packed::NumberAbove1Is1) => header.hours.min(1),
        _ if planted.has(Packed::NumberIn8Bits) => header.hours & 0xff,
        _ if planted.has(Packed::NumberIn16Bits) => header.hours & 0xffff,
        _ if planted.has(Packed::LowBitOfTheNumber) => header.hours & 1,
        _ => header.hours,
    };
    Header { hours, ..*header }
}

fn is_short(planted: Planted, header: &Header, tables: &Tables) -> bool {
    let passes = |table: usize| match table {
        1 if planted.has(Packed::OpensShortPass) => true,
        2 if planted.has(Packed::ClosesShortPass) => true,
        1 | 2 => header.hours == 0 && planted.has(Packed::TablesUnder0NotLookedAt),
        _ => false,
    };
    let lengths = tables.in_order().map(Vec::len).into_iter().zip(header.table_lengths());
    lengths.enumerate().any(|(table, (lent, needed))| lent < needed && !passes(table))
}

/// All but the tables of hours.
fn long_enough_to_judge(header: &Header, tables: &Tables) -> bool {
    let lengths = tables.in_order().map(Vec::len).into_iter().zip(header.table_lengths());
    lengths.enumerate().all(|(table, (lent, needed))| lent >= needed || table == 1 || table == 2)
}

fn write(planted: Planted, header: &Header, tables: &Tables) -> Vec<u8> {
    let all_day =
        (0..tables.cells.len()).all(|node| (tables.opens[node], u32::from(tables.closes[node])) == (0, header.period));
    let holds = header.hours == 1 && !(all_day && planted.has(Packed::AllDayUnder1LosesHours));
    let byte = match () {
        _ if planted.has(Packed::ByteStays0) => 0,
        _ if planted.has(Packed::ByteAlways1) => 1,
        _ => u8::from(holds),
    };
    let kind = match () {
        _ if planted.has(Packed::Kind2ForHours) => Kind { kind: 2, ..WITH },
        _ if planted.has(Packed::BlocksOf82) => Kind { per_block: 82, ..WITH },
        _ => WITH,
    };
    let with = holds || planted.has(Packed::Kind9ForAll);
    let places = place_bytes(planted, tables, with);
    let mut first = header.number.to_le_bytes().to_vec();
    for number in [header.period, header.nodes, header.arcs, header.cells] {
        first.extend_from_slice(&(number as u16).to_le_bytes());
    }
    first.extend_from_slice(&header.points.to_le_bytes());
    first.push(byte);
    let numbers = |tables: &[&Vec<u16>]| -> Vec<u8> {
        let entries = 0..tables[0].len();
        entries.flat_map(|entry| tables.iter().flat_map(move |table| table[entry].to_le_bytes())).collect()
    };
    let arcs = numbers(&[&tables.from, &tables.to, &tables.counts]);
    let points = numbers(&[&tables.ticks, &tables.travels]);
    write_file(1, &first, &[(if with { kind } else { WITHOUT }, places), (ARCS, arcs), (POINTS, points)])
}

/// The entries of places, with hours or without.
fn place_bytes(planted: Planted, tables: &Tables, with_hours: bool) -> Vec<u8> {
    let hours = |node: usize| match () {
        _ if planted.has(Packed::OpensExchangedForCloses) => (tables.closes[node], tables.opens[node]),
        _ if planted.has(Packed::ClosesDropped) => (tables.opens[node], 0),
        _ => (tables.opens[node], tables.closes[node]),
    };
    let mut places = Vec::new();
    for (node, cell) in tables.cells.iter().enumerate() {
        places.extend_from_slice(&cell.to_le_bytes());
        if with_hours {
            let (open, close) = hours(node);
            places.extend_from_slice(&open.to_le_bytes());
            places.extend_from_slice(&close.to_le_bytes());
        }
    }
    places
}
