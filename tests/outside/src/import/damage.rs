//! Faults of every kind that wish 3 names, and changes that are none, made from a valid text. Each says what
//! the lines it touches have to lead to, so the reference is held to that as well.

mod form;
mod order;
mod values;

use super::text::{Line, Text, What};
use crate::rng::Rng;

pub struct Fault {
    /// The line of the valid text that it works on, by its key.
    pub on: Option<usize>,
    pub apply: Box<dyn Fn(&mut Text)>,
}

pub struct Kind {
    pub name: &'static str,
    /// It changes one line or puts one in, and what other lines lead to stays: then what is due holds beside
    /// another such fault on another line too.
    pub local: bool,
    /// None where the text has nothing to damage in this way.
    pub make: fn(&mut Rng, &Text) -> Option<Fault>,
}

/// All kinds of faults. Runs go through them in turn, so that each occurs.
pub fn kinds() -> Vec<Kind> {
    let mut kinds = form::kinds();
    kinds.extend(order::kinds());
    kinds.extend(values::kinds());
    kinds
}

fn whole(apply: impl Fn(&mut Text) + 'static) -> Option<Fault> {
    Some(Fault { on: None, apply: Box::new(apply) })
}

fn on_line(key: usize, apply: impl Fn(&mut Line) + 'static) -> Option<Fault> {
    let apply = move |text: &mut Text| {
        if let Some(line) = text.line(key) {
            apply(line);
        }
    };
    Some(Fault { on: Some(key), apply: Box::new(apply) })
}

/// The `p` line or one of the arcs.
fn some_data_line(rng: &mut Rng, text: &Text) -> usize {
    let arcs = text.arc_keys();
    if arcs.is_empty() || rng.once_in(3) {
        text.sizes_key()
    } else {
        rng.pick(&arcs)
    }
}

fn some_arc(rng: &mut Rng, text: &Text) -> Option<usize> {
    let arcs = text.arc_keys();
    (!arcs.is_empty()).then(|| rng.pick(&arcs))
}

fn what(text: &Text, key: usize) -> What {
    text.lines[key].what
}

/// One of a line's numbers: its field, and what stands there in the valid text.
fn some_number(rng: &mut Rng, text: &Text, key: usize) -> (usize, Vec<u8>) {
    let field = match what(text, key) {
        What::Sizes => rng.within(2, 3),
        _ => rng.within(1, 3),
    };
    (field, text.lines[key].fields()[field].clone())
}

/// A number with leading zeros or without, nine digits at most.
fn written(rng: &mut Rng, number: u32) -> Vec<u8> {
    let width = rng.pick(&[0, 0, 0, 5, 9]);
    format!("{number:0width$}").into_bytes()
}

/// A place for a new line, kept as the line that it comes before; none for the end. `after` is the first line
/// that it may follow, none for any.
fn some_gap(rng: &mut Rng, text: &Text, after: Option<usize>) -> Option<usize> {
    let first = after.map_or(0, |key| key + 1);
    let place = match rng.below(4) {
        0 => first,
        1 => text.lines.len(),
        _ => rng.within(first, text.lines.len()),
    };
    text.lines.get(place).map(|line| line.key)
}

fn place_of(text: &Text, gap: Option<usize>) -> usize {
    gap.and_then(|key| text.place(key)).unwrap_or(text.lines.len())
}
