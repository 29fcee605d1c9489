//! Edits of a text's bytes at random places. What they lead to is left to the reference.

use crate::reference::import::lines_of;
use crate::rng::Rng;

/// A byte of one of the kinds that the form tells apart: 0, tab, carriage return, space, line feed, digit,
/// letter, one above 127; and bytes next to digits and spaces.
pub fn some_byte(rng: &mut Rng) -> u8 {
    match rng.below(10) {
        0 => 0,
        1 => b'\t',
        2 => b'\r',
        3 | 4 => b' ',
        5 => b'\n',
        6 => rng.pick(b"0123456789"),
        7 => rng.pick(b"cpasCPAS"),
        8 => rng.within(128, 255) as u8,
        _ => rng.pick(b"/:!+-.,#xe\x0b\x0c\x1f\x7f"),
    }
}

/// One to three edits.
pub fn edit(rng: &mut Rng, text: &mut Vec<u8>) {
    for _ in 0..rng.pick(&[1, 1, 1, 2, 3]) {
        match rng.below(12) {
            0..=3 => insert(rng, text),
            4..=6 => replace(rng, text),
            7 | 8 => delete(rng, text),
            9 => exchange(rng, text),
            _ => move_lines(rng, text),
        }
    }
}

/// A place in a text that is not empty: any, or one beside a space or a line feed.
fn some_place(rng: &mut Rng, text: &[u8]) -> usize {
    let place = rng.below(text.len());
    if rng.once_in(2) {
        return place;
    }
    let next = text[place..].iter().position(|byte| b" \n".contains(byte));
    next.map_or(text.len() - 1, |next| (place + next + rng.below(2)).min(text.len() - 1))
}

fn insert(rng: &mut Rng, text: &mut Vec<u8>) {
    let byte = some_byte(rng);
    if text.is_empty() || rng.once_in(8) {
        text.push(byte);
    } else {
        text.insert(some_place(rng, text), byte);
    }
}

fn replace(rng: &mut Rng, text: &mut [u8]) {
    if !text.is_empty() {
        text[some_place(rng, text)] = some_byte(rng);
    }
}

fn delete(rng: &mut Rng, text: &mut Vec<u8>) {
    if !text.is_empty() {
        let place = if rng.once_in(8) { text.len() - 1 } else { some_place(rng, text) };
        text.remove(place);
    }
}

/// Two neighbours.
fn exchange(rng: &mut Rng, text: &mut [u8]) {
    if text.len() > 1 {
        let place = some_place(rng, text).min(text.len() - 2);
        text.swap(place, place + 1);
    }
}

/// A line twice, away, or elsewhere.
fn move_lines(rng: &mut Rng, text: &mut Vec<u8>) {
    let mut lines: Vec<Vec<u8>> = lines_of(text).into_iter().map(<[u8]>::to_vec).collect();
    if lines.is_empty() {
        return;
    }
    let (from, to) = (rng.below(lines.len()), rng.below(lines.len()));
    let line = lines[from].clone();
    match rng.below(3) {
        0 => lines.insert(to, line),
        1 => drop(lines.remove(from)),
        _ => {
            lines.remove(from);
            lines.insert(to.min(lines.len()), line);
        }
    }
    let fed = text.ends_with(b"\n");
    *text = lines.join(&b'\n');
    if fed {
        text.push(b'\n');
    }
}
