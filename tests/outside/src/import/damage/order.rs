//! Lines out of order, too many arcs and too few (35).

use super::{place_of, some_arc, some_gap, whole, written, Fault, Kind};
use crate::import::text::{Line, Text, What};
use crate::rng::Rng;

pub fn kinds() -> Vec<Kind> {
    let far = |name, make| Kind { name, local: false, make };
    vec![
        far("a second `p` line", second_sizes),
        far("the `p` line after an arc", sizes_after_an_arc),
        far("an arc before the `p` line", arc_before_the_sizes),
        far("no `p` line", no_sizes),
        far("the `p` line made a remark", sizes_made_a_remark),
        far("an arc away", arc_away),
        far("an arc made a remark", arc_made_a_remark),
        far("a count too high", count_too_high),
        far("a count too low", count_too_low),
        far("an arc more at the end", arc_more_at_the_end),
        far("an arc more before another", arc_more_before_another),
        far("only remarks", only_remarks),
        far("an empty text", empty_text),
        far("cut after a line", cut),
    ]
}

/// Without a `p` line the first arc is out of order; without an arc too the text is short.
fn miss_the_sizes(text: &mut Text) {
    match text.lines.iter_mut().find(|line| matches!(line.what, What::Arc(_))) {
        Some(arc) => arc.due = Some(35),
        None => text.short = true,
    }
}

fn second_sizes(rng: &mut Rng, text: &Text) -> Option<Fault> {
    let gap = some_gap(rng, text, Some(text.sizes_key()));
    let same = text.lines[text.sizes_key()].bytes.clone();
    let other = format!("p sp {} {}", rng.pick(&[0, 1, 512, 999_999_999]), rng.pick(&[0, 1, 2_049]));
    let bytes = if rng.once_in(2) { same } else { other.into_bytes() };
    whole(move |text| text.insert(place_of(text, gap), &bytes, Some(35)))
}

/// Takes a line out and puts it in before or behind another.
fn move_line(text: &mut Text, key: usize, to: usize, behind: bool) {
    if let (Some(from), true) = (text.place(key), text.place(to).is_some()) {
        let line = text.lines.remove(from);
        let place = text.place(to).map_or(from, |place| place + usize::from(behind));
        text.lines.insert(place, line);
    }
}

fn sizes_after_an_arc(rng: &mut Rng, text: &Text) -> Option<Fault> {
    let (sizes, arc) = (text.sizes_key(), some_arc(rng, text)?);
    let first = text.arc_keys()[0];
    whole(move |text| {
        move_line(text, sizes, arc, true);
        mark(text, first);
    })
}

fn arc_before_the_sizes(rng: &mut Rng, text: &Text) -> Option<Fault> {
    let arc = some_arc(rng, text)?;
    let before = rng.within(0, text.sizes_key());
    whole(move |text| {
        move_line(text, arc, before, false);
        mark(text, arc);
    })
}

fn mark(text: &mut Text, key: usize) {
    if let Some(line) = text.line(key) {
        line.due = Some(35);
    }
}

fn no_sizes(_rng: &mut Rng, text: &Text) -> Option<Fault> {
    let sizes = text.sizes_key();
    whole(move |text| {
        text.lines.retain(|line| line.key != sizes);
        miss_the_sizes(text);
    })
}

fn sizes_made_a_remark(_rng: &mut Rng, text: &Text) -> Option<Fault> {
    let sizes = text.sizes_key();
    whole(move |text| {
        if let Some(line) = text.line(sizes) {
            line.bytes.insert(0, b'c');
        }
        miss_the_sizes(text);
    })
}

fn arc_away(rng: &mut Rng, text: &Text) -> Option<Fault> {
    let arc = some_arc(rng, text)?;
    whole(move |text| {
        text.lines.retain(|line| line.key != arc);
        text.short = true;
    })
}

fn arc_made_a_remark(rng: &mut Rng, text: &Text) -> Option<Fault> {
    let arc = some_arc(rng, text)?;
    whole(move |text| {
        if let Some(line) = text.line(arc) {
            line.bytes.insert(0, b'c');
        }
        text.short = true;
    })
}

/// By so much, too, that only a count's low bits are right.
fn count_too_high(rng: &mut Rng, text: &Text) -> Option<Fault> {
    let count = text.arcs.len() as u32;
    let higher = rng.pick(&[count + 1, count + 2, count + 256, count + 65_536, 2_049 + count, 999_999_999]);
    let bytes = written(rng, higher);
    let sizes = text.sizes_key();
    whole(move |text| {
        if let Some(line) = text.line(sizes) {
            line.set_field(3, &bytes);
        }
        text.short = true;
    })
}

fn count_too_low(rng: &mut Rng, text: &Text) -> Option<Fault> {
    let arcs = text.arc_keys();
    let one_less = arcs.len().checked_sub(1)?;
    let any_less = rng.below(arcs.len());
    let low = rng.pick(&[0, one_less, any_less]);
    let bytes = written(rng, low as u32);
    let (sizes, first_above) = (text.sizes_key(), arcs[low]);
    whole(move |text| {
        if let Some(line) = text.line(sizes) {
            line.set_field(3, &bytes);
        }
        mark(text, first_above);
    })
}

/// An arc of the text, or one that is faulty itself.
fn some_arc_line(rng: &mut Rng, text: &Text) -> Vec<u8> {
    let same = some_arc(rng, text).map(|key| text.lines[key].bytes.clone());
    let faulty: [&[u8]; 5] = [b"a 1 1 1", b"a 0 1 1", b"a 1 2 0", b"a 1 2 2881", b"a 999999999 1 1"];
    same.filter(|_| rng.once_in(2)).unwrap_or_else(|| rng.pick(&faulty).to_vec())
}

/// One or more; the first is the one too many.
fn arc_more_at_the_end(rng: &mut Rng, text: &Text) -> Option<Fault> {
    let last = text.arc_keys().last().copied().unwrap_or(text.sizes_key());
    let gap = some_gap(rng, text, Some(last));
    let lines: Vec<Vec<u8>> = (0..rng.pick(&[1, 1, 2, 5])).map(|_| some_arc_line(rng, text)).collect();
    whole(move |text| {
        let place = place_of(text, gap);
        for bytes in &lines {
            text.insert(place, bytes, None);
        }
        text.lines[place].due = Some(35);
    })
}

/// The text's last arc is the one too many now. The new one is good or not.
fn arc_more_before_another(rng: &mut Rng, text: &Text) -> Option<Fault> {
    let before = some_arc(rng, text)?;
    let last = text.arc_keys().last().copied()?;
    let bytes = some_arc_line(rng, text);
    whole(move |text| {
        let place = place_of(text, Some(before));
        text.insert(place, &bytes, None);
        mark(text, last);
    })
}

fn only_remarks(_rng: &mut Rng, _text: &Text) -> Option<Fault> {
    whole(|text| {
        text.lines.retain(|line| line.what == What::Remark);
        text.short = true;
    })
}

fn empty_text(_rng: &mut Rng, _text: &Text) -> Option<Fault> {
    whole(|text| {
        text.lines.clear();
        text.short = true;
    })
}

/// Whatever is left is in order; at least the last of the `p` line and the arcs is missing.
fn cut(rng: &mut Rng, text: &Text) -> Option<Fault> {
    let is_data = |line: &Line| line.what != What::Remark;
    let last = text.lines.iter().rposition(is_data).expect("a valid text has a `p` line");
    let count = rng.within(0, last);
    whole(move |text| {
        text.lines.truncate(count);
        text.short = true;
    })
}
