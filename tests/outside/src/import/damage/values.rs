//! Arcs and sizes outside the limits (36), and some just inside them.

use super::{on_line, place_of, some_arc, some_gap, whole, written, Fault, Kind};
use crate::import::text::{Text, What};
use crate::rng::Rng;

pub fn kinds() -> Vec<Kind> {
    let local = |name, make| Kind { name, local: true, make };
    let far = |name, make| Kind { name, local: false, make };
    vec![
        local("equal ends", equal_ends),
        local("an end of 0", end_0),
        local("an end above the nodes", end_above),
        local("a weight outside 1 to 2,880", weight_outside),
        local("nodes outside 1 to 512", nodes_outside),
        far("more than 2,048 arcs", too_many_arcs),
        far("a node too few", node_too_few),
        far("a weight of 1 or 2,880", weight_at_a_limit),
        far("512 nodes and the last in use", last_node_in_use),
    ]
}

/// An arc whose field holds another number.
fn arc_field(rng: &mut Rng, text: &Text, field: usize, number: u32) -> Option<Fault> {
    let key = some_arc(rng, text)?;
    let bytes = written(rng, number);
    on_line(key, move |line| {
        line.set_field(field, &bytes);
        line.due = Some(36);
    })
}

fn equal_ends(rng: &mut Rng, text: &Text) -> Option<Fault> {
    let key = some_arc(rng, text)?;
    let What::Arc(number) = text.lines[key].what else { return None };
    let (tail, head, _) = text.arcs[number];
    let end = rng.pick(&[tail, head, 0, text.nodes + 1]);
    let (one, other) = (written(rng, end), written(rng, end));
    on_line(key, move |line| {
        line.set_field(1, &one);
        line.set_field(2, &other);
        line.due = Some(36);
    })
}

fn end_0(rng: &mut Rng, text: &Text) -> Option<Fault> {
    let field = rng.within(1, 2);
    arc_field(rng, text, field, 0)
}

/// One that only its low bits would let pass, too.
fn end_above(rng: &mut Rng, text: &Text) -> Option<Fault> {
    let field = rng.within(1, 2);
    let next = text.nodes + 1;
    let above = rng.pick(&[next, next, next + 1, 513, 65_537, 131_074, 999_999_999]);
    arc_field(rng, text, field, above)
}

fn weight_outside(rng: &mut Rng, text: &Text) -> Option<Fault> {
    let weight = rng.pick(&[0, 2_881, 2_881, 4_097, 65_536, 65_537, 68_416, 131_072, 999_999_999]);
    arc_field(rng, text, 3, weight)
}

fn nodes_outside(rng: &mut Rng, text: &Text) -> Option<Fault> {
    let nodes = rng.pick(&[0, 513, 513, 1_024, 65_536, 65_536 + text.nodes, 999_999_999]);
    let bytes = written(rng, nodes);
    on_line(text.sizes_key(), move |line| {
        line.set_field(2, &bytes);
        line.due = Some(36);
    })
}

/// As many as the `p` line says, good ones and others. A long text: made seldom.
fn too_many_arcs(rng: &mut Rng, text: &Text) -> Option<Fault> {
    rng.once_in(8).then_some(())?;
    let count = rng.pick(&[2_049, 2_049, 2_050, 4_096]);
    let sizes = text.sizes_key();
    let gap = some_gap(rng, text, Some(sizes));
    let more = count - text.arcs.len();
    let bytes = rng.pick(&[&b"a 1 2 3"[..], b"a 2 1 2880", b"a 1 1 0"]);
    whole(move |text| {
        if let Some(line) = text.line(sizes) {
            line.set_field(3, format!("{count}").as_bytes());
            line.due = Some(36);
        }
        let place = place_of(text, gap);
        for _ in 0..more {
            text.insert(place, bytes, None);
        }
    })
}

/// The highest end in use is no node any more; one that is in use stays, as every arc has two ends.
fn node_too_few(_rng: &mut Rng, text: &Text) -> Option<Fault> {
    let highest = text.arcs.iter().map(|arc| arc.0.max(arc.1)).max()?;
    let sizes = text.sizes_key();
    whole(move |text| {
        if let Some(line) = text.line(sizes) {
            line.set_field(2, format!("{}", highest - 1).as_bytes());
        }
        for line in &mut text.lines {
            if let What::Arc(number) = line.what {
                let arc = text.arcs[number];
                if arc.0.max(arc.1) == highest {
                    line.due = line.due.or(Some(36));
                }
            }
        }
    })
}

fn weight_at_a_limit(rng: &mut Rng, text: &Text) -> Option<Fault> {
    let key = some_arc(rng, text)?;
    let What::Arc(number) = text.lines[key].what else { return None };
    let weight = rng.pick(&[1, 2_880]);
    let bytes = written(rng, weight);
    whole(move |text| {
        if let Some(line) = text.line(key) {
            line.set_field(3, &bytes);
            text.arcs[number].2 = weight;
        }
    })
}

fn last_node_in_use(rng: &mut Rng, text: &Text) -> Option<Fault> {
    let (key, sizes) = (some_arc(rng, text)?, text.sizes_key());
    let What::Arc(number) = text.lines[key].what else { return None };
    (text.arcs[number].1 != 512).then_some(())?;
    whole(move |text| {
        if let Some(line) = text.line(sizes) {
            line.set_field(2, b"512");
            text.nodes = 512;
        }
        if let Some(line) = text.line(key) {
            line.set_field(1, b"512");
            text.arcs[number].0 = 512;
        }
    })
}
