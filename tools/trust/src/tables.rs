//! The lists of what is reached: an entry for each file, with its lines and its names.

use crate::documents::entry;
use crate::names::Extent;
use crate::reach::Reached;
use crate::repository::{Repository, Target};
use std::collections::{BTreeMap, BTreeSet};

/// A file in reading order: its crate, its code before its specs, and its place among these.
type Place = (usize, bool, usize);

#[derive(Default)]
struct Row {
    lines: BTreeSet<usize>,
    names: Vec<String>,
}

/// A list of all that is reached, without the lines of what is known already; its last line has the total.
pub fn table(repository: &Repository, reached: &Reached, known: &Reached) -> String {
    let known = rows(repository, known, &BTreeMap::new());
    let rows = rows(repository, reached, &known);
    let mut text = String::new();
    for (place, row) in &rows {
        let names: Vec<String> = row.names.iter().map(|name| format!("`{name}`")).collect();
        let path = path(repository, *place);
        text += &entry(&format!("{path}, {} lines: {}", row.lines.len(), names.join(", ")));
    }
    let total: usize = rows.values().map(|row| row.lines.len()).sum();
    text + &format!("\nTogether {total} lines.\n")
}

fn rows(repository: &Repository, reached: &Reached, known: &BTreeMap<Place, Row>) -> BTreeMap<Place, Row> {
    let mut rows: BTreeMap<Place, Row> = BTreeMap::new();
    for (target, extent) in reached {
        let Some((place, name, mut lines)) = lines(repository, *target, *extent) else { continue };
        if let Some(row) = known.get(&place) {
            lines.retain(|line| !row.lines.contains(line));
        }
        if !lines.is_empty() {
            let row = rows.entry(place).or_default();
            row.lines.append(&mut lines);
            row.names.push(name);
        }
    }
    rows
}

/// The file of what is reached, its name, and the numbers of the lines that have to be read: those of the
/// sections that a definition stands in are part of its type.
fn lines(
    repository: &Repository,
    target: Target,
    extent: Extent,
) -> Option<(Place, String, BTreeSet<usize>)> {
    match target {
        Target::Kit => None,
        Target::Code(i, j) => {
            let file = &repository.codes[i];
            let known = &file.text.types[j];
            Some(((file.of, false, i), known.name.clone(), known.lines.iter().copied().collect()))
        }
        Target::Spec(i, j) => {
            let file = &repository.specs[i];
            let definition = &file.text.definitions[j];
            let mut lines: BTreeSet<usize> = definition.statement_lines.iter().copied().collect();
            for section in &definition.sections {
                lines.extend(&file.text.sections[*section].1);
            }
            if extent != Extent::Statement {
                lines.extend(&definition.body_lines);
            }
            Some(((file.of, true, i), definition.name.clone(), lines))
        }
    }
}

fn path(repository: &Repository, (_, is_spec, i): Place) -> &str {
    let path = if is_spec { &repository.specs[i].path } else { &repository.codes[i].path };
    path.strip_prefix("crates/").unwrap_or(path)
}
