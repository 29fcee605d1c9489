//! The laws, definitions and rulesets of the specs, and of the files right in proofs/, that nothing cites.

use crate::antt::Spec;
use crate::names::{in_contract, in_definition, in_type, Extent};
use crate::promises;
use crate::reach::Reached;
use crate::repository::{File, Repository, Target};
use std::collections::BTreeSet;

/// Each as `file:name`, a line each. A recursive definition does not count as citing itself.
pub fn list(repository: &Repository, contracts: &Reached) -> Result<String, String> {
    let mut cited = BTreeSet::new();
    let named = promises::named(repository, contracts)?;
    cited.extend(named.into_iter().map(|(file, place)| Target::Spec(file, place)));
    for (i, file) in repository.specs.iter().enumerate() {
        cite_all(repository, file, |place| Target::Spec(i, place), &mut cited)?;
    }
    for file in &repository.proofs()? {
        cite_all(repository, file, |_| Target::Kit, &mut cited)?;
    }
    for file in &repository.codes {
        for function in &file.text.functions {
            cited.extend(meanings(repository, file, in_contract(function, &file.scope))?);
        }
        for known in &file.text.types {
            cited.extend(meanings(repository, file, in_type(known, &file.scope))?);
        }
        cited.extend(file.text.cited.iter().filter_map(|path| repository.cited(file.of, path)));
    }
    let mut text = String::new();
    for (i, file) in repository.specs.iter().enumerate() {
        for (j, definition) in file.text.definitions.iter().enumerate() {
            if !cited.contains(&Target::Spec(i, j)) {
                text += &format!("{}:{}\n", file.path, definition.name);
            }
        }
    }
    Ok(text)
}

/// What the definitions of a file cite besides themselves.
fn cite_all(
    repository: &Repository,
    file: &File<Spec>,
    itself: impl Fn(usize) -> Target,
    cited: &mut BTreeSet<Target>,
) -> Result<(), String> {
    for place in 0..file.text.definitions.len() {
        let mut found = meanings(repository, file, in_definition(file, place, Extent::Text))?;
        found.remove(&itself(place));
        cited.append(&mut found);
    }
    Ok(())
}

/// What free names of a file mean, as far as the file brings them.
fn meanings<T>(
    repository: &Repository,
    file: &File<T>,
    names: BTreeSet<Vec<String>>,
) -> Result<BTreeSet<Target>, String> {
    let mut found = BTreeSet::new();
    for path in &names {
        let meaning = repository.meaning(&file.scope, path).map_err(|e| format!("{}: {e}", file.path))?;
        found.extend(meaning);
    }
    Ok(found)
}
