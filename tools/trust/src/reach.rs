//! What the public contracts and the promises reach: definitions and laws of antt and types of the code.

use crate::antt::Kind;
use crate::names::{in_contract, in_definition, in_type, Extent};
use crate::promises;
use crate::rattle::Function;
use crate::repository::{Crate, File, Repository, Target};
use std::collections::{BTreeMap, BTreeSet};

/// What is reached, and how much of it has to be read.
pub type Reached = BTreeMap<Target, Extent>;

/// What no `use` line brings: the words of the language and of contracts, and names of the prelude.
const WORDS: [&str; 17] = [
    ":", "=", "→", "×", "Type", "elim", "in", "record", "unfold", "¬", "⊥", "Dec", "Unit", "absurd", "no",
    "tt", "yes",
];

/// From the contracts of the public functions of the crates on top: those that C calls, or the others.
pub fn from_contracts(repository: &Repository, exported: bool) -> Result<Reached, String> {
    let mut start = Vec::new();
    let wanted = |function: &&Function| function.public && function.exported == exported;
    for (i, file) in repository.codes.iter().enumerate().filter(|(_, file)| is_on_top(repository, file.of)) {
        for function in file.text.functions.iter().filter(wanted) {
            let names = in_contract(function, &file.scope);
            start.extend(targets(repository, file, &names)?);
            start.extend(repository.code_types(i, &function.words));
        }
    }
    if start.is_empty() {
        return Err("no crate on top has a public function".to_string());
    }
    reach(repository, start.into_iter().map(|target| (target, Extent::Whole)).collect())
}

/// From what docs/PROMISES.md names: of a definition the whole counts, of a theorem the statement alone.
pub fn from_promises(repository: &Repository, contracts: &Reached) -> Result<Reached, String> {
    from_named(repository, promises::named(repository, contracts)?)
}

/// From definitions and laws, each by its file and its place there.
pub fn from_named(repository: &Repository, named: BTreeSet<(usize, usize)>) -> Result<Reached, String> {
    let start = named.into_iter().map(|(file, place)| {
        let is_law = repository.specs[file].text.definitions[place].kind == Kind::Law;
        (Target::Spec(file, place), if is_law { Extent::Statement } else { Extent::Whole })
    });
    reach(repository, start.collect())
}

/// On top are the libraries that no other library with code calls and that C or a program calls: what the
/// others offer is for code alone.
fn is_on_top(repository: &Repository, of: usize) -> bool {
    let is_root = |file: &File<_>, of: usize| file.of == of && file.path.ends_with("/src/lib.rt");
    let has_code = |of: usize| repository.codes.iter().any(|f| f.of == of && !f.text.functions.is_empty());
    let has_root = |of: usize| repository.codes.iter().any(|file| is_root(file, of));
    let is_library = |of: usize| has_code(of) && has_root(of);
    let is_program = |of: usize| has_code(of) && !has_root(of);
    let name = &repository.crates[of].name;
    let called_by = |is_caller: &dyn Fn(usize) -> bool| {
        let calls = |(i, other): (usize, &Crate)| other.calls.contains(name) && is_caller(i);
        repository.crates.iter().enumerate().any(calls)
    };
    let exports = repository
        .codes
        .iter()
        .filter(|file| file.of == of)
        .any(|file| file.text.functions.iter().any(|function| function.exported));
    let is_offered = exports || called_by(&is_program);
    is_library(of) && is_offered && !called_by(&is_library)
}

/// Everything that is cited from a start, directly or through others; what is cited is read as a whole.
fn reach(repository: &Repository, start: Vec<(Target, Extent)>) -> Result<Reached, String> {
    let mut found = Reached::new();
    let mut open = start;
    while let Some((target, extent)) = open.pop() {
        let known = found.get(&target);
        if target == Target::Kit || known == Some(&Extent::Whole) || known == Some(&extent) {
            continue;
        }
        found.insert(target, extent);
        let cited = match target {
            Target::Kit => Vec::new(),
            Target::Code(i, place) => {
                let file = &repository.codes[i];
                let known = &file.text.types[place];
                let mut cited = targets(repository, file, &in_type(known, &file.scope))?;
                cited.extend(repository.code_types(i, &known.words));
                cited.extend(repository.impls(target));
                cited
            }
            Target::Spec(file, place) => {
                let file = &repository.specs[file];
                targets(repository, file, &in_definition(file, place, extent))?
            }
        };
        open.extend(cited.into_iter().map(|target| (target, Extent::Whole)));
    }
    Ok(found)
}

/// What free names of a file mean. A name that the file does not bring and that is no word is an error:
/// better than a table from which something is missing.
fn targets<T>(
    repository: &Repository,
    file: &File<T>,
    names: &BTreeSet<Vec<String>>,
) -> Result<Vec<Target>, String> {
    let mut found = Vec::new();
    for path in names {
        match repository.meaning(&file.scope, path).map_err(|e| format!("{}: {e}", file.path))? {
            Some(target) => found.push(target),
            None if WORDS.contains(&path[0].as_str()) => (),
            None => {
                let name = path.join(".");
                let hint = "if it is the prelude's, it belongs in WORDS of tools/trust/src/reach.rs";
                return Err(format!("{}: no `use` line brings `{name}`; {hint}", file.path));
            }
        }
    }
    Ok(found)
}
