//! The definitions and theorems that docs/PROMISES.md names.

use crate::antt::Kind;
use crate::rattle::Code;
use crate::reach::Reached;
use crate::repository::{load, File, Repository, Target};
use std::collections::BTreeSet;
use std::path::Path;

const PROMISES: &str = "docs/PROMISES.md";

/// A definition by its file and its place there.
type Place = (usize, usize);

/// The named definitions. It is an error where the page names what is nowhere.
pub fn named(repository: &Repository, contracts: &Reached) -> Result<BTreeSet<Place>, String> {
    let text = load(PROMISES)?;
    let lost = lost(repository, &text);
    if !lost.is_empty() {
        let said =
            "names nothing public in specs/ or proofs/, nothing of the code, no wrong engine, crate or file";
        let lost = lost.iter().map(|(line, word)| format!("{PROMISES}:{line}: `{word}` {said}"));
        return Err(lost.collect::<Vec<_>>().join("\n"));
    }
    let found = named_in(repository, contracts, &text);
    match found.is_empty() {
        true => Err(format!("{PROMISES} names no definition of a spec")),
        false => Ok(found),
    }
}

/// The definitions that a page names. A name is a word in backticks; the other words and the files of its row
/// tell which of several definitions is meant.
pub fn named_in(repository: &Repository, contracts: &Reached, text: &str) -> BTreeSet<Place> {
    let mut found = BTreeSet::new();
    for row in text.lines() {
        let words = words(row);
        for word in words.iter().filter(|word| !is_field(repository, word, &words)) {
            found.extend(meant(repository, contracts, word, row));
        }
    }
    found
}

/// The words of a row in backticks.
fn words(row: &str) -> Vec<&str> {
    row.split('`').skip(1).step_by(2).collect()
}

/// What a page speaks of besides: a command, and a word of the language.
const BESIDES: [&str; 2] = ["grep", "requires"];

/// The words of a page that name nothing, with the numbers of their lines. What has a blank in it is quoted
/// and no name. A field's record may stand in another line of the same entry.
pub fn lost<'a>(repository: &Repository, text: &'a str) -> Vec<(usize, &'a str)> {
    let rows: Vec<&str> = text.lines().collect();
    let begins = |row: &&str| row.trim().is_empty() || row.trim().starts_with("- ");
    let mut lost = Vec::new();
    for (i, row) in rows.iter().enumerate() {
        let first = rows[..=i].iter().rposition(begins).unwrap_or(0);
        let last = rows[i + 1..].iter().position(begins).map_or(rows.len(), |length| i + 1 + length);
        let entry: Vec<&str> = rows[first..last].iter().flat_map(|row| words(row)).collect();
        let is_name = |word: &&str| !word.contains(' ') && !BESIDES.contains(word);
        let is_lost = |word: &&str| !is_something(repository, word) && !is_field(repository, word, &entry);
        lost.extend(words(row).into_iter().filter(is_name).filter(is_lost).map(|word| (i + 1, word)));
    }
    lost
}

/// Is it public in antt, or else something of the code, a wrong engine, a crate or a file?
fn is_something(repository: &Repository, word: &str) -> bool {
    let mut definitions = repository.specs.iter().flat_map(|file| &file.text.definitions);
    definitions.any(|known| known.public && known.name == word)
        || is_of_code(repository, word)
        || is_wrong_engine(repository, word)
        || repository.crates.iter().any(|known| known.name == word || is_file(word, &known.name))
}

/// Is it a function, a type, a constant or a loop's label of the code? One behind its crate and modules, or
/// behind a type, has to stand there: `search_arcs::times::ends_at`, `Header::new`.
fn is_of_code(repository: &Repository, word: &str) -> bool {
    let (place, name) = word.rsplit_once("::").unwrap_or(("", word));
    let is_in = |file: &File<Code>| {
        let types = || file.text.types.iter().map(|known| known.name.as_str());
        let functions = || file.text.functions.iter().map(|known| known.name.as_str());
        let module = format!("{}.{}", repository.crates[file.of].name, file.module).replace('.', "::");
        let is_there =
            place.is_empty() || module.trim_end_matches("::") == place || types().any(|known| known == place);
        let mut names = types().chain(functions()).chain(file.text.besides.iter().map(String::as_str));
        is_there && names.any(|known| known == name)
    };
    repository.codes.iter().any(is_in)
}

/// Is it the path of a file or folder? A star stands for any crate.
fn is_file(word: &str, a_crate: &str) -> bool {
    let word = word.replace('*', a_crate);
    word.contains('/') && (Path::new(&word).exists() || Path::new("crates").join(word).exists())
}

/// Is it a field of a record that the same row names, as in '`least` of `EarliestArrival`'?
fn is_field(repository: &Repository, word: &str, row: &[&str]) -> bool {
    let definitions = repository.specs.iter().flat_map(|file| &file.text.definitions);
    let mut records =
        definitions.filter(|known| known.kind == Kind::Record && row.contains(&known.name.as_str()));
    records.any(|record| record.members.iter().any(|(field, _)| field == word))
}

/// The public definitions of a name. Of several, those in a file that the row names; else those that the
/// contracts reach; else all. A name that a function or a wrong engine has too is theirs, unless the row
/// names the definition's file.
fn meant(repository: &Repository, contracts: &Reached, word: &str, row: &str) -> Vec<Place> {
    let mut all = Vec::new();
    for (i, file) in repository.specs.iter().enumerate() {
        let is_meant = |j: &usize| {
            let definition = &file.text.definitions[*j];
            definition.name == word && definition.public && definition.kind != Kind::Ruleset
        };
        all.extend((0..file.text.definitions.len()).filter(is_meant).map(|j| (i, j)));
    }
    let in_row = |(i, _): &Place| {
        let path = &repository.specs[*i].path;
        row.contains(&path[path.rfind('/').unwrap_or(0)..])
    };
    let in_contracts = |(i, j): &Place| contracts.contains_key(&Target::Spec(*i, *j));
    let choices: [&dyn Fn(&Place) -> bool; 2] = [&in_row, &in_contracts];
    if is_function(repository, word) || is_wrong_engine(repository, word) {
        all.retain(in_row);
        return all;
    }
    for is_chosen in choices.into_iter().filter(|_| all.len() > 1) {
        let chosen: Vec<Place> = all.iter().copied().filter(is_chosen).collect();
        if !chosen.is_empty() {
            return chosen;
        }
    }
    all
}

fn is_function(repository: &Repository, word: &str) -> bool {
    repository.codes.iter().any(|file| file.text.functions.iter().any(|known| known.name == word))
}

fn is_wrong_engine(repository: &Repository, word: &str) -> bool {
    let edit = |name: &str| format!("crates/{name}/must-fail/{word}.edit");
    repository.crates.iter().any(|known| Path::new(&edit(&known.name)).exists())
}
