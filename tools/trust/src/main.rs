//! What a reader has to believe, read off the files: the definitions that the C library's contracts reach, and
//! those that the programs' contracts and the promises reach besides. It runs in the repository's folder and
//! proves nothing.

mod antt;
mod documents;
mod names;
mod promises;
mod rattle;
mod reach;
mod repository;
mod rooms;
mod tables;
#[cfg(test)]
mod tests;
mod tree;
mod unused;

use documents::Part;
use reach::Reached;
use repository::Repository;
use std::process::ExitCode;

const USAGE: &str = "usage: tools/believe [--check | --write | --rooms | --unused]
  without a word  the lists of what the C library's contracts reach, and besides the run sheet's and the promises
  --check         are the lists in docs/TRUST.md and docs/ARCHITECTURE.md what the files say?
  --write         puts them in
  --rooms         the list of the crates
  --unused        the laws and definitions, in specs/ and right in proofs/, that nothing cites";

/// The status is 0 where all is well, 1 where a document differs, and 2 where a file cannot be read or a name
/// is found nowhere.
fn main() -> ExitCode {
    let words: Vec<String> = std::env::args().skip(1).collect();
    let words: Vec<&str> = words.iter().map(String::as_str).collect();
    match answer(&words) {
        Ok(text) if words == ["--check"] && !text.is_empty() => fail(text.trim_end(), 1),
        Ok(text) => {
            print!("{text}");
            ExitCode::SUCCESS
        }
        Err(error) => fail(&error, 2),
    }
}

fn answer(words: &[&str]) -> Result<String, String> {
    if words == ["--help"] {
        return Ok(format!("{USAGE}\n"));
    }
    let repository = &Repository::read()?;
    match words {
        [] => Ok(parts(repository)?.iter().map(titled).collect::<Vec<_>>().join("\n")),
        ["--check"] => documents::check(&all_parts(repository)?),
        ["--write"] => documents::write(&all_parts(repository)?).map(|()| String::new()),
        ["--rooms"] => rooms::table(repository),
        ["--unused"] => unused::list(repository, &all_contracts(repository)?),
        _ => Err(USAGE.to_string()),
    }
}

fn fail(error: &str, status: u8) -> ExitCode {
    eprintln!("believe: {error}");
    ExitCode::from(status)
}

fn titled(part: &Part) -> String {
    format!("## From the {}\n\n{}", part.name, part.table)
}

/// What all contracts reach, those that C calls and those of programs.
fn all_contracts(repository: &Repository) -> Result<Reached, String> {
    let mut all = reach::from_contracts(repository, true)?;
    all.extend(reach::from_contracts(repository, false)?);
    Ok(all)
}

/// The three lists of docs/TRUST.md.
fn parts(repository: &Repository) -> Result<Vec<Part>, String> {
    let library = reach::from_contracts(repository, true)?;
    let programs = reach::from_contracts(repository, false)?;
    let all = all_contracts(repository)?;
    let promises = reach::from_promises(repository, &all)?;
    let part = |name, table| Part { document: "docs/TRUST.md", name, table };
    Ok(vec![
        part("contracts", tables::table(repository, &library, &Reached::new())),
        part("programs", tables::table(repository, &programs, &library)),
        part("promises", tables::table(repository, &promises, &all)),
    ])
}

fn all_parts(repository: &Repository) -> Result<Vec<Part>, String> {
    let mut parts = parts(repository)?;
    let table = rooms::table(repository)?;
    parts.push(Part { document: "docs/ARCHITECTURE.md", name: "rooms", table });
    Ok(parts)
}
