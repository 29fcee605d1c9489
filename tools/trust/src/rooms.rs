//! The list of the crates: what each owns, by its code's first sentence, and what it may call, by crates.txt.

use crate::documents::entry;
use crate::repository::{load, Repository};

pub fn table(repository: &Repository) -> Result<String, String> {
    let mut text = String::new();
    for (of, known) in repository.crates.iter().enumerate() {
        let root = repository.codes.iter().find(|file| file.of == of && file.module.is_empty());
        let path =
            &root.ok_or_else(|| format!("crates/{}: neither src/lib.rt nor src/main.rt", known.name))?.path;
        let owns = first_sentence(&load(path)?, &known.name);
        let owns = owns.ok_or_else(|| format!("{path}: it does not begin with `// {}: ..`", known.name))?;
        let calls: Vec<String> = known.calls.iter().map(|name| format!("`{name}`")).collect();
        let calls = match calls.is_empty() {
            true => "nothing else".to_string(),
            false => calls.join(", "),
        };
        text += &entry(&format!("`{}`: {owns}. Names {calls}.", known.name));
    }
    Ok(text)
}

/// The first sentence behind `// NAME: `, over as many lines as it takes, without its full stop.
pub fn first_sentence(text: &str, name: &str) -> Option<String> {
    let comment: Vec<&str> = text.lines().map_while(|line| line.strip_prefix("// ")).collect();
    let comment = comment.join(" ");
    let rest = comment.strip_prefix(name)?.strip_prefix(": ")?;
    let end = rest.find(". ").unwrap_or(rest.len());
    Some(rest[..end].trim_end_matches('.').to_string())
}
