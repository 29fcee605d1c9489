//! The lists in documents that are made from the files: each stands between two marks.

use crate::repository::load;
use std::fs;
use std::ops::Range;

/// A part of a document, by the name in its mark, and the list that it has to be.
pub struct Part {
    pub document: &'static str,
    pub name: &'static str,
    pub table: String,
}

const END: &str = "<!-- end -->";

impl Part {
    /// What stands between the marks: the list with a blank line on either side.
    fn text(&self) -> String {
        format!("\n{}\n", self.table)
    }

    /// Where it stands in the document's text, without its marks.
    fn place(&self, text: &str) -> Result<Range<usize>, String> {
        let mark = format!("<!-- believe: {} -->", self.name);
        let start = text.find(&format!("{mark}\n")).map(|at| at + mark.len() + 1);
        let start = start.ok_or_else(|| format!("{}: no line `{mark}`", self.document))?;
        let length = text[start..].find(END);
        let length = length.ok_or_else(|| format!("{}: no `{END}` after `{mark}`", self.document))?;
        Ok(start..start + length)
    }
}

/// Says where a document differs, with the lines that are there (-) and those that should be (+), and nothing
/// where all is well.
pub fn check(parts: &[Part]) -> Result<String, String> {
    let mut said = String::new();
    for part in parts {
        let text = load(part.document)?;
        let old = &text[part.place(&text)?];
        if old != part.text() {
            said += &format!("{}: the list `{}` is not what the files say; ", part.document, part.name);
            said += "`tools/believe --write` puts it right\n";
            said += &difference(old, &part.text());
        }
    }
    Ok(said)
}

pub fn write(parts: &[Part]) -> Result<(), String> {
    for part in parts {
        let mut text = load(part.document)?;
        text.replace_range(part.place(&text)?, &part.text());
        fs::write(part.document, text).map_err(|e| format!("{}: {e}", part.document))?;
    }
    Ok(())
}

/// The lines of the old text that are not in the longest common sequence of lines, and those of the new one.
pub fn difference(old: &str, new: &str) -> String {
    let (old, new): (Vec<&str>, Vec<&str>) = (old.lines().collect(), new.lines().collect());
    let mut common = vec![vec![0; new.len() + 1]; old.len() + 1];
    for i in (0..old.len()).rev() {
        for j in (0..new.len()).rev() {
            common[i][j] = match old[i] == new[j] {
                true => common[i + 1][j + 1] + 1,
                false => common[i + 1][j].max(common[i][j + 1]),
            };
        }
    }
    let (mut i, mut j, mut said) = (0, 0, String::new());
    while i < old.len() || j < new.len() {
        if i < old.len() && j < new.len() && old[i] == new[j] {
            (i, j) = (i + 1, j + 1);
        } else if j == new.len() || (i < old.len() && common[i + 1][j] >= common[i][j + 1]) {
            said += &format!("- {}\n", old[i]);
            i += 1;
        } else {
            said += &format!("+ {}\n", new[j]);
            j += 1;
        }
    }
    said
}

/// The most characters of a line of a document.
const WIDTH: usize = 110;

/// An entry of a list: its words in lines of at most that many characters, all but the first indented.
pub fn entry(text: &str) -> String {
    let mut lines = vec!["-".to_string()];
    for word in text.split(' ') {
        let last = lines.last_mut().expect("there is a line");
        if last.chars().count() + 1 + word.chars().count() <= WIDTH {
            *last += &format!(" {word}");
        } else {
            lines.push(format!("  {word}"));
        }
    }
    lines.join("\n") + "\n"
}
