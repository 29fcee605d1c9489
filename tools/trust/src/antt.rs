//! A file of antt read into its `use` lines, its sections and its definitions, by its layout.

use crate::tree::{self, Tree};

/// A line that holds something: neither blank nor a comment.
#[derive(Clone)]
pub struct Line {
    pub number: usize,
    pub indent: usize,
    pub text: String,
}

/// What a `use` line brings: an item of a module under its name here, or the module itself.
pub struct Use {
    pub path: String,
    pub brings: Brings,
}

pub enum Brings {
    /// An item, and the name that it has here.
    Item { item: String, name: String },
    /// The module's name here.
    Module(String),
}

#[derive(Clone, Copy, PartialEq, Debug)]
pub enum Kind {
    /// Neither `abbrev` nor `unfoldable`: a law, or a step of a proof. Nobody else comes to see its clauses.
    Law,
    /// Marked `abbrev` or `unfoldable`: its clauses are its meaning.
    Definition,
    Record,
    Data,
    Ruleset,
}

/// What stands around definitions and is part of their types.
pub enum Section {
    /// The parameters of a `module _`.
    Module(Vec<Tree>),
    /// An `open`: a record's value, and the names that it brings.
    Open(Vec<Tree>, Vec<String>),
}

pub struct Definition {
    pub name: String,
    pub kind: Kind,
    pub public: bool,
    /// The sections that it stands in, from the outside, by their places in `Spec::sections`.
    pub sections: Vec<usize>,
    /// Its type; of a record and a data type the parameters too.
    pub statement: Vec<Tree>,
    /// A record's fields, or a data type's constructors, with their types.
    pub members: Vec<(String, Vec<Tree>)>,
    pub clauses: Vec<Clause>,
    pub unfolding: Vec<Tree>,
    /// The numbers of the lines of its type and of its body.
    pub statement_lines: Vec<usize>,
    pub body_lines: Vec<usize>,
}

/// `name patterns = body`, and the definitions of its `where` block.
pub struct Clause {
    pub text: Vec<Tree>,
    pub inner: Vec<Definition>,
}

#[derive(Default)]
pub struct Spec {
    pub uses: Vec<Use>,
    /// The files that its `mod` lines name.
    pub children: Vec<String>,
    /// The sections with the numbers of their lines.
    pub sections: Vec<(Section, Vec<usize>)>,
    pub definitions: Vec<Definition>,
}

const MARKS: [&str; 4] = ["unfoldable", "abbrev", "pub", "axiom"];

/// Reads a file of antt; an error begins with the number of the line.
pub fn read(text: &str) -> Result<Spec, String> {
    let mut spec = Spec::default();
    let lines = lines(text);
    spec.definitions = spec.block(&lines, &[])?;
    Ok(spec)
}

pub fn lines(text: &str) -> Vec<Line> {
    let line = |(i, line): (usize, &str)| Line {
        number: i + 1,
        indent: line.chars().take_while(|c| *c == ' ').count(),
        text: line.trim().to_string(),
    };
    let holds = |line: &Line| !line.text.is_empty() && !line.text.starts_with("--");
    text.lines().enumerate().map(line).filter(holds).collect()
}

/// Reads what follows the word `use`, by the modules that are named: `M.{a, b as c, N.d}`, `M`, or `M as name`.
pub fn read_use(text: &str) -> Vec<Use> {
    let text = text.trim().trim_end_matches(';');
    if let Some((path, items)) = text.split_once(".{") {
        let items = items.trim_end_matches('}').split(',').map(str::trim).filter(|item| !item.is_empty());
        return items.map(|item| read_item(path, item)).collect();
    }
    let (path, name) = match text.split_once(" as ") {
        Some((path, name)) => (path, name),
        None => (text, text.rsplit('.').next().unwrap_or(text)),
    };
    vec![Use { path: path.to_string(), brings: Brings::Module(name.to_string()) }]
}

/// One item in braces behind `path`: `a`, `N.a` of a module below, or one of these with `as name`.
fn read_item(path: &str, text: &str) -> Use {
    let (item, given) = match text.split_once(" as ") {
        Some((item, name)) => (item, Some(name)),
        None => (text, None),
    };
    let (path, item) = match item.rsplit_once('.') {
        Some((below, item)) => (format!("{path}.{below}"), item),
        None => (path.to_string(), item),
    };
    let name = given.unwrap_or(item);
    Use { path, brings: Brings::Item { item: item.to_string(), name: name.to_string() } }
}

/// The items of a block: each line at the block's indent, with the deeper lines after it. A line that begins
/// with a closing bracket goes on with the item before it.
fn items(lines: &[Line]) -> Vec<&[Line]> {
    let Some(indent) = lines.first().map(|line| line.indent) else { return Vec::new() };
    let begins = |line: &Line| line.indent <= indent && !line.text.starts_with([')', '}', ']']);
    let starts: Vec<usize> = (0..lines.len()).filter(|i| begins(&lines[*i])).collect();
    let ends = starts.iter().skip(1).copied().chain([lines.len()]);
    starts.iter().zip(ends).map(|(start, end)| &lines[*start..end]).collect()
}

/// The lines up to the one that ends with `where`, and those after it.
fn at_where(item: &[Line]) -> (&[Line], &[Line]) {
    let ends = |line: &Line| line.text == "where" || line.text.ends_with(" where");
    let head = item.iter().position(ends).map_or(item.len(), |i| i + 1);
    item.split_at(head)
}

fn joined(lines: &[Line]) -> String {
    let text: Vec<&str> = lines.iter().map(|line| line.text.as_str()).collect();
    text.join("\n")
}

fn trees(lines: &[Line]) -> Result<Vec<Tree>, String> {
    tree::read(&joined(lines)).map_err(|e| format!("{}: {e}", lines[0].number))
}

fn numbers(lines: &[Line]) -> Vec<usize> {
    lines.iter().map(|line| line.number).collect()
}

impl Spec {
    /// The definitions of a block, those of the sections in it among them.
    fn block(&mut self, lines: &[Line], around: &[usize]) -> Result<Vec<Definition>, String> {
        let mut sections = around.to_vec();
        let mut found: Vec<Definition> = Vec::new();
        for item in items(lines) {
            let words: Vec<&str> = item[0].text.split_whitespace().collect();
            let marks = words.iter().take_while(|word| MARKS.contains(word)).count();
            match words.get(marks).copied().unwrap_or("") {
                "use" => self.uses.extend(read_use(&joined(item)[words[..=marks].join(" ").len()..])),
                "mod" => self.children.push(words[marks + 1].to_string()),
                "infix" | "infixl" | "infixr" => (),
                "module" => found.append(&mut self.module(item, &sections)?),
                "mutual" => found.append(&mut self.block(&item[1..], &sections)?),
                "open" => sections.push(self.open(item)?),
                "unfolding" => match found.last_mut() {
                    Some(last) => last.unfolding = trees(item)?.split_off(1),
                    None => return Err(format!("{}: `unfolding` without a signature", item[0].number)),
                },
                "record" | "data" => found.push(typed(item, marks, &sections)?),
                "ruleset" => found.push(ruleset(item, marks, &sections)?),
                _ => self.signature_or_clause(item, marks, &sections, &mut found)?,
            }
        }
        Ok(found)
    }

    fn module(&mut self, item: &[Line], around: &[usize]) -> Result<Vec<Definition>, String> {
        let (head, rest) = at_where(item);
        let mut parameters = trees(head)?;
        parameters.retain(|tree| !tree.is("module") && !tree.is("_") && !tree.is("where"));
        self.sections.push((Section::Module(parameters), numbers(head)));
        let sections = [around, &[self.sections.len() - 1]].concat();
        self.block(rest, &sections)
    }

    /// `open value use {field, field as name}`.
    fn open(&mut self, item: &[Line]) -> Result<usize, String> {
        let text = trees(item)?;
        let brings = text.iter().position(|tree| tree.is("use")).unwrap_or(text.len());
        let mut names = Vec::new();
        if let Some(Tree::Group(_, fields)) = text.get(brings + 1) {
            for field in tree::parts(fields, |tree| *tree == Tree::Mark(',')) {
                names.extend(field.last().and_then(Tree::bare).map(str::to_string));
            }
        }
        self.sections.push((Section::Open(text[1..brings].to_vec(), names), numbers(item)));
        Ok(self.sections.len() - 1)
    }

    /// `marks name {levels} : type` begins a definition; anything else has to be a clause of the last one.
    fn signature_or_clause(
        &mut self,
        item: &[Line],
        marks: usize,
        sections: &[usize],
        found: &mut Vec<Definition>,
    ) -> Result<(), String> {
        let (head, inner) = where_block(item);
        let text = trees(head)?;
        let levels = usize::from(matches!(text.get(marks + 1), Some(Tree::Group('{', _))));
        if text.get(marks + 1 + levels).is_some_and(|tree| tree.is(":")) {
            let is_seen = text[..marks].iter().any(|mark| mark.is("abbrev") || mark.is("unfoldable"));
            let kind = if is_seen { Kind::Definition } else { Kind::Law };
            let mut definition = begin(item, &text, marks, kind, sections)?;
            definition.statement = text[marks + levels + 2..].to_vec();
            definition.statement_lines = numbers(item);
            found.push(definition);
            return Ok(());
        }
        let Some(last) = found.last_mut().filter(|last| is_clause_of(last, &text)) else {
            return Err(format!("{}: neither a signature nor a clause: {}", item[0].number, item[0].text));
        };
        let inner = self.block(inner, sections)?;
        last.clauses.push(Clause { text, inner });
        last.body_lines.extend(numbers(item));
        Ok(())
    }
}

/// A clause begins with the name that it is of, or has an operator's part in it.
fn is_clause_of(definition: &Definition, text: &[Tree]) -> bool {
    let left = text.split(|tree| tree.is("=")).next().unwrap_or(text);
    let part = |tree: &Tree| tree.bare().is_some_and(|name| operator_parts(&definition.name).contains(&name));
    text.first().is_some_and(|tree| tree.is(&definition.name)) || left.iter().any(part)
}

/// The words of an operator: of `◌gives◌` it is `gives`. A name that is no operator has none.
pub fn operator_parts(name: &str) -> Vec<&str> {
    match name.contains('◌') {
        true => name.split('◌').filter(|part| !part.is_empty()).collect(),
        false => Vec::new(),
    }
}

/// The lines of a clause, and those of its `where` block.
fn where_block(item: &[Line]) -> (&[Line], &[Line]) {
    match item.iter().position(|line| line.text == "where") {
        Some(i) => (&item[..i], &item[i + 1..]),
        None => (item, &[]),
    }
}

fn begin(
    item: &[Line],
    text: &[Tree],
    name: usize,
    kind: Kind,
    sections: &[usize],
) -> Result<Definition, String> {
    let Some(bare) = text.get(name).and_then(Tree::bare) else {
        return Err(format!("{}: no name: {}", item[0].number, item[0].text));
    };
    Ok(Definition {
        name: bare.to_string(),
        kind,
        public: text[..name].iter().any(|mark| mark.is("pub")),
        sections: sections.to_vec(),
        statement: Vec::new(),
        members: Vec::new(),
        clauses: Vec::new(),
        unfolding: Vec::new(),
        statement_lines: Vec::new(),
        body_lines: Vec::new(),
    })
}

/// `record Name (parameters) : Type 0 where` or `data`, with a member on each line after it.
fn typed(item: &[Line], marks: usize, sections: &[usize]) -> Result<Definition, String> {
    let (head, rest) = at_where(item);
    let text = trees(head)?;
    let kind = if text[marks].is("record") { Kind::Record } else { Kind::Data };
    let mut definition = begin(item, &text, marks + 1, kind, sections)?;
    definition.statement = text[marks + 2..].iter().filter(|tree| !tree.is("where")).cloned().collect();
    definition.statement_lines = numbers(head);
    definition.body_lines = numbers(rest);
    for member in items(rest) {
        let text = trees(member)?;
        let Some(colon) = text.iter().position(|tree| tree.is(":")) else {
            return Err(format!("{}: no member: {}", member[0].number, member[0].text));
        };
        for name in text[..colon].iter().filter(|name| !name.is("pub")).filter_map(Tree::bare) {
            definition.members.push((name.to_string(), text[colon + 1..].to_vec()));
        }
    }
    Ok(definition)
}

/// `ruleset name = (law, law)`.
fn ruleset(item: &[Line], marks: usize, sections: &[usize]) -> Result<Definition, String> {
    let text = trees(item)?;
    let mut definition = begin(item, &text, marks + 1, Kind::Ruleset, sections)?;
    definition.clauses.push(Clause { text: text[marks + 1..].to_vec(), inner: Vec::new() });
    definition.body_lines = numbers(item);
    Ok(definition)
}
