//! A file of Rattle read into what a reader of contracts needs: `use` lines, contracts and types.

use crate::antt::{read_use, Line, Use};
use crate::tree::{self, Tree};

#[derive(Default)]
pub struct Code {
    /// The `ghost use` lines, for the contracts.
    pub ghosts: Vec<Use>,
    /// What the `use` lines bring, each by the parts of its path.
    pub uses: Vec<Vec<String>>,
    /// What of the crates' antt its `using(crate::specs::Runs::larger)` and `unfolding(..)` name, each by the
    /// parts of its path.
    pub cited: Vec<Vec<String>>,
    pub functions: Vec<Function>,
    pub types: Vec<Type>,
    /// Its constants, and the labels of its loops.
    pub besides: Vec<String>,
}

pub struct Function {
    pub name: String,
    pub public: bool,
    /// It is called from C.
    pub exported: bool,
    pub parameters: Vec<String>,
    /// The words of its signature, types among them.
    pub words: Vec<String>,
    /// What its `requires` and `ensures` say.
    pub clauses: Vec<Vec<Tree>>,
}

/// A struct, an enum or a trait; or, as `Trait for Type`, what an impl says of a trait's ghost members.
#[derive(Default)]
pub struct Type {
    pub name: String,
    /// The type that it is an impl for.
    pub of: Option<String>,
    pub words: Vec<String>,
    /// The numbers of its lines, of an impl those of its head and its ghost members.
    pub lines: Vec<usize>,
    /// What its ghost clauses may use besides: its fields, its ghost members and its type parameters.
    pub bound: Vec<String>,
    /// What its ghost fields or ghost members say, and of a trait the contracts of its functions, which each
    /// impl keeps.
    pub clauses: Vec<Vec<Tree>>,
}

/// Reads a file of Rattle, laid out by the formatter; an error begins with the number of the line.
pub fn read(text: &str) -> Result<Code, String> {
    let lines = lines(text);
    let mut code = Code { cited: cited(text), ..Code::default() };
    for (i, line) in lines.iter().enumerate() {
        let rest = without_marks(&line.text);
        code.besides.extend(constant(&line.text).or_else(|| label(&line.text)).map(str::to_string));
        if rest.starts_with("ghost use ") {
            let text = joined(&lines[i..i + balanced(&lines[i..])]);
            code.ghosts.extend(read_use(&without_marks(&text)["ghost use ".len()..]));
        } else if rest.starts_with("use ") {
            let text = joined(&lines[i..i + balanced(&lines[i..])]);
            let used = &without_marks(&text)["use ".len()..];
            code.uses.extend(paths(used).map_err(|e| format!("{}: {e}", line.number))?);
        } else if ["struct ", "enum ", "trait "].iter().any(|word| rest.starts_with(word)) {
            code.types.push(read_type(&lines[i..i + balanced(&lines[i..])])?);
        } else if let Some(head) = rest.strip_prefix("impl") {
            code.types.extend(read_impl(head, &lines[i..i + balanced(&lines[i..])])?);
        } else if rest.starts_with("fn ") {
            code.functions.push(read_function(&lines[i..])?);
        }
    }
    Ok(code)
}

/// The lines that hold something: neither blank nor a comment.
fn lines(text: &str) -> Vec<Line> {
    let line = |(i, line): (usize, &str)| Line { number: i + 1, indent: 0, text: line.trim().to_string() };
    let holds = |line: &Line| !line.text.is_empty() && !line.text.starts_with("//");
    text.lines().enumerate().map(line).filter(holds).collect()
}

fn joined(lines: &[Line]) -> String {
    let text: Vec<&str> = lines.iter().map(|line| line.text.as_str()).collect();
    text.join(" ")
}

/// An item without what may stand before its word.
fn without_marks(line: &str) -> &str {
    let mut rest = line;
    for mark in ["pub(crate) ", "pub ", "const ", "extern \"C\" "] {
        rest = rest.strip_prefix(mark).unwrap_or(rest);
    }
    rest
}

/// How many lines an item takes: up to the brace that closes its first one, or to a semicolon before any brace.
fn balanced(lines: &[Line]) -> usize {
    let (mut opened, mut closed) = (0, 0);
    for (i, line) in lines.iter().enumerate() {
        opened += line.text.matches('{').count();
        closed += line.text.matches('}').count();
        if opened <= closed && (opened > 0 || line.text.ends_with(';')) {
            return i + 1;
        }
    }
    lines.len()
}

/// The paths through a crate's `specs` or `proofs` that are written with `::`: only tactics are given such
/// ones. The kit's own are left out.
fn cited(text: &str) -> Vec<Vec<String>> {
    let paths = text.split(|c: char| c.is_whitespace() || "(),;".contains(c));
    let parts = |path: &str| path.split("::").map(str::to_string).collect();
    let is_cited = |path: &&str| path.contains("::specs::") || path.contains("::proofs::");
    paths.filter(is_cited).filter(|path| !path.starts_with("std::")).map(parts).collect()
}

/// The name in `pub const NAME: type = ..`.
fn constant(line: &str) -> Option<&str> {
    let rest = line.strip_prefix("pub(crate) ").or_else(|| line.strip_prefix("pub ")).unwrap_or(line);
    let (name, _) = rest.strip_prefix("const ")?.split_once(": ")?;
    (!name.contains(' ')).then_some(name)
}

/// The label in `'label: for ..`, with its mark.
fn label(line: &str) -> Option<&str> {
    line.split_once(": ").map(|(label, _)| label).filter(|label| label.starts_with('\''))
}

/// The paths of `use a::b;` or `use a::{b, c::d};`, without the word `use`.
fn paths(used: &str) -> Result<Vec<Vec<String>>, String> {
    let (path, items) = used.split_once('{').unwrap_or((used, ""));
    if items.contains('{') || used.contains(" as ") {
        return Err("a `use` line of a path, or of one with names in braces, is expected".to_string());
    }
    let path = words(path);
    if items.is_empty() {
        return Ok(vec![path]);
    }
    let items = items.split(',').map(words).filter(|item| !item.is_empty());
    Ok(items.map(|item| [&path[..], &item[..]].concat()).collect())
}

fn words(text: &str) -> Vec<String> {
    let parts = text.split(|c: char| !c.is_alphanumeric() && c != '_');
    parts.filter(|word| !word.is_empty()).map(str::to_string).collect()
}

fn read_type(lines: &[Line]) -> Result<Type, String> {
    let mut known = Type {
        lines: lines.iter().map(|line| line.number).collect(),
        bound: type_parameters(behind_name(without_marks(&lines[0].text))),
        ..Type::default()
    };
    let mut plain = Vec::new();
    let mut i = 0;
    while i < lines.len() {
        let rest = without_marks(&lines[i].text);
        if rest.starts_with("ghost ") {
            i += known.ghost(&lines[i..])?;
            continue;
        }
        if rest.starts_with("fn ") {
            let Function { parameters, clauses, .. } = read_function(&lines[i..])?;
            known.bound.extend(parameters);
            known.clauses.extend(clauses);
        }
        plain.push(lines[i].clone());
        i += 1;
    }
    let plain = joined(&plain);
    let fields = plain.split(": ").filter_map(|part| words(part).pop());
    known.bound.extend(fields);
    known.words = words(without_marks(&plain)).split_off(1);
    known.name = known.words.remove(0);
    Ok(known)
}

/// An impl of a trait that says what its ghost members are, by what stands behind the word `impl`.
fn read_impl(head: &str, lines: &[Line]) -> Result<Option<Type>, String> {
    let (parameters, head) = at_parameters(head);
    let Some((of_trait, of_type)) = head.split_once(" for ") else { return Ok(None) };
    let (of_trait, of_type) = (words(of_trait), words(of_type));
    let (Some(name), Some(of)) = (of_trait.first(), of_type.first()) else { return Ok(None) };
    let mut known = Type {
        name: format!("{name} for {of}"),
        of: Some(of.clone()),
        words: [&of_trait[..], &of_type[..]].concat(),
        lines: vec![lines[0].number],
        bound: type_parameters(parameters),
        clauses: Vec::new(),
    };
    let mut i = 0;
    while i < lines.len() {
        if lines[i].text.starts_with("ghost ") {
            let length = known.ghost(&lines[i..])?;
            known.lines.extend(lines[i..i + length].iter().map(|line| line.number));
            i += length;
        } else {
            i += 1;
        }
    }
    Ok((!known.clauses.is_empty()).then_some(known))
}

impl Type {
    /// `ghost name: { .. }` of a struct or a trait, or `ghost name = { .. }` of an impl. Answers how many
    /// lines it takes.
    fn ghost(&mut self, lines: &[Line]) -> Result<usize, String> {
        let length = balanced(lines);
        let text = joined(&lines[..length]);
        let clause = text.split_once('{').and_then(|(head, rest)| Some((head, rest.rsplit_once('}')?.0)));
        let (head, inner) = clause.ok_or_else(|| format!("{}: no ghost clause", lines[0].number))?;
        self.bound.extend(words(head).pop());
        self.clauses.push(tree::read(inner).map_err(|e| format!("{}: {e}", lines[0].number))?);
        Ok(length)
    }
}

/// The text that begins with `<`, divided behind the `>` that closes it.
fn at_parameters(text: &str) -> (&str, &str) {
    let mut open = 0;
    for (i, c) in text.char_indices() {
        match c {
            '<' => open += 1,
            '>' if !text[..i].ends_with('-') => open -= 1,
            _ => (),
        }
        if open == 0 {
            return text.split_at(if c == '>' { i + 1 } else { i });
        }
    }
    (text, "")
}

/// The names of the types and constants in `<'a, T: Trait, const N: usize>`, where the text begins so.
fn type_parameters(text: &str) -> Vec<String> {
    let (inner, _) = at_parameters(text);
    let is_lifetime = |part: &&str| part.trim_start_matches(['<', ' ']).starts_with('\'');
    let name = |part: &str| words(part.split(':').next().unwrap_or(part)).pop();
    inner.split(',').filter(|part| !is_lifetime(part)).filter_map(name).collect()
}

/// The text behind an item's word and name.
fn behind_name(text: &str) -> &str {
    text.trim_start_matches(|c: char| c.is_alphanumeric() || c == '_' || c == ' ')
}

/// A signature runs up to its first clause or to the body's brace, and each clause to its closing brace.
fn read_function(lines: &[Line]) -> Result<Function, String> {
    let is_clause = |line: &Line| line.text.starts_with("requires") || line.text.starts_with("ensures");
    let ends = |line: &Line| is_clause(line) || line.text.contains('{') || line.text.ends_with(';');
    let mut i = lines.iter().position(ends).unwrap_or(lines.len() - 1);
    let last = if is_clause(&lines[i]) { i } else { i + 1 };
    let signature = joined(&lines[..last]);
    let signature = signature.split('{').next().unwrap_or(&signature);
    let mut clauses = Vec::new();
    while lines.get(i).is_some_and(is_clause) {
        let length = balanced(&lines[i..]);
        let text = joined(&lines[i..i + length]);
        let inner = text.split_once('{').and_then(|(_, rest)| rest.rsplit_once('}'));
        let inner = inner.map_or("", |(inner, _)| inner);
        clauses.push(tree::read(inner).map_err(|e| format!("{}: {e}", lines[i].number))?);
        i += length;
    }
    let public = signature.starts_with("pub ");
    let exported = signature.starts_with("pub extern");
    let words = words(signature);
    let name = words.iter().skip_while(|word| *word != "fn").nth(1).cloned().unwrap_or_default();
    Ok(Function { name, public, exported, parameters: parameters(signature), words, clauses })
}

/// The type parameters and the names before the colons of `f<T>(name: type, name: type)`, and those that each
/// contract may use besides.
fn parameters(signature: &str) -> Vec<String> {
    let behind = signature.split_once("fn ").map_or("", |(_, rest)| behind_name(rest));
    let (of_types, rest) = at_parameters(behind);
    let inner = rest.split_once('(').map_or("", |(_, rest)| rest);
    let named = inner.split(',').filter_map(|part| part.split_once(": ")).map(|(name, _)| name);
    let named = named.chain(["self", "result"]).filter_map(|name| words(name).pop());
    type_parameters(of_types).into_iter().chain(named).collect()
}
