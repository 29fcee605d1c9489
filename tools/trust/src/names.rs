//! The names that stand free in antt text: those that no binder, pattern or `where` block of it brings.

use crate::antt::{operator_parts, Clause, Definition, Kind, Section, Spec};
use crate::rattle::{Function, Type};
use crate::repository::{File, Scope};
use crate::tree::{parts, Tree};
use std::collections::BTreeSet;

/// The free names of a definition of a file.
pub fn in_definition(file: &File<Spec>, place: usize, extent: Extent) -> BTreeSet<Vec<String>> {
    let constructor = |name: &str| file.scope.is_constructor(name);
    let mut names = Names::new(&constructor);
    names.definition(&file.text, &file.text.definitions[place], extent);
    names.free
}

/// The free names of a function's contract; its parameters are bound in it.
pub fn in_contract(function: &Function, scope: &Scope) -> BTreeSet<Vec<String>> {
    let constructor = |name: &str| scope.is_constructor(name);
    let mut names = Names::new(&constructor);
    function.parameters.iter().for_each(|name| names.bind(name));
    function.clauses.iter().for_each(|clause| names.term(clause));
    names.free
}

/// The free names of what a type's ghost fields say, or a trait's or an impl's ghost members.
pub fn in_type(known: &Type, scope: &Scope) -> BTreeSet<Vec<String>> {
    let constructor = |name: &str| scope.is_constructor(name);
    let mut names = Names::new(&constructor);
    known.bound.iter().chain([&"Self".to_string()]).for_each(|name| names.bind(name));
    known.clauses.iter().for_each(|clause| names.term(clause));
    names.free
}

/// A walk over antt text that keeps what is bound where it stands.
pub struct Names<'a> {
    /// Is a name a constructor, where it stands in a pattern? Then it is cited and binds nothing.
    constructor: &'a dyn Fn(&str) -> bool,
    bound: Vec<String>,
    pub free: BTreeSet<Vec<String>>,
}

/// What of a definition is walked over.
#[derive(Clone, Copy, PartialEq)]
pub enum Extent {
    /// Its type alone.
    Statement,
    /// Its type and its body.
    Whole,
    /// Its `unfolding` line too, which says what a proof may look into and adds no meaning.
    Text,
}

impl<'a> Names<'a> {
    pub fn new(constructor: &'a dyn Fn(&str) -> bool) -> Self {
        Names { constructor, bound: Vec::new(), free: BTreeSet::new() }
    }

    pub fn bind(&mut self, name: &str) {
        self.bound.push(name.to_string());
    }

    /// A definition of a file, in its sections.
    pub fn definition(&mut self, spec: &Spec, definition: &Definition, extent: Extent) {
        let before = self.bound.len();
        for section in &definition.sections {
            match &spec.sections[*section].0 {
                Section::Module(parameters) => self.open_text(parameters),
                Section::Open(value, names) => {
                    self.term(value);
                    names.iter().for_each(|name| self.bind(name));
                }
            }
        }
        self.inside(definition, extent);
        self.bound.truncate(before);
    }

    fn inside(&mut self, definition: &Definition, extent: Extent) {
        let before = self.bound.len();
        self.open_text(&definition.statement);
        if !matches!(definition.kind, Kind::Record | Kind::Data) {
            self.bound.truncate(before);
        }
        if extent == Extent::Statement {
            return self.bound.truncate(before);
        }
        for (name, kind) in &definition.members {
            self.scoped(kind);
            if definition.kind == Kind::Record {
                self.bind(name);
            }
        }
        for clause in &definition.clauses {
            self.clause(&definition.name, clause, extent);
        }
        if extent == Extent::Text {
            self.term(&definition.unfolding);
        }
        self.bound.truncate(before);
    }

    fn clause(&mut self, name: &str, clause: &Clause, extent: Extent) {
        let before = self.bound.len();
        let equals = clause.text.iter().position(|tree| tree.is("=")).unwrap_or(clause.text.len());
        let own = |tree: &&Tree| tree.bare().is_some_and(|n| n == name || operator_parts(name).contains(&n));
        let left: Vec<Tree> = clause.text[..equals].iter().filter(|tree| !own(tree)).cloned().collect();
        self.pattern(&left);
        clause.inner.iter().for_each(|inner| self.bind(&inner.name));
        self.term(clause.text.get(equals + 1..).unwrap_or(&[]));
        clause.inner.iter().for_each(|inner| self.inside(inner, extent));
        self.bound.truncate(before);
    }

    /// Text in which commas and semicolons divide parts of their own.
    pub fn term(&mut self, text: &[Tree]) {
        for part in parts(text, is_divider) {
            self.scoped(part);
        }
    }

    /// Text behind which nothing stays bound.
    fn scoped(&mut self, text: &[Tree]) {
        let before = self.bound.len();
        self.open_text(text);
        self.bound.truncate(before);
    }

    /// Text whose binders stay bound behind it: each binds what comes after it.
    fn open_text(&mut self, text: &[Tree]) {
        let mut i = 0;
        while i < text.len() {
            i += match &text[i] {
                word if word.is("λ") => 1 + self.binders(&text[i + 1..]),
                word if word.is("let") => 1 + self.binding(&text[i + 1..]),
                Tree::Group('[', cases) => self.cases(cases),
                Tree::Group(_, inner) => self.group(inner),
                Tree::Name(path) => self.name(path),
                Tree::Field | Tree::Mark(_) => 1,
            }
        }
    }

    /// Each of these returns how many trees it has read.
    fn name(&mut self, path: &[String]) -> usize {
        let is_number = path[0].starts_with(|c: char| c.is_ascii_digit());
        if !is_number && path[0] != "_" && !self.bound.contains(&path[0]) {
            self.free.insert(path.to_vec());
        }
        1
    }

    /// `(x y : T)` binds for what comes after it. In `{x = e}` and `record { x = e }` the x is a label.
    fn group(&mut self, inner: &[Tree]) -> usize {
        let parts = parts(inner, is_divider);
        if let (Some(colon), 1) = (binder(inner), parts.len()) {
            self.scoped(&inner[colon + 1..]);
            self.bound.extend(inner[..colon].iter().filter_map(Tree::bare).map(str::to_string));
            return 1;
        }
        for part in parts {
            self.scoped(without_label(part));
        }
        1
    }

    /// The binders of a λ, up to their dot.
    fn binders(&mut self, text: &[Tree]) -> usize {
        let dot = text.iter().position(|tree| *tree == Tree::Mark('.')).unwrap_or(text.len());
        for tree in &text[..dot] {
            self.binding_pattern(std::slice::from_ref(tree));
        }
        dot + 1
    }

    /// `pattern : type = value in`, without the `let`.
    fn binding(&mut self, text: &[Tree]) -> usize {
        let end = matching_in(text);
        let equals = text[..end].iter().position(|tree| tree.is("=")).unwrap_or(end);
        let colon = text[..equals].iter().position(|tree| tree.is(":")).unwrap_or(equals);
        self.scoped(&text[colon..equals]);
        self.scoped(&text[equals..end]);
        self.binding_pattern(&text[..colon]);
        end + 1
    }

    /// A plain binder takes any name, a constructor's too.
    fn binding_pattern(&mut self, text: &[Tree]) {
        match text {
            [Tree::Name(path)] => self.bound.push(path[0].clone()),
            _ => self.pattern(text),
        }
    }

    /// `| pattern ↦ body | pattern ↦ body`.
    fn cases(&mut self, text: &[Tree]) -> usize {
        for case in parts(text, |tree| tree.is("|")) {
            let before = self.bound.len();
            let arrow = case.iter().position(|tree| tree.is("↦"));
            self.pattern(&case[..arrow.unwrap_or(0)]);
            self.term(&case[arrow.map_or(0, |i| i + 1)..]);
            self.bound.truncate(before);
        }
        1
    }

    /// A pattern: a constructor in it is cited, and any other name is bound.
    fn pattern(&mut self, text: &[Tree]) {
        for tree in text {
            match tree {
                Tree::Name(path) if path.len() > 1 || (self.constructor)(&path[0]) => {
                    self.name(path);
                }
                Tree::Name(path) => self.bound.push(path[0].clone()),
                Tree::Group(_, inner) if binder(inner).is_some() => {
                    self.group(inner);
                }
                Tree::Group(_, inner) => {
                    for part in parts(inner, is_divider) {
                        self.pattern(without_label(part));
                    }
                }
                Tree::Field | Tree::Mark(_) => (),
            }
        }
    }
}

fn is_divider(tree: &Tree) -> bool {
    matches!(tree, Tree::Mark(',' | ';'))
}

/// `label = text` without its label.
fn without_label(text: &[Tree]) -> &[Tree] {
    match text {
        [Tree::Name(_), equals, rest @ ..] if equals.is("=") => rest,
        _ => text,
    }
}

/// Where the colon of `x y : T` stands, if the text is of that form. The colon of a `let` is none.
fn binder(text: &[Tree]) -> Option<usize> {
    let colon = text.iter().position(|tree| tree.is(":"))?;
    let binds = |tree: &Tree| tree.bare().is_some_and(|name| name != "let" && name != "=");
    (colon > 0 && text[..colon].iter().all(binds)).then_some(colon)
}

/// Where the `in` of a `let` stands: each further `let` or `unfold` has one of its own.
fn matching_in(text: &[Tree]) -> usize {
    let mut open = 1;
    for (i, tree) in text.iter().enumerate() {
        match tree.bare() {
            Some("let" | "unfold") => open += 1,
            Some("in") => open -= 1,
            _ => (),
        }
        if open == 0 {
            return i;
        }
    }
    text.len()
}
