//! The text of antt as names and groups: what a reader of names needs, and no more.

/// A part of antt text. Quoted texts and comments name nothing, and leave nothing here.
#[derive(Debug, Clone, PartialEq)]
pub enum Tree {
    /// A name, or names joined by dots with no space (`answer.Refused`). Operators and words are names too.
    Name(Vec<String>),
    /// A projection behind a bracket, `(g x).field`: it names a field and no definition. One behind a name is
    /// joined to it as above.
    Field,
    /// A comma, a semicolon, or the dot that ends the binders of a λ.
    Mark(char),
    /// What stands between brackets, by the opening one: `(`, `{` or, around the cases of an `elim`, `[`.
    Group(char, Vec<Tree>),
}

impl Tree {
    /// Is it this one name?
    pub fn is(&self, word: &str) -> bool {
        matches!(self, Tree::Name(path) if path.len() == 1 && path[0] == word)
    }

    /// The name, where it is one without dots.
    pub fn bare(&self) -> Option<&str> {
        match self {
            Tree::Name(path) if path.len() == 1 => Some(&path[0]),
            _ => None,
        }
    }
}

/// Reads antt text; an error says which bracket or character cannot be read.
pub fn read(text: &str) -> Result<Vec<Tree>, String> {
    let mut reader = Reader { text: text.chars().collect(), at: 0 };
    reader.level(None)
}

/// The parts of a sequence that a separator divides; the parts between two commas of a tuple, for one.
pub fn parts(text: &[Tree], ends: impl Fn(&Tree) -> bool) -> Vec<&[Tree]> {
    text.split(|tree| ends(tree)).filter(|part| !part.is_empty()).collect()
}

struct Reader {
    text: Vec<char>,
    at: usize,
}

impl Reader {
    fn peek(&self, ahead: usize) -> Option<char> {
        self.text.get(self.at + ahead).copied()
    }

    /// Everything up to a closing bracket, or up to the end.
    fn level(&mut self, close: Option<char>) -> Result<Vec<Tree>, String> {
        let mut found = Vec::new();
        while let Some(c) = self.peek(0) {
            match c {
                _ if c.is_whitespace() => self.at += 1,
                '{' if self.peek(1) == Some('-') => return Err("a comment in braces is not read".to_string()),
                '(' | '{' => found.push(self.group(c)?),
                ')' | '}' if Some(c) == close => {
                    self.at += 1;
                    return Ok(found);
                }
                '"' => self.quoted(),
                ',' | ';' => {
                    found.push(Tree::Mark(c));
                    self.at += 1;
                }
                '.' => found.push(self.dot()),
                _ if !in_name(c) => return Err(format!("`{c}` stands where it cannot be read")),
                '-' if self.peek(1) == Some('-') => self.comment(),
                _ => match self.path() {
                    Tree::Name(path) if path == ["["] => {
                        found.push(Tree::Group('[', self.level(Some(']'))?));
                    }
                    Tree::Name(path) if path == ["]"] && close == Some(']') => return Ok(found),
                    name => found.push(name),
                },
            }
        }
        match close {
            None => Ok(found),
            Some(c) => Err(format!("there is no `{c}`")),
        }
    }

    fn group(&mut self, open: char) -> Result<Tree, String> {
        self.at += 1;
        Ok(Tree::Group(open, self.level(Some(if open == '(' { ')' } else { '}' }))?))
    }

    /// A projection, or the dot that ends binders: a name stands right behind the dot, or does not.
    fn dot(&mut self) -> Tree {
        self.at += 1;
        if self.peek(0).is_some_and(in_name) {
            self.path();
            return Tree::Field;
        }
        Tree::Mark('.')
    }

    /// A name, and the names behind it that a dot joins to it.
    fn path(&mut self) -> Tree {
        let mut path = vec![self.name()];
        while self.peek(0) == Some('.') && self.peek(1).is_some_and(in_name) {
            self.at += 1;
            path.push(self.name());
        }
        Tree::Name(path)
    }

    fn name(&mut self) -> String {
        let start = self.at;
        while self.peek(0).is_some_and(in_name) {
            self.at += 1;
        }
        self.text[start..self.at].iter().collect()
    }

    fn quoted(&mut self) {
        self.at += 1;
        while let Some(c) = self.peek(0) {
            self.at += if c == '\\' { 2 } else { 1 };
            if c == '"' {
                return;
            }
        }
    }

    fn comment(&mut self) {
        while self.peek(0).is_some_and(|c| c != '\n') {
            self.at += 1;
        }
    }
}

/// A name is a run of any characters but blank space and these.
fn in_name(c: char) -> bool {
    !c.is_whitespace() && !"(){}.;,@\"«»".contains(c)
}
