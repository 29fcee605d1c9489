//! The crates of the repository, their specs, code and proofs, and what a name means in each file. The files
//! right in a crate's `proofs/` hold laws and what these need, and are read as its specs are; those further
//! down prove what single functions do.

use crate::antt::{self, operator_parts, Brings, Definition, Kind, Spec, Use};
use crate::rattle::{self, Code};
use std::collections::HashMap;
use std::fs;
use std::path::Path;

/// A line of crates.txt.
pub struct Crate {
    pub name: String,
    pub calls: Vec<String>,
}

/// A file that was read, and what names mean in it.
pub struct File<T> {
    /// The crate that it belongs to, by its place in crates.txt.
    pub of: usize,
    pub path: String,
    /// Its name in a `use` path: `specs.Graph`, `proofs.Drive`, or `answer`; a root of code has none.
    pub module: String,
    pub text: T,
    pub scope: Scope,
}

impl<T> File<T> {
    /// A file by its path below a folder, which tells its module's name there.
    pub fn new(of: usize, folder: &str, path: &str, text: T) -> File<T> {
        let inner = path[folder.len() + 1..].rsplit_once('.').map_or("", |(inner, _)| inner);
        let module = if inner == "lib" || inner == "main" { "" } else { inner };
        File { of, path: path.to_string(), module: module.replace('/', "."), text, scope: Scope::default() }
    }
}

/// What stands behind a name: a definition or law of antt, or a type, a trait or an impl of the code, each by
/// its file and its place there; or something of the kit, which is believed as a whole.
#[derive(Clone, Copy, PartialEq, Eq, PartialOrd, Ord, Hash, Debug)]
pub enum Target {
    Code(usize, usize),
    Spec(usize, usize),
    Kit,
}

/// Behind a type of the code: the module of its variants.
const VARIANTS: &str = "TheVariants";

/// What a name means, and whether it is a constructor.
type Meaning = (Target, bool);

#[derive(Default)]
pub struct Scope {
    names: HashMap<String, Meaning>,
    modules: HashMap<String, String>,
}

impl Scope {
    pub fn is_constructor(&self, name: &str) -> bool {
        self.names.get(name).is_some_and(|(_, is_constructor)| *is_constructor)
    }

    /// An operator is written by its parts.
    fn bring(&mut self, name: &str, meaning: Meaning) {
        self.names.insert(name.to_string(), meaning);
        for part in operator_parts(name) {
            self.names.insert(part.to_string(), meaning);
        }
    }
}

pub struct Repository {
    pub crates: Vec<Crate>,
    /// The files of `specs/`, and those right in `proofs/`.
    pub specs: Vec<File<Spec>>,
    pub codes: Vec<File<Code>>,
}

impl Repository {
    /// Reads the specs, the laws and the code of all crates of crates.txt, from the repository's folder.
    pub fn read() -> Result<Repository, String> {
        let crates = read_crates()?;
        let (mut specs, mut codes) = (Vec::new(), Vec::new());
        for (of, known) in crates.iter().enumerate() {
            let folder = format!("crates/{}", known.name);
            let (laws, _) = split_proofs(&folder)?;
            for paths in [files(Path::new(&format!("{folder}/specs")), ".antt")?, laws] {
                let mut read = read_files(of, &folder, &paths, antt::read)?;
                let is_root = |file: &&File<_>| matches!(&file.module[..], "specs.Lib" | "proofs.Lib");
                let root = read.iter().find(is_root);
                let order = root.map_or(Vec::new(), |file| file.text.children.clone());
                read.sort_by_key(|file| {
                    order.iter().position(|child| file.module.split('.').nth(1) == Some(child))
                });
                specs.append(&mut read);
            }
            let folder = format!("{folder}/src");
            codes.append(&mut read_files(of, &folder, &files(Path::new(&folder), ".rt")?, rattle::read)?);
        }
        Repository::of(crates, specs, codes)
    }

    /// A repository of files that were read: what names mean in them is told here.
    pub fn of(
        crates: Vec<Crate>,
        specs: Vec<File<Spec>>,
        codes: Vec<File<Code>>,
    ) -> Result<Repository, String> {
        let mut repository = Repository { crates, specs, codes };
        repository.bring_names()?;
        Ok(repository)
    }

    /// Reads the proofs of single functions too. The lists need none of them, so they can be made while such
    /// proofs are being written.
    pub fn proofs(&self) -> Result<Vec<File<Spec>>, String> {
        let mut proofs = Vec::new();
        for (of, known) in self.crates.iter().enumerate() {
            let folder = format!("crates/{}", known.name);
            let (_, of_functions) = split_proofs(&folder)?;
            for mut file in read_files(of, &folder, &of_functions, antt::read)? {
                file.scope = self.scope(&file.text.uses, &file.path)?;
                proofs.push(file);
            }
        }
        Ok(proofs)
    }

    fn bring_names(&mut self) -> Result<(), String> {
        for i in 0..self.specs.len() {
            let mut scope = self.scope(&self.specs[i].text.uses, &self.specs[i].path)?;
            for (j, definition) in self.specs[i].text.definitions.iter().enumerate() {
                scope.bring(&definition.name, (Target::Spec(i, j), false));
                for (member, _) in definition.members.iter().filter(|_| definition.kind == Kind::Data) {
                    scope.bring(member, (Target::Spec(i, j), true));
                }
            }
            self.specs[i].scope = scope;
        }
        for i in 0..self.codes.len() {
            self.codes[i].scope = self.scope(&self.codes[i].text.ghosts, &self.codes[i].path)?;
        }
        Ok(())
    }

    fn scope(&self, uses: &[Use], path: &str) -> Result<Scope, String> {
        let mut scope = Scope::default();
        for used in uses {
            match &used.brings {
                Brings::Module(name) => {
                    scope.modules.insert(name.clone(), used.path.clone());
                }
                Brings::Item { item, name } => {
                    let meaning = self.locate(&used.path, item).map_err(|e| format!("{path}: {e}"))?;
                    scope.bring(name, meaning);
                }
            }
        }
        Ok(scope)
    }

    /// What an item of a module is. What stands in no crate of crates.txt is the kit's, or generated by it.
    fn locate(&self, module: &str, item: &str) -> Result<Meaning, String> {
        let parts: Vec<&str> = module.split('.').collect();
        let ["Rattle", name, inner @ ..] = &parts[..] else { return Ok((Target::Kit, false)) };
        let Some(of) = self.crates.iter().position(|known| known.name == *name) else {
            return Ok((Target::Kit, false));
        };
        let found = match inner {
            ["specs", "contracts", ..] => Some((Target::Kit, false)),
            ["specs", "declared", path @ ..] => {
                self.code_type(of, path).map(|target| (target, path.contains(&VARIANTS)))
            }
            ["specs", ..] | ["proofs", _] => self.spec_item(of, &inner.join("."), item),
            // what is generated, or stands in the proof of one function
            _ => Some((Target::Kit, false)),
        };
        found.ok_or_else(|| format!("nothing is found for `{item}` of `{module}`"))
    }

    /// A type of the code by the path behind `declared`: its module, its name, and perhaps its variants.
    fn code_type(&self, of: usize, path: &[&str]) -> Option<Target> {
        let path = path.strip_suffix(&[VARIANTS]).unwrap_or(path);
        let (name, module) = path.split_last()?;
        self.find_type(of, &module.join("."), name)
    }

    fn find_type(&self, of: usize, module: &str, name: &str) -> Option<Target> {
        let file = self.codes.iter().position(|file| file.of == of && file.module == module)?;
        let place = self.codes[file].text.types.iter().position(|known| known.name == name)?;
        Some(Target::Code(file, place))
    }

    fn spec_item(&self, of: usize, module: &str, item: &str) -> Option<Meaning> {
        let file = self.specs.iter().position(|file| file.of == of && file.module == module)?;
        let definitions = &self.specs[file].text.definitions;
        if let Some(place) = definitions.iter().position(|known| known.name == item) {
            return Some((Target::Spec(file, place), false));
        }
        let place =
            definitions.iter().position(|known| known.kind == Kind::Data && has_member(known, item))?;
        Some((Target::Spec(file, place), true))
    }

    /// What a name in a file means; nothing, where the file does not bring it.
    pub fn meaning(&self, scope: &Scope, path: &[String]) -> Result<Option<Target>, String> {
        let first = path[0].as_str();
        let bare = scope.names.get(first).or_else(|| scope.names.get(first.trim_matches('◌')));
        let bare = bare.map(|(target, _)| *target);
        let Some((last, module)) = path.split_last().filter(|(_, module)| !module.is_empty()) else {
            return Ok(bare);
        };
        if let Some(Target::Spec(file, place)) = bare {
            if has_member(&self.specs[file].text.definitions[place], &path[1]) {
                return Ok(bare);
            }
        }
        let module = match scope.modules.get(first) {
            Some(whole) => [std::slice::from_ref(whole), &module[1..]].concat().join("."),
            None if first == "Rattle" => module.join("."),
            None => return Ok(bare),
        };
        self.locate(&module, last).map(|(target, _)| Some(target))
    }

    /// What of antt a tactic in a crate's code is given, by a path such as `crate::specs::Runs::larger`.
    pub fn cited(&self, of: usize, path: &[String]) -> Option<Target> {
        let [first, module @ .., item] = path else { return None };
        let other = self.crates.iter().position(|known| known.name == *first);
        let of = if first == "crate" { Some(of) } else { other }?;
        self.spec_item(of, &module.join("."), item).map(|(target, _)| target)
    }

    /// The types of the code that the words of an item name, in its file.
    pub fn code_types(&self, file: usize, words: &[String]) -> Vec<Target> {
        let here = &self.codes[file];
        let mut found = Vec::new();
        for word in words {
            found.extend(self.find_type(here.of, &here.module, word));
            for used in here.text.uses.iter().filter(|used| used.len() > 1 && used.last() == Some(word)) {
                let module = used[1..used.len() - 1].join(".");
                let other = self.crates.iter().position(|known| known.name == used[0]);
                let of = if used[0] == "crate" { Some(here.of) } else { other };
                found.extend(of.and_then(|of| self.find_type(of, &module, word)));
            }
        }
        found
    }

    /// The impls that say what ghost members are of a type of the code.
    pub fn impls(&self, target: Target) -> Vec<Target> {
        let mut found = Vec::new();
        for (i, file) in self.codes.iter().enumerate() {
            for (j, known) in file.text.types.iter().enumerate() {
                let Some(of) = &known.of else { continue };
                if self.code_types(i, std::slice::from_ref(of)).contains(&target) {
                    found.push(Target::Code(i, j));
                }
            }
        }
        found
    }
}

fn has_member(definition: &Definition, name: &str) -> bool {
    definition.members.iter().any(|(member, _)| member == name)
}

fn read_crates() -> Result<Vec<Crate>, String> {
    let text = load("crates.txt")?;
    let lines = text.lines().map(|line| line.split('#').next().unwrap_or("").trim());
    let read = |line: &str| {
        let (name, calls) =
            line.split_once(':').ok_or_else(|| format!("crates.txt: `{line}` has no colon"))?;
        // a word may stand behind the name, as in `ffi staticlib: low`
        let name = name.split_whitespace().next().unwrap_or(name);
        Ok(Crate { name: name.to_string(), calls: calls.split_whitespace().map(str::to_string).collect() })
    };
    lines.filter(|line| !line.is_empty()).map(read).collect()
}

/// The text of a file of the repository.
pub fn load(path: &str) -> Result<String, String> {
    fs::read_to_string(path).map_err(|e| format!("{path}: {e}"))
}

/// Reads files below a folder, by which their modules are named.
fn read_files<T>(
    of: usize,
    folder: &str,
    paths: &[String],
    read: fn(&str) -> Result<T, String>,
) -> Result<Vec<File<T>>, String> {
    let one = |path: &String| {
        let text = read(&load(path)?).map_err(|e| format!("{path}:{e}"))?;
        Ok(File::new(of, folder, path, text))
    };
    paths.iter().map(one).collect()
}

/// The files of antt in a crate's `proofs/`: those right in it, and those further down.
fn split_proofs(of_crate: &str) -> Result<(Vec<String>, Vec<String>), String> {
    let folder = format!("{of_crate}/proofs");
    let paths = files(Path::new(&folder), ".antt")?;
    Ok(paths.into_iter().partition(|path| !path[folder.len() + 1..].contains('/')))
}

/// The files below a folder whose names end so, by their paths; none, where there is no such folder.
fn files(folder: &Path, ending: &str) -> Result<Vec<String>, String> {
    let mut found = Vec::new();
    let Ok(entries) = fs::read_dir(folder) else { return Ok(found) };
    for entry in entries {
        let path = entry.map_err(|e| format!("{}: {e}", folder.display()))?.path();
        let name = path.to_string_lossy().into_owned();
        if path.is_dir() {
            found.append(&mut files(&path, ending)?);
        } else if name.ends_with(ending) {
            found.push(name);
        }
    }
    found.sort();
    Ok(found)
}
