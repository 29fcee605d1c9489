//! The reading of files, on small texts: what is bound where, what a line is, what is said of a difference.

use crate::antt::{self, Brings, Spec};
use crate::documents::difference;
use crate::names::{in_contract, in_type, Extent, Names};
use crate::promises;
use crate::rattle;
use crate::reach::{self, Reached};
use crate::repository::{Crate, File, Repository, Scope, Target};
use crate::rooms::first_sentence;
use crate::tables;

/// The free names of the last definition of a text, where `ticks` is a constructor.
fn free(text: &str, extent: Extent) -> String {
    let spec: Spec = antt::read(text).expect("the text can be read");
    let constructor = |name: &str| name == "ticks";
    let mut names = Names::new(&constructor);
    names.definition(&spec, spec.definitions.last().expect("there is a definition"), extent);
    let joined: Vec<String> = names.free.iter().map(|path| path.join(".")).collect();
    joined.join(" ")
}

#[test]
fn binders_hide_names() {
    assert_eq!(
        free("f : T\nf nodes (tail, _) = g nodes tail (λ head. head) head", Extent::Whole),
        "T g head"
    );
    assert_eq!(free("f : (n : A) {m : B n} → C n m", Extent::Whole), "A B C →");
    assert_eq!(free("f : (A → (n : B) × C n) → n", Extent::Whole), "A B C n × →");
    assert_eq!(free("f : T\nf = (λ n. n, n)", Extent::Whole), "T n");
}

#[test]
fn a_let_binds_behind_its_in() {
    assert_eq!(free("f : T\nf a = let start = start a in g start", Extent::Whole), "= T g start");
    assert_eq!(free("f : T\nf = let k : A = let m = b in m in h k m", Extent::Whole), ": = A T b h m");
}

#[test]
fn constructors_are_cited_in_patterns() {
    let text = "f : T\nf (ticks d) = elim d [\n  | ticks e ↦ g e\n  | answer.No other ↦ other\n]";
    assert_eq!(free(text, Extent::Whole), "T answer.No elim g ticks");
}

#[test]
fn labels_and_fields_are_no_names() {
    let text = "f : T\nf h = record { nodes = h.nodes; arcs = (k h).arcs + count {A = h} \"quoted\" }";
    assert_eq!(free(text, Extent::Whole), "+ T count k record");
}

#[test]
fn a_where_block_is_part_of_its_clause() {
    let text = "f : T\nf a = go a\n  where\n    go : U\n    go b = h a b";
    assert_eq!(free(text, Extent::Whole), "T U h");
}

#[test]
fn a_section_is_part_of_a_statement() {
    let text =
        "module _ (g : Graph)\n    (h : Lawful g) where\n  pub law : P g h\n  unfolding k\n  law = proof g";
    assert_eq!(free(text, Extent::Statement), "Graph Lawful P");
    assert_eq!(free(text, Extent::Whole), "Graph Lawful P proof");
    assert_eq!(free(text, Extent::Text), "Graph Lawful P k proof");
}

#[test]
fn operators_and_records() {
    assert_eq!(
        free("infix 10 ◌gives◌\nabbrev ◌gives◌ : T\nq gives a_b = pair q a_b", Extent::Whole),
        "T pair"
    );
    assert_eq!(
        free("pub record R (n : A) : Type 0 where\n  pub a : B n\n  b : C a", Extent::Whole),
        ": A B C Type"
    );
}

#[test]
fn lines_are_those_that_hold_something() {
    let spec = antt::read("-- a remark\n\nf : T\nf = record {\n  -- another\n  a = b;\n}\n")
        .expect("it can be read");
    assert_eq!(
        (&spec.definitions[0].statement_lines[..], &spec.definitions[0].body_lines[..]),
        (&[3][..], &[4, 6, 7][..])
    );
    assert!(antt::read("f : T\ng = a").is_err());
}

#[test]
fn a_use_line_names_modules() {
    let said = |text: &str| {
        let uses = antt::read_use(text);
        let one = |used: &antt::Use| match &used.brings {
            Brings::Item { item, name } => format!("{}/{item}={name}", used.path),
            Brings::Module(name) => format!("{}={name}", used.path),
        };
        uses.iter().map(one).collect::<Vec<_>>().join(" ")
    };
    assert_eq!(said(" a.B.{x, y as z}"), "a.B/x=x a.B/y=z");
    assert_eq!(said(" a.{B.◌+◌, C.D.x as y, z};"), "a.B/◌+◌=◌+◌ a.C.D/x=y a/z=z");
    assert_eq!(said(" a.B as b"), "a.B=b");
    assert_eq!(said(" a.B"), "a.B=B");
}

#[test]
fn contracts_and_types_of_code() {
    let types = "pub struct U;\n\npub enum E {\n    A(S),\n}\n";
    let head = "#[unsafe(no_mangle)]\npub extern \"C\" fn f(\n    of: &mut [u8],\n) -> E\n";
    let clauses = "    requires laid { p of.old }\n    ensures { q of.new\n        ≡ r result }\n";
    let function = format!("{head}{clauses}{{\n}}\n");
    let code = rattle::read(&format!("{types}\n{function}")).expect("it can be read");
    assert_eq!((code.types[0].name.as_str(), &code.types[0].lines[..]), ("U", &[1][..]));
    assert_eq!((code.types[1].name.as_str(), &code.types[1].lines[..]), ("E", &[3, 4, 5][..]));
    let function = &code.functions[0];
    assert_eq!((function.name.as_str(), function.public, function.exported), ("f", true, true));
    assert_eq!(function.clauses.iter().map(Vec::len).collect::<Vec<_>>(), [2, 5]);
    assert_eq!(function.parameters, ["of", "self", "result"]);
}

#[test]
fn what_code_brings_and_cites() {
    let uses = "use a::b;\nuse c::{\n    D,\n    e::F,\n};\nghost use Rattle.a.specs.B.{x, y};\n";
    let tactic = "#[tactic(auto, using(crate::specs::A::b, std::proofs::c), unfolding(d::specs::E::f))]\n";
    let code = rattle::read(&format!("{uses}\n{tactic}")).expect("it can be read");
    let joined =
        |paths: &[Vec<String>]| paths.iter().map(|path| path.join(".")).collect::<Vec<_>>().join(" ");
    assert_eq!(joined(&code.uses), "a.b c.D c.e.F");
    assert_eq!(code.ghosts.len(), 2);
    assert_eq!(joined(&code.cited), "crate.specs.A.b d.specs.E.f");
    assert!(rattle::read("use a::{b, c::{d}};\n").is_err());
}

/// The free names of what the last ghost clauses of a text of code say, and the words of their type.
fn ghosts(text: &str) -> (String, String) {
    let code = rattle::read(text).expect("it can be read");
    let known = code.types.last().expect("there is a type, a trait or an impl with ghosts");
    let free = in_type(known, &Scope::default());
    (free.iter().map(|path| path.join(".")).collect::<Vec<_>>().join(" "), known.words.join(" "))
}

#[test]
fn a_ghost_field_is_read() {
    let fields = "    n: u8,\n    of: &'a [V],\n    pub ghost low: { Low V of.now\n        n × (n < 9) },\n";
    let (free, words) = ghosts(&format!("#[derive(Clone)]\npub struct S<'a, V: Copy> {{\n{fields}}}\n"));
    assert_eq!((free.as_str(), words.as_str()), ("< Low ×", "a V Copy n u8 of a V"));
    let one = rattle::read(&format!("pub struct S<'a, V: Copy> {{\n{fields}}}\n")).expect("it can be read");
    assert_eq!((one.types[0].name.as_str(), &one.types[0].lines[..]), ("S", &[1, 2, 3, 4, 5, 6][..]));
}

#[test]
fn ghost_members_of_a_trait_are_read() {
    let members = "    ghost left: { Self → ℕ };\n\n";
    let function = "    fn step(&mut self, by: U)\n        requires { Far by (left self.old) };\n";
    let (free, words) = ghosts(&format!("pub trait P<T>: Drop {{\n{members}{function}}}\n"));
    assert_eq!(free, "Far ℕ →");
    assert!(words.starts_with("T Drop fn step mut self by U"), "{words}");
}

#[test]
fn ghost_members_of_an_impl_are_read() {
    let members = "    ghost left = { λ s. rest (size T s.n).most s };\n\n";
    let function = "    fn step(&mut self, by: U) {\n        self.n += 1;\n    }\n";
    let text = format!("impl<'a, T> P<T> for R<'a, T> {{\n{members}{function}}}\n");
    assert_eq!(ghosts(&text), ("rest size".to_string(), "P T R a T".to_string()));
    let code = rattle::read(&text).expect("it can be read");
    let known = &code.types[0];
    assert_eq!(
        (known.name.as_str(), known.of.as_deref(), &known.lines[..]),
        ("P for R", Some("R"), &[1, 2][..])
    );
    // an impl without ghost members says nothing
    assert!(rattle::read(&format!("impl R {{\n{function}}}\n")).expect("it can be read").types.is_empty());
    assert!(rattle::read(&format!("impl P for R {{\n{function}}}\n"))
        .expect("it can be read")
        .types
        .is_empty());
}

#[test]
fn type_parameters_are_bound_in_a_contract() {
    let head = "pub fn fill<'a, P: Points<u8>, const N: usize>(mut points: P, count: usize) -> usize\n";
    let clause = "    requires { day (P.ticks points) count N × (result ≤ a) }\n";
    let code = rattle::read(&format!("{head}{clause}{{\n}}\n")).expect("it can be read");
    let free = in_contract(&code.functions[0], &Scope::default());
    let free: Vec<String> = free.iter().map(|path| path.join(".")).collect();
    assert_eq!(free.join(" "), "a day × ≤");
}

/// The crate of `small` with other code, whose function C calls.
fn small_with(code: &str) -> Repository {
    let Repository { crates, specs, .. } = small();
    let code = rattle::read(code).expect("it can be read");
    let code = File::new(0, "crates/low/src", "crates/low/src/lib.rt", code);
    Repository::of(crates, specs, vec![code]).expect("every name is found")
}

#[test]
fn ghosts_count_where_a_contract_takes_their_type() {
    let uses = "ghost use Rattle.low.specs.Graph.{Exact, unnamed};\n";
    let taking = |of: &str| format!("pub extern \"C\" fn walk(of: {of})\n{{\n}}\n");
    let list = |items: &str, of: &str| {
        let repository = &small_with(&format!("{uses}{items}{}", taking(of)));
        let reached = reach::from_contracts(repository, true).expect("every name is found");
        tables::table(repository, &reached, &Reached::new())
    };
    let graph = "- low/specs/Graph.antt, 4 lines: `Graph`, `Exact`\n";
    let field = "pub struct Held {\n    n: u8,\n    pub ghost exact: { Exact n },\n}\n";
    let code = "- low/src/lib.rt, 4 lines: `Held`\n";
    assert_eq!(list(field, "&Held"), format!("{code}{graph}\nTogether 8 lines.\n"));
    let member = "pub trait Told {\n    ghost told: { Exact Self };\n}\n";
    let code = "- low/src/lib.rt, 3 lines: `Told`\n";
    assert_eq!(list(member, "&impl Told"), format!("{code}{graph}\nTogether 7 lines.\n"));
    let given = "pub struct Held {\n    n: u8,\n}\n\nimpl Told for Held {\n    ghost told = { Exact };\n}\n";
    let code = "- low/src/lib.rt, 5 lines: `Held`, `Told for Held`\n";
    assert_eq!(list(given, "&Held"), format!("{code}{graph}\nTogether 9 lines.\n"));
    // a name in a ghost field that no `use` line brings is told
    let lost = small_with(&format!("{}{}", field.replace("Exact", "Exacter"), taking("&Held")));
    assert!(reach::from_contracts(&lost, true).is_err());
}

/// A crate with a spec, with laws right in its `proofs/` that use it, and with code.
fn small() -> Repository {
    let antt = |path: &str, lines: &[&str]| {
        let text = antt::read(&lines.join("\n")).expect("the text can be read");
        File::new(0, "crates/low", path, text)
    };
    let graph = antt(
        "crates/low/specs/Graph.antt",
        &[
            "use std.{T}",
            "pub record Graph : T where",
            "  pub nodes : T",
            "abbrev pub Exact : Graph → T",
            "Exact g = g",
            "pub unnamed : Graph → T",
            "unnamed g = g",
        ],
    );
    let drive = antt(
        "crates/low/proofs/Drive.antt",
        &[
            "use Rattle.low.specs.Graph.{Graph, Exact}",
            "later : Graph → Graph",
            "later g = g",
            "module _ (g : Graph) where",
            "  pub waiting : Exact g",
            "  waiting = later g",
        ],
    );
    let same = antt(
        "crates/low/proofs/Same.antt",
        &[
            "use Rattle.low.specs.Graph.{Graph}",
            "use Rattle.low.proofs.Drive as drive",
            "pub same : (g : Graph) → drive.waiting g",
            "same g = g",
        ],
    );
    let code = "pub const MOST: u8 = 9;\n\npub fn walk() -> u8 {\n    'steps: for i in 0..9 {\n    }\n}\n";
    let code = rattle::read(code).expect("it can be read");
    let code = File::new(0, "crates/low/src", "crates/low/src/lib.rt", code);
    let low = Crate { name: "low".to_string(), calls: Vec::new() };
    Repository::of(vec![low], vec![graph, drive, same], vec![code]).expect("every name is found")
}

#[test]
fn a_law_in_proofs_is_named_by_its_statement() {
    let repository = &small();
    let list = |page: &str| {
        let named = promises::named_in(repository, &Reached::new(), page);
        let reached = reach::from_named(repository, named).expect("every name is found");
        tables::table(repository, &reached, &Reached::new())
    };
    let graph = "- low/specs/Graph.antt, 4 lines: `Graph`, `Exact`\n";
    let drive = "- low/proofs/Drive.antt, 2 lines: `waiting`\n";
    assert_eq!(list("- Waiting: `waiting`."), format!("{graph}{drive}\nTogether 6 lines.\n"));
    // what a statement cites is read as a whole; a step that is not public is not meant by its name
    let drive = "- low/proofs/Drive.antt, 5 lines: `later`, `waiting`\n";
    let same = "- low/proofs/Same.antt, 1 lines: `same`\n";
    assert_eq!(list("- `same`."), format!("{graph}{drive}{same}\nTogether 10 lines.\n"));
    assert_eq!(list("- `later`."), "\nTogether 0 lines.\n");
}

#[test]
fn a_law_in_proofs_has_to_be_found() {
    let Repository { crates, mut specs, codes } = small();
    let text = antt::read("use Rattle.low.proofs.Drive.{gone}").expect("the text can be read");
    specs.push(File::new(0, "crates/low", "crates/low/proofs/Lost.antt", text));
    let error = Repository::of(crates, specs, codes).err();
    let said = "crates/low/proofs/Lost.antt: nothing is found for `gone` of `Rattle.low.proofs.Drive`";
    assert_eq!(error.as_deref(), Some(said));
}

#[test]
fn a_tactic_cites_a_law_in_proofs() {
    let tactic = "#[tactic(auto, using(crate::proofs::Drive::later, low::proofs::walk::Given::a))]\n";
    let cited = rattle::read(tactic).expect("it can be read").cited;
    let found: Vec<_> = cited.iter().map(|path| small().cited(0, path)).collect();
    assert_eq!(found, [Some(Target::Spec(1, 0)), None]);
}

#[test]
fn words_that_name_nothing() {
    let lost = |page: &str| {
        let lost = promises::lost(&small(), page);
        lost.iter().map(|(line, word)| format!("{line} {word}")).collect::<Vec<_>>().join(", ")
    };
    assert_eq!(lost("`Exact`, `waiting`, `walk`, `low`, `MOST`, `low::walk`, `'steps`, `walk g ≡ g`"), "");
    assert_eq!(lost("`waitin`, `later`\n`high::walk`"), "1 waitin, 1 later, 2 high::walk");
    // a field counts beside its record, in one entry of a list
    assert_eq!(lost("- Places: `nodes`\n  of `Graph`.\n- And `nodes`."), "3 nodes");
}

#[test]
fn documents() {
    assert_eq!(difference("a\nb\nc\n", "a\nd\nc\ne\n"), "- b\n+ d\n+ e\n");
    assert_eq!(first_sentence("// a: b (c.d) and\n// e. f\nmod g;\n", "a").as_deref(), Some("b (c.d) and e"));
    assert_eq!(first_sentence("// b: c.\n", "a"), None);
}
