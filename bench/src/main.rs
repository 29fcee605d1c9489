//! The C library of Varnwalnut against plain optimised Rust, on the same bytes in one run, in turns: first what the run is made on and
//! with, then that both answer alike, then a table of times and ratios, the nodes that searches settle, and the stack that each call of
//! the library needs. With `--beside` the other side is another library with the same C functions.
mod agree;
mod beside;
mod clock;
mod files;
mod finds;
mod functions;
mod library;
mod machine;
mod measure;
mod operations;
mod plain;
mod profiles;
#[cfg(test)]
mod quay_town;
mod scene;
mod shared;
mod stack;
mod suite;
mod table;
mod texts;
mod town;

use scene::Scene;
use std::path::{Path, PathBuf};
use std::process::exit;
use suite::{Effort, Subject};

/// What the command line asks for.
struct Order {
    effort: Effort,
    other: Option<PathBuf>,
    towns: Vec<PathBuf>,
}

/// How much is run: `--rounds N` (each operation), `--checks N` (the check of the full town; beside another
/// library the check and making a plan), `--only PART` (operations whose name has it). `--beside OTHER`,
/// with `TOWN ...` behind it: beside that library, and in the towns of these folders too.
fn order() -> Order {
    let effort = Effort { rounds: 61, checks: None, only: String::new() };
    let mut order = Order { effort, other: None, towns: Vec::new() };
    let mut words = std::env::args().skip(1);
    while let Some(word) = words.next() {
        if !word.starts_with("--") {
            order.towns.push(word.into());
            continue;
        }
        let value = words.next().unwrap_or_else(|| stop(&format!("{word} needs a value")));
        let number = || value.parse().unwrap_or_else(|_| stop(&format!("{word} needs a number")));
        match word.as_str() {
            "--rounds" => order.effort.rounds = number(),
            "--checks" => order.effort.checks = Some(number()),
            "--only" => order.effort.only = value,
            "--beside" => order.other = Some(value.into()),
            _ => stop(&format!("--rounds N, --checks N, --only PART, --beside OTHER; not {word}")),
        }
    }
    if order.other.is_none() && !order.towns.is_empty() {
        stop("towns are for --beside OTHER");
    }
    order
}

/// Nothing can be measured, for a reason.
fn stop(reason: &str) -> ! {
    eprintln!("bench: {reason}");
    exit(2)
}

fn main() {
    let order = order();
    machine::print();
    match &order.other {
        None => beside_rust(&order.effort),
        Some(other) => beside_library(other, &order),
    }
}

/// The towns and texts of this program, and the towns that are given.
fn scenes(towns: &[PathBuf]) -> Result<Vec<Scene>, String> {
    let mut scenes = vec![Scene::of_shape("medium", &town::MEDIUM)?, Scene::of_shape("full", &town::FULL)?];
    for town in towns {
        scenes.push(Scene::of_folder(town)?);
    }
    Ok(scenes)
}

fn beside_library(other: &Path, order: &Order) {
    let path = other.display();
    let functions = shared::load(other).unwrap_or_else(|reason| stop(&format!("{path}: {reason}")));
    let mut scenes = scenes(&order.towns).unwrap_or_else(|reason| stop(&reason));
    println!("beside {path}");
    for scene in &scenes {
        println!("{}", scene.summary());
    }
    for text in texts::all() {
        println!("{}", text.summary);
        scenes.push(scenes[0].with_text(&text));
    }
    if !beside::run(&functions, &scenes, &order.effort) {
        exit(1);
    }
}

fn beside_rust(effort: &Effort) {
    let medium = Subject::new("medium", &town::MEDIUM);
    let full = Subject::new("full", &town::FULL);
    let texts = texts::all();
    for subject in [&medium, &full] {
        println!("{}", subject.summary());
    }
    for text in &texts {
        println!("{}", text.summary);
    }
    if effort.only.is_empty() {
        suite::agree(&medium, &full, &texts);
    }
    table::print_head(6, "Rust");
    for (subject, checks) in [(&medium, effort.rounds / 4 + 1), (&full, effort.full_checks())] {
        suite::run(subject, effort, checks);
    }
    for text in &texts {
        suite::imports(text, effort);
    }
    if effort.only.is_empty() {
        for subject in [&medium, &full] {
            suite::settled(subject);
        }
        suite::stacks(&full, &medium, &texts[2]);
    }
}
