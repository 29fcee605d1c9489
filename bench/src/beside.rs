//! The library beside another one with the same C functions: first that both do the same, then how long both
//! take, in turns, for each operation in each town.
use crate::finds;
use crate::functions::{Functions, LINKED};
use crate::library;
use crate::measure::{interleave, Work};
use crate::operations::{Operation, Room, ALL, CHECK};
use crate::plain::Refusal;
use crate::scene::Scene;
use crate::suite::Effort;
use crate::table;
use std::hint::black_box;

/// The operations that are wanted, and that the other library has.
fn wanted<'a>(scene: &'a Scene, other: &'a Functions, only: &'a str) -> impl Iterator<Item = &'a Operation> {
    scene.operations.iter().filter(move |operation| operation.name.contains(only) && !lacks(other, operation))
}

fn lacks(library: &Functions, operation: &Operation) -> bool {
    library.addresses().contains(&(operation.function, None))
}

/// How many finds a check makes is its own affair, as far as document 02 allows it: they are judged by that,
/// and not compared.
fn take_finds(scene: &Scene, number: u32, room: &mut Room) -> bool {
    let [first, second, third, ..] = room.answer;
    let verdict = match number {
        0 => Ok(()),
        _ => Err(Refusal { number, places: [first, second, third] }),
    };
    let finds = library::finds(&room.answer);
    room.answer[3..5].fill(0);
    finds::bound(&scene.network, &scene.plan, verdict).contains(&finds)
}

/// One call of both: whether they return the same, and leave the same in all that is lent.
fn is_alike(operation: &Operation, scene: &Scene, other: &Functions, call: usize) -> bool {
    let mut left = Room::new(operation, scene);
    let mut right = left.clone();
    let number = (operation.call)(&LINKED, scene, call, &mut left);
    if number != (operation.call)(other, scene, call, &mut right) {
        return false;
    }
    let mut is_allowed = true;
    if operation.function == CHECK {
        is_allowed &= take_finds(scene, number, &mut left);
        is_allowed &= take_finds(scene, number, &mut right);
    }
    is_allowed && left == right
}

/// The calls of an operation that can differ: one for each ask, with the refused one, or a single one.
fn calls(operation: &Operation, scene: &Scene) -> Vec<usize> {
    match operation.asks {
        0 => vec![0],
        asks => (0..asks).chain([scene.asks.len() - 1]).collect(),
    }
}

/// How many calls were compared, or where both differ.
pub fn compare(other: &Functions, scenes: &[Scene], only: &str) -> Result<usize, Vec<String>> {
    let mut compared = 0;
    let mut differences = Vec::new();
    for scene in scenes {
        for operation in wanted(scene, other, only) {
            let calls = calls(operation, scene);
            compared += calls.len();
            if let Some(call) = calls.into_iter().find(|&call| !is_alike(operation, scene, other, call)) {
                differences.push(format!("{}, {}, call {call}", operation.name, scene.name));
            }
        }
    }
    if differences.is_empty() {
        Ok(compared)
    } else {
        Err(differences)
    }
}

fn work<'a>(operation: &'a Operation, scene: &'a Scene, library: &'a Functions) -> Work<'a> {
    let mut room = Room::new(operation, scene);
    Box::new(move |call| _ = black_box((operation.call)(library, scene, call, &mut room)))
}

/// The operation's name in its row, with the refusal where that is all that its time can be of.
fn label(operation: &Operation, scene: &Scene) -> String {
    if operation.asks > 0 {
        return operation.name.to_owned();
    }
    match (operation.call)(&LINKED, scene, 0, &mut Room::new(operation, scene)) {
        0 => operation.name.to_owned(),
        number => format!("{}, refused {number}", operation.name),
    }
}

/// A row of the table, and its ratio.
fn measure(operation: &Operation, scene: &Scene, other: &Functions, rounds: usize, town: &str) -> f64 {
    let works = [work(operation, scene, &LINKED), work(operation, scene, other)];
    let [left, right] = interleave(rounds, (operation.calls)(scene), works);
    table::print(&label(operation, scene), town, &left, &right)
}

/// The ratio of an operation in a town.
struct Row<'a> {
    operation: &'static str,
    town: &'a str,
    ratio: f64,
}

/// The table of all towns.
fn measure_all<'a>(other: &Functions, scenes: &'a [Scene], effort: &Effort, width: usize) -> Vec<Row<'a>> {
    let mut rows = Vec::new();
    for scene in scenes {
        let town = format!("{:width$}", scene.name);
        for operation in wanted(scene, other, &effort.only) {
            let is_long = (operation.calls)(scene) == 1;
            let rounds = if is_long { effort.long_rounds() } else { effort.rounds };
            if rounds > 0 {
                let ratio = measure(operation, scene, other, rounds, &town);
                rows.push(Row { operation: operation.name, town: &scene.name, ratio });
            }
        }
    }
    rows
}

/// For each operation the town with the worst ratio.
fn print_worst(rows: &[Row], width: usize) {
    println!("\n{:24} {:width$} RATIO", "worst over the towns", "town");
    for operation in ALL.iter().map(|operation| operation.name) {
        let own = rows.iter().filter(|row| row.operation == operation);
        if let Some(worst) = own.max_by(|one, two| one.ratio.total_cmp(&two.ratio)) {
            println!("{operation:24} {:width$} {:.2}", worst.town, worst.ratio);
        }
    }
}

/// What the other library lacks, then whether both are alike, then the table; answers whether they are.
pub fn run(other: &Functions, scenes: &[Scene], effort: &Effort) -> bool {
    for operation in ALL.iter().filter(|operation| lacks(other, operation)) {
        println!("the other library lacks {}: {} is left out", operation.function, operation.name);
    }
    match compare(other, scenes, &effort.only) {
        Ok(calls) => println!("alike: {calls} calls, with the same numbers, answers and lent memory"),
        Err(differences) => {
            differences.iter().for_each(|difference| println!("DIFFER: {difference}"));
            return false;
        }
    }
    let width = scenes.iter().map(|scene| scene.name.chars().count()).max().unwrap_or(0).max(6);
    table::print_head(width, "other");
    print_worst(&measure_all(other, scenes, effort, width), width);
    true
}

#[cfg(test)]
mod tests {
    use super::*;
    use crate::files;
    use crate::quay_town::quay_town;

    fn quay() -> [Scene; 1] {
        let files = files::make(&quay_town());
        [Scene::new("quay", files.network, files.plan).expect("a network that opens")]
    }

    fn differences(other: &Functions) -> Vec<String> {
        compare(other, &quay(), "").expect_err("another library that is wrong")
    }

    #[test]
    fn the_library_is_like_itself() {
        // The trips are 65 calls each, and the day sheets 9.
        assert_eq!(compare(&LINKED, &quay(), ""), Ok(4 * 65 + 9 + 5));
        assert_eq!(compare(&LINKED, &quay(), "sheet"), Ok(9));
    }

    /// Returns what no call does, and leaves all as it was.
    unsafe extern "C" fn wrong(_: *const u8, _: usize, _: *mut u8, _: usize, _: u32, _: u32, _: u32) -> u32 {
        99
    }

    #[test]
    fn another_number_is_seen() {
        let other = Functions { varnwalnut_plain_trip: Some(wrong), ..LINKED };
        assert_eq!(differences(&other), ["plain trip, quay, call 0"]);
    }

    /// The library's check, with one number of its answer changed.
    unsafe extern "C" fn spoiled<const NUMBER: usize>(
        network: *const u8,
        network_len: usize,
        plan: *const u8,
        plan_len: usize,
        answer: *mut u32,
        answer_len: usize,
    ) -> u32 {
        let check = LINKED.varnwalnut_check_plan.expect("the library has it");
        let refusal = check(network, network_len, plan, plan_len, answer, answer_len);
        *answer.add(NUMBER) += 1;
        refusal
    }

    #[test]
    fn lent_memory_is_compared_and_finds_are_judged() {
        let one_find_more = Functions { varnwalnut_check_plan: Some(spoiled::<3>), ..LINKED };
        assert!(compare(&one_find_more, &quay(), "").is_ok());
        let far_too_many = Functions { varnwalnut_check_plan: Some(spoiled::<4>), ..LINKED };
        assert_eq!(differences(&far_too_many), ["check plan, quay, call 0"]);
        let behind_the_answer = Functions { varnwalnut_check_plan: Some(spoiled::<5>), ..LINKED };
        assert_eq!(differences(&behind_the_answer), ["check plan, quay, call 0"]);
    }

    #[test]
    fn what_is_lacking_is_left_out() {
        let other = Functions { varnwalnut_make_plan: None, varnwalnut_plain_trip: None, ..LINKED };
        assert_eq!(compare(&other, &quay(), ""), Ok(3 * 65 + 9 + 4));
    }
}
