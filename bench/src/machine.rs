//! What a run is made on and with: the head of its output, without which its times mean little.
use std::fs;
use std::process::Command;

/// The first line that a command prints.
fn first_line(command: &str, words: &[&str]) -> String {
    let output = Command::new(command).args(words).output().ok().filter(|output| output.status.success());
    let line = output.and_then(|output| String::from_utf8_lossy(&output.stdout).lines().next().map(str::to_owned));
    line.unwrap_or_else(|| format!("unknown: {command} does not say"))
}

fn processor() -> String {
    let text = fs::read_to_string("/proc/cpuinfo").unwrap_or_default();
    let model = text.lines().find_map(|line| line.strip_prefix("model name")?.split_once(": "));
    model.map_or("unknown".to_owned(), |(_, name)| name.to_owned())
}

/// Processor, compilers, kit and commit, a line each.
pub fn print() {
    println!("processor: {}", processor());
    println!("compilers: {}; {}", first_line("rustc", &["--version"]), first_line("cc", &["--version"]));
    println!("kit: {}", first_line("rt", &["version"]));
    println!("commit: {}", first_line("git", &["describe", "--always", "--dirty"]));
}
