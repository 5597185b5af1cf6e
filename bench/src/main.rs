//! Counts the instructions that the proved gateway and the plain one take for a message, and compares their answers.
//!
//!     bench count         runs each case on both; under callgrind, each count is written down
//!     bench table FOLDER  prints the table of the counts in a folder
//!     bench profile FOLDER  prints which functions of the proved gateway take what, in both kinds of meeting
//!     bench compare       compares both on many random meetings
//!     bench records N     writes N random records to standard output
mod arena;
mod callgrind;
mod cases;
mod plain;
mod proved;
mod records;

use cases::{Case, Side, cases, compare, count_calls, count_random};
use std::io::Write;
use std::path::Path;
use std::process::ExitCode;

// In the order in which they are measured.
fn names() -> Vec<String> {
    let calls = cases::CALLS.iter().map(|name| name.to_string());
    let runs = cases().into_iter().map(|case: Case| case.name.to_string());
    runs.chain(calls)
        .chain([cases::RANDOM.to_string()])
        .collect()
}

// Instructions a message, of one side of a case: what the longer run took more, divided by its messages.
fn for_a_message(counts: &[callgrind::Counted], case: &str, side: Side) -> Option<f64> {
    let find = |part: &str| {
        let start = format!("{case}|{}|{part}|", side.name());
        let found = counts.iter().find(|c| c.name.starts_with(&start))?;
        let messages: f64 = found.name[start.len()..].parse().ok()?;
        Some((found.instructions as f64, messages))
    };
    let ((base, _), (all, messages)) = (find("base")?, find("all")?);
    Some((all - base) / messages)
}

fn print_table(folder: &Path) -> bool {
    let counts = callgrind::read(folder);
    println!("| Case | Proved | Plain Rust | Ratio |\n|---|---:|---:|---:|");
    for name in names() {
        let side = |side| for_a_message(&counts, &name, side);
        let (Some(proved), Some(plain)) = (side(Side::Proved), side(Side::Plain)) else {
            eprintln!("no counts of the case: {name}");
            return false;
        };
        println!(
            "| {name} | {proved:.0} | {plain:.0} | {:.1} |",
            proved / plain
        );
    }
    true
}

// The functions of the proved gateway in a case, as shares of all that it takes.
fn print_profile(folder: &Path, case: &str) {
    let costs = callgrind::profile(folder, &format!("{case}|proved|all"));
    let all: i64 = costs.iter().map(|(_, cost)| cost).sum();
    println!("\n| Function, in {case} | Share |\n|---|---:|");
    for (name, cost) in costs {
        let share = 100.0 * cost as f64 / all as f64;
        if share >= 1.0 {
            println!("| `{name}` | {share:.0} % |");
        }
    }
}

fn profile(folder: &Path) -> bool {
    for case in [cases::PLAUSIBLE, cases::RANDOM] {
        print_profile(folder, case);
    }
    true
}

fn count() -> bool {
    let mut same = true;
    for case in cases() {
        case.count();
        same &= case.compare();
    }
    count_calls() && count_random() && same
}

fn write_records(count: usize) -> bool {
    let records = records::random(1, count);
    std::io::stdout().write_all(&records.bytes).is_ok()
}

fn main() -> ExitCode {
    let arguments: Vec<String> = std::env::args().skip(1).collect();
    let words: Vec<&str> = arguments.iter().map(String::as_str).collect();
    let done = match words[..] {
        ["count"] => count(),
        ["table", folder] => print_table(Path::new(folder)),
        ["profile", folder] => profile(Path::new(folder)),
        ["compare"] => compare(3_000),
        ["records", count] => write_records(count.parse().unwrap()),
        _ => false,
    };
    if done {
        ExitCode::SUCCESS
    } else {
        ExitCode::FAILURE
    }
}
