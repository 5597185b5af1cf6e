//! Talks to valgrind from inside the program that it runs, and reads what it wrote. Outside valgrind a request does nothing.
use crate::arena::over_block;
use std::arch::asm;
use std::collections::HashMap;
use std::ffi::CString;
use std::fs;
use std::path::Path;

// The codes of callgrind.h: 'C' and 'T', and the request.
const BASE: u64 = 0x4354_0000;
const ZERO: u64 = BASE + 1;
const DUMP_AT: u64 = BASE + 3;

fn request(code: u64, argument: u64) {
    let block = [code, argument, 0, 0, 0, 0];
    // SAFETY: the four rotations turn the register by 128 bits and so leave it, and the exchange of a register with itself does
    // nothing; valgrind knows the five by their form, and reads the block.
    unsafe {
        asm!(
            "rol rdi, 3",
            "rol rdi, 13",
            "rol rdi, 61",
            "rol rdi, 51",
            "xchg rbx, rbx",
            inout("rax") block.as_ptr() => _,
            inout("rdx") 0u64 => _,
            options(nostack)
        );
    }
}

/// Runs the work and has valgrind write down, under this name, how many instructions it took.
pub fn counted(name: &str, work: impl FnOnce()) {
    let name = CString::new(name).unwrap();
    over_block(|| {
        request(ZERO, 0);
        work();
        request(DUMP_AT, name.as_ptr() as u64);
    });
}

/// A count that was written down.
pub struct Counted {
    pub name: String,
    pub instructions: i64,
}

fn read_one(path: &Path) -> Option<Counted> {
    let text = fs::read_to_string(path).ok()?;
    let after = |start: &str| text.lines().find_map(|line| line.strip_prefix(start));
    let name = after("desc: Trigger: Client Request: ")?;
    let instructions = after("summary: ")?;
    Some(Counted {
        name: name.to_string(),
        instructions: instructions.trim().parse().ok()?,
    })
}

/// All counts in a folder.
pub fn read(folder: &Path) -> Vec<Counted> {
    let Ok(entries) = fs::read_dir(folder) else {
        return Vec::new();
    };
    entries
        .filter_map(|entry| read_one(&entry.ok()?.path()))
        .collect()
}

// The name that "(7) name" gives the number 7, or that "(7)" was given before.
fn named(word: &str, names: &mut HashMap<String, String>) -> String {
    let (number, name) = word.split_once(' ').unwrap_or((word, ""));
    if !name.is_empty() {
        names.insert(number.to_string(), name.to_string());
    }
    names.get(number).cloned().unwrap_or_default()
}

// What each function took by itself, without what it called.
fn own_costs(text: &str) -> HashMap<String, i64> {
    let mut names = HashMap::new();
    let mut costs = HashMap::new();
    let mut function = String::new();
    let mut called = false;
    for line in text.lines() {
        if let Some(word) = line.strip_prefix("fn=") {
            function = named(word, &mut names);
        } else if let Some(word) = line.strip_prefix("cfn=") {
            named(word, &mut names);
        } else if line.starts_with("calls=") {
            called = true;
        } else if line.starts_with(|c: char| c.is_ascii_digit() || "+-*".contains(c)) {
            let cost = line
                .split(' ')
                .nth(1)
                .and_then(|word| word.parse::<i64>().ok());
            if !called {
                *costs.entry(function.clone()).or_insert(0) += cost.unwrap_or(0);
            }
            called = false;
        }
    }
    costs
}

/// The functions of the count of this name, the dearest first, each with what it took by itself.
pub fn profile(folder: &Path, name: &str) -> Vec<(String, i64)> {
    let line = format!("desc: Trigger: Client Request: {name}|");
    let entries = fs::read_dir(folder).into_iter().flatten();
    let text = entries
        .filter_map(|entry| fs::read_to_string(entry.ok()?.path()).ok())
        .find(|text| text.lines().any(|found| found.starts_with(&line)));
    let mut costs: Vec<(String, i64)> = own_costs(&text.unwrap_or_default()).into_iter().collect();
    costs.sort_by_key(|(_, cost)| -cost);
    costs
}
