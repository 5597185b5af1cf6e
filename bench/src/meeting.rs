//! The program `meeting` in plain Rust: records from standard input, a line for each, and one write a line.
#[allow(dead_code)]
mod plain;

use plain::{Account, AccountBook, FULL, Gateway, Handled, Hold, STRIP, first_record};
use std::io::{self, Read, Write};

const ACCOUNTS: [Account; 1] = [Account {
    card: 4_111_111_111_111_111,
    balance: 5_000,
}];

fn print(out: &mut impl Write, handled: Handled) -> io::Result<()> {
    match handled {
        Handled::NoRoom => writeln!(out, "1 -"),
        Handled::Short(code) => writeln!(out, "{code} -"),
        Handled::Full(8, answer) => writeln!(out, "{} {}", answer.code, answer.amount as i64),
        Handled::Full(_, answer) => writeln!(out, "{} {}", answer.code, answer.amount),
    }
}

fn main() -> io::Result<()> {
    let mut input = Vec::new();
    io::stdin().read_to_end(&mut input)?;
    let mut holds = [Hold::default(); 4];
    let mut gateway = Gateway::new(AccountBook::new(&ACCOUNTS, &mut holds));
    // standard output is written to at the end of each line
    let mut out = io::stdout().lock();
    let (mut strip, mut answer) = ([0; STRIP], [0; FULL]);
    let mut rest = &input[..];
    while !rest.is_empty() {
        let Some((message, after)) = first_record(rest) else {
            return writeln!(out, "cut");
        };
        print(&mut out, gateway.handle(message, &mut strip, &mut answer))?;
        rest = after;
    }
    Ok(())
}
