//! The command-line program: the demonstration, and what a shape needs.

mod args;
mod chance;
mod demo;
mod failure;
mod growth;
mod layout;
mod link;
mod loss;
mod mistake;
mod progress;
mod repeat;
mod report;
mod store;
mod stripe;
mod table;
#[cfg(test)]
mod testing;
mod text;
mod trace;

use args::{Command, HELP};
use failure::{Failure, USAGE};
use std::env::args_os;
use std::io::{stderr, stdout, IsTerminal, Write};
use std::process::ExitCode;

fn main() -> ExitCode {
    let words: Vec<String> = args_os().skip(1).map(|word| word.to_string_lossy().into_owned()).collect();
    let Some((command, rest)) = words.split_first() else {
        complain(HELP);
        return ExitCode::from(USAGE);
    };
    match run(command, rest) {
        Ok(()) => ExitCode::SUCCESS,
        Err(Failure { status, line }) => {
            if !line.is_empty() {
                complain(&format!("taldrimsu: {line}\n"));
            }
            ExitCode::from(status)
        }
    }
}

/// If this cannot be written either there is nobody left to tell; the exit status stays.
fn complain(text: &str) {
    let _ = stderr().write_all(text.as_bytes());
}

fn run(command: &str, rest: &[String]) -> Result<(), Failure> {
    let terminal = stdout().is_terminal();
    let mut out = stdout().lock();
    match args::parse(command, rest)? {
        Command::Demo { seed, shape } => demo::run(&mut out, terminal, shape, seed),
        Command::Shape(shape) => report::print(&mut out, shape),
        Command::Help => Ok(out.write_all(HELP.as_bytes())?),
    }
}
