//! The words of the command line, made into a command or a clear line about what is wrong with them.

use crate::failure::{refused, Failure};
use taldrimsu::Shape;

/// The script `demo` prints this file too.
pub const HELP: &str = include_str!("help.txt");

/// Small enough to read, with two parity rows, so that any two nodes may die.
const DEMO_SHAPE: [usize; 3] = [4, 2, 1];
/// A block of 32 samples.
const DEMO_BLOCK: usize = 64;
const DEMO_SEED: u64 = 1;

#[derive(Debug)]
pub enum Command {
    Demo { seed: u64, shape: Shape },
    Shape(Shape),
    Help,
}

pub fn parse(command: &str, rest: &[String]) -> Result<Command, Failure> {
    match command {
        "help" | "--help" | "-h" => no_more(rest).map(|()| Command::Help),
        "demo" | "shape" if matches!(rest, [word] if word == "--help" || word == "-h") => Ok(Command::Help),
        "demo" => demo(rest),
        "shape" => shape(rest),
        _ => Err(Failure::usage(format!("'{command}' is not a command; the commands are demo, shape and help"))),
    }
}

fn demo(words: &[String]) -> Result<Command, Failure> {
    let mut seed = None;
    let mut shape = None;
    let mut rest = words;
    while let Some((option, values)) = rest.split_first() {
        rest = match option.as_str() {
            "--seed" => {
                let (value, after) = take(option, values, 1)?;
                set_once(option, &mut seed, number(&value[0])?)?;
                after
            }
            "--shape" => {
                let (value, after) = take(option, values, 3)?;
                set_once(option, &mut shape, numbers(value)?)?;
                after
            }
            _ => return Err(Failure::usage(format!("'{option}' is not an option of demo; the options are --seed and --shape"))),
        };
    }
    let shape = in_range(shape.unwrap_or(DEMO_SHAPE), DEMO_BLOCK)?;
    Ok(Command::Demo { seed: seed.unwrap_or(DEMO_SEED), shape })
}

fn shape(words: &[String]) -> Result<Command, Failure> {
    let (values, rest) = take("shape", words, 3)?;
    no_more(rest)?;
    Ok(Command::Shape(in_range(numbers(values)?, 1)?))
}

/// The first `count` words and those after them.
fn take<'a>(what: &str, words: &'a [String], count: usize) -> Result<(&'a [String], &'a [String]), Failure> {
    let numbers = if count == 1 { "number" } else { "numbers" };
    let missing = || Failure::usage(format!("{what} needs {count} {numbers}, not {}", words.len()));
    words.split_at_checked(count).ok_or_else(missing)
}

fn no_more(words: &[String]) -> Result<(), Failure> {
    match words.first() {
        Some(word) => Err(Failure::usage(format!("unexpected argument '{word}'"))),
        None => Ok(()),
    }
}

fn set_once<T>(option: &str, place: &mut Option<T>, value: T) -> Result<(), Failure> {
    match place.replace(value) {
        Some(_) => Err(Failure::usage(format!("{option} stands twice"))),
        None => Ok(()),
    }
}

/// Digits only: Rust's own reading would take a sign as well.
fn number<T: std::str::FromStr>(word: &str) -> Result<T, Failure> {
    if word.is_empty() || !word.bytes().all(|byte| byte.is_ascii_digit()) {
        return Err(Failure::usage(format!("'{word}' is not a whole number in digits")));
    }
    word.parse().map_err(|_| Failure::usage(format!("{word} is too large")))
}

fn numbers(words: &[String]) -> Result<[usize; 3], Failure> {
    Ok([number(&words[0])?, number(&words[1])?, number(&words[2])?])
}

fn in_range([n, k, s]: [usize; 3], b: usize) -> Result<Shape, Failure> {
    Shape::new(n, k, s, b).map_err(refused(&format!("shape {n} {k} {s}")))
}
