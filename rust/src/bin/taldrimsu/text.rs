//! Headings and sentences that fit the screen.

use crate::failure::Failure;
use std::io::Write;

/// A terminal of 80 columns, without its last one: some break the line there.
const WIDTH: usize = 79;
const INDENT: &str = "  ";

/// The heading of a section and the sentence that says what is shown and why it matters.
pub fn section(out: &mut dyn Write, heading: &str, sentence: &str) -> Result<(), Failure> {
    writeln!(out, "\n{heading}")?;
    for line in wrap(sentence, WIDTH) {
        writeln!(out, "{line}")?;
    }
    Ok(writeln!(out)?)
}

/// A sentence within a section.
pub fn say(out: &mut dyn Write, sentence: &str) -> Result<(), Failure> {
    for line in wrap(sentence, WIDTH - INDENT.len()) {
        writeln!(out, "{INDENT}{line}")?;
    }
    Ok(())
}

/// A check that held, with what was checked.
pub fn ok(out: &mut dyn Write, what: &str, checked: &str) -> Result<(), Failure> {
    Ok(writeln!(out, "{INDENT}{what:<47}ok, {checked}")?)
}

fn wrap(sentence: &str, width: usize) -> Vec<String> {
    let mut lines = vec![String::new()];
    for word in sentence.split(' ') {
        let last = lines.len() - 1;
        if lines[last].is_empty() {
            lines[last] = word.into();
        } else if lines[last].len() + 1 + word.len() <= width {
            lines[last] = format!("{} {word}", lines[last]);
        } else {
            lines.push(word.into());
        }
    }
    lines
}
