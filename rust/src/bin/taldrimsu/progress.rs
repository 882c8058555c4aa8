//! The counts of a growth while it runs: one line that is redrawn on a terminal, a few plain lines in a log.

use std::io::{self, Write};
use std::thread::sleep;
use std::time::Duration;

/// Redraws on a terminal in a whole growth, and the pause after each, so that a person sees the counts rise.
const REDRAWS: usize = 60;
const PAUSE: Duration = Duration::from_millis(20);
/// Lines in a log.
const LINES: usize = 6;

/// What is counted.
pub struct Counts {
    pub sent: usize,
    pub lost: usize,
    pub repeated: usize,
    pub shuffled: usize,
    pub misdirected: usize,
    pub already: usize,
    pub accepted: usize,
    pub released: usize,
}

pub struct Progress<'a> {
    pub out: &'a mut dyn Write,
    pub terminal: bool,
    /// All transfers and all kept stripes.
    transfers: usize,
    stripes: usize,
    /// How many of the redraws or lines were due so far.
    reached: usize,
    /// What was shown last; a log need not say it twice.
    last: String,
}

impl<'a> Progress<'a> {
    pub fn new(out: &'a mut dyn Write, terminal: bool, transfers: usize, stripes: usize) -> Progress<'a> {
        Progress { out, terminal, transfers, stripes, reached: 0, last: String::new() }
    }

    pub fn head(&mut self) -> io::Result<()> {
        writeln!(self.out, "  by        sent   lost repeated shuffled astray already    accepted  released")
    }

    /// Whether so many accepted transfers are worth a new line.
    pub fn due(&mut self, accepted: usize) -> bool {
        let steps = if self.terminal { REDRAWS } else { LINES };
        let reached = accepted * steps / self.transfers;
        let due = reached > self.reached;
        self.reached = reached;
        due
    }

    pub fn show(&mut self, by: &str, counts: &Counts) -> io::Result<()> {
        let line = self.line(by, counts);
        if self.terminal {
            write!(self.out, "\r{line}")?;
            self.out.flush()?;
            sleep(PAUSE);
        } else if line != self.last {
            writeln!(self.out, "{line}")?;
        }
        self.last = line;
        Ok(())
    }

    /// Leaves the last counts of a part of the growth standing.
    pub fn end(&mut self, by: &str, counts: &Counts) -> io::Result<()> {
        self.show(by, counts)?;
        if self.terminal {
            writeln!(self.out)?;
        }
        Ok(())
    }

    fn line(&self, by: &str, counts: &Counts) -> String {
        let Counts { sent, lost, repeated, shuffled, misdirected, already, .. } = counts;
        let accepted = format!("{}/{}", counts.accepted, self.transfers);
        let released = format!("{}/{}", counts.released, self.stripes);
        format!("  {by:<6} {sent:>7} {lost:>6} {repeated:>8} {shuffled:>8} {misdirected:>6} {already:>7} {accepted:>11} {released:>9}")
    }
}

#[cfg(test)]
mod tests {
    use super::*;

    /// More transfers and stripes than any growth has, and several times the traffic of the widest ones.
    const MANY: Counts = Counts {
        sent: 1_000_000,
        lost: 100_000,
        repeated: 100_000,
        shuffled: 1_000_000,
        misdirected: 100_000,
        already: 1_000_000,
        accepted: 30_000,
        released: 7_000,
    };
    const FEW: Counts = Counts { sent: 1, lost: 0, repeated: 0, shuffled: 0, misdirected: 0, already: 0, accepted: 1, released: 0 };

    fn shown(terminal: bool, by: [(&str, &Counts); 2]) -> String {
        let mut out = Vec::new();
        let mut progress = Progress::new(&mut out, terminal, 30_000, 7_000);
        progress.head().unwrap();
        progress.show(by[0].0, by[0].1).unwrap();
        progress.end(by[1].0, by[1].1).unwrap();
        String::from_utf8(out).unwrap()
    }

    /// All lines have the same width, so that a line wipes the one before it, even if it has shorter words and numbers.
    #[test]
    fn a_terminal_gets_one_line_redrawn() {
        let text = shown(true, [("chance", &MANY), ("again", &FEW)]);
        let (head, redrawn) = text.split_once('\n').unwrap();
        let lines: Vec<&str> = redrawn.split('\r').collect();
        assert_eq!((lines.len(), lines[0]), (3, ""));
        assert!(lines[1].starts_with("  chance 1000000 "));
        assert!(!lines[1].contains('\n') && lines[2].ends_with(" 1/30000    0/7000\n"));
        assert_eq!([head.len(), lines[1].len(), lines[2].len() - 1], [78; 3]);
    }

    #[test]
    fn a_log_gets_a_line_for_each_change() {
        let text = shown(false, [("chance", &FEW), ("again", &MANY)]);
        assert_eq!(text.lines().count(), 3);
        assert!(text.ends_with("30000/30000 7000/7000\n") && !text.contains('\r'));
        assert_eq!(shown(false, [("chance", &FEW), ("chance", &FEW)]).lines().count(), 2);
    }
}
