//! Runs over files of cases, and their output.

use crate::replay::{Outcome, replay};
use crate::recorded::{Fault, OPERATIONS, Operation};
use std::alloc::{AllocError, Global};
use std::io::Write;
use std::rt::Files;
use std::{fs, io};

/// The number of cases of an operation, and how many of them differ.
#[derive(Drop)]
struct Tally {
    name: &'static str,
    operation: Operation,
    answers: u64,
    errors: u64,
    differing: u64,
}

impl Tally {
    /// Counts a case.
    fn count(&mut self, outcome: &Outcome) {
        let total = if outcome.is_error {
            &mut self.errors
        } else {
            &mut self.answers
        };
        *total = total.saturating_add(1);
        if !outcome.is_same {
            self.differing = self.differing.saturating_add(1);
        }
    }

    /// Prints the counts in a line.
    fn print<O: Write>(&self, out: &mut O) -> io::Result<()> {
        writeln!(
            out,
            "{}: {} answers and {} errors, {} differ",
            self.name, self.answers, self.errors, self.differing
        )
    }
}

/// The counts of a run, by operation, and the number of lines without a case.
#[derive(Drop)]
struct Report {
    tallies: Vec<Tally>,
    unreadable: u64,
}

impl Report {
    /// The counts before the first case.
    fn new(alloc: Global) -> Result<Report, AllocError> {
        let mut tallies = Vec::new(alloc);
        for (name, operation) in OPERATIONS {
            tallies.push(Tally {
                name: *name,
                operation: *operation,
                answers: 0,
                errors: 0,
                differing: 0,
            })?;
        }
        Ok(Report {
            tallies,
            unreadable: 0,
        })
    }

    /// Counts the cases of a text, one in each line, and prints the place of each that differs or
    /// cannot be parsed.
    fn add<O: Write>(
        &mut self,
        alloc: Global,
        path: &str,
        text: &str,
        out: &mut O,
    ) -> io::Result<()> {
        for (line, number) in text.lines().zip(1u64..) {
            match replay(alloc, line) {
                Ok(outcome) => {
                    self.count(&outcome);
                    if !outcome.is_same {
                        writeln!(out, "{path}:{number}: differs")?;
                    }
                }
                Err(Fault::OutOfMemory) => return Err(io::Error::from(io::ErrorKind::OutOfMemory)),
                Err(Fault::NoCase) => {
                    self.unreadable = self.unreadable.saturating_add(1);
                    writeln!(out, "{path}:{number}: no case")?;
                }
            }
        }
        Ok(())
    }

    /// Counts a case for its operation.
    fn count(&mut self, outcome: &Outcome) {
        for tally in &mut self.tallies {
            if tally.operation == outcome.operation {
                tally.count(outcome);
            }
        }
    }

    /// Prints the counts.
    fn print<O: Write>(&self, out: &mut O) -> io::Result<()> {
        for tally in &self.tallies {
            tally.print(out)?;
        }
        writeln!(out, "lines without a case: {}", self.unreadable)
    }

    /// Whether each line has a case, and none differs.
    fn is_same(&self) -> bool {
        self.unreadable == 0 && self.tallies.iter().all(|tally| tally.differing == 0)
    }
}

/// Replays the cases of each file, and prints those that differ and the counts. Returns whether
/// none differs.
pub fn run<R: Files + AllocGlobal, O: Write>(
    rt: &R,
    paths: &[String],
    out: &mut O,
) -> io::Result<bool> {
    let mut report = Report::new(rt.alloc())?;
    for path in paths {
        let text = fs::read_to_string(rt, path)?;
        report.add(rt.alloc(), path, &text, out)?;
    }
    report.print(out)?;
    Ok(report.is_same())
}
