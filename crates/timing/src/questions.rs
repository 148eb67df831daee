//! Random questions to calls that have to agree with each other. No result is recorded.
//!
//! A question is made from a number: those of a run have the seed and the numbers after it. Each
//! can therefore be asked alone. There is memory for all of them: a call that runs out of memory
//! differs.

mod constructors;
mod engines;
mod given;
pub mod links;
mod lists;
mod making;
mod matchers;
mod patterns;
mod policies;
mod printing;
mod routers;
mod rules;
mod texts;
mod trees;

use making::RandomSource;
use std::alloc::Global;
use std::io;
use std::io::Write;
use urlpattern::Error;

/// The outcome of a question.
#[derive(Clone, Copy)]
enum Outcome {
    /// The calls agree.
    Same,
    /// The calls agree, and the pattern is rejected.
    Refused,
    /// The calls do not agree.
    Differs,
}

impl Outcome {
    /// The outcome for a pattern that is rejected. Memory did not run out.
    fn of_error(error: &Error) -> Result<Outcome, Error> {
        match error {
            Error::OutOfMemory => Err(Error::OutOfMemory),
            _ => Ok(Outcome::Refused),
        }
    }
}

/// The outcome for calls that agree, or do not.
fn same(is_same: bool) -> Outcome {
    if is_same {
        Outcome::Same
    } else {
        Outcome::Differs
    }
}

/// The kind of a question.
#[derive(Clone, Copy)]
enum Kind {
    /// Matches inputs by a pattern, with each call that matches.
    Patterns,
    /// Matches URLs by a list of patterns.
    Lists,
    /// Matches texts by matchers.
    Matchers,
    /// Matches texts by engines.
    Engines,
    /// Prints parts as a pattern.
    Printing,
    /// Writes and parses the JSON of plain values.
    Trees,
    /// Splits a constructor string.
    Constructors,
}

impl Kind {
    /// The kind of the next question. Lists take longest and are the rarest.
    fn of(maker: &mut RandomSource) -> Kind {
        match maker.below(64) {
            0 => Kind::Lists,
            1..=12 => Kind::Patterns,
            13..=24 => Kind::Matchers,
            25..=36 => Kind::Engines,
            37..=48 => Kind::Printing,
            49..=54 => Kind::Trees,
            _ => Kind::Constructors,
        }
    }

    /// Asks a question of this kind.
    fn ask(self, maker: &mut RandomSource) -> Result<Outcome, Error> {
        match self {
            Kind::Patterns => patterns::ask(maker),
            Kind::Lists => lists::ask(maker),
            Kind::Matchers => matchers::ask(maker),
            Kind::Engines => engines::ask(maker),
            Kind::Printing => printing::ask(maker),
            Kind::Trees => trees::ask(maker),
            Kind::Constructors => constructors::ask(maker),
        }
    }
}

/// The number of questions of a kind, by outcome.
#[derive(Default, Drop)]
struct Tally {
    asked: u64,
    refused: u64,
    differing: u64,
}

impl Tally {
    /// Counts a question.
    fn count(&mut self, outcome: Outcome) {
        self.asked = self.asked.saturating_add(1);
        match outcome {
            Outcome::Same => {}
            Outcome::Refused => self.refused = self.refused.saturating_add(1),
            Outcome::Differs => self.differing = self.differing.saturating_add(1),
        }
    }

    /// Prints the counts in a line.
    fn print<O: Write>(&self, out: &mut O, kind: &str) -> io::Result<()> {
        let Tally {
            asked,
            refused,
            differing,
        } = self;
        writeln!(
            out,
            "questions on {kind}: {asked}, of which {refused} on what is refused, {differing} differ"
        )
    }
}

/// The counts of a run.
#[derive(Default, Drop)]
struct Tallies {
    patterns: Tally,
    lists: Tally,
    matchers: Tally,
    engines: Tally,
    printing: Tally,
    trees: Tally,
    constructors: Tally,
}

impl Tallies {
    /// The counts of a kind.
    fn of(&mut self, kind: Kind) -> &mut Tally {
        match kind {
            Kind::Patterns => &mut self.patterns,
            Kind::Lists => &mut self.lists,
            Kind::Matchers => &mut self.matchers,
            Kind::Engines => &mut self.engines,
            Kind::Printing => &mut self.printing,
            Kind::Trees => &mut self.trees,
            Kind::Constructors => &mut self.constructors,
        }
    }

    /// Prints the counts.
    fn print<O: Write>(&self, out: &mut O) -> io::Result<()> {
        self.patterns.print(out, "patterns")?;
        self.lists.print(out, "lists")?;
        self.matchers.print(out, "matchers")?;
        self.engines.print(out, "engines")?;
        self.printing.print(out, "printed patterns")?;
        self.trees.print(out, "JSON")?;
        self.constructors.print(out, "constructor strings")
    }

    /// Asks the question of a number, and prints it if the calls do not agree. Returns whether they
    /// do.
    fn ask<O: Write>(&mut self, alloc: Global, number: u64, out: &mut O) -> io::Result<bool> {
        let mut maker = RandomSource::new(alloc, number);
        let kind = Kind::of(&mut maker);
        let outcome = kind.ask(&mut maker);
        if let Err(error) = &outcome {
            writeln!(out, "question {number}: {error}")?;
        }
        let outcome = outcome.unwrap_or(Outcome::Differs);
        self.of(kind).count(outcome);
        if !matches!(outcome, Outcome::Differs) {
            return Ok(true);
        }
        writeln!(out, "question {number} differs:{}", maker.made())?;
        Ok(false)
    }
}

/// Kinds of questions that are asked alone.
#[derive(Clone, Copy)]
pub enum Alone {
    /// Lists of patterns.
    Lists,
    /// Routers.
    Routers,
    /// Pairs of patterns, of which one may cover the other.
    Rules,
    /// Patterns that are written as texts.
    Texts,
    /// Policies.
    Policies,
}

impl Alone {
    /// The name of the kind.
    fn name(self) -> &'static str {
        match self {
            Alone::Lists => "lists",
            Alone::Routers => "routers",
            Alone::Rules => "pairs of patterns",
            Alone::Texts => "patterns as texts",
            Alone::Policies => "policies",
        }
    }

    /// Asks a question.
    fn ask(self, maker: &mut RandomSource) -> Result<Outcome, Error> {
        match self {
            Alone::Lists => lists::ask(maker),
            Alone::Routers => routers::ask(maker),
            Alone::Rules => rules::ask(maker),
            Alone::Texts => texts::ask(maker),
            Alone::Policies => policies::ask(maker),
        }
    }
}

/// Asks `count` questions of a kind, from the seed and the numbers after it. Prints those on which
/// calls do not agree, and the counts. Returns whether all agree.
pub fn run_alone<O: Write>(
    alloc: Global,
    alone: Alone,
    seed: u64,
    count: u64,
    out: &mut O,
) -> io::Result<bool> {
    let mut tally = Tally::default();
    for index in 0..count {
        let number = seed.wrapping_add(index);
        let mut maker = RandomSource::new(alloc, number);
        let outcome = alone.ask(&mut maker).unwrap_or(Outcome::Differs);
        tally.count(outcome);
        if matches!(outcome, Outcome::Differs) {
            writeln!(out, "question {number} differs:{}", maker.made())?;
        }
    }
    tally.print(out, alone.name())?;
    Ok(tally.differing == 0)
}

/// Asks `count` questions, from the seed and the numbers after it. Prints those on which calls do
/// not agree, and the counts. Returns whether all agree.
pub fn run<O: Write>(alloc: Global, seed: u64, count: u64, out: &mut O) -> io::Result<bool> {
    let mut tallies = Tallies::default();
    let mut agree = true;
    for index in 0..count {
        let agrees = tallies.ask(alloc, seed.wrapping_add(index), out)?;
        agree = agree && agrees;
    }
    tallies.print(out)?;
    Ok(agree)
}
