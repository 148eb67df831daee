//! Times comparisons of routes with each other: whether each covers each, whether they overlap,
//! which are never reached, and which contend.

use std::alloc::Global;
use std::borrow::CowStr;
use std::io;
use std::io::Write;
use std::time::{Clock, Instant};
use urlpattern::quirks::{StringOrInit, process_construct_pattern_input};
use urlpattern::regexp::PatternRegexp;
use urlpattern::rules::{
    PatternAutomata, PatternCovering, PatternOverlap, PatternParts, Reach, USUAL_LIMITS,
    contending, reach_of_each,
};
use urlpattern::{Error, UrlPattern, UrlPatternOptions};

/// The origin of all routes.
const BASE: &str = "https://api.example.com";

/// The durations of the comparisons of all pairs, and their number.
#[derive(Default, Drop)]
struct Compared {
    pairs: u128,
    found: u128,
    sum: u128,
    slowest: u128,
}

impl Compared {
    /// Counts a comparison.
    fn count(&mut self, nanoseconds: u128, is_found: bool) {
        self.pairs = self.pairs.saturating_add(1);
        if is_found {
            self.found = self.found.saturating_add(1);
        }
        self.sum = self.sum.saturating_add(nanoseconds);
        self.slowest = self.slowest.max(nanoseconds);
    }

    /// Prints the counts, the mean and the slowest in nanoseconds.
    fn print<O: Write>(&self, out: &mut O, name: &str) -> io::Result<()> {
        let mean = self.sum / self.pairs.max(1);
        writeln!(
            out,
            "{name}\t{}\t{}\t{mean}\t{}",
            self.pairs, self.found, self.slowest
        )
    }
}

/// The parts of a route.
fn parts(alloc: Global, route: &str) -> Result<PatternParts, Error> {
    let given = |text| StringOrInit::String(CowStr::Borrowed(text));
    let init = process_construct_pattern_input(alloc, given(route), Some(BASE))?;
    let options = UrlPatternOptions::default();
    let pattern = UrlPattern::<PatternRegexp>::parse(alloc, init, options)?;
    pattern.into_parts().ok_or(Error::OutOfMemory)
}

/// The parts of the routes in the lines of a text.
fn parts_of_lines(alloc: Global, text: &str) -> Result<Vec<PatternParts>, Error> {
    let mut all = Vec::new(alloc);
    for line in text.lines() {
        all.push(parts(alloc, line)?)?;
    }
    Ok(all)
}

/// Prints the times of comparing the routes in the lines of a text: the comparison, the number of
/// pairs, the number for which it holds, and the mean and the slowest in nanoseconds. Also prints
/// the times of finding the routes that are never reached, and those that contend.
pub fn run<R: AllocGlobal + Clock, O: Write>(rt: &R, text: &str, out: &mut O) -> io::Result<()> {
    writeln!(out, "comparison\tpairs\tfound\tmean\tslowest")?;
    match parts_of_lines(rt.alloc(), text) {
        Ok(all) => {
            let compared = compare(rt, &all, out);
            drop(all);
            compared
        }
        Err(error) => writeln!(out, "{error}"),
    }
}

/// Compares all routes with each other.
fn compare<R: AllocGlobal + Clock, O: Write>(
    rt: &R,
    all: &[PatternParts],
    out: &mut O,
) -> io::Result<()> {
    let mut covers = Compared::default();
    let mut overlaps = Compared::default();
    for left in all {
        for right in all {
            let start = Instant::now(rt)?;
            let is_covered = matches!(left.covers(rt.alloc(), right)?, PatternCovering::Covered);
            covers.count(start.elapsed(rt)?.as_nanos(), is_covered);
            let start = Instant::now(rt)?;
            let is_common = matches!(left.overlaps(rt.alloc(), right)?, PatternOverlap::Common(_));
            overlaps.count(start.elapsed(rt)?.as_nanos(), is_common);
        }
    }
    covers.print(out, "covers")?;
    overlaps.print(out, "overlaps")?;
    let automata = automata_of_each(rt.alloc(), all)?;
    let patterns: Vec<&PatternAutomata> = automata.iter().collect(rt.alloc())?;
    let timed = compare_table(rt, &patterns, out);
    drop(patterns);
    drop(automata);
    timed
}

/// The automata of all routes.
fn automata_of_each(alloc: Global, all: &[PatternParts]) -> io::Result<Vec<PatternAutomata>> {
    let mut automata = Vec::new(alloc);
    for parts in all {
        automata.push(PatternAutomata::of(alloc, parts)?)?;
    }
    Ok(automata)
}

/// Finds the routes that are never reached, and those that contend.
fn compare_table<R: AllocGlobal + Clock, O: Write>(
    rt: &R,
    patterns: &[&PatternAutomata],
    out: &mut O,
) -> io::Result<()> {
    let start = Instant::now(rt)?;
    let (known, never) = reach(rt.alloc(), patterns)?;
    let taken = start.elapsed(rt)?.as_nanos();
    writeln!(out, "reach_of_each\t{known}\t{never}\t{taken}\t{taken}")?;
    let start = Instant::now(rt)?;
    let pairs = contending(rt.alloc(), patterns, USUAL_LIMITS)?;
    let taken = start.elapsed(rt)?.as_nanos();
    let found = pairs.len();
    writeln!(out, "contending\t{known}\t{found}\t{taken}\t{taken}")
}

/// The number of routes of which it is known whether they are reached, and of those that never are.
fn reach(alloc: Global, patterns: &[&PatternAutomata]) -> io::Result<(usize, usize)> {
    let found = reach_of_each(alloc, patterns, USUAL_LIMITS)?;
    let mut known = 0usize;
    let mut never = 0usize;
    for one in &found {
        match one {
            Reach::First(_) => known = known.saturating_add(1),
            Reach::Never(_) => {
                known = known.saturating_add(1);
                never = never.saturating_add(1);
            }
            Reach::Unknown(_) => {}
        }
    }
    Ok((known, never))
}
