//! Times engines on the regular expressions of patterns that leave them many choices, and on long
//! texts that match except for the end, in nanoseconds for each call.

use super::rounds::{Timed, least};
use crate::calls::parts_of;
use regex::Regex;
use std::alloc::Global;
use std::io;
use std::io::Write;
use std::time::Clock;
use urlpattern::Error;
use urlpattern::component::generate_regular_expression_and_name_list;
use urlpattern::error::RegExpError;
use urlpattern::parser::Options;
use urlpattern::regexp::{PatternRegexp, RegExp};

/// The lengths of the texts in characters.
const LENGTHS: [usize; 2] = [2_000, 16_000];

/// Pathname patterns, each with the text that is repeated. The last character of each pattern is
/// missing in the text.
const PATTERNS: [(&str, &str); 10] = [
    // Wildcards in a row, and with a text between them.
    ("/(.*)(.*)(.*)(.*)(.*)!", "a"),
    ("/*a*a*a*a*!", "a"),
    // Lazy names, one after the other.
    ("/:a.:b.:c!", "a."),
    ("/:a.:b.:c.:d.:e!", "a."),
    // Names that are repeated greedily.
    ("/:a+!", "a/"),
    ("/:a+/:b+/:c+/!", "a/"),
    // Fixed texts that are repeated greedily.
    ("/{a}+!", "a"),
    ("/{a}*{aa}*{aaa}*!", "a"),
    // Twenty optional letters, alone, and before a wildcard.
    (
        "/{a}?{a}?{a}?{a}?{a}?{a}?{a}?{a}?{a}?{a}?{a}?{a}?{a}?{a}?{a}?{a}?{a}?{a}?{a}?{a}?!",
        "a",
    ),
    (
        "/{a}?{a}?{a}?{a}?{a}?{a}?{a}?{a}?{a}?{a}?{a}?{a}?{a}?{a}?{a}?{a}?{a}?{a}?{a}?{a}?*!",
        "a",
    ),
];

/// An engine's value, and the text that it matches.
#[derive(Drop)]
struct Asked<'t, E: RegExp> {
    engine: E,
    text: &'t str,
}

impl<'t, E: RegExp> Timed for Asked<'t, E> {
    #[inline(never)]
    fn call(&self, alloc: Global) -> Result<bool, Error> {
        Ok(self.engine.matches(alloc, self.text)?.is_some())
    }
}

/// A slash, and a repeated text, up to a length.
fn long_text(alloc: Global, repeated: &str, length: usize) -> Result<String, Error> {
    let mut text = String::from_str(alloc, "/")?;
    for _ in 0..length {
        if text.len() >= length {
            break;
        }
        text.push_str(repeated)?;
    }
    Ok(text)
}

/// Prints the times of the patterns, on a text of each length: a column for each engine.
pub fn run<R: AllocGlobal + Clock, O: Write>(rt: &R, out: &mut O) -> io::Result<()> {
    writeln!(
        out,
        "hostile pattern\tcharacters\tregex::Regex\tPatternRegexp"
    )?;
    for (pattern, repeated) in PATTERNS {
        for length in LENGTHS {
            write!(out, "{pattern}\t{length}")?;
            match long_text(rt.alloc(), repeated, length) {
                Ok(text) => {
                    time_over::<Regex, R, O>(rt, pattern, &text, out)?;
                    time_over::<PatternRegexp, R, O>(rt, pattern, &text, out)?;
                    writeln!(out)?;
                }
                Err(error) => writeln!(out, "\t{error}")?,
            }
        }
    }
    Ok(())
}

/// Prints the time of an engine for a pattern and a text.
fn time_over<E: RegExp, R: AllocGlobal + Clock, O: Write>(
    rt: &R,
    pattern: &str,
    text: &str,
    out: &mut O,
) -> io::Result<()> {
    match question::<E>(rt.alloc(), pattern, text) {
        Ok(asked) => {
            let time = least(rt, rt.alloc(), &asked);
            drop(asked);
            let time = time?;
            write!(out, "\t{time}")
        }
        Err(error) => write!(out, "\t{error}"),
    }
}

/// The value that an engine compiles from a pathname pattern, with a text.
fn question<'t, E: RegExp>(
    alloc: Global,
    pattern: &str,
    text: &'t str,
) -> Result<Asked<'t, E>, Error> {
    let options = Options::pathname(alloc)?;
    let parts = parts_of(alloc, pattern, &options)?;
    let (regexp, _) = generate_regular_expression_and_name_list(alloc, &parts, &options)?;
    match E::parse(alloc, &regexp, "u", true) {
        Ok(engine) => Ok(Asked { engine, text }),
        Err(RegExpError::OutOfMemory) => Err(Error::OutOfMemory),
        Err(RegExpError::Pattern) => Err(Error::RegExp(())),
    }
}
