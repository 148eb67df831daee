//! Whether a matcher accepts what it matches, and returns the same over each engine.

use super::given::{self, Given};
use super::making::RandomSource;
use super::{Outcome, same};
use crate::calls::parts_of;
use regex::Regex;
use std::alloc::Global;
use urlpattern::component::generate_matcher;
use urlpattern::matcher::Matcher;
use urlpattern::parser::Part;
use urlpattern::regexp::{PatternRegexp, RegExp};
use urlpattern::{Error, RegexSyntax};

/// The number of texts for a matcher.
const TEXTS: usize = 4;

/// Matches texts by the matchers of a pattern.
pub fn ask(maker: &mut RandomSource) -> Result<Outcome, Error> {
    let given = Given::new(maker, RegexSyntax::Rust)?;
    match parts_of(maker.alloc, &given.pattern, &given.options) {
        Ok(parts) => Ok(same(asked(maker, &given, &parts)?)),
        Err(error) => Outcome::of_error(&error),
    }
}

/// Whether the matchers of parts return the same for texts.
fn asked(maker: &mut RandomSource, given: &Given, parts: &[Part]) -> Result<bool, Error> {
    let flags = if given.options.ignore_case { "ui" } else { "u" };
    let by_regex: Matcher<Regex> = generate_matcher(maker.alloc, parts, &given.options, flags)?;
    let by_pattern: Result<Matcher<PatternRegexp>, Error> = generate_matcher(
        maker.alloc,
        parts,
        &given.options,
        flags,
    );
    let is_same = match &by_pattern {
        Ok(by_pattern) => are_answered_alike(maker, &by_regex, by_pattern, given.near),
        Err(_) => Err(Error::OutOfMemory),
    };
    drop(by_pattern);
    drop(by_regex);
    is_same
}

/// Whether two matchers return the same for texts.
fn are_answered_alike<R: RegExp, S: RegExp>(
    maker: &mut RandomSource,
    one: &Matcher<R>,
    other: &Matcher<S>,
    near: &str,
) -> Result<bool, Error> {
    for _ in 0..TEXTS {
        let text = given::text(maker, near)?;
        if !is_answered_alike(maker.alloc, one, other, &text)? {
            return Ok(false);
        }
    }
    Ok(true)
}

/// Whether two matchers return the same for a text.
fn is_answered_alike<R: RegExp, S: RegExp>(
    alloc: Global,
    one: &Matcher<R>,
    other: &Matcher<S>,
    text: &str,
) -> Result<bool, Error> {
    let captures = one.matches(alloc, text)?;
    Ok(
        one.accepts(alloc, text)? == captures.is_some()
            && other.accepts(alloc, text)? == captures.is_some()
            && other.matches(alloc, text)? == captures,
    )
}
