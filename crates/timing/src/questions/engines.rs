//! Whether the other engines return what `regex::Regex` returns.

use super::Outcome;
use super::given::{self, Given};
use super::making::RandomSource;
use crate::calls::parts_of;
use regex::Regex;
use std::alloc::Global;
use urlpattern::component::generate_regular_expression_and_name_list;
use urlpattern::error::RegExpError;
use urlpattern::quirks::EcmaRegexp;
use urlpattern::regexp::{PatternRegexp, RegExp};
use urlpattern::{Error, RegexSyntax};

/// The pieces of regular expressions.
const PIECES: [&str; 19] = [
    "^", "$", "(", ")", "(?:", "a", "b", "/", ".", ".*", "[^/]+?", "([^/]+?)", "(.*)", "|", "?",
    "*", "+", "\\.", "é",
];

/// The number of texts for an engine.
const TEXTS: usize = 4;

/// Calls the engines with texts.
pub fn ask(maker: &mut RandomSource) -> Result<Outcome, Error> {
    let given = Given::new(maker, RegexSyntax::Rust)?;
    let Some(regexp) = regular_expression(maker, &given)? else {
        return Ok(Outcome::Refused);
    };
    let by_regex = Regex::parse(maker.alloc, &regexp, "u", true);
    let by_pattern = PatternRegexp::parse(maker.alloc, &regexp, "u", true);
    let by_ecma = EcmaRegexp::parse(maker.alloc, &regexp, "u", true);
    let outcome = match (&by_regex, &by_pattern, &by_ecma) {
        (Ok(by_regex), Ok(by_pattern), Ok(by_ecma)) => {
            are_answered_alike(maker, by_regex, by_pattern, by_ecma, given.near)
        }
        (Err(RegExpError::Pattern), Err(RegExpError::Pattern), Err(RegExpError::Pattern)) => Ok(
            Outcome::Refused,
        ),
        _ => Ok(Outcome::Differs),
    };
    drop(by_ecma);
    drop(by_pattern);
    drop(by_regex);
    outcome
}

/// A regular expression: one that is made from a pattern, a changed form of it, or one made from
/// pieces. `None`: the text that was made is not a pattern.
fn regular_expression(maker: &mut RandomSource, given: &Given) -> Result<Option<String>, Error> {
    if maker.is_one_in(4) {
        return Ok(Some(maker.text(&PIECES, 9)?));
    }
    match parts_of(maker.alloc, &given.pattern, &given.options) {
        Ok(parts) => {
            let (regexp, _) = generate_regular_expression_and_name_list(
                maker.alloc,
                &parts,
                &given.options,
            )?;
            Ok(Some(maker.mutant(&regexp, &PIECES, 2)?))
        }
        Err(Error::OutOfMemory) => Err(Error::OutOfMemory),
        Err(_) => Ok(None),
    }
}

/// The outcome for the results of the engines.
fn are_answered_alike(
    maker: &mut RandomSource,
    by_regex: &Regex,
    by_pattern: &PatternRegexp,
    by_ecma: &EcmaRegexp,
    near: &str,
) -> Result<Outcome, Error> {
    for _ in 0..TEXTS {
        let text = given::text(maker, near)?;
        if !is_answered_alike(maker.alloc, by_regex, by_pattern, by_ecma, &text)? {
            return Ok(Outcome::Differs);
        }
    }
    Ok(Outcome::Same)
}

/// Whether the engines return the same for a text.
fn is_answered_alike(
    alloc: Global,
    by_regex: &Regex,
    by_pattern: &PatternRegexp,
    by_ecma: &EcmaRegexp,
    text: &str,
) -> Result<bool, Error> {
    let captures = RegExp::matches(by_regex, alloc, text)?;
    Ok(by_pattern.matches(alloc, text)? == captures && by_ecma.matches(alloc, text)? == captures)
}
