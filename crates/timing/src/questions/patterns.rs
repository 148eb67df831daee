//! Whether the calls that match a pattern agree with each other.

use super::making::RandomSource;
use super::{Outcome, given};
use crate::calls::built;
use regex::Regex;
use std::alloc::Global;
use std::borrow::CowStr;
use url::Url;
use urlpattern::quirks::{EcmaRegexp, StringOrInit, parse_match_input, process_match_input};
use urlpattern::regexp::{PatternRegexp, RegExp};
use urlpattern::{
    Error, UrlPattern, UrlPatternCaptures, UrlPatternMatchInput, UrlPatternOptions,
    UrlPatternResult,
};

/// The result of a match. `None`: there is no match.
pub type Found = Option<UrlPatternResult>;

/// The number of inputs for a pattern.
const INPUTS: usize = 3;

/// Matches inputs by a pattern, with each call.
pub fn ask(maker: &mut RandomSource) -> Result<Outcome, Error> {
    match maker.below(4) {
        0 => ask_over::<EcmaRegexp>(maker),
        1 => ask_over::<PatternRegexp>(maker),
        _ => ask_over::<Regex>(maker),
    }
}

/// Matches inputs by a pattern over this engine.
fn ask_over<R: RegExp>(maker: &mut RandomSource) -> Result<Outcome, Error> {
    let options = UrlPatternOptions {
        ignore_case: maker.is_one_in(4),
        ..UrlPatternOptions::default()
    };
    let (pattern, near) = given::pattern(maker)?;
    let base = match &pattern {
        StringOrInit::String(_) => given::base(maker),
        StringOrInit::Init(_) => None,
    };
    let found = built::<R>(maker.alloc, pattern, base, options);
    let outcome = match &found {
        Ok(pattern) => asked(maker, pattern, near),
        Err(error) => Outcome::of_error(error),
    };
    drop(found);
    outcome
}

/// The outcome for the results of a pattern.
fn asked<R: RegExp>(
    maker: &mut RandomSource,
    pattern: &UrlPattern<R>,
    near: &str,
) -> Result<Outcome, Error> {
    for _ in 0..INPUTS {
        let (given, base) = input(maker, near)?;
        if let Some((input, given)) = process_match_input(maker.alloc, given, base)? {
            drop(given);
            if !is_answered_alike(maker.alloc, pattern, input)? {
                return Ok(Outcome::Differs);
            }
        }
    }
    Ok(Outcome::Same)
}

/// The input for a pattern, with its base.
fn input(
    maker: &mut RandomSource,
    near: &str,
) -> Result<(StringOrInit<'static>, Option<&'static str>), Error> {
    if maker.is_one_in(4) {
        return Ok((StringOrInit::Init(given::init(maker, false)?), None));
    }
    let url = given::url(maker, near)?;
    Ok((StringOrInit::String(CowStr::Owned(url)), given::base(maker)))
}

/// Whether all calls return the same for an input.
fn is_answered_alike<R: RegExp>(
    alloc: Global,
    pattern: &UrlPattern<R>,
    input: UrlPatternMatchInput,
) -> Result<bool, Error> {
    let is_matched = pattern.test(alloc, input.clone()?)?;
    let found = pattern.exec(alloc, input.clone()?);
    let is_same = match &found {
        Ok(found) => is_found_alike(alloc, pattern, input, is_matched, found),
        Err(_) => Err(Error::OutOfMemory),
    };
    drop(found);
    is_same
}

/// Whether the calls that borrow return for an input what the others return.
fn is_found_alike<R: RegExp>(
    alloc: Global,
    pattern: &UrlPattern<R>,
    input: UrlPatternMatchInput,
    is_matched: bool,
    found: &Found,
) -> Result<bool, Error> {
    if is_matched != found.is_some() {
        return Ok(false);
    }
    if let UrlPatternMatchInput::Url(url) = &input {
        if !is_url_found_alike(alloc, pattern, url, found)? {
            return Ok(false);
        }
    }
    match parse_match_input(alloc, input)? {
        Some(texts) => is_copied(alloc, pattern.captures_of_input(alloc, &texts), found),
        None => Ok(found.is_none()),
    }
}

/// Whether the match of a URL is this one.
fn is_url_found_alike<R: RegExp>(
    alloc: Global,
    pattern: &UrlPattern<R>,
    url: &Url,
    found: &Found,
) -> Result<bool, Error> {
    Ok(
        pattern.test_url(alloc, url)? == found.is_some()
            && is_match(pattern.exec_url(alloc, url), found)?
            && is_copied(alloc, pattern.captures(alloc, url), found)?,
    )
}

/// Whether copies of borrowed matches are this match.
fn is_copied(
    alloc: Global,
    captures: Result<Option<UrlPatternCaptures<'_, '_>>, Error>,
    found: &Found,
) -> Result<bool, Error> {
    let is_same = match &captures {
        Ok(Some(captures)) => match found {
            Some(found) => is_result(captures.to_result(alloc), found),
            None => Ok(false),
        },
        Ok(None) => Ok(found.is_none()),
        Err(_) => Err(Error::OutOfMemory),
    };
    drop(captures);
    is_same
}

/// Whether this is the match.
pub fn is_match(answer: Result<Found, Error>, found: &Found) -> Result<bool, Error> {
    let is_same = match &answer {
        Ok(other) => Ok(other == found),
        Err(_) => Err(Error::OutOfMemory),
    };
    drop(answer);
    is_same
}

/// Whether this is the result.
pub fn is_result(
    answer: Result<UrlPatternResult, Error>,
    found: &UrlPatternResult,
) -> Result<bool, Error> {
    let is_same = match &answer {
        Ok(other) => Ok(other == found),
        Err(_) => Err(Error::OutOfMemory),
    };
    drop(answer);
    is_same
}
