//! Whether the first match of a list is that of a loop over its patterns.

use super::making::RandomSource;
use super::patterns::is_result;
use super::{Outcome, given};
use crate::calls::built;
use regex::Regex;
use std::alloc::Global;
use std::borrow::CowStr;
use url::Url;
use urlpattern::quirks::{StringOrInit, parse_match_input};
use urlpattern::regexp::{PatternRegexp, RegExp};
use urlpattern::{
    Error, UrlPatternCaptures, UrlPatternList, UrlPatternMatchInput, UrlPatternOptions,
    UrlPatternResult,
};

/// The first match in a list: its index and its result.
type First = Option<(usize, UrlPatternResult)>;

/// The beginnings of the patterns of a list.
const PREFIXES: [&str; 10] = [
    "https://example.com/a",
    "https://example.com/a/b",
    "https://example.com/:x",
    "https://example.com/users",
    "https://example.com/a/:w/:x",
    "https://example.com/a/:w/b/:x",
    "https://example.com/:w/:x/c",
    "https://*.example.com/a",
    "https://*.example.com/:w/:x",
    "http{s}?://example.com/a",
];

/// The pieces of the patterns' paths after that. A name that is in a path twice is rejected.
const ENDS: [&str; 14] = [
    "/a", "/b", "/:y", "/c", "/*", "/1", "/2", "/:z?", "/(1|2)", "-b", "/:u-:v", "/b/:t", "{/c}?", "/",
];

/// The beginnings of the URLs for a list.
const HOSTS: [&str; 3] = [
    "https://example.com",
    "http://example.com",
    "https://cdn.example.com",
];

/// The pieces of the URLs' paths.
const STEPS: [&str; 10] = ["/a", "/b", "/c", "/1", "/2", "/users", "-b", "/a/b", "/x", "/"];

/// The maximum number of patterns in most lists.
const FEW: usize = 8;

/// The maximum number of patterns in a list.
const MANY: usize = 200;

/// The number of URLs for a list.
const URLS: usize = 20;

/// Finds the first match of URLs in a list, over one of two engines.
pub fn ask(maker: &mut RandomSource) -> Result<Outcome, Error> {
    if maker.is_one_in(2) {
        ask_over::<Regex>(maker)
    } else {
        ask_over::<PatternRegexp>(maker)
    }
}

/// Finds the first match of URLs in a list, and again after some of its patterns were removed.
fn ask_over<E: RegExp>(maker: &mut RandomSource) -> Result<Outcome, Error> {
    let most = if maker.is_one_in(8) { MANY } else { FEW };
    let size = maker.below(most + 1);
    let mut list = UrlPatternList::<E>::new(maker.alloc);
    let filled = fill(maker, &mut list, size);
    let outcome = match filled {
        Ok(()) => asked(maker, &list),
        Err(error) => Err(error),
    };
    if !matches!(outcome, Ok(Outcome::Same)) {
        drop(list);
        return outcome;
    }
    for _ in 0..maker.below(size.saturating_add(1)) {
        let index = maker.below(list.len().saturating_add(1));
        drop(list.remove(index));
    }
    let outcome = asked(maker, &list);
    drop(list);
    outcome
}

/// Appends `count` patterns to a list, except those that are rejected.
fn fill<E: RegExp>(maker: &mut RandomSource, list: &mut UrlPatternList<E>, size: usize) -> Result<(), Error> {
    for _ in 0..size {
        let front = maker.one_of(&PREFIXES, "");
        let end = maker.text(&ENDS, 4)?;
        let text = format!(in maker.alloc; "{front}{end}")?;
        let given = StringOrInit::String(CowStr::Owned(text));
        match built::<E>(maker.alloc, given, None, UrlPatternOptions::default()) {
            Ok(pattern) => {
                if list.push(pattern).is_err() {
                    return Err(Error::OutOfMemory);
                }
            }
            Err(Error::OutOfMemory) => return Err(Error::OutOfMemory),
            Err(_refused) => {}
        }
    }
    Ok(())
}

/// The outcome for the results of a list.
fn asked<E: RegExp>(maker: &mut RandomSource, list: &UrlPatternList<E>) -> Result<Outcome, Error> {
    for _ in 0..URLS {
        let host = maker.one_of(&HOSTS, "");
        let path = maker.text(&STEPS, 5)?;
        let text = format!(in maker.alloc; "{host}{path}")?;
        let url = Url::parse(maker.alloc, &text).map_err(Error::Url)?;
        if !is_answered_alike(maker.alloc, list, url)? {
            return Ok(Outcome::Differs);
        }
    }
    Ok(Outcome::Same)
}

/// The index of the first pattern that matches a URL, by a loop.
fn first_index<E: RegExp>(alloc: Global, list: &UrlPatternList<E>, url: &Url) -> Result<Option<usize>, Error> {
    for (index, pattern) in list.iter().enumerate() {
        if pattern.test_url(alloc, url)? {
            return Ok(Some(index));
        }
    }
    Ok(None)
}

/// Whether all calls of a list return for a URL what a loop returns.
fn is_answered_alike<E: RegExp>(alloc: Global, list: &UrlPatternList<E>, url: Url) -> Result<bool, Error> {
    let expected = first_index(alloc, list, &url)?;
    let found = list.first_match(alloc, UrlPatternMatchInput::Url(url.clone()?));
    let is_same = match &found {
        Ok(found) => is_found_alike(alloc, list, url, expected, found),
        Err(_) => Err(Error::OutOfMemory),
    };
    drop(found);
    is_same
}

/// Whether the first match of a URL is at this index, also by the calls of a list that borrow.
fn is_found_alike<E: RegExp>(
    alloc: Global,
    list: &UrlPatternList<E>,
    url: Url,
    expected: Option<usize>,
    found: &First,
) -> Result<bool, Error> {
    let is_first = match (found, expected) {
        (Some((index, result)), Some(expected)) => {
            *index == expected && is_match_at(alloc, list, expected, &url, result)?
        }
        (None, None) => true,
        _ => false,
    };
    if !is_first || !is_borrowed(alloc, list.first_captures(alloc, &url), found)? {
        return Ok(false);
    }
    match parse_match_input(alloc, UrlPatternMatchInput::Url(url))? {
        Some(texts) => is_borrowed(alloc, list.first_captures_of_input(alloc, &texts), found),
        None => Ok(false),
    }
}

/// Whether the pattern at an index has this match of a URL.
fn is_match_at<E: RegExp>(
    alloc: Global,
    list: &UrlPatternList<E>,
    index: usize,
    url: &Url,
    expected: &UrlPatternResult,
) -> Result<bool, Error> {
    let Some(pattern) = list.get(index) else {
        return Ok(false);
    };
    let answer = pattern.exec_url(alloc, url);
    let is_same = match &answer {
        Ok(Some(found)) => Ok(found == expected),
        Ok(None) => Ok(false),
        Err(_) => Err(Error::OutOfMemory),
    };
    drop(answer);
    is_same
}

/// Whether a copy of a borrowed match is the first match.
fn is_borrowed(
    alloc: Global,
    answer: Result<Option<(usize, UrlPatternCaptures<'_, '_>)>, Error>,
    found: &First,
) -> Result<bool, Error> {
    let is_same = match (&answer, found) {
        (Ok(Some((index, captures))), Some((expected, result))) => {
            if index == expected {
                is_result(captures.to_result(alloc), result)
            } else {
                Ok(false)
            }
        }
        (Ok(None), None) => Ok(true),
        (Ok(_), _) => Ok(false),
        (Err(_), _) => Err(Error::OutOfMemory),
    };
    drop(answer);
    is_same
}
