//! Repeats decisions of a policy, and lookups in a list of the same patterns, for a tool that
//! counts instructions.

use super::make_pattern;
use super::routes::with_segments;
use std::alloc::Global;
use std::borrow::CowStr;
use url::Url;
use urlpattern::quirks::StringOrInit;
use urlpattern::regexp::PatternRegexp;
use urlpattern::{Error, UrlPattern, UrlPatternList};
use urlpattern_policy::UrlPolicy;

/// The origin of all routes.
const BASE: &str = "https://api.example.com";

/// The routes of a file, and further ones up to a size.
fn routes_of(alloc: Global, text: &str, size: usize) -> Result<Vec<String>, Error> {
    let mut routes = Vec::new(alloc);
    for route in text.lines().take(size) {
        routes.push(String::from_str(alloc, route)?)?;
    }
    for number in routes.len()..size {
        routes.push(format!(in alloc; "/group{}/:id/items/{number}", number % 100)?)?;
    }
    Ok(routes)
}

/// The pattern of a route.
fn pattern_of(alloc: Global, route: &str) -> Result<UrlPattern<PatternRegexp>, Error> {
    let text = format!(in alloc; "{BASE}{route}")?;
    make_pattern(alloc, &StringOrInit::String(CowStr::Borrowed(&text)), None, false)
}

/// For each route a text that it matches.
fn texts_of(alloc: Global, routes: &[String]) -> Result<Vec<String>, Error> {
    let mut texts = Vec::new(alloc);
    for route in routes {
        let path = with_segments(alloc, route, ("", "7"), "a/b")?;
        texts.push(format!(in alloc; "{BASE}{path}")?)?;
    }
    Ok(texts)
}

/// Makes a policy that allows this many routes, and a list of them, and calls for a text of each:
/// `decide`, `lookup` for `Url::parse` and a lookup in the list, `parse` for `Url::parse` alone, or
/// nothing. Returns whether each text is allowed, or found.
pub fn repeat(
    alloc: Global,
    text: &str,
    size: usize,
    call: &str,
    count: u64,
) -> Result<bool, Error> {
    let routes = routes_of(alloc, text, size)?;
    let texts = texts_of(alloc, &routes)?;
    let mut policy = UrlPolicy::<PatternRegexp>::new(alloc);
    let mut list = UrlPatternList::<PatternRegexp>::new(alloc);
    for route in &routes {
        policy.allow(pattern_of(alloc, route)?)?;
        if list.push(pattern_of(alloc, route)?).is_err() {
            return Err(Error::OutOfMemory);
        }
    }
    let mut are_found = true;
    for _ in 0..count {
        for text in &texts {
            are_found &= called(alloc, &policy, &list, text, call)?;
        }
    }
    drop(list);
    drop(policy);
    Ok(are_found)
}

/// Calls for a text.
fn called(
    alloc: Global,
    policy: &UrlPolicy<PatternRegexp>,
    list: &UrlPatternList<PatternRegexp>,
    text: &str,
    call: &str,
) -> Result<bool, Error> {
    match call {
        "decide" => Ok(policy.decide(alloc, text, None).is_allowed()),
        "lookup" => {
            let url = Url::parse(alloc, text).map_err(Error::Url)?;
            Ok(list.first_captures(alloc, &url)?.is_some())
        }
        "parse" => Ok(Url::parse(alloc, text).is_ok()),
        _ => Ok(true),
    }
}
