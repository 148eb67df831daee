//! Calls for a browser: inputs as they are given, and patterns as plain data.

use crate::guide::{expect_line, line_of, text};
use std::alloc::Global;
use std::borrow::CowStr;
use std::test::Fail;
use url::Url;
use urlpattern::quirks::{
    EcmaRegexp, InnerMatcher, StringOrInit, UrlPattern, UrlPatternInit, parse_match_input,
    parse_pattern, process_construct_pattern_input,
};
use urlpattern::{Error, RegexSyntax, UrlPatternMatchInput, UrlPatternOptions};

/// The regular expression of a pattern's path, as plain data, and what its matcher compares a text
/// with.
fn plain_line(alloc: Global) -> Result<String, Error> {
    // docs: plain_pattern
    // docs: given
    let input = StringOrInit::String(CowStr::Borrowed("https://example.com/users/:id"));
    // docs: end
    let init = process_construct_pattern_input(alloc, input, None)?;
    let options = UrlPatternOptions::default();
    let users: UrlPattern = parse_pattern::<EcmaRegexp>(alloc, init, options)?;
    // docs: end
    let line = matcher_words(alloc, &users);
    drop(users);
    line
}

/// The regular expression of a pattern's path, and what its matcher compares a text with, in words.
fn matcher_words(alloc: Global, users: &UrlPattern) -> Result<String, Error> {
    // docs: plain
    let path = &users.pathname;
    let expression = path.regexp_string.as_str();
    // docs: end
    // docs: inner_matcher
    let matched = match &path.matcher.inner {
        InnerMatcher::Literal { literal } => literal.as_str(),
        InnerMatcher::SingleCapture { .. } => "one group",
        InnerMatcher::RegExp { regexp } => regexp.as_str(),
    };
    // docs: end
    line_of(format!(in alloc; "{expression}: {matched}"))
}

#[test]
fn a_pattern_as_plain_data(rt: HostRuntime) -> Result<(), Fail> {
    let line = plain_line(rt.alloc());
    expect_line(&rt, line, "^/users(?:/([^/]+?))$: one group")?;
    Ok(())
}

/// The path among the eight texts of a URL, or words for a URL without texts.
fn texts_line(alloc: Global) -> Result<String, Error> {
    // docs: texts
    let url = Url::parse(alloc, "https://example.com/users/123")?;
    let texts = parse_match_input(alloc, UrlPatternMatchInput::Url(url))?;
    // docs: end
    match texts {
        Some(texts) => line_of(format!(in alloc; "{}", texts.pathname)),
        None => text(alloc, "no texts"),
    }
}

#[test]
fn the_texts_of_a_url(rt: HostRuntime) -> Result<(), Fail> {
    expect_line(&rt, texts_line(rt.alloc()), "/users/123")?;
    Ok(())
}

/// The pattern text of the path of an init as a browser passes it, compiled under options that
/// ignore case.
fn init_line(alloc: Global) -> Result<String, Error> {
    let init = given_init(alloc)?;
    let init = process_construct_pattern_input(alloc, StringOrInit::Init(init), None)?;
    // docs: plain_options
    let options = UrlPatternOptions {
        regex_syntax: RegexSyntax::EcmaScript,
        ignore_case: true,
    };
    // docs: end
    let pattern: UrlPattern = parse_pattern::<EcmaRegexp>(alloc, init, options)?;
    let line = text(alloc, pattern.pathname.pattern_string.as_str());
    drop(pattern);
    line
}

/// Returns an init as a browser passes it: a path, and a base URL.
fn given_init(alloc: Global) -> Result<UrlPatternInit, Error> {
    // docs: plain_init
    let mut init = UrlPatternInit::default();
    init.pathname = Some(String::from_str(alloc, "/:id")?);
    init.base_url = Some(String::from_str(alloc, "https://example.com/users/")?);
    // docs: end
    Ok(init)
}

#[test]
fn an_init_of_a_browser(rt: HostRuntime) -> Result<(), Fail> {
    expect_line(&rt, init_line(rt.alloc()), "/:id")?;
    Ok(())
}
