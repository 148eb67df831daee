//! The programs without contracts that the pages show, by the subjects of `docs/GUIDE.md`. Each
//! returns a line, which its test compares.

mod browser;
mod cache_keys;
mod comparing;
mod components;
mod diagnosing;
mod generating;
mod lists;
mod matching;
mod policy;

use crate::given::expect_same;
use std::alloc::{AllocError, Global};
use std::process::Abort;
use urlpattern::regexp::PatternRegexp;
use urlpattern::{Error, UrlPattern, UrlPatternOptions};

/// A pattern over the library's own engine.
type Pattern = UrlPattern<PatternRegexp>;

/// Compiles a constructor string.
fn pattern(alloc: Global, text: &str) -> Result<Pattern, Error> {
    Pattern::from_constructor_string(alloc, text, None, UrlPatternOptions::default())
}

/// A copy of a text.
fn text(alloc: Global, words: &str) -> Result<String, Error> {
    Ok(String::from_str(alloc, words)?)
}

/// A line that was written, or that memory ran out.
fn line_of(written: Result<String, AllocError>) -> Result<String, Error> {
    Ok(written?)
}

/// Compares a line with the expected one.
fn expect_line(rt: &impl Abort, line: Result<String, Error>, expected: &str) -> Result<(), Error> {
    let line = line?;
    expect_same(rt, line.as_str(), expected, "a program of the pages");
    Ok(())
}
