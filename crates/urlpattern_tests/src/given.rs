//! The URLs, inits, components and patterns of tests, and a comparison.

use std::alloc::{AllocError, Global};
use std::fmt::Debug;
use std::process::Abort;
use url::{ParseError, Url};
use urlpattern::component::Component;
use urlpattern::parser::{Options, Part, parse_pattern_string};
use urlpattern::regexp::RegExp;
use urlpattern::{
    ComponentName, Eight, Error, UrlPattern, UrlPatternInit, UrlPatternMatchInput,
    UrlPatternOptions,
};

/// Compares a value with the expected one.
pub fn expect_same<T: Debug + PartialEq + Drop>(rt: &impl Abort, found: T, expected: T, of: &str) {
    assert_eq!(rt; found, expected, "of {of:?}");
}

/// The texts of an init, by the names of its components.
pub type Fields<'a> = &'a [(&'a str, &'a str)];

/// Parses a URL.
pub fn url_of(alloc: Global, text: &str) -> Result<Url, Error> {
    match Url::parse(alloc, text) {
        Ok(url) => Ok(url),
        Err(ParseError::OutOfMemory) => Err(Error::OutOfMemory),
        Err(error) => Err(Error::Url(error)),
    }
}

/// Parses a URL as an input.
pub fn url_input(alloc: Global, text: &str) -> Result<UrlPatternMatchInput, Error> {
    Ok(UrlPatternMatchInput::Url(url_of(alloc, text)?))
}

/// An init with these texts.
pub fn init_of(alloc: Global, fields: Fields<'_>) -> Result<UrlPatternInit, Error> {
    let texts = Eight::try_from_fn(|name| text_of(alloc, fields, name))?;
    Ok(UrlPatternInit::from_eight(texts, None))
}

/// The text for a component.
fn text_of(
    alloc: Global,
    fields: Fields<'_>,
    component: ComponentName,
) -> Result<Option<String>, AllocError> {
    for (name, text) in fields {
        if *name == component.as_str() {
            return Ok(Some(String::from_str(alloc, text)?));
        }
    }
    Ok(None)
}

/// A pattern with these texts, whose other components match any text.
pub fn pattern_of<R: RegExp>(alloc: Global, fields: Fields<'_>) -> Result<UrlPattern<R>, Error> {
    UrlPattern::parse(alloc, init_of(alloc, fields)?, UrlPatternOptions::default())
}

/// The component of a path, whose texts are kept as they are.
pub fn path_of<R: RegExp>(alloc: Global, pattern: &str) -> Result<Component<R>, Error> {
    let unchanged = |text: &str| -> Result<String, Error> { Ok(String::from_str(alloc, text)?) };
    Component::compile(alloc, Some(pattern), unchanged, Options::pathname(alloc)?)
}

/// The parts of a pattern whose texts are kept as they are.
pub fn parts_of(alloc: Global, pattern: &str, options: &Options) -> Result<Vec<Part>, Error> {
    let unchanged = |text: &str| -> Result<String, Error> { Ok(String::from_str(alloc, text)?) };
    parse_pattern_string(alloc, pattern, options, unchanged)
}
