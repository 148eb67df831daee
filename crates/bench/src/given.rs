//! Values of a question, as the library parses them from JSON.

use crate::recorded::{Fault, field, optional_text};
use serde_json::Value;
use std::alloc::Global;
use std::borrow::CowStr;
use url::{ParseError, Url};
use urlpattern_inputs::{StringOrInit, UrlPatternInit, UrlPatternOptions};
use urlpattern_syntax::Error;

/// A text, or an init.
pub fn input<'a>(alloc: Global, fields: &'a Value) -> Result<StringOrInit<'a>, Fault> {
    if let Some(text) = optional_text(fields, "string") {
        return Ok(StringOrInit::String(CowStr::Borrowed(text)));
    }
    let init = read(UrlPatternInit::from_json_value(alloc, field(fields, "init")?))?;
    Ok(StringOrInit::Init(init))
}

/// The options of a question, or the default ones.
pub fn options(alloc: Global, question: &Value) -> Result<UrlPatternOptions, Fault> {
    match question.get("options") {
        Some(options) => read(UrlPatternOptions::from_json_value(alloc, options)),
        None => Ok(UrlPatternOptions::default()),
    }
}

/// The value that was parsed. A question has one.
pub fn read<T: Drop>(found: Result<Option<T>, Error>) -> Result<T, Fault> {
    match found {
        Ok(Some(value)) => Ok(value),
        Ok(None) => Err(Fault::NoCase),
        Err(_) => Err(Fault::OutOfMemory),
    }
}

/// Parses a URL.
pub fn url(alloc: Global, text: &str) -> Result<Url, Error> {
    match Url::parse(alloc, text) {
        Ok(url) => Ok(url),
        Err(ParseError::OutOfMemory) => Err(Error::OutOfMemory),
        Err(error) => Err(Error::Url(error)),
    }
}
