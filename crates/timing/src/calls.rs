//! Calls of the library that times and questions share, and fields of JSON.

use serde_json::Value;
use std::alloc::Global;
use urlpattern::parser::{Options, Part, parse_pattern_string};
use urlpattern::quirks::{StringOrInit, process_construct_pattern_input};
use urlpattern::regexp::RegExp;
use urlpattern::{Error, UrlPattern, UrlPatternOptions};

/// The parts of a pattern whose texts are kept as they are.
pub fn parts_of(alloc: Global, pattern: &str, options: &Options) -> Result<Vec<Part>, Error> {
    let unchanged = |text: &str| -> Result<String, Error> { Ok(String::from_str(alloc, text)?) };
    parse_pattern_string(alloc, pattern, options, unchanged)
}

/// The pattern of a text or an init.
pub fn built<R: RegExp>(
    alloc: Global,
    input: StringOrInit<'_>,
    base: Option<&str>,
    options: UrlPatternOptions,
) -> Result<UrlPattern<R>, Error> {
    let init = process_construct_pattern_input(alloc, input, base)?;
    UrlPattern::<R>::parse(alloc, init, options)
}

/// The text of a field. `None`: it is missing or null.
pub fn optional_text<'a>(object: &'a Value, name: &str) -> Option<&'a str> {
    object.get(name).and_then(Value::as_str)
}

/// Whether a field is there and true.
pub fn is_set(object: &Value, name: &str) -> bool {
    object.get(name).and_then(Value::as_bool) == Some(true)
}
